//! Calls of several sides on one input: that they agree, and the best time of each.

use crate::report::Input;
use crate::sides::{Call, Lent};
use std::hint::black_box;
use std::time::{Duration, Instant};

/// How many bytes one measurement reads at least, by repeating the input: little, so that some rounds are undisturbed.
const BYTES_A_MEASUREMENT: usize = 200_000;

/// How long one measurement takes at least: a call that jumps over most of its input is over at once.
const LEAST: Duration = Duration::from_micros(20);

/// The calls, and the nanoseconds that each took at best.
pub struct Race {
    calls: Vec<Call>,
    best: Vec<f64>,
}

impl Race {
    pub fn new(calls: Vec<Call>) -> Race {
        Race { best: vec![f64::MAX; calls.len()], calls }
    }

    /// All sides must accept the input with the same numbers, and leave the same tables and the same output. Gives the
    /// numbers.
    pub fn agreed(&self, input: &Input) -> [u64; 4] {
        let mut outcomes = self.calls.iter().map(|call| {
            let mut lent = Lent::new();
            (call(&input.bytes, input.how, &mut lent), lent)
        });
        let (answer, lent) = outcomes.next().expect("a side");
        assert_eq!(answer[0], 0, "{}: refused {answer:?}", input.name);
        for (other_answer, other_lent) in outcomes {
            assert_eq!(answer, other_answer, "{}: the answers differ", input.name);
            assert!(lent == other_lent, "{}: the tables or the outputs differ", input.name);
        }
        answer
    }

    /// Times every side once.
    pub fn round(&mut self, input: &Input, lent: &mut Lent) {
        for (call, best) in self.calls.iter().zip(&mut self.best) {
            *best = best.min(nanoseconds(*call, input, lent));
        }
    }

    /// The nanoseconds of a call of each side.
    pub fn best(&self) -> &[f64] {
        &self.best
    }

    /// How many times as fast as the last side each of the others is.
    pub fn ratios(&self) -> Vec<f64> {
        let Some((last, others)) = self.best.split_last() else { return Vec::new() };
        others.iter().map(|best| last / best).collect()
    }
}

/// How long one call takes.
fn nanoseconds(call: Call, input: &Input, lent: &mut Lent) -> f64 {
    timed(BYTES_A_MEASUREMENT.div_ceil(input.bytes.len()), || {
        black_box(call(black_box(&input.bytes), input.how, lent));
    })
}

/// How many nanoseconds a call takes that is made so many times, or more often where that is over at once.
pub fn timed(mut times: usize, mut call: impl FnMut()) -> f64 {
    loop {
        let start = Instant::now();
        for _ in 0..times {
            call();
        }
        let taken = start.elapsed();
        if taken >= LEAST {
            return taken.as_nanos() as f64 / times as f64;
        }
        times *= 8;
    }
}
