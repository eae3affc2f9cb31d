//! Reading and rewriting by all sides, and the two tables of it.

use crate::inputs::inputs;
use crate::race::Race;
use crate::report::Input;
use crate::sides::{Lent, Side};

/// An input that all sides read and, unless line ends stand in it, rewrite.
struct Contest {
    input: Input,
    /// Segments, levels and bytes.
    counts: [u64; 3],
    reading: Race,
    rewriting: Option<Race>,
}

impl Contest {
    /// Nothing is timed before all sides agree.
    fn new(input: Input, sides: &[Side]) -> Contest {
        let reading = Race::new(sides.iter().map(|side| side.read).collect());
        let rewriting = (!input.in_lines).then(|| Race::new(sides.iter().map(|side| side.rewrite).collect()));
        let [_, counts @ ..] = reading.agreed(&input);
        if let Some(race) = &rewriting {
            race.agreed(&input);
        }
        Contest { input, counts, reading, rewriting }
    }

    fn round(&mut self, lent: &mut Lent) {
        self.reading.round(&self.input, lent);
        if let Some(race) = &mut self.rewriting {
            race.round(&self.input, lent);
        }
    }

    /// A line about a race: the ratio of each build to the hand-written reader, then MB a second of every side.
    fn figures(&self, race: &Race) -> String {
        let ratios = race.ratios().into_iter().map(|ratio| format!(" {ratio:>13.2}"));
        let speed = |nanoseconds| self.input.bytes.len() as f64 * 1_000.0 / nanoseconds;
        let speeds = race.best().iter().map(|best| format!(" {:>8.0}", speed(best)));
        ratios.chain(speeds).collect()
    }

    fn print_reading(&self) {
        let [segments, levels, bytes] = self.counts;
        let figures = self.figures(&self.reading);
        println!("{:<30} {bytes:>9} {segments:>8} {levels:>7}{figures}", self.input.name);
    }

    /// The last figure is the part of its reading speed that the callers' build has when it rewrites.
    fn print_rewriting(&self) {
        let Some(rewriting) = &self.rewriting else { return };
        let part = self.reading.best()[0] / rewriting.best()[0];
        println!("{:<30}{} {part:>8.2}", self.input.name, self.figures(rewriting));
    }
}

/// The heads of the columns that `figures` fills.
fn heads(sides: &[Side]) -> String {
    let builds = &sides[..sides.len() - 1];
    let ratios = builds.iter().map(|side| format!(" {:>13}", format!("{}/hand", side.name)));
    ratios.chain(sides.iter().map(|side| format!(" {:>8}", side.name))).collect()
}

/// Times all inputs for so many rounds and prints both tables.
pub fn run(sides: &[Side], rounds: usize) {
    let mut contests: Vec<Contest> = inputs().into_iter().map(|input| Contest::new(input, sides)).collect();
    let mut lent = Lent::new();
    // The inputs take turns, so that a slow spell of the machine falls on none of them alone.
    for _ in 0..rounds {
        contests.iter_mut().for_each(|contest| contest.round(&mut lent));
    }
    let heads = heads(sides);
    println!("\nreading, best of {rounds} rounds: speed as a multiple of the hand-written reader's, and MB a second");
    println!("{:<30} {:>9} {:>8} {:>7}{heads}", "input", "bytes", "segments", "levels");
    contests.iter().for_each(Contest::print_reading);
    println!("\nrewriting, likewise; and the callers' build as a part of its own reading speed");
    println!("{:<30}{heads} {:>8}", "input", "of read");
    contests.iter().for_each(Contest::print_rewriting);
}
