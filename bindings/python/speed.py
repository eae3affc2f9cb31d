"""Times the package beside the library called through ctypes with tables made before. Run: python3 speed.py."""

import ctypes
import time
from typing import Callable, List

import stormhlaw
from stormhlaw._library import LEVEL_NUMBERS, SEGMENT_NUMBERS, Answer, library

# What an item's faults look like in the reports of bench/.
FAULT = [
    "NCD*1*A*0001*SOLDER*BRIDGE",
    "NTE*GEN*SOLDER JOINT OPEN PIN 7",
    "DTM*002*20240301*1530",
    "REF*SE*M24-000178542",
    "QTY*01*25*EA",
    "NCA*1*R1**25*EA",
    "NTE*GEN*REWORKED AND TESTED AGAIN",
    "N1*ST*QUALITY DESK NORTH*92*A17",
]


def report(size: int, items: int) -> bytes:
    """A report of about so many bytes, with so many items that share the faults."""
    segments = ["ST*842*0001", "BNR*11*NR7*20240301", "HL*R**RP*1"]
    lines = size // items * len(FAULT) // len("~".join(FAULT) + "~")
    for item in range(1, items + 1):
        segments += [f"HL*{item}*R*I*0", "NCD*1"] + [FAULT[line % len(FAULT)] for line in range(lines)]
    segments.append(f"SE*{len(segments) + 1}*0001")
    return "".join(segment + "~" for segment in segments).encode()


def best(calls: List[Callable[[], object]], rounds: int) -> List[float]:
    """The best time of each call in microseconds. The calls take turns, so that a slow spell falls on all."""
    times = [float("inf")] * len(calls)
    for _ in range(rounds):
        for place, call in enumerate(calls):
            start = time.perf_counter()
            call()
            times[place] = min(times[place], 1e6 * (time.perf_counter() - start))
    return times


def main() -> None:
    data = report(1_000_000, 50)
    writable, view = bytearray(data), memoryview(data)
    segment_numbers, level_numbers = SEGMENT_NUMBERS * (len(data) // 5), LEVEL_NUMBERS * 4096
    segments, levels, answer = (ctypes.c_uint64 * segment_numbers)(), (ctypes.c_uint64 * level_numbers)(), Answer()
    lent = segments, segment_numbers, levels, level_numbers, answer
    read = stormhlaw.read(data)
    small, hl = report(100, 1), stormhlaw.Segment(b"HL*2*1*I*0")
    calls = {
        "the library alone": lambda: library.stormhlaw_read(data, len(data), 42, 58, 126, 0, *lent),
        "read bytes": lambda: stormhlaw.read(data),
        "read a view of bytes": lambda: stormhlaw.read(view),
        "read a bytearray": lambda: stormhlaw.read(writable),
        "go through the segments": lambda: [None for _ in read],
        "1,000 small reports": lambda: [stormhlaw.read(small) for _ in range(1000)],
        "1,000 segments": lambda: [stormhlaw.Segment(b"HL*2*1*I*0") for _ in range(1000)],
        "1,000 elements": lambda: [hl.element(3) for _ in range(1000)],
        "1,000 numbers": lambda: [stormhlaw.number(b"-12.50") for _ in range(1000)],
    }
    times = best(list(calls.values()), 50)
    print(f"{len(data):,} bytes, {len(read.segments):,} segments, {len(read.levels)} levels; microseconds, best of 50")
    for name, found in zip(calls, times):
        beside = f"{100 * found / times[0] - 100:+7.1f} %" if name.startswith("read") else ""
        print(f"{name:24}{found:10,.1f} {beside}")


if __name__ == "__main__":
    main()
