"""Reads the report in the file that is named, or a small one where none is, and lists its segments with their elements
and its levels, or says why it is refused."""

import sys

import stormhlaw

SMALL = b"ST*842*0001~BNR*11*NR7*20240301~HL*1**RP*1~HL*2*1*I*0~NCD*1~NCA**R1**2.50*EA:2:10~SE*7*0001~"


def list_elements(segment: stormhlaw.Segment) -> None:
    """What a viewer shows of a segment: each element, or each component of an element that has several. The last
    component stops where its element does, and the last element where the segment does."""
    number = part = 1
    while True:
        whole, found = segment.span(number), segment.span(number, part)
        name = f"{number}" if found == whole else f"{number}.{part}"
        if found.start < found.stop:
            print(f"  {name}: {segment.component(number, part)!r}")
        if found.stop < whole.stop:
            part += 1
        elif whole.stop < len(segment.data):
            number, part = number + 1, 1
        else:
            return


def listed(data: bytes) -> int:
    """Lists the segments and levels of a report, and gives the status."""
    try:
        report = stormhlaw.read(data)
    except stormhlaw.Refused as refused:
        print(f"{refused}: {refused.refusal.reason.name}")
        return 1
    for number, record in enumerate(report.segments, 1):
        segment = record.segment(data)
        print(f"segment {number}: {segment.tag.decode()}, row {record.row}, level {record.level}")
        list_elements(segment)
    for number, level in enumerate(report.levels, 1):
        name = report.segments[level.segment - 1].segment(data).element(1).decode()
        print(f"level {number}: {name} {level.code.name}, parent {level.parent}, depth {level.depth}")
    return 0


def main() -> int:
    if len(sys.argv) < 2:
        return listed(SMALL)
    try:
        with open(sys.argv[1], "rb") as file:
            data = file.read()
    except OSError as error:
        print(f"{sys.argv[1]}: {error.strerror}; usage: example.py [REPORT]", file=sys.stderr)
        return 2
    return listed(data)


if __name__ == "__main__":
    sys.exit(main())
