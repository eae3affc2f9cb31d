"""The worked report W1 of document 01, what is known of it, and reports made from it."""

from pathlib import Path

from stormhlaw import Code, Level, SegmentRecord

HERE = Path(__file__).resolve().parent.parent

W1 = ["ST*842*0001", "BNR*11*NR7*20240301", "HL*1**RP*1", "HL*2*1*I*0", "NCD*1", "NCA**R1", "SE*7*0001"]
SEGMENTS = [
    SegmentRecord(0, 11, 1, 0), SegmentRecord(12, 19, 2, 0), SegmentRecord(32, 10, 18, 1), SegmentRecord(43, 10, 18, 2),
    SegmentRecord(54, 5, 46, 2), SegmentRecord(60, 7, 64, 2), SegmentRecord(68, 9, 79, 0),
]  # fmt: skip
LEVELS = [Level(3, 0, 1, Code.REPORT), Level(4, 1, 2, Code.ITEM)]

# W1 with an EFI and a BIN behind its NCD: what stands before the BIN, 67 bytes and six segments, the eight bytes of its
# BIN02, and what follows them. Separators of both sets, 0, 255 and a line end are among the eight.
BEFORE_BIN = b"ST*842*0001~BNR*11*NR7*20240301~HL*1**RP*1~HL*2*1*I*0~NCD*1~EFI*00~"
ATTACHED = b"~*:\x00\xff|'\n"
BEHIND_BIN = b"~NCA**R1~SE*9*0001~"
WITH_BIN = BEFORE_BIN + b"BIN*8*" + ATTACHED + BEHIND_BIN


# A storage-quality reply, and what is known of it: its levels have no parents.
REPLY_SEGMENTS = [
    "ST*842*0001", "BNR*11*NR7*20240301", "HL*1**RP", "HL*2**RB", "HL*3**I", "NCD*1", "NCA**R1", "SE*8*0001",
]  # fmt: skip
REPLY_RECORDS = [
    SegmentRecord(0, 11, 1, 0), SegmentRecord(12, 19, 2, 0), SegmentRecord(32, 8, 18, 1), SegmentRecord(41, 8, 18, 2),
    SegmentRecord(50, 7, 18, 3), SegmentRecord(58, 5, 46, 3), SegmentRecord(64, 7, 64, 3), SegmentRecord(72, 9, 79, 0),
]  # fmt: skip
REPLY_LEVELS = [Level(3, 0, 1, Code.REPORT), Level(4, 0, 1, Code.RESPONSE), Level(5, 0, 1, Code.ITEM)]

# A report whose levels stand behind other branches: level 5 is under the first, and levels 6 and 9 are under the third.
STRAY = [
    "ST*842*0001", "BNR*11*NR7*20240301", "HL*A**RP*1", "HL*B**RP*1", "HL*1*A*I*1", "HL*2*B*I*0", "NCD*1", "HL*3*A*I*0",
    "HL*4*1*F*1", "HL*5*4*PC*0", "NCD*1", "NCA**R1", "NCA**R2", "NCD*2", "HL*6**I*0", "HL*7*1*SN*0", "SE*17*0001",
]  # fmt: skip
# Its levels under their parents.
STRAY_ORDER = [1, 3, 6, 7, 9, 5, 2, 4, 8]


def joined(segments):
    return "".join(segment + "~" for segment in segments).encode()


def with_segment(number, segment):
    """W1 with another segment in place of one of its own, counted from 1."""
    return joined(W1[: number - 1] + [segment] + W1[number:])


def with_items(items):
    """A report of one report level and so many items under it, with a fault each."""
    faults = [segment for item in range(1, items + 1) for segment in (f"HL*{item}*R*I*0", "NCD*1")]
    segments = W1[:2] + ["HL*R**RP*1"] + faults
    return joined(segments + [f"SE*{len(segments) + 1}*0001"])
