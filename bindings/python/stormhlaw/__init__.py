"""A reading gate for X12 842 nonconformance reports whose verdicts are proved.

    import stormhlaw

    try:
        report = stormhlaw.read(data)
    except stormhlaw.Refused as refused:
        print(refused, refused.refusal.reason.name)
    else:
        for record in report:
            print(record.row, record.segment(data).tag)

read() reads one transaction, ST to SE, and gives a Report: the records of its segments, with their rows in the table of
79, and of its levels, with their parents. A report that breaks a rule raises Refused, whose `refusal` names the rule,
the segment, the byte and the element. rewrite() gives the transaction with other separators as well.

A Segment is the bytes of one segment, and looks up its parts: element 0 is the tag, and component 0 the whole element.
A SegmentRecord tells where a segment stands, and gives it out of the data that were read.

    nca = stormhlaw.Segment(b"NCA**R1**-0.50*EA:2:10")
    print(nca.tag, nca.element(5), nca.component(5, 1))

A segment's record knows the number of the level that it belongs to, which is that of the latest HL; it is 0 in the
heading and for the SE, where there is no level.

    for record in report:
        level = report.levels.of(record)

A report's outline() gives its levels under their parents: each level without a parent in file order, and under it its
children, each followed by its own. A level comes with its HL01 and with the segments that belong to it.

    for level in report.outline(data):
        print("  " * (level.depth - 1), level.code.text, level.name, len(level.segments))

walk() gives the numbers of the levels in that order, of a report or of any level table. A table that is unfit raises
WalkRefused, whose `level` is the first that is.

    stormhlaw.walk(report.levels)

Line ends between segments are skipped: a CR, an LF, or both in this order, behind each terminator. A segment's start
comes behind them. STRICT asks for a reading that refuses them, and rewrite() always reads so.

    stormhlaw.read(data, how=stormhlaw.STRICT)

A storage-quality reply has a profile of its own, by which it is read and rewritten where REPLY asks for it. A How names
both choices.

    stormhlaw.read(data, how=stormhlaw.REPLY)
    stormhlaw.read(data, how=stormhlaw.How(stormhlaw.LineEnds.STRICT, stormhlaw.Profile.STORAGE_REPLY))

A BIN, row 55, carries an attachment: its element 1 is a count, and element 2 is exactly so many bytes of any kind. They
are one component.

    for record in report:
        if record.row == 55:
            attached = record.segment(data).element(2)

number() gives the number of a quantity, such as element 4 of an NCA, row 64: value, places and exponent as whole
numbers, and a Decimal of them. It is None where the text is no quantity.

    quantity = stormhlaw.number(nca.element(4))
    if quantity is not None:
        print(quantity.value, quantity.places, quantity.decimal)

Every argument is checked before anything is called: a wrong type is a TypeError, an impossible value a ValueError, and
the message names the argument. Any number of threads may call at once.

`python3 -m stormhlaw [FILE..]` lists reports, and `python3 -m stormhlaw outline [FILE..]` their levels under their
parents; of a refused report it shows the segment that is refused, with a mark under the element that is meant.
"""

from stormhlaw._library import LONGEST
from stormhlaw._version import __version__
from stormhlaw.answers import Reason, Refusal, Refused, Report
from stormhlaw.how import REPLY, STRICT, How, LineEnds, Profile
from stormhlaw.lookup import Segment
from stormhlaw.outlining import OutlineLevel
from stormhlaw.quantities import Number, number
from stormhlaw.reading import read
from stormhlaw.records import Code, Level, Levels, SegmentRecord, Segments
from stormhlaw.rewriting import rewrite
from stormhlaw.separators import Separators
from stormhlaw.walking import WalkRefused, walk

__all__ = [
    "LONGEST",
    "REPLY",
    "STRICT",
    "Code",
    "How",
    "Level",
    "Levels",
    "LineEnds",
    "Number",
    "OutlineLevel",
    "Profile",
    "Reason",
    "Refusal",
    "Refused",
    "Report",
    "Segment",
    "SegmentRecord",
    "Segments",
    "Separators",
    "WalkRefused",
    "__version__",
    "number",
    "read",
    "rewrite",
    "walk",
]
