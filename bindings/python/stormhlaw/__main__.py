"""python3 -m stormhlaw [FILE..]: lists reports as the program stormhlaw does. With `outline` as its first word it lists
their levels under their parents instead."""

from __future__ import annotations

import os
import signal
import sys
from typing import Callable, Iterable, Iterator, List, NamedTuple, Optional

from stormhlaw import Reason, Refusal, Refused, Report, __version__, _outlines, read
from stormhlaw._hints import after_acceptance, after_refusal

# What the program reads of an input at most, and what it has room for.
BYTES, SEGMENTS, LEVELS = 65_536, 1_000, 200

# The statuses; the greatest of all inputs counts.
ACCEPTED, REFUSED, FAILED = 0, 1, 2

USAGE = """\
Usage: stormhlaw [FILE..]
       stormhlaw outline [FILE..]

Reads one X12 842 nonconformance report, ST to SE with the separators * : ~, from each FILE, and lists its segments and
levels, or says in one line why it is refused. With no FILE, or where FILE is -, it reads standard input. Several files
get one verdict each, with the name before it.

With outline as its first word it lists the levels under their parents instead, one line each, several files with their
names on a line before. The Python package, python3 -m stormhlaw outline, says besides what was found at a level (NCD)
and done (NCA), and shows the segment that is refused with a mark under the element that is meant. To list a file that
is called outline, say ./outline.

  -h, --help     says this
      --version  says which version it is

Status: 0 every report is accepted, 1 one is refused, 2 one could not be read or a verdict not be written. What went
wrong, and hints, go to standard error.
"""


class Outcome(NamedTuple):
    """What is said of an input that was read."""

    status: int
    lines: str
    hint: Optional[str]


class Form(NamedTuple):
    """How reports are shown."""

    behind_name: str
    """What stands between a report's name and its lines, where there are several reports."""
    accepted: Callable[[Report, bytes], Iterable[str]]
    """The lines of an accepted report."""
    refused: Callable[[Refusal, bytes], Iterable[str]]
    """The lines of a refused one."""


class OutputLost(Exception):
    """Standard output cannot be written."""


def main(words: List[str]) -> int:
    """Does what the command line says, and gives the status."""
    try:
        return _obeyed(words)
    except OutputLost:
        _complain("standard output: cannot be written")
        return FAILED


def _obeyed(words: List[str]) -> int:
    form = LISTING
    if words[:1] == ["outline"]:
        form, words = OUTLINE, words[1:]
    names: List[str] = []
    for position, word in enumerate(words):
        if word == "--":
            names += words[position + 1 :]
            break
        if word in ("-h", "--help"):
            return _print(USAGE)
        if word == "--version":
            return _print(f"stormhlaw {__version__}\n")
        if word.startswith("-") and word != "-":
            return _complain(f"no such option: {word}; try --help")
        names.append(word)
    return max([_show(name, form, named=len(names) > 1) for name in names or ["-"]])


def _show(name: str, form: Form, named: bool) -> int:
    """Shows one input, with its name before it if several are shown, and gives its status."""
    shown = "standard input" if name == "-" else name
    try:
        data = _first_bytes(name, BYTES + 1)
    except OSError as error:
        return _complain(f"{shown}: {error.strerror}")
    outcome = _outcome(data, form)
    _print((shown + form.behind_name if named else "") + outcome.lines)
    if outcome.hint:
        _complain(f"{shown}: {outcome.hint}")
    return outcome.status


def _outcome(data: bytes, form: Form) -> Outcome:
    if len(data) > BYTES:
        hint = after_refusal(data, Reason.INPUT_TOO_LONG, 0)
        return Outcome(REFUSED, "refused 2 segment 0 byte 0 element 0\n", hint)
    try:
        report = read(data, segment_room=SEGMENTS, level_room=LEVELS)
    except Refused as refused:
        refusal = refused.refusal
        hint = after_refusal(data, refusal.reason, refusal.segment)
        return Outcome(REFUSED, "".join(form.refused(refusal, data)), hint)
    return Outcome(ACCEPTED, "".join(form.accepted(report, data)), after_acceptance(data[report.bytes :]))


def _lines(report: Report) -> Iterator[str]:
    """The listing of an accepted report."""
    yield f"842 segments {len(report.segments)} levels {len(report.levels)} bytes {report.bytes}\n"
    for number, segment in enumerate(report.segments, 1):
        yield f"{number} {segment.start} {segment.length} {segment.row} {segment.level}\n"
    for number, level in enumerate(report.levels, 1):
        yield f"level {number} {level.segment} {level.parent} {level.depth} {level.code.text}\n"


LISTING = Form(": ", lambda report, _: _lines(report), lambda refusal, _: [f"{refusal}\n"])
OUTLINE = Form(":\n", _outlines.accepted, _outlines.refused)


def _first_bytes(name: str, most: int) -> bytes:
    """So many bytes of a file, or of standard input, or all if there are fewer."""
    file = 0 if name == "-" else os.open(name, os.O_RDONLY)
    try:
        data = b""
        while len(data) < most:
            more = os.read(file, most - len(data))
            if not more:
                break
            data += more
        return data
    finally:
        if name != "-":
            os.close(file)


def _print(text: str) -> int:
    """Writes to standard output. A file's name is written as it was given, whatever its bytes are."""
    left = os.fsencode(text)
    try:
        while left:
            left = left[os.write(1, left) :]
    except OSError:
        raise OutputLost from None
    return ACCEPTED


def _complain(text: str) -> int:
    """Writes a line to standard error, if anyone is there."""
    try:
        os.write(2, os.fsencode(f"stormhlaw: {text}\n"))
    except OSError:
        pass
    return FAILED


if __name__ == "__main__":
    # An interrupt ends the program as it ends any other.
    signal.signal(signal.SIGINT, signal.SIG_DFL)
    sys.exit(main(sys.argv[1:]))
