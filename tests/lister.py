#!/usr/bin/env python3
"""A lister of its own, written from SCOPE 8 and from nothing of the library.

`listed` takes the input's bytes and gives the output's. Run by itself it lists standard input:

    python3 tests/lister.py < FILE
"""
import sys

from bodies import Part, section_outcome
from sections import EIT, KINDS, Refused
from texts import parsed, units

MARK = b"\xa5\x5a"
HEAD = 7  # mark, PID, and the three bytes that say how long the section is
LARGEST_PID = 8191


def shown_unit(unit):
    plain = 32 <= unit <= 126 and chr(unit) not in '"\\'
    return chr(unit) if plain else "\\u%04X" % unit


def shown_title(title):
    """The first string, or which of the blanks it is, or why it cannot be read."""
    if not title:
        return "none"
    if not parsed(title):
        return "empty"
    try:
        return '"%s"' % "".join(map(shown_unit, units(title, 0)))
    except Refused as refused:
        return "refused %d" % refused.args[0]


def events(s):
    """Of each event of a sound EIT its number, start, length and title."""
    body = Part(s, 9, len(s) - 4)
    for _ in range(body.field(8)):
        event_id, start = body.field(14, reserved=2), body.field(32)
        body.field(2, reserved=2)  # ETM_location
        length, title = body.field(20), body.part(8)
        body.part(12, reserved=4)  # descriptors
        yield event_id, start, length, s[title.place():title.end]


def refusal_of(outcome):
    """The number alone: of 9, section_outcome tells the offset too, and of a sound section its header."""
    if isinstance(outcome, int):
        return outcome
    return 9 if outcome[0] == "9" else 0


def record_lines(number, pid, s):
    """The lines of a whole record. Its section is as long as it says, so 1 and 5 cannot be."""
    if pid > LARGEST_PID:
        return ["%d refused 15" % number]
    outcome = section_outcome(s)
    refusal = refusal_of(outcome)
    if refusal:
        return ["%d refused %d" % (number, refusal)]
    table_id, extension, version, _, section_number, last = outcome
    line = "%d pid %d %s %d v%d %d/%d" % (
        number, pid, KINDS[table_id][0], extension, version, section_number, last)
    if table_id != EIT:
        return [line]
    rows = ["event %d start %d length %d title %s" % (*event[:3], shown_title(event[3])) for event in events(s)]
    return ["%s events %d" % (line, len(rows))] + rows


def records(data):
    """Of each record its PID and section; None for one that is cut or wrongly marked, which is the last."""
    at = 0
    while at < len(data):
        size = HEAD
        if len(data) >= at + HEAD:
            size += (data[at + 5] & 0x0F) << 8 | data[at + 6]
        if data[at:at + 2] != MARK or len(data) < at + size:
            yield None
            return
        yield int.from_bytes(data[at + 2:at + 4], "big"), data[at + 4:at + size]
        at += size


def listed(data):
    lines, number = ["guide lister"], 0
    for record in records(data):
        if record is None:
            lines.append("%d bad record" % number)
        else:
            lines += record_lines(number, *record)
            number += 1
    lines.append("end %d" % number)
    return ("\n".join(lines) + "\n").encode("ascii")


if __name__ == "__main__":
    sys.stdout.buffer.write(listed(sys.stdin.buffer.read()))
