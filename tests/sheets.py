#!/usr/bin/env python3
"""Runs the built program rowsheet on small files and compares what it prints, byte for byte.

The expected lines are written here from 01 and 02 and never taken from the program: tests/sheets.py [PROGRAM]
"""
import pathlib
import subprocess
import sys
from fractions import Fraction

import files
from files import tune, word

ROOT = pathlib.Path(__file__).resolve().parent.parent
TITLE = "order,pattern,row,held,speed,tempo,start,length,strikes\n"
WORKED = (ROOT / "oracle/examples/worked.s3m").read_bytes()
SHEET = (ROOT / "oracle/examples/worked.sheet").read_text()

# Where the worked example has its orders, its two pointers, its instrument and its packed pattern.
ORDERS, INSTRUMENT_POINTER, PATTERN_POINTER, INSTRUMENT, PACKED = 96, 97, 99, 112, 194


def edited(*edits):
    """The worked example with bytes put over its own, each edit a place and the bytes."""
    return files.edited(WORKED, *edits)


def refused(number):
    return f"{TITLE}refused,{number}\n"


def sheet(rows, last):
    """The sheet of rows that are each given as order, row, held and strikes, at speed 6 and tempo 125."""
    lines = [f"{order},0,{row},{held},6,125,{n * 7200},7200,{strikes}\n" for n, (order, row, held, strikes) in enumerate(rows)]
    return TITLE + "".join(lines) + last + "\n"


def even(orders, tempo):
    """The sheet of an empty pattern, over and over at one tempo: each start is the exact one, cut down by itself."""
    rows = 64 * orders
    starts = [n * ROW // (2 * tempo) for n in range(rows + 1)]
    lines = [f"{n // 64},0,{n % 64},0,6,{tempo},{starts[n]},{starts[n + 1] - starts[n]},0\n" for n in range(rows)]
    return TITLE + "".join(lines) + f"end,{rows},{starts[rows]}\n"


def uneven(rows):
    """The sheet of rows that are each given as order, row, held and tempo. A place on the card is a fraction, which nothing
    cuts but a row that changes the tempo: down to a whole number of 1/(2 * tempo), once."""
    lines, place, before = [], Fraction(0), None
    for order, row, held, tempo in rows:
        if tempo != before:
            place = Fraction(int(place * 2 * tempo), 2 * tempo)
        behind = place + Fraction(ROW, 2 * tempo)
        lines.append(f"{order},0,{row},{held},6,{tempo},{int(place)},{int(behind) - int(place)},0\n")
        place, before = behind, tempo
    return TITLE + "".join(lines) + f"end,{len(rows)},{int(place)}\n"


def many_patterns(n):
    """One order and n patterns, none of which has a pointer."""
    lists = bytes([0]) + word(0) * n
    return edited((34, word(0)), (36, word(n)))[:ORDERS] + lists


def length(rows):
    return f"{rows},{rows * 7200}"


# A row at speed 6 and rate 60,000, in units of 1/(2 * tempo) micrometre.
ROW = 6 * 5 * 60000
# Tempos 137, 151, 32 (held once), 255, and 255 again behind 100; the last T of a row counts, and T1F does nothing.
CHANGING = {0: "T89", 3: "SE2", 7: "T64 T20 T97", 20: "... T20 ... SE1", 33: "TFF T1F", 50: "T64 TFF"}
TEMPOS, HOLDS = {0: 137, 7: 151, 20: 32, 33: 255}, {3: 2, 20: 1}


def changed(orders):
    """The rows of that pattern, as `uneven` takes them."""
    tempos = [TEMPOS[max(first for first in TEMPOS if first <= row)] for row in range(64)]
    visits = [(row, held) for row in range(64) for held in [0] + [1] * HOLDS.get(row, 0)]
    return [(order, row, held, tempos[row]) for order in range(orders) for row, held in visits]


FORTY = [(order, row, 0, 0) for order in range(250) for row in range(40)]
EMPTY = edited((PATTERN_POINTER, word(0)))


def once(first, last=64):
    """Rows of order 0 in turn, none held."""
    return [(0, row, 0, 0) for row in range(first, last)]


# The files of README's table, by 01's steps. Row 1's SB1 in `two-loops` jumps once and then clears the count; row 2's SB1
# finds none and jumps to row 0, where row 1's uses that count up, and so on for ever.
PLAYERS = {
    "hold-and-jump": sheet([(0, 0, 0, 0)], f"end,{length(1)}"),
    "hold-and-break": sheet([(0, 0, 0, 0)] + [(1, row, 0, 0) for row in range(5, 64)], f"end,{length(60)}"),
    # The loop's jump drops the hold; the second time there is no jump.
    "hold-and-loop": sheet(once(0, 2) * 2 + [(0, 1, 1, 0)] + once(2), f"end,{length(67)}"),
    # The last channel's hold counts, and so does the last channel's loop request: alone.
    "two-holds": sheet([(0, 0, 0, 0), (0, 0, 1, 0)] + once(1), f"end,{length(65)}"),
    "two-loops": sheet((once(0, 2) + once(0, 3) * 3333)[:10000], f"more,{length(10000)}"),
    "loop-and-start": sheet(once(0), f"end,{length(64)}"),
    "start-and-loop": sheet(once(0, 3) * 3 + once(3), f"end,{length(70)}"),
    "no-pattern": sheet(once(0), f"end,{length(64)}"),
    "channel-off": TITLE + "".join(f"0,0,{row},0,3,125,{row * 3600},3600,0\n" for row in range(64)) + "end,64,230400\n",
    "jump-past": sheet([(0, 0, 0, 0)], f"end,{length(1)}"),
}
CASES = [
    ("01's worked example", WORKED, SHEET),
    ("nothing", b"", refused(1)),
    ("95 bytes", WORKED[:95], refused(1)),
    ("no mark", edited((44, b"SCRN")), refused(2)),
    ("no orders", edited((32, word(0))), refused(3)),
    ("256 orders", edited((32, word(256))), refused(3)),
    ("100 instruments", edited((34, word(100))), refused(3)),
    ("101 patterns", edited((36, word(101))), refused(3)),
    ("a list past the file", WORKED[:100], refused(4)),
    ("pans past the file", edited((53, [252]))[:132], refused(4)),
    ("speed 0", edited((49, [0])), refused(5)),
    ("tempo 31", edited((50, [31])), refused(5)),
    ("volume 65", edited((48, [65])), refused(5)),
    ("an instrument past the file", edited((INSTRUMENT_POINTER, word(13))), refused(7)),
    ("a pattern past the file", WORKED[:-1], refused(8)),
    ("a pattern pointed past the file", edited((PATTERN_POINTER, word(4095))), refused(8)),
    ("rule 7 before rule 8", edited((INSTRUMENT_POINTER, word(4095)), (PATTERN_POINTER, word(4095))), refused(7)),
    ("rule 2 before rule 5", edited((44, b"SCRN"), (49, [0])), refused(2)),
    ("7 patterns", many_patterns(7), refused(0)),
    ("7 patterns and speed 0", many_patterns(7)[:49] + bytes([0]) + many_patterns(7)[50:], refused(5)),
    ("7 patterns and an instrument past the file", edited((36, word(7)), (INSTRUMENT_POINTER, word(4095))), refused(0)),
    ("6 patterns", many_patterns(6), sheet(once(0), "end,64,460800")),
    ("65,536 bytes", WORKED.ljust(65536, b"\0"), SHEET),
    ("65,537 bytes", WORKED.ljust(65537, b"\0"), refused(0)),
    ("65,537 bytes without a mark", bytes(65537), refused(0)),
    ("a million bytes", bytes(1000000), refused(0)),
    ("an empty pattern", EMPTY, sheet(once(0), "end,64,460800")),
    ("orders FE", edited((ORDERS, [0xFE])), f"{TITLE}end,0,0\n"),
    ("orders FF", edited((ORDERS, [0xFF])), f"{TITLE}end,0,0\n"),
    ("a pattern that is not there", edited((ORDERS, [1])), f"{TITLE}end,0,0\n"),
    # The note with B00 on its row, in place of the hold: it is struck again for ever.
    (
        "an endless tune",
        edited((PACKED, [0x20, 0x40, 0x01, 0x81, 0x02, 0x00, 0x00])),
        sheet([(0, 0, 0, 1)] * 10000, "more,10000,72000000"),
    ),
    # Each order has 40 rows.
    ("10,000 rows and ended", tune([0] * 250, {39: "C00"}), sheet(FORTY, f"end,{length(10000)}")),
    ("10,000 rows and more", tune([0] * 251, {39: "C00"}), sheet(FORTY, f"more,{length(10000)}")),
    ("10,000 rows, and the next enter would end", tune([0] * 250 + [255], {39: "C00"}), sheet(FORTY, f"more,{length(10000)}")),
    # The program asks for 40 rows at a time.
    ("an end in the last row of the first section", tune([0], {39: "BFF"}), sheet(once(0, 40), f"end,{length(40)}")),
    ("an end that the second section's enter finds", tune([0, 255], {39: "C00"}), sheet(once(0, 40), f"end,{length(40)}")),
    (
        "a hold across the first seam",
        tune([0], {38: "SE5"}),
        sheet(once(0, 39) + [(0, 38, 1, 0)] * 5 + once(39), f"end,{length(69)}"),
    ),
    # The same at 50.
    ("an end in the last row of a section", tune([0], {49: "BFF"}), sheet(once(0, 50), f"end,{length(50)}")),
    ("an end that the next section's enter finds", tune([0, 255], {49: "C00"}), sheet(once(0, 50), f"end,{length(50)}")),
    (
        "a hold across a seam",
        tune([0], {48: "SE5"}),
        sheet(once(0, 49) + [(0, 48, 1, 0)] * 5 + once(49), f"end,{length(69)}"),
    ),
    # 9,984 rows of 6,569.34 micrometres: 3.4 mm more than 9,984 times 6,569.
    ("thousands of rows at tempo 137", tune([0] * 156, {}, tempo=137), even(156, 137)),
    ("thousands of rows, tempo by tempo", tune([0] * 149, CHANGING), uneven(changed(149))),
    *((name, file, PLAYERS[name]) for name, file in files.PLAYERS.items()),
]


def main():
    program = sys.argv[1] if len(sys.argv) > 1 else str(ROOT / "target/bin/rowsheet")
    wrong = 0
    for name, file, expected in CASES:
        printed = subprocess.run([program], input=file, stdout=subprocess.PIPE, check=False).stdout.decode()
        if printed != expected:
            wrong += 1
            print(f"sheets: {name}: printed {printed[-200:]!r}, not {expected[-200:]!r}", file=sys.stderr)
    print(f"sheets: {len(CASES) - wrong} of {len(CASES)} files have the sheet that 01 and 02 give")
    sys.exit(1 if wrong else 0)


main()
