#!/usr/bin/env python3
"""Small S3M files made of a few words: tests/files.py FOLDER writes those of README's table of players, to try in a player.

A tune has orders and one pattern, no instruments, speed 6 and, unless said, tempo 125. Its rows are given as
{1: "SE1 SB1"}: in row 1 channel 0 has SE1 and channel 1 has SB1, and so on; a channel that has nothing there is `...`.
"""
import pathlib
import sys

HEADER = (pathlib.Path(__file__).resolve().parent.parent / "oracle/examples/worked.s3m").read_bytes()[:96]
SETTINGS, OFF = 64, 255


def word(n):
    return n.to_bytes(2, "little")


def edited(file, *edits):
    """A file with bytes put over its own, each edit a place and the bytes."""
    out = bytearray(file)
    for at, new in edits:
        out[at : at + len(new)] = new
    return bytes(out)


def packed(row):
    """A row as TECH.DOC packs it: for each channel that has a command 0x80 + channel, the letter's number, the info; then 0."""
    cells = [(k, cell) for k, cell in enumerate(row.split()) if cell != "..."]
    return b"".join(bytes([0x80 + k, ord(cell[0]) - 64, int(cell[1:], 16)]) for k, cell in cells) + b"\0"


def laid_out(orders, instruments, patterns, *edits):
    """The file of orders, instruments of 80 bytes and packed patterns, with edits of its header."""
    sizes = [(32, word(len(orders))), (34, word(len(instruments))), (36, word(len(patterns)))]
    file = edited(HEADER, *sizes, *edits) + bytes(orders)
    pointers = len(file)
    parts = [*instruments, *(word(len(pattern) + 2) + pattern for pattern in patterns)]
    file += bytes(2 * len(parts))
    for k, part in enumerate(parts):
        place = (len(file) + 15) // 16
        file = edited(file.ljust(place * 16, b"\0") + part, (pointers + 2 * k, word(place)))
    return file


def tune(orders, rows, off=(), tempo=125):
    """The file of a tune. The channels named by `off` are turned off in its header."""
    pattern = b"".join(packed(rows.get(row, "")) for row in range(64))
    return laid_out(orders, [], [pattern], (50, [tempo]), *((SETTINGS + k, [OFF]) for k in off))


PLAYERS = {
    "hold-and-jump": tune([0, 255], {0: "SE1 B01"}),
    "hold-and-break": tune([0, 0], {0: "SE1 C05"}),
    "hold-and-loop": tune([0], {1: "SE1 SB1"}),
    "two-holds": tune([0], {0: "SE2 SE1"}),
    "two-loops": tune([0], {1: "SB1", 2: "SB1"}),
    "loop-and-start": tune([0], {2: "SB2 SB0"}),
    "start-and-loop": tune([0], {2: "SB0 SB2"}),
    "no-pattern": tune([0, 7, 0], {}),
    "channel-off": tune([0], {0: "... A03"}, off=[1]),
    "jump-past": tune([0], {0: "B09"}),
}


def main():
    if len(sys.argv) != 2:
        sys.exit("usage: tests/files.py FOLDER")
    folder = pathlib.Path(sys.argv[1])
    folder.mkdir(parents=True, exist_ok=True)
    for name, file in PLAYERS.items():
        (folder / f"{name}.s3m").write_bytes(file)


if __name__ == "__main__":
    main()
