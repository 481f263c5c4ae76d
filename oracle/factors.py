#!/usr/bin/env python3
"""The 64 fine-slide factors: 32-bit floats nearest to 2^(e/3072), by integers alone.

Without arguments writes factors.txt beside this file; with --check recomputes it and
compares. A factor is m / 2^s with 2^23 <= m < 2^24. That m is the nearest is proved by

    (2m - 1)^3072  <  2^(e + 3072 (s + 1))  <  (2m + 1)^3072

since (2m -+ 1) / 2^(s + 1) are the midpoints to the neighbouring floats. Ties cannot
be: the outer numbers are odd. For e = 0 the factor is 1 itself.
"""

import pathlib
import sys

FILE = pathlib.Path(__file__).resolve().parent / "factors.txt"
ROOT = 3072
HEAD = """\
# Fine-slide factors: index, power of two, bits of the 32-bit float nearest to it.
# 0 to 15: E with info 0xF0 up; 16 to 31: E with 0xE0 up; 32 to 47: F with 0xF0 up;
# 48 to 63: F with 0xE0 up. Made and proved by factors.py.
"""


def exponents():
    """The numerators e in the order of the table."""
    return [sign * step * j for sign in (-1, 1) for step in (4, 1) for j in range(16)]


def floor_root(power):
    """The largest r with r^3072 <= 2^power, by bisection."""
    low, high = 1, 1 << (power // ROOT + 1)
    while high - low > 1:
        middle = (low + high) // 2
        if middle**ROOT <= 1 << power:
            low = middle
        else:
            high = middle
    return low


def require(holds, what):
    """Stops where a step of the proof fails (an assert could be switched off)."""
    if not holds:
        sys.exit(f"factors: not so: {what}")


def factor_bits(e):
    """The bits of the float nearest to 2^(e/3072), with the proof that it is."""
    if e == 0:
        return 0x3F800000
    shift = 23 if e > 0 else 24
    power = e + ROOT * (shift + 1)
    m = (floor_root(power) + 1) // 2
    require(1 << 23 <= m < 1 << 24, f"{e}/{ROOT} lies inside its binade")
    below, above = (2 * m - 1) ** ROOT, (2 * m + 1) ** ROOT
    require(below < 1 << power < above, f"{m} is nearest for {e}/{ROOT}")
    return ((127 if e > 0 else 126) << 23) + (m - (1 << 23))


def text():
    lines = (
        f"{index} {e}/{ROOT} {factor_bits(e):08x}\n" for index, e in enumerate(exponents())
    )
    return HEAD + "".join(lines)


def main():
    if sys.argv[1:] == ["--check"]:
        if not FILE.exists() or FILE.read_text() != text():
            sys.exit("factors: factors.txt differs from the proved table")
        print("factors: 64 of 64 proved nearest, factors.txt is equal")
    elif not sys.argv[1:]:
        FILE.write_text(text())
    else:
        sys.exit("usage: factors.py [--check]")


if __name__ == "__main__":
    main()
