#!/usr/bin/env python3
"""Writes the 64 by 64 transform table of the crate `itx_table`: what the code stores, and the same numbers as its proofs read them; and the sums of
its columns.

    tools/table.py            writes the files, in the layout of `rt fmt`
    tools/table.py --check    writes nothing; fails where a file differs from what would be written

The numbers are made by document 01's rule, the fold of (2n+1)·k mod 256. First of all they are held against what the rule stands for,
64·√2·cos((2n+1)·k·π/128) to the nearest whole number. The check that counts is the crate's own: proofs/Rule.antt.
"""
import math
import sys
from pathlib import Path

CRATE = Path(__file__).resolve().parent.parent / "crates" / "itx_table"

# C(1) .. C(63)
MAGNITUDES = """
    90 90 90 90 90 90 89 89 88 88 87 87 86 85 84 84 83 82 81 80 79 78 76 75 74 73 71 70 69 67 66
    64 62 61 59 57 56 54 52 50 48 47 45 43 41 39 37 35 33 30 28 26 24 22 20 18 15 13 11 9 7 4 2
"""
C = [None] + [int(c) for c in MAGNITUDES.split()]


def fold(k, n):
    """The number in row k, column n, by the rule."""
    if k == 0:
        return 64
    r = (2 * n + 1) * k % 256
    return C[r] if r < 64 else -C[128 - r] if r < 128 else -C[r - 128] if r < 192 else C[256 - r]


def nearest(k, n):
    """The same by the cosine."""
    return 64 if k == 0 else round(64 * math.sqrt(2) * math.cos((2 * n + 1) * k * math.pi / 128))


def filled(numbers, indent, notes):
    """Numbers as `rt fmt` fills lines with them: 99 characters at most, and a new line behind a note, which isn't counted."""
    line = ""
    for i, z in enumerate(numbers):
        if line and len(f"{line} {z},") > 99:
            yield line
            line = ""
        line = f"{line} {z}," if line else f"{indent}{z},"
        if i in notes:
            yield f"{line} // {notes[i]}"
            line = ""
    if line:
        yield line


def code(rows):
    """src/tm.rt; the first number of each row says which row."""
    yield "// The 64 by 64 transform table, row after row. Written by tools/table.py; its rule is proved in proofs/Rule.antt."
    yield "pub const TM: [i8; 4096] = ["
    yield from filled([z for row in rows for z in row], "    ", {64 * k: f"row {k}" for k in range(64)})
    yield "];"


def proof(rows):
    """proofs/Stored.antt: a row is four lines of 16 numbers."""
    yield "-- The 4,096 numbers that src/tm.rt stores, row after row. Written by tools/table.py. Assumes nothing."
    yield "use mathlib.Core.List.{List, [], ◌∷◌}"
    yield "use lib.IntN.{ℤ, pos, negsuc}"
    yield ""
    yield "unfoldable pub stored : List ℤ"
    yield "stored ="
    for k, row in enumerate(rows):
        for n in range(0, 64, 16):
            line = " ∷ ".join(f"pos {z}" if z >= 0 else f"negsuc {-z - 1}" for z in row[n : n + 16])
            yield f"    {'∷ ' if k or n else ''}{line}{' ∷ []' if (k, n) == (63, 48) else ''}"


def columns(rows):
    """src/columns.rt: 32768 times each column's sum, where size N takes every (64/N)th row."""
    yield "// The sums of the table's columns, times 32768, for the sizes 32 and 64: what a line of inputs that are all 32768 gives. A number of 32 bits is"
    yield "// 65536 times its upper half, plus 32768, plus a rest of 16 bits with its sign, so a stage that sums upper halves and rests adds these."
    yield "// Written by tools/table.py; what they are is proved in proofs/ColumnSums.antt."
    yield "ghost use Rattle.std.specs.Prelude.{◌≡◌};"
    yield "ghost use Rattle.integers.specs.Lists.{tab};"
    yield "ghost use Rattle.itx_table.specs.Columns.{column};"
    for size in (32, 64):
        yield ""
        yield f"pub fn columns{size}() -> [i32; {size}]"
        yield f"    ensures {{ result ≡ tab {size} (column {size}) }}"
        yield "{"
        yield "    ["
        yield from filled([32768 * sum(row[n] for row in rows[:: 64 // size]) for n in range(size)], "        ", {})
        yield "    ]"
        yield "}"


def main():
    rows = [[fold(k, n) for n in range(64)] for k in range(64)]
    assert all(rows[k][n] == nearest(k, n) for k in range(64) for n in range(64))
    files = ((CRATE / "src" / "tm.rt", code(rows)), (CRATE / "proofs" / "Stored.antt", proof(rows)), (CRATE / "src" / "columns.rt", columns(rows)))
    for path, lines in files:
        text = "\n".join(lines) + "\n"
        if sys.argv[1:] != ["--check"]:
            path.write_text(text)
        elif not path.exists() or path.read_text() != text:
            sys.exit(f"{path.name} differs from what tools/table.py writes")


main()
