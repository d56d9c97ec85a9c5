#!/usr/bin/env python3
"""Draws the crates and what each stands on, from crates.txt: docs/house.svg. An arrow that follows from others is left out.

    tools/house.py            writes the picture
    tools/house.py --check    writes nothing; fails where the picture is not that of crates.txt, where docs/HOUSE.md has no row for a crate or one for
                              none, and where crates.txt has a crate stand on one that no file of it names
"""
import re
import sys
from pathlib import Path

ROOT = Path(__file__).resolve().parent.parent
PICTURE = ROOT / "docs" / "house.svg"
PAGE = ROOT / "docs" / "HOUSE.md"

# a family: its name, its colour, where it stands in the picture (from, to), and which names are its own
FAMILIES = [
    ("laws and definitions", "#e8e2d0", (0, 1560), r"integers|order|evc"),
    ("inverse transform", "#cfe0f3", (0, 600), r"itx.*"),
    ("the transform's calls", "#d9efd8", (560, 1040), r"scaling|dquant|job.*|sub_block"),
    ("distortion", "#f6dccb", (900, 1560), r"plane_tests|sample_tests|block_rows|sad.*|ssd|diff|satd.*"),
    ("C and text", "#e6d6ee", (660, 1560), r"boundary|capi|calls"),
]
# these families and crates stand just below what stands on them, the others just above what they stand on
LATE = {"the transform's calls", "C and text", "sample_tests"}
WIDTH, BOX, HIGH, STEP, TOP = 1560, 104, 26, 74, 54


def crates():
    """Each crate's name with the crates that it stands on, in the order of the file; the toolchain's libraries are left out."""
    out = {}
    for line in (ROOT / "crates.txt").read_text().splitlines():
        line = line.split("#")[0].strip()
        if line:
            name, _, below = line.partition(":")
            out[name.split()[0]] = below.split()
    return {name: [d for d in below if d in out] for name, below in out.items()}


def family(name):
    return next(f for f in FAMILIES if re.fullmatch(f[3], name))


def reached(all_, name):
    """All that a crate stands on, and what that stands on."""
    out, todo = set(), list(all_[name])
    while todo:
        d = todo.pop()
        if d not in out:
            out.add(d)
            todo += all_[d]
    return out


def picture(all_):
    level = {}
    for name in all_:
        level[name] = 1 + max((level[d] for d in all_[name]), default=-1)
    for name in reversed(list(all_)):
        above = [level[c] for c in all_ if name in all_[c]]
        if {name, family(name)[0]} & LATE and above:
            level[name] = min(above) - 1
    top = max(level.values())
    at = {}
    for n in range(top + 1):
        for f in FAMILIES:
            left, right = f[2]
            here = [c for c in all_ if level[c] == n and family(c) == f]
            for i, c in enumerate(here):
                at[c] = (left + (right - left) * (i + 1) / (len(here) + 1), TOP + (top - n) * STEP)
    high = TOP + top * STEP + HIGH + 20
    out = [
        f'<svg xmlns="http://www.w3.org/2000/svg" viewBox="0 0 {WIDTH} {high:.0f}" font-family="sans-serif" font-size="12">',
        "<!-- written by tools/house.py from crates.txt -->",
        '<defs><marker id="a" markerWidth="7" markerHeight="7" refX="6" refY="3.5" orient="auto"><path d="M0,0 L7,3.5 L0,7 z" fill="#888"/></marker></defs>',
        f'<rect width="{WIDTH}" height="{high:.0f}" fill="white"/>',
    ]
    x = 14
    for name, colour, _, _ in FAMILIES:
        out.append(f'<rect x="{x}" y="12" width="14" height="14" fill="{colour}" stroke="#666"/><text x="{x + 20}" y="24">{name}</text>')
        x += 40 + 7 * len(name)
    out.append(f'<text x="{x + 10}" y="24" fill="#666">an arrow leads to what a crate stands on</text>')
    for c, below in all_.items():
        for d in below:
            if any(d in reached(all_, e) for e in below if e != d):
                continue
            (x1, y1), (x2, y2) = at[c], at[d]
            out.append(f'<path d="M{x1:.0f},{y1 + HIGH:.0f} C{x1:.0f},{y1 + HIGH + 26:.0f} {x2:.0f},{y2 - 30:.0f} {x2:.0f},{y2:.0f}" fill="none" stroke="#999" marker-end="url(#a)"/>')
    for c, (x, y) in at.items():
        out.append(f'<rect x="{x - BOX / 2:.0f}" y="{y:.0f}" width="{BOX}" height="{HIGH}" rx="4" fill="{family(c)[1]}" stroke="#666"/>')
        out.append(f'<text x="{x:.0f}" y="{y + 17:.0f}" text-anchor="middle">{c}</text>')
    return "\n".join(out + ["</svg>", ""])


def faults(all_):
    if not PICTURE.exists() or PICTURE.read_text() != picture(all_):
        yield "docs/house.svg is not the picture of crates.txt: run tools/house.py"
    rows = re.findall(r"^\| \[([a-z0-9_]+)\]\(\.\./crates/", PAGE.read_text(), re.M)
    for c in all_:
        if rows.count(c) != 1:
            yield f"docs/HOUSE.md has {rows.count(c)} rows for the crate {c}"
    for r in rows:
        if r not in all_:
            yield f"docs/HOUSE.md has a row for {r}, which is no crate"
    for c, below in all_.items():
        files = [f for f in (ROOT / "crates" / c).rglob("*") if f.suffix in (".rt", ".antt")]
        text = "\n".join(f.read_text() for f in files)
        for d in below:
            if not re.search(rf"Rattle\.{d}\.|(?<![\w:]){d}::", text):
                yield f"crates.txt has {c} stand on {d}, which no file of it names"


def main():
    all_ = crates()
    if sys.argv[1:] == ["--check"]:
        found = list(faults(all_))
        print("\n".join(found) or "the house is as its page says")
        sys.exit(1 if found else 0)
    PICTURE.write_text(picture(all_))


main()
