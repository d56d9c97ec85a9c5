#!/usr/bin/env python3
"""Tables and plot out of a run's lines.
   report.py RESULTS SETTING          prints the tables
   report.py RESULTS SETTING docs     writes docs/BENCHMARKS.md and docs/benchmarks.svg too
   report.py RESULTS SETTING self     RESULTS are of the Rust beside itself: how far the ratios are off 1
Exit status 1 if an answer isn't the Rust's or a bar is missed. ./run calls it."""
import csv
import os
import sys

import plot

DEPTHS = [8, 10, 14]
SIZES = [2, 4, 8, 16, 32, 64]
OBLONG = [(64, 4), (4, 64), (16, 8), (32, 2), (2, 64)]
TRANSFORM = ["dquant", "itxb0", "itxb1", "job", "sub_block"]
REPORTED = ["job_reported", "sub_block_reported"]  # no bars, and not in the plot
DISTORTION = ["sad_16b", "sad_16i", "sad_bi_16b", "sad_bi_16i", "ssd_16b", "ssd_16i", "diff", "satd"]
SIGNED = ["sad_16b", "sad_bi_16b", "ssd_16i"]
PLACES = ["corner", "left", "above", "outside"]
# the rows of the tables by size: name, kernel, place
ROWS = [(k, k, "") for k in TRANSFORM + REPORTED + DISTORTION] + [(f"{k}, corner", k, "corner") for k in SIGNED]
COUNTED = 10  # the depth at which instructions are counted
# what before.tsv is
BEFORE = [
    "Before: every stage line by line in 64 bits, one halving step for every size. After: the shapes of docs/DECISIONS.md, \"Shapes for speed\", under the",
    "same promises. Before was measured in an earlier run, on another machine of this kind (before.tsv): its instructions are exact there too, its times compare only as ratios.",
]


# the largest ratio allowed of square blocks, by side; on x86-64 of instructions, elsewhere of times
BARS = {
    "itxb0": {64: 0.45, 32: 0.45, 16: 0.45, 8: 0.45, 4: 0.85, 2: 0.85},
    "itxb1": {64: 0.9, 32: 0.85, 16: 0.9, 8: 0.65, 4: 0.8, 2: 0.9},
    "job": {64: 0.7, 32: 0.7, 16: 0.75, 8: 0.7, 4: 0.9, 2: 1.0},
    "dquant": {64: 1.0, 32: 1.0, 16: 1.0, 8: 1.0, 4: 1.0, 2: 1.0},
    "satd": {64: 0.7, 32: 0.7, 16: 0.7, 8: 0.7},
}
SAMPLES = {64: 0.4, 32: 0.4, 16: 0.4, 8: 0.5, 4: 0.65}  # SAD, SSD, DIFF
FEW = 1.1  # oblong jobs and stages with fewer than 4 lines; 1.0 with more
CLAMPED = 0.6  # positions below 0, 64x64
TIME = 1.1  # stages and jobs from 8 to 64, in time on every machine


def bars(kernel, place, w, h):
    """(what is compared, the ratio that the case must not exceed), for each bar that it has."""
    found = []
    if place == "one line" or (kernel == "job" and w != h):
        found.append(("steps", 1.0 if min(w, h) >= 4 else FEW))
    elif place:
        found += [("steps", CLAMPED)] if w == 64 else []
    else:
        limit = BARS.get(kernel, SAMPLES if kernel in DISTORTION else {}).get(w)
        found += [("steps", limit)] if limit is not None else []
    if kernel in ("itxb0", "itxb1", "job") and min(w, h) >= 8:
        found.append(("ns", TIME))
    return found


class Run:
    def __init__(self, results, setting):
        self.cases = {}
        self.wrong = []
        with open(results, newline="") as f:
            for row in csv.DictReader(f, delimiter="\t"):
                key = row["kernel"], row["place"], int(row["width"]), int(row["height"]), int(row["depth"])
                if row["answer"] == "same":
                    self.cases[key] = row
                else:
                    self.wrong.append((key, row["answer"]))
        with open(setting) as f:
            self.setting = dict(line.rstrip("\n").split("\t", 1) for line in f)

    def pair(self, what, *key):
        """Ours and the Rust's, in 'ns' or 'steps'; None if it wasn't measured."""
        row = self.cases.get(key)
        if row is None or not row[f"ours {what}"]:
            return None
        return float(row[f"ours {what}"]), float(row[f"Rust {what}"])

    def ratio(self, what, *key):
        p = self.pair(what, *key)
        return None if p is None else p[0] / p[1]

    def ratios(self, kernel, place, w, h):
        """Of the times, a figure for each depth."""
        return " ".join(figure(self.ratio("ns", kernel, place, w, h, d)) for d in DEPTHS)

    def doubt(self):
        """The case in which the ratio of the bests is farthest from the median ratio of neighbouring batches: how far, and its name."""
        off = {key: abs(self.ratio("ns", *key) / float(row["middle"]) - 1) for key, row in self.cases.items()}
        worst = max(off, key=off.get)
        return off[worst], sum(o > 0.05 for o in off.values()), f"{case_name(*worst[:4])}, depth {worst[4]}"

    def bars(self):
        """(bar, kernel, place, w, h, largest ratio, what) of each bar; ratio None: not measured. Instructions don't depend on the depth, times do."""
        counted = any(self.ratio("steps", *key) is not None for key in self.cases)
        keys = list(self.cases) + [key for key, _ in self.wrong]
        for case in dict.fromkeys(key[:4] for key in keys):
            for what, limit in bars(*case):
                what = what if counted else "ns"
                got = [self.ratio(what, *key) for key in keys if key[:4] == case and (what == "ns" or key[4] == COUNTED)]
                yield limit, *case, None if None in got else max(got), what


def figure(x, places=2):
    return "-" if x is None else f"{x:.{places}f}"


def whole(x):
    return f"{x:,.0f}" if x >= 100 else f"{x:.1f}"


def table(head, rows):
    """A row of which nothing was measured is left out."""
    rows = [r for r in rows if any(c.strip("- ") for c in r[1:])]
    lines = ["| " + " | ".join(head) + " |", "|" + "---|" * len(head)]
    return lines + ["| " + " | ".join(r) + " |" for r in rows] if rows else ["not measured"]


def oblong(cell):
    """Oblong jobs and one line of 64; cell(kernel, place, width, height) is what is told of one."""
    rows = [[k] + [cell(k, "", w, h) for w, h in OBLONG] + ["-"] for k in ("job", "job_reported")]
    rows += [[k] + ["-" for _ in OBLONG] + [cell(k, "one line", 64, 1)] for k in ("itxb0", "itxb1")]
    return table([""] + [f"{w}x{h}" for w, h in OBLONG] + ["one line of 64"], rows) + [""]


def both(pair, show=whole):
    return "-" if pair is None else f"{show(pair[0])} / {show(pair[1])}"


def case_name(kernel, place, w, h):
    return f"{kernel}{', ' + place if place else ''} {w}x{h}" if place != "one line" else f"{kernel}, one line of {w}"


def is_missed(b):
    """By the ratio itself, not by the figure as printed."""
    return b[5] is not None and b[5] > b[0]


WORDS = {"ns": "time", "steps": "instructions"}


def bars_part(run):
    """A line for each group of bars, and each bar that is missed or of which nothing was measured."""
    groups = {}
    for b in run.bars():
        kind = "SAD, SSD, DIFF" if b[1] in DISTORTION and b[1] != "satd" else b[1]
        kind = "positions below 0" if b[2] in PLACES else "oblong jobs, one line" if b[2] or b[3] != b[4] else kind
        kind, side = ("stages and jobs", "8 to 64") if (b[6], b[0]) == ("ns", TIME) else (kind, "" if kind.startswith("oblong") else f"{b[3]}")
        groups.setdefault((b[6], kind, b[0], side), []).append(b)
    rows, bad = [], []
    for (what, kind, limit, side), members in sorted(groups.items(), key=lambda g: (g[0][0], g[0][1], int(g[0][3] or 0) if g[0][3].isdigit() else 0)):
        measured = [b for b in members if b[5] is not None]
        missed = [b for b in measured if is_missed(b)]
        worst = max(measured, key=lambda b: b[5]) if measured else None
        said = [f"**MISSED** by {len(missed)} of {len(members)}"] if missed else []
        said += [f"{len(members) - len(measured)} of {len(members)} not measured"] if len(measured) < len(members) else []
        told = "-" if worst is None else f"{figure(worst[5], 3)} ({case_name(*worst[1:5])})"
        rows.append([WORDS[what], kind, side, f"{limit}", told, ", ".join(said) or "met"])
        bad += [b for b in members if b[5] is None or is_missed(b)]
    lines = table(["of", "kernels", "side", "bar", "largest ratio", ""], rows)
    if bad:
        lines += [""] + [f"- **{told_bar(b)}**" for b in bad]
    return lines, bad


def told_bar(b):
    name = f"{case_name(*b[1:5])}, {WORDS[b[6]]}, bar {b[0]}"
    return f"MISSED: {name}: {figure(b[5], 3)}" if b[5] is not None else f"NOT MEASURED: {name}"


def change(run, before, what, *key):
    """Before and after, where both were measured."""
    old, new = before.ratio(what, *key), run.ratio(what, *key)
    return "-" if old is None or new is None else f"{figure(old)} {figure(new)}"


def before_part(run, before):
    """How the ratios moved since the run that before.tsv keeps."""
    lines = []
    for what in "steps", "ns":
        rows = [[name] + [change(run, before, what, k, p, s, s, COUNTED) for s in SIZES] for name, k, p in ROWS]
        lines += [f"{WORDS[what].capitalize()}, ours / Rust at depth {COUNTED}, before and after:", ""] + table([""] + [str(s) for s in SIZES], rows) + [""]
        lines += oblong(lambda *case: change(run, before, what, *case, COUNTED))
    return lines


def wrong_part(run):
    """Cases by kernel and what was answered instead."""
    groups = {}
    for (kernel, place, w, h, d), said in run.wrong:
        groups.setdefault((kernel, said), []).append(f"{w}x{h}{' ' + place if place else ''} at {d}")
    return [f"- {kernel}, {said}: {len(cases)} cases ({', '.join(cases[:6])}{', ..' if len(cases) > 6 else ''})" for (kernel, said), cases in groups.items()]


def tables(run, before):
    """The body of the report: lines, and the bars that are not met. before: an earlier run, or None."""
    out = []
    if run.wrong:
        out += ["## Not measured", ""]
        out += wrong_part(run) + [""]
    lines, bad = bars_part(run)
    out += ["## Bars", "", "Instructions at depth 10; of times the largest ratio of the three depths.", ""] + lines + [""]
    out += ["## Before and after", ""] + BEFORE + [""] + before_part(run, before) if before else []

    out += ["## Time, ours / Rust, at depths 8, 10 and 14", ""]
    out += table([""] + [str(s) for s in SIZES], [[name] + [run.ratios(k, p, s, s) for s in SIZES] for name, k, p in ROWS]) + [""]
    out += ["Positions below 0, 64x64; which rows and columns read as 0:", ""]
    told = {"corner": "half of both", "left": "half of the columns", "above": "half of the rows", "outside": "all"}
    out += table([""] + [told[p] for p in PLACES], [[k] + [run.ratios(k, p, 64, 64) for p in PLACES] for k in SIGNED]) + [""]
    out += ["Oblong jobs (width x height) and one line of 64:", ""]
    out += oblong(run.ratios)

    for what, title in ("ns", "Nanoseconds a call at depth 10, ours / Rust"), ("steps", "Instructions a call on x86-64 at depth 10, ours / Rust"):
        out += [f"## {title}", ""]
        show = whole if what == "ns" else lambda x: f"{x:,.0f}"
        rows = [[name] + [both(run.pair(what, k, p, s, s, COUNTED), show) for s in SIZES] for name, k, p in ROWS]
        out += table([""] + [str(s) for s in SIZES], rows) + [""]
        out += oblong(lambda *case: both(run.pair(what, *case, COUNTED), show))
    if any(run.ratio("steps", *key) is not None for key in run.cases):
        out += ["As ratios:", ""]
        rows = [[name] + [figure(run.ratio("steps", k, p, s, s, COUNTED)) for s in SIZES] for name, k, p in ROWS]
        out += table([""] + [str(s) for s in SIZES], rows) + [""]
        out += oblong(lambda *case: figure(run.ratio("steps", *case, COUNTED)))
    return out, bad


def setting(run):
    s = run.setting
    far, many, name = run.doubt()
    return [
        f"- Processor: {s['processor']}. {s['system']}.",
        f"- Rust: {s['rustc']}, `{s['flags']}`, no target-cpu.",
        f"- Library: `{s['rt']}`; {s['archive']}",
        f"- The ratio of the bests against the median ratio of batches run one after the other: {far:.0%} apart in the worst case ({name}), more than 5% in"
        f" {many} of {len(run.cases)} cases.",
        f"- Load of the machine (one minute): {s['load']}. {s['date']}.",
    ]


def chance(run):
    """The Rust beside itself."""
    rows = []
    for low, high, name in (0, 30, "below 30 ns"), (30, 300, "30 to 300 ns"), (300, 1e12, "300 ns and more"):
        off = [abs(p[0] / p[1] - 1) for key in run.cases for p in [run.pair("ns", *key)] if low <= p[1] < high]
        if off:
            off.sort()
            rows.append([name, str(len(off)), f"{off[len(off) // 2]:.3f}", f"{off[-1]:.3f}"])
    return table(["calls of", "cases", "median off 1", "largest off 1"], rows)


def curves(run, kernels, place):
    """Times by size, at depth 10, for the plot."""
    return {k: [run.ratio("ns", k, place, s, s, 10) for s in SIZES] for k in kernels} if run else {}


def main():
    results, settings, *what = sys.argv[1:]
    run = Run(results, settings)
    if what == ["self"]:
        print("\n".join(chance(run) + [""] + setting(run)))
        return 0
    here = os.path.dirname(os.path.abspath(__file__))
    kept = os.path.join(here, "before.tsv")
    before = Run(kept, settings) if os.path.exists(kept) else None
    body, bad = tables(run, before)
    print("\n".join(body + setting(run)))
    if what == ["docs"]:
        docs = os.path.join(os.path.dirname(here), "docs")
        own = os.path.join(os.path.dirname(results), "self-")
        with open(os.path.join(here, "words.md")) as f:
            words = f.read()
        noise = "not run" if not os.path.exists(own + "results.tsv") else "\n".join(chance(Run(own + "results.tsv", own + "setting.tsv")))
        for name, text in ("SETTING", "\n".join(setting(run))), ("CHANCE", noise), ("TABLES", "\n".join(body).rstrip()):
            words = words.replace(f"<!-- {name} -->", text)
        with open(os.path.join(docs, "BENCHMARKS.md"), "w") as f:
            f.write(words)
        with open(os.path.join(docs, "benchmarks.svg"), "w") as f:
            f.write(
                plot.panels(
                    [
                        ("Transform", SIZES, curves(run, TRANSFORM, ""), curves(before, TRANSFORM, ""), 1.1),
                        ("SAD, SSD, DIFF, SATD", SIZES, curves(run, DISTORTION, ""), curves(before, DISTORTION, ""), None),
                        ("Positions below 0", SIZES, curves(run, SIGNED, "corner"), curves(before, SIGNED, "corner"), None),
                    ]
                )
            )
    print()
    for line in wrong_part(run):
        print(f"WRONG: {line[2:]}")
    for b in bad:
        print(told_bar(b))
    missed = sum(is_missed(b) for b in bad)
    print(f"{len(run.cases)} cases measured, {len(run.wrong)} without the Rust's answer; bars: {missed} missed, {len(bad) - missed} not measured")
    return 1 if run.wrong or bad else 0


if __name__ == "__main__":
    sys.exit(main())
