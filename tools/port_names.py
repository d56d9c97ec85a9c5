#!/usr/bin/env python3
"""Respells this repository's own definitions and lemmas as today's Rattle does: words in snake case, types and facts in camel case.

usage: tools/port_names.py NAMES_TOP TOP

Takes the names that the .antt files of the repository NAMES_TOP declare in lower camel case (sumZ, jobTests) and writes them in snake case
(sum_z, job_tests) in every text of the repository TOP that may cite them: specs, proofs, the clauses of src, must-fail edits and pages.
Two names of one capital letter that are no types get the words below. Run once, after port.py, with
both folders the same. It stops, and writes nothing, where a new name is one that the repository has already.
"""
import glob
import os
import re
import sys

DECLARED = re.compile(r"^\s*(?:(?:abbrev|unfoldable|pub|record|data) )*([^\s:(){}]+)\s*(?:[({].*?[)}]\s*)*:\s")
WORD = r"A-Za-z0-9_'′₀-₉"
# what a rule of spelling can't decide: names of one letter
LETTERS = [
    ("C", "magnitude_at", ["crates/evc/specs/Table.antt", "crates/evc/must-fail/fold_sign.edit"]),
    ("T", "flat_entry", ["crates/itx_lanes/specs/*.antt", "crates/itx_lanes/proofs/**/*.antt"]),
]
# names that snake case makes the same as a function of src, a crate or a word of the library
OTHER = {
    "sad16b": "sad_16b",
    "sad16i": "sad_16i",
    "ssd16b": "ssd_16b",
    "ssd16i": "ssd_16i",
    "satd16b": "satd_16b",
    "badPlane": "is_bad_plane",
    "bothStages": "two_stages",
    "edgeRow": "row_at_edge",
    "jobReport": "report_of_job",
    "subReport": "report_of_sub",
    "jobTests": "tests_of_job",
    "subTests": "tests_of_sub",
    "lowMark": "low_mark_of",
    "ofN": "addition_n",
    "ofOr": "addition_or",
    "ofZ": "addition_z",
    "outsideEdges": "is_outside_edges",
    "outsidePlane": "is_outside_plane",
    "sampleTests": "tests_of_samples",
    "stageOne": "stage_one_out",
    "stageTwo": "stage_two_out",
    "tailAt": "tail_cell",
    "tooLarge": "is_too_large",
    "tooLow": "is_too_low",
}
# the library's own, in a name of ours
LIBRARY = {"ltZ": "lt_z"}
TEXTS = ["crates/*/specs/**/*.antt", "crates/*/proofs/**/*.antt", "crates/*/src/**/*.rt", "crates/*/must-fail/*.edit", "docs/**/*.md", "README.md", "tools/*.py"]


def snake(name):
    out = re.sub(r"(?<=[a-z0-9])(?=[A-Z])|(?<=[a-z])(?=[0-9]+[a-z]\b|[0-9]+[a-z][A-Z])", "_", name)
    return out.lower()


def files(top, patterns):
    for p in patterns:
        for f in sorted(glob.glob(os.path.join(top, p), recursive=True)):
            if not re.search(r"/crates/[^/]*/out/", "/" + os.path.normpath(f)) and os.path.basename(f) not in ("port_names.py", "PORT.md"):
                yield f


def main(names_top, top):
    names = {k: v for k, v in OTHER.items() if re.search("16[bi]$", k)}
    for f in files(names_top, TEXTS[:2]):
        for line in open(f, encoding="utf-8"):
            m = DECLARED.match(line)
            for alias in re.findall(r"^use .* as ([a-z]+[A-Z]\w*)", line):
                names[alias] = snake(alias)
            if m and not line.lstrip().startswith("--") and re.search(r"(?<![A-Z])[a-z0-9]+[A-Z]", re.split(r"[-→]", m.group(1))[0]) and m.group(1)[0].islower():
                for part in re.split(r"[-→+]", m.group(1)):
                    if re.match(r"[a-z]", part) and re.search(r"[A-Z]", part):
                        names[part] = OTHER.get(part) or LIBRARY.get(part) or snake(part)
    texts = {f: open(f, encoding="utf-8").read() for f in files(top, TEXTS)}
    whole = "\n".join(t for f, t in texts.items() if f.endswith(".antt"))
    clash = [(old, new) for old, new in sorted(names.items()) if old not in LIBRARY and re.search(rf"(?<![{WORD}.-]){re.escape(new)}(?![{WORD}-])", whole)]
    if len(set(names.values())) != len(names):
        clash.append(("two names", "one spelling"))
    if clash:
        for old, new in clash:
            print(f"{old} would be {new}, which stands already")
        raise SystemExit(2)
    find = re.compile(rf"(?<![{WORD}])(" + "|".join(sorted(map(re.escape, names), key=len, reverse=True)) + rf")(?![{WORD}])")
    changed = 0
    for f, t in texts.items():
        new = find.sub(lambda m: names[m.group(1)], t)
        if new != t:
            changed += 1
            open(f, "w", encoding="utf-8").write(new)
    for old, word, where in LETTERS:
        for f in files(top, where):
            t = open(f, encoding="utf-8").read()
            new = re.sub(rf"(?<![{WORD}]){old}(?![{WORD}]|\(1|\(63)", word, t)
            if new != t:
                open(f, "w", encoding="utf-8").write(new)
    for old, new in sorted(names.items()):
        print(old, new)
    print(f"{len(names)} names, {changed} files")


if __name__ == "__main__":
    if len(sys.argv) != 3:
        raise SystemExit(__doc__)
    main(sys.argv[1], sys.argv[2])
