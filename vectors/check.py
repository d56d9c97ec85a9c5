#!/usr/bin/env python3
"""Holds the recorded answers against a third reading of document 01 (definition.py) and the table of refusals (refusals.py). It needs no Rust.
  check.py [CRATE]      the folder of `calls`; without one, that of this repository"""
import sys
from collections import Counter
from pathlib import Path

import definition
import lines
from cases import errors
from refusals import refusal, refused_line


def text(path):
    """A file as it is: one of its lines ends with a carriage return."""
    return path.read_bytes().decode()


def said(line):
    """What `calls` has to write for a line of a file without faults in its form."""
    if line.startswith('#'):
        return line
    c = lines.parse(line)
    found = refusal(c)
    if found:
        return refused_line(c, found)
    result = definition.result(c)
    return lines.answer(c, 0, left=result) if c['call'] in lines.WRITES else lines.answer(c, 0, value=result)


def main(crate):
    names = Path(crate, 'args').read_text().split()
    assert sorted(names) == sorted(p.name for p in Path(crate, 'data').iterdir()), 'args and data name other files'
    stdout, last = text(Path(crate, 'stdout')).rsplit('total: ', 1)
    read = sum(len(text(Path(crate, 'data', name)).removesuffix('\n').split('\n')) for name in names)
    assert 'total: ' + last == lines.total(read, stdout.splitlines()) + '\n', 'the last line does not sum up'
    broken, answers = errors.lines_and_answers(names[-1])
    assert text(Path(crate, 'data', names[-1])) == broken and stdout.endswith(answers), f'{names[-1]} is not what cases/errors.py says'
    expected = iter(stdout[:len(stdout) - len(answers)].splitlines())
    wrong, seen = 0, Counter()
    for name in names[:-1]:
        for number, line in enumerate(Path(crate, 'data', name).read_text().splitlines(), 1):
            got, want = said(line), next(expected, None)
            seen[name, 'comment' if line[0] == '#' else got.split()[0]] += 1
            if got != want:
                wrong += 1
                print(f'{name}, line {number}: {line:.200}\n  recorded    {want:.200}\n  document 01 {got:.200}')
    assert next(expected, None) is None, 'stdout has more lines than there are calls'
    for name in names[:-1]:
        kinds = {k: n for (f, k), n in sorted(seen.items()) if f == name and k != 'comment'}
        print(f'{name}: {sum(kinds.values())} calls; ' + ', '.join(f'{n} {"accepted" if k == "0" else lines.NAMES[int(k)]}' for k, n in kinds.items()))
    print(f'check.py: {"all agree" if not wrong else f"{wrong} differ"}')
    return 1 if wrong else 0


sys.exit(main(sys.argv[1] if len(sys.argv) > 1 else Path(__file__).resolve().parent.parent / 'crates/calls'))
