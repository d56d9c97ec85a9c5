"""Writes data/*.txt, args and stdout of the program `calls`.
  record.py ANSWER CRATE    ANSWER: the program that answers with the unchanged Rust; CRATE: the folder of `calls`
An accepted call is answered by the Rust, a refused one by refusals.py. No answer comes from the library."""
import subprocess
import sys
from itertools import chain
from pathlib import Path

import lines
from cases import distortion, errors, numbers, refused, reported, transform
from refusals import AREA, blocks, refusal, refused_line

FILES = ('numbers', 'transform', 'offsets', 'distortion', 'far_edges', 'refusals', 'reports')
MOST = 8192  # calls with a longer buffer are left out
MOST_WRITTEN = 2**20  # `rt try` stops a program that writes more bytes
HEADS = {
    'numbers': "document 01's numbers to meet",
    'transform': 'scale, dequantizer, stages, jobs and sub-blocks that are accepted; offsets of jobs are 0 or half of 2^shift',
    'offsets': 'jobs and sub-blocks with other offsets, accepted or not',
    'distortion': 'DIFF, SATD, SSD and SAD, accepted',
    'far_edges': 'references past the right or the bottom edge: AREA',
    'refusals': 'all other refusals, and what stands beside them',
    'reports': 'jobs and sub-blocks that say why they are refused',
}


def other_offset(c):
    if c['call'] not in ('job', 'sub_block'):
        return False
    shift = c['DQ_SHIFT']
    return c['OFFSET'] != 0 and not (shift > 0 and c['OFFSET'] == 2**(shift - 1))


def far_edge(c, found):
    """AREA for nothing but a reference past its right or bottom edge"""
    if found != (AREA, None) or c['call'] not in ('ssd_16i', 'sad_16b', 'sad_bi_16b'):
        return False
    return not any(b.malformed() if b.edges else b.outside() for b in blocks(c))


def file_of(c, found):
    if c['call'].endswith(lines.REPORTED):
        return 'reports'
    if other_offset(c):
        return 'offsets'
    if far_edge(c, found):
        return 'far_edges'
    if found:
        return 'refusals'
    return 'transform' if c['call'] in ('scale', 'dquant', 'itxb0', 'itxb1', 'job', 'sub_block') else 'distortion'


def by_hand():
    """The groups of by_hand.txt: a comment is the title of the calls below it."""
    groups = []
    for line in (Path(__file__).parent / 'by_hand.txt').read_text().splitlines():
        if line.startswith('#'):
            groups.append((line[1:].strip(), []))
        elif line.strip():
            groups[-1][1].append(lines.parse(line))
    return groups


def sorted_out():
    """For each file its lines, as (line, call or None, what refusals.py found)."""
    files = {f: [('# ' + HEADS[f], None, None)] for f in FILES}
    seen = set()
    for title, calls in numbers.NUMBERS:
        files['numbers'].append(('# ' + title, None, None))
        for line, _ in calls:
            c = lines.parse(line)
            files['numbers'].append((line, c, refusal(c)))
    for title, calls in chain(transform.groups(), distortion.groups(), refused.groups(), reported.groups(), by_hand()):
        headed = set()
        for c in calls:
            line = lines.write(c)
            if line in seen or any(len(v) > MOST for v in c.values() if isinstance(v, list)):
                continue
            seen.add(line)
            found = refusal(c)
            f = file_of(c, found)
            if f not in headed:
                files[f].append(('# ' + title, None, None))
                headed.add(f)
            files[f].append((line, c, found))
    return files


def main(answer, crate):
    files = sorted_out()
    accepted = [line for f in FILES for line, c, found in files[f] if c and not found]
    ran = subprocess.run([answer], input=''.join(line + '\n' for line in accepted), capture_output=True, text=True)
    if ran.returncode:
        sys.exit(ran.stderr)
    by_rust = dict(zip(accepted, ran.stdout.splitlines(), strict=True))
    expected = {f: [refused_line(c, found) if found else by_rust[line] if c else line for line, c, found in files[f]] for f in FILES}
    told = dict(call for _, calls in numbers.NUMBERS for call in calls)
    for (line, c, _), got in zip(files['numbers'], expected['numbers'], strict=True):
        assert c is None or told[line] == got, f'document 01 says {told[line]} and not {got}: {line}'
    data = Path(crate, 'data')
    data.mkdir(parents=True, exist_ok=True)
    for f in FILES:
        (data / f'{f}.txt').write_text(''.join(line + '\n' for line, _, _ in files[f]))
    broken, said = errors.lines_and_answers('errors.txt')
    (data / 'errors.txt').write_text(broken, encoding='utf-8')
    Path(crate, 'args').write_text(''.join(f'{f}.txt\n' for f in (*FILES, 'errors')))
    stdout = ''.join(line + '\n' for f in FILES for line in expected[f]) + said
    read = sum(len(files[f]) for f in FILES) + len(broken.split('\n'))
    stdout += lines.total(read, stdout.splitlines()) + '\n'
    assert len(stdout) <= MOST_WRITTEN, f'{len(stdout)} bytes are more than rt try takes'
    Path(crate, 'stdout').write_text(stdout)
    count = sum(c is not None for f in FILES for _, c, _ in files[f])
    print(f'record.py: {count} calls, {len(accepted)} of them accepted and answered by the Rust')


main(*sys.argv[1:])
