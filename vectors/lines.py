"""The lines that `calls` reads: a call's name, its numbers, then each buffer as its length and its numbers. A call is held as a dict: 'call' and the
names of its form. parse and write are each other's inverse."""

# name: numbers, then buffers, in the order of the line. A type follows each name.
FORMS = {
    'scale': 'QP:u8',
    'dquant': 'LOG2_W:usize LOG2_H:usize SCALE:i32 OFFSET:i32 SHIFT:u8 COEF:[i16]',
    'itxb0': 'LOG2_SIZE:usize LOG2_LINE:usize SRC:[i16] DST:[i32]',
    'itxb1': 'LOG2_SIZE:usize LOG2_LINE:usize SHIFT:u8 SRC:[i32] DST:[i16]',
    'job': 'START:usize LOG2_W:usize LOG2_H:usize QP:u8 OFFSET:i32 DQ_SHIFT:u8 IT_SHIFT:u8 COEF:[i16]',
    'sub_block': 'LOG2_W:usize LOG2_H:usize OFFSET:i32 DQ_SHIFT:u8 IT_SHIFT:u8 FLAG_Y:bool FLAG_U:bool FLAG_V:bool '
                 'START_Y:usize START_U:usize START_V:usize QP_Y:u8 QP_U:u8 QP_V:u8 COEF:[i16]',
    'diff': 'WIDTH:usize HEIGHT:usize STRIDE:usize X:usize Y:usize LOG2_W:usize LOG2_H:usize DEPTH:u8 ORG:[u16] CUR:[u16] DIFF:[i16]',
    'satd': 'WIDTH:usize HEIGHT:usize STRIDE:usize X:usize Y:usize W:usize H:usize DEPTH:u8 ORG:[u16] CUR:[u16]',
    'ssd_16b': 'WIDTH:usize HEIGHT:usize STRIDE:usize X:usize Y:usize LOG2_W:usize LOG2_H:usize DEPTH:u8 ORG:[u16] CUR:[u16]',
    'ssd_16i': 'WIDTH1:usize HEIGHT1:usize STRIDE1:usize WIDTH2:usize HEIGHT2:usize STRIDE2:usize X:i16 Y:i16 LOG2_W:usize LOG2_H:usize DEPTH:u8 '
               'ONE:[u16] TWO:[u16]',
    'sad_16b': 'WIDTH:usize HEIGHT:usize STRIDE:usize X:usize Y:usize REF_WIDTH:usize REF_HEIGHT:usize REF_STRIDE:usize MV_X:i16 MV_Y:i16 '
               'W:usize H:usize DEPTH:u8 ORG:[u16] REF:[u16]',
    'sad_bi_16b': 'REF_WIDTH:usize REF_HEIGHT:usize REF_STRIDE:usize MV_X:i16 MV_Y:i16 W:usize H:usize DEPTH:u8 BI:[i16] REF:[u16]',
    'sad_16i': 'WIDTH:usize HEIGHT:usize STRIDE:usize X:usize Y:usize W:usize H:usize DEPTH:u8 ORG:[u16] PRED:[u16]',
    'sad_bi_16i': 'W:usize H:usize DEPTH:u8 BI:[i16] PRED:[u16]',
}
FORMS = {call: [tuple(word.split(':')) for word in form.split()] for call, form in FORMS.items()}
REPORTED = '_reported'  # what the name of a call ends with that says why it is refused
FORMS |= {call + REPORTED: FORMS[call] for call in ('job', 'sub_block')}
# the buffer that a call may write; the other calls answer a value
WRITES = {'dquant': 'COEF', 'itxb0': 'DST', 'itxb1': 'DST', 'job': 'COEF', 'sub_block': 'COEF', 'diff': 'DIFF'}
WRITES |= {call: 'COEF' for call in FORMS if call.endswith(REPORTED)}
RANGES = {'bool': (0, 1), 'u8': (0, 255), 'u16': (0, 65535), 'i16': (-2**15, 2**15 - 1), 'i32': (-2**31, 2**31 - 1), 'usize': (0, 2**64 - 1)}
NAMES = {1: 'SIZE', 2: 'QP', 3: 'SHIFT', 4: 'DEPTH', 5: 'AREA', 6: 'OVERLAP', 7: 'SAMPLE'}


def within(kind, v):
    lo, hi = RANGES[kind.strip('[]')]
    assert lo <= v <= hi, f'{v} is no {kind}'
    return v


def runs(values):
    """A buffer, with runs of three and more of the same number written as one item."""
    n = len(values)
    if n > 1 and all(v == values[0] for v in values):
        return f'{n}*{values[0]}'
    out, at = [str(n)], 0
    while at < n:
        end = at
        while end < n and values[end] == values[at]:
            end += 1
        out += [f'{end - at}*{values[at]}'] if end - at > 2 else [str(values[at])] * (end - at)
        at = end
    return ' '.join(out)


def write(call):
    words = [call['call']]
    for name, kind in FORMS[call['call']]:
        v = call[name]
        words.append(runs([within(kind, x) for x in v]) if kind[0] == '[' else str(int(within(kind, v))))
    return ' '.join(words)


def parse(line):
    words = line.split()
    call, at = {'call': words[0]}, 1
    for name, kind in FORMS[words[0]]:
        if kind[0] != '[':
            call[name] = within(kind, int(words[at]))
            at += 1
            continue
        length = int(words[at].split('*')[0])
        if '*' not in words[at]:
            at += 1
        values = []
        while len(values) < length:
            times, _, v = words[at].rpartition('*')
            values += [within(kind, int(v))] * int(times or 1)
            at += 1
        assert len(values) == length, f'{name} has {len(values)} numbers and not {length}'
        call[name] = values
    assert at == len(words), 'more than the call takes'
    return call


def sentence(number, component, what, given, limit):
    """Why a call is refused: what was given, and the limit that it broke."""
    broke = {'AREA': "ends past the buffer's end at", 'OVERLAP': 'overlaps an earlier one at'}.get(NAMES[number], 'is below' if given < limit else 'is above')
    return f'{component} refused: {what} {given} {broke} {limit}'


def answer(call, number, component=None, why=None, value=None, left=None):
    """The line of an answer; `why` is the sentence of a reported refusal, `left` what the buffer holds that the call may write."""
    text = f'{number} {NAMES[number]}' if number else '0 done' if call['call'] in WRITES else f'0 value {value}'
    if component:
        text += ' ' + component
    if why:
        text += '; ' + why
    if call['call'] in WRITES:
        text += ' |' + ''.join(f' {v}' for v in left)
    return text


def total(read, written):
    """The last line of all, from how many lines were read and from the lines that were written for them."""
    first = [line.split(maxsplit=1)[0] for line in written if line.strip()]
    refused = ', '.join(f'{first.count(str(n))} {name}' for n, name in NAMES.items())
    return f'total: {read} lines; {first.count("0")} accepted; refused {refused}; {first.count("error:")} errors'
