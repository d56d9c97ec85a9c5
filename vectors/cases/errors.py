"""Lines that are no calls, and what `calls` has to say of them: where (line and column, from 1, and the argument), what is wrong, how the call is
written. Written from its messages and the types of the forms. In LINES a ^ marks the column, and is no part of the line."""
from lines import FORMS, RANGES

SAYS = {'usize': '0..18446744073709551615', 'u8': '0..255', 'bool': '0..1', 'i32': '-2147483648..2147483647', 'i16': '-32768..32767',
    'u16': '0..65535',
        'length': 'a length of 0..16384', 'run': '1 to what is left of the buffer'}
MISSING, NO_NUMBER, RANGE = 'a number is missing, ', 'not a number, ', 'out of range, '
EXTRA, UNKNOWN = 'more than the call takes', "no such call; 'help' lists them"
MARK = 'the text starts with a byte-order mark; save it without one'

# what is no error: None and the answer; 4 is the qp of scale 64
FREE = [
    ('# lines that are no calls, and lines written in another way', None, '# lines that are no calls, and lines written in another way'),
    ('', None, ''), ('   ', None, ''), ('  # a comment may stand further in', None, '  # a comment may stand further in'), ('#', None, '#'),
    ('  scale   4  ', None, '0 value 64'), ('\tscale\t4', None, '0 value 64'), ('scale 4\r', None, '0 value 64'), ('scale 004', None, '0 value 64'),
    ('dquant 0 0 64 0 6 1 1*5', None, '0 done | 5'), ('dquant 1 0 64 0 6 2*5', None, '0 done | 5 5'),
    ('dquant 2 0 64 0 6 4 1 2*-7 3', None, '0 done | 1 -7 -7 3'), ('dquant 0 0 64 0 6 0', None, '5 AREA |'),
]
LINES = [
    ('^\ufeffscale 4', MARK), ('^\ufeff# a comment', MARK), ('^Scale 4', UNKNOWN), ('^scales 4', UNKNOWN), ('^scal 4', UNKNOWN), ('^4 scale', UNKNOWN), ('^sad 4', UNKNOWN), ('^itxb2 1 1', UNKNOWN),
    ('scale ^', MISSING + SAYS['u8']), ('scale  ^', MISSING + SAYS['u8']), ('scale ^x', NO_NUMBER + SAYS['u8']), ('scale ^-', NO_NUMBER + SAYS['u8']),
    ('scale ^+4', NO_NUMBER + SAYS['u8']), ('scale ^4x', NO_NUMBER + SAYS['u8']), ('scale ^4.0', NO_NUMBER + SAYS['u8']),
    ('scale ^0x4', NO_NUMBER + SAYS['u8']), ('scale ^--4', NO_NUMBER + SAYS['u8']), ('scale ^4-', NO_NUMBER + SAYS['u8']),
    ('scale ^256', RANGE + SAYS['u8']), ('scale ^-1', RANGE + SAYS['u8']), ('scale ^18446744073709551616', RANGE + SAYS['u8']),
    ('scale ^99999999999999999999999999', RANGE + SAYS['u8']), ('scale 4 ^5', EXTRA), ('scale 4   ^x', EXTRA), ('scale 4 ^# no comment here', EXTRA),
    ('dquant 0 ^18446744073709551616 40 0 0 1 5', RANGE + SAYS['usize']), ('dquant 0 0 ^-2147483649 0 0 1 5', RANGE + SAYS['i32']),
    ('dquant 0 0 40 ^2147483648 0 1 5', RANGE + SAYS['i32']), ('dquant 0 0 40 0 0 ^16385 1', RANGE + SAYS['length']),
    ('dquant 0 0 40 0 0 ^-1 1', RANGE + SAYS['length']), ('dquant 0 0 40 0 0 ^16385*1', RANGE + SAYS['length']),
    ('dquant 0 0 40 0 0 ^x', NO_NUMBER + SAYS['length']), ('dquant 0 0 40 0 0 2 1^', MISSING + SAYS['i16']),
    ('dquant 0 0 40 0 0 2 1 ^32768', RANGE + SAYS['i16']), ('dquant 0 0 40 0 0 2 1 ^-32769', RANGE + SAYS['i16']),
    ('dquant 0 0 40 0 0 2 1 ^y', NO_NUMBER + SAYS['i16']), ('dquant 0 0 40 0 0 2 1 2 ^3', EXTRA), ('dquant 0 0 40 0 0 4 1 ^4*2', RANGE + SAYS['run']),
    ('dquant 0 0 40 0 0 4 1 ^0*2 3*2', RANGE + SAYS['run']), ('dquant 0 0 40 0 0 4 1 ^-3*2', RANGE + SAYS['run']),
    ('dquant 0 0 40 0 0 4 1 2*2^', MISSING + SAYS['i16']), ('dquant 0 0 40 0 0 4 1 3*^', MISSING + SAYS['i16']),
    ('dquant 0 0 40 0 0 4 1 3*^x', NO_NUMBER + SAYS['i16']), ('dquant 0 0 40 0 0 4 1 3*^40000', RANGE + SAYS['i16']),
    ('dquant 0 0 40 0 0 4 1 ^x*3', NO_NUMBER + SAYS['i16']), ('dquant 0 0 40 0 0 4*1 ^4*1', EXTRA), ('dquant 0 0 40 0 0 4*^', MISSING + SAYS['i16']),
    ('dquant 0 0 40 0 0 4*^70000', RANGE + SAYS['i16']),
]


def by_form():
    """For each call, with the argument that is wrong: its line ended before each number and buffer, each number one beyond its range, each buffer's number too, and one word too many."""
    for call, form in FORMS.items():
        words = [call]
        for k, (name, kind) in enumerate(form):
            buffer = kind[0] == '['
            kind = kind.strip('[]')
            before = ' '.join(words)
            yield before + '^', MISSING + SAYS['length' if buffer else kind], name
            lo, hi = RANGES[kind]
            beyond = hi + 1 if k % 2 or lo == 0 and k % 3 else lo - 1
            if buffer:
                yield f'{before} 1^', MISSING + SAYS[kind], name
                yield f'{before} 2 0 ^{beyond}', RANGE + SAYS[kind], name
            else:
                yield f'{before} ^{beyond}', RANGE + SAYS[kind], name
            words.append('1 0' if buffer else '1')
        yield ' '.join(words) + ' ^0', EXTRA, None


def with_argument(text, what):
    """A line of LINES with the argument that is wrong: by the words before the mark, of which a buffer's are the last."""
    form = FORMS.get(text.replace('^', ' ').split()[0])
    if form is None or what == EXTRA:
        return text, what, None
    return text, what, form[min(len(text[:text.index('^')].split()), len(form)) - 1][0]


def lines_and_answers(name):
    """The file's text, whose last line has no end, and what has to be written for it."""
    broken, said = [text for text, _, _ in FREE], ''.join(answer + '\n' for _, _, answer in FREE if answer)
    for text, what, argument in [with_argument(*line) for line in LINES] + list(by_form()):
        broken.append(text.replace('^', ''))
        call = text.replace('^', ' ').split()[0]
        form = '; ' + ' '.join([call] + [n for n, _ in FORMS[call]]) if call in FORMS else ''
        where = f'column {text.index("^") + 1}' + (f' ({argument})' if argument else '')
        said += f'error: {name}, line {len(broken)}, {where}: {what}{form}\n'
    return '\n'.join(broken + ['scale 4']), said + '0 value 64\n'
