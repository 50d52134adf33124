"""Makes listings and sheets, good and damaged, and what has to be written of each, by the model of texts_model.py.

A case is a line, the bytes of its text, and lines that ask for something. A line is two letters and four fields of 16 hex digits:
    p   a listing; s one that may have s lines; v a value sheet. With 1 as the second letter rows, desk and table are filled with the
        first field before; with 0 they stay as the case before left them. The second field says how many rows are lent; the third has
        eight digits for the length of the text and eight for that of the output; the fourth says how many lines ask
    as  asks for the node that is put in for a variable; av for the value of a variable; am for that of a region and an index;
        a1 to a5 for sin, cos, exp, sqrt and pow of two operands of two fields each
What is to be written of a case, after its number: `refused`, number and place; or `read` and counts: different nodes and s lines, or
v, m and t rows. Then what was asked for, a written listing or a value's bits, or `nothing`. Then, of a listing, what its root is
written as, and `same` where that reads back and is written as the same bytes. A written listing is followed by `wrote` and its
length, or it is `refused` with number and place; and then by `kept` if all other bytes of the output are as they were.
"""
import random
import re

from stored import pass_over
from texts_model import (
    DEEPEST, INF, LARGEST, NAN, NODE_LINES, OPERATIONS, SIGN, Refused, read_listing, read_sheet, written)

WORK, PAPER, TEXT = 4096, 40960, 81920  # how many rows the program has, and how long its output and text can be
ONE = 0x3FF << 52
NANS = [NAN, INF + 1, SIGN - 1, NAN + SIGN, INF + SIGN + 1, NAN + 0xDEADBEEF, 2 * SIGN - 1, NAN - 1]
DOUBLES = [0, SIGN, 1, SIGN + 1, ONE, ONE + SIGN, ONE + 1, 1 << 62, 0x400921FB54442D18, 1 << 52, INF - 1, INF, INF + SIGN] + NANS
FUNCTIONS = [b'sin', b'cos', b'exp', b'sqrt', b'cis']
OPERATORS = [b'+', b'-', b'*', b'/', b'^']
JUNK = [0xDEADBEEF00010001, (1 << 64) - 1, 1, 0, 0x0001000100010001, 0x3F3F3F3F3F3F3F3F]

pick = random.Random(1)


# ---- cases, and what the program has to write of each

class Cases:
    def __init__(self):
        self.data, self.answers = [], []

    def case(self, letter, text, rows, paper, asks, answer):
        assert len(text) <= TEXT and paper <= PAPER
        letters, word = letter + pick.choice('110'), pick.choice(JUNK + [pick.getrandbits(64)])
        self.answers.append(b'case\t%d\n' % len(self.data) + answer)
        self.data.append(frame(letters, word, rows, (len(text) << 32) + paper, len(asks)) + text + b''.join(asks))

    def listing(self, text, substituting=False, room=WORK, spare=None):
        """`spare` is how much longer the output is than what is written of the root."""
        letter = 'ps'[substituting]
        pass_over(pick)
        try:
            root, nodes, swaps = read_listing(text, substituting, room)
        except Refused as why:
            return self.case(letter, text, room, PAPER, [], refusal(why) + b'\n')
        exact = len(written(root, PAPER))
        paper = exact + (pick.choice([0, 1, PAPER - exact]) if spare is None else spare)
        answer, variables = b'read\t%d\t%d\n' % (nodes, len(swaps)), some_variables(swaps) if substituting else []
        for variable in variables:
            answer += shown(swaps[variable], paper) if variable in swaps else b'nothing\n'
        answer += shown(root, paper) + (b'same\n' if paper >= exact else b'')
        return self.case(letter, text, room, paper, [frame('as', v, 0, 0, 0) for v in variables], answer)

    def sheet(self, text, keys=()):
        """`keys` are looked up besides some that have rows, and some that are close to these."""
        try:
            counts, values = read_sheet(text)
        except Refused as why:
            return self.case('v', text, 0, 0, [], refusal(why) + b'\n')
        answer, keys = b'read\t%d\t%d\t%d\n' % tuple(counts), [*keys, *some_keys(values)]
        for key in keys:
            answer += b'value\t%016x\t%016x\n' % values[key] if key in values else b'nothing\n'
        return self.case('v', text, 0, 0, [ask_for(*key) for key in keys], answer)

    def text(self, letter, text):
        return self.sheet(text) if letter == 'v' else self.listing(text, letter == 's')


def frame(letters, *fields):
    return b'%s\t%016x\t%016x\t%016x\t%016x\n' % (letters.encode(), *fields)


def refusal(why):
    return b'refused\t%d\t%d' % (why.number, why.place)


def shown(root, room):
    try:
        text = written(root, room)
    except Refused as why:
        return refusal(why) + b'\tkept\n'
    return text + b'wrote\t%d\tkept\n' % len(text)


def some(things, most):
    """The first, the last and some others, in any order."""
    few = things if len(things) <= most else [things[0], things[-1]] + pick.sample(things[1:-1], most - 2)
    return pick.sample(few, len(few))


def some_variables(swaps):
    there = some(list(swaps), 6)
    return there + [(v + step) % 65536 for v in there[:2] for step in (1, -1)] or [0, 65535]


def some_keys(values):
    there = some([key for key in values if key[0] != b't'], 5) + some([key for key in values if key[0] == b't'], 4)
    return there + [close_to(*key) for key in pick.sample(there, min(3, len(there)))]


def close_to(kind, *key):
    """A key that differs by one, or in the name, the order of operands or a sign."""
    if kind != b't':
        k = pick.randrange(len(key))
        return (kind, *key[:k], (key[k] + pick.choice([1, -1])) % (1 << 16 * (k + 1)), *key[k + 1:])
    name, *operands = key
    how, k = pick.randrange(3), pick.randrange(4)
    if how == 0:
        return (kind, pick.choice(OPERATIONS), *operands)
    if how == 1:
        return (kind, name, *operands[2:], *operands[:2])
    return (kind, name, *[x ^ SIGN if i == k and x != NAN else x for i, x in enumerate(operands)])


def ask_for(kind, *key):
    """The line that asks for a value. A NaN among the operands has any pattern."""
    if kind == b't':
        return frame('a%d' % (OPERATIONS.index(key[0]) + 1), *[pick.choice(NANS) if x == NAN else x for x in key[1:]])
    return frame('a' + kind.decode(), *(key + (0, 0, 0))[:4])


# ---- a line of each kind, whole and damaged, after other lines

def bits(x):
    return b'%016X' % x


def line(*fields):
    return b'\t'.join(x if isinstance(x, bytes) else b'%d' % x for x in fields) + b'\n'


A, B, Z, P = bits(ONE), bits(0xC00921FB54442D18), bits(0), line(b'p')
TWO_NODES = line(b'v', 7) + P
ONE_V, ONE_M = line(b'v', 5, A, B), line(b'm', 5, 9, A)
LINES = [
    ('p', TWO_NODES, [b'n', A, B]), ('p', TWO_NODES, [b'p']), ('p', TWO_NODES, [b'v', b'65535']),
    ('p', TWO_NODES, [b'm', b'65535', b'4294967295']), ('p', TWO_NODES, [b'f', b'sqrt', b'1']),
    ('p', TWO_NODES, [b'u', b'-', b'0']), ('p', TWO_NODES, [b'b', b'^', b'1', b'0']), ('s', TWO_NODES, [b's', b'65535', b'1']),
    ('v', ONE_V, [b'v', b'65535', A, B]), ('v', ONE_V + ONE_M, [b'm', b'65535', b'4294967295', B]),
    ('v', ONE_V + ONE_M, [b't', b'pow', A, B, B, A, A, A])]


def smallest(c):
    """No byte, one byte, and lines of one byte or two."""
    for letter in 'psv':
        c.text(letter, b'')
        for byte in b'\n\0\r\t 0psvmt\xff':
            c.text(letter, bytes([byte]))
    for byte in range(256):
        if byte % 8 == 0 or byte in b'psvmtnfub\n\r\t':
            c.text(pick.choice('ps'), bytes([byte]) + b'\n')
            c.text('v', bytes([byte]) + b'\n')
    for byte in b'psvmtnfub':
        c.text(pick.choice('psv'), bytes([byte]) * 2 + b'\n')


def cuts(c):
    """A good line of each kind cut at every byte; about the tabs and the end also with a line feed there."""
    for letter, before, fields in LINES:
        whole = b'\t'.join(fields)
        for k in range(len(whole) + 1):
            c.text(letter, before + whole[:k])
            if b'\t' in whole[k - 1:k + 1] or k >= len(whole) - 1:
                c.text(letter, before + whole[:k] + b'\n')


def bytes_changed(c):
    """A byte of a good line left out, put in or replaced, at every other place."""
    odd = b'\t\n\r \0+-.09AFGafg/:@`~\xb2\xff'
    for letter, before, fields in LINES:
        whole = line(*fields)
        for k in range(0, len(whole), 2):
            byte, how = bytes([pick.choice(odd)]), pick.randrange(3)
            c.text(letter, before + whole[:k] + (byte if how else b'') + whole[k + (how != 1):])


def tabs(c):
    """Tabs too many, too few or replaced; a field too many, too few or empty; more at either end; other ends of lines."""
    for letter, before, fields in LINES:
        for k in range(1, len(fields)):
            for tab in (b'\t\t', b'', b' '):
                c.text(letter, before + b'\t'.join(fields[:k]) + tab + line(*fields[k:]))
            c.text(letter, before + line(*fields[:k], b'', *fields[k + 1:]))
        c.text(letter, before + line(*fields[:-1]))
        c.text(letter, before + line(*fields, fields[-1]))
        for end in (b'\t', b' ', b'\r', b'\0'):
            c.text(letter, before + b'\t'.join(fields) + end + b'\n')
        for start in (b'\t', b' ', b'\xef\xbb\xbf'):
            c.text(letter, start + before + line(*fields))
        for end in (b'\r\n', b'\n\n', b'\r', b'\n\0'):
            c.text(letter, (before + line(*fields)).replace(b'\n', end))
            c.text(letter, before + b'\t'.join(fields) + end)


def numbers(c):
    """Spellings of whole numbers in every field that is one, at its limits and far above."""
    spellings = [b'', b'00', b'01', b'-0', b'-1', b'+1', b' 1', b'1 ', b'/', b':', b'\xb2', b'0' * 29 + b'1'] + [b'%d' % x for x in (
        0, 1, 2, 65535, 65536, (1 << 32) - 1, 1 << 32, (1 << 32) + 1, (1 << 64) - 1, 1 << 64, (1 << 64) + 1, (1 << 80) + 1, 10 ** 29)]
    for letter, before, fields in LINES:
        for k in range(1, len(fields)):
            for spelling in spellings if re.fullmatch(b'[0-9]{1,10}', fields[k]) else ():
                c.text(letter, before + line(*fields[:k], spelling, *fields[k + 1:]))


def doubles(c):
    """Spellings of doubles in every field that is one; some of them in the many fields of a t row."""
    spellings = [
        b'', b'0', A.lower(), B.lower(), A[:-1], A + b'0', b'0' + A, A[:-1] + b'G', b'@' + A[1:], b'/' + A[1:], A[:7] + b':' + A[8:],
        A[:-1] + b'`', b'0x' + A[2:], b'+' + A[1:], b' ' + A[1:], A[:-1] + b' ', A + A, A[:8] + b'\t' + A[8:], b'F' * 16,
        b'f' + b'F' * 15]
    for letter, before, fields in LINES:
        for k in range(1, len(fields)):
            chosen = pick.sample(spellings, 5) if fields[0] == b't' else spellings
            for spelling in chosen if len(fields[k]) == 16 else ():
                c.text(letter, before + line(*fields[:k], spelling, *fields[k + 1:]))


def long_lines(c):
    """Lines that are far too long."""
    for letter, before, fields in LINES:
        for long in (fields[-1] * 300, b'\t' * 2000, fields[-1] + b'\t' + b'0' * 2000):
            c.text(letter, before + line(*fields[:-1], long))
    c.text('p', b'p' * 9000)
    c.text('v', ONE_V + b'v' * 9000 + b'\n' + ONE_V)


def names(c):
    """Every name and operator, and near misses; other letters in place of a kind's."""
    words = FUNCTIONS + [b'pow', b'', b'Sin', b'SIN', b'si', b'sinn', b' sin', b'tan', b'cosh', b'ex', b'exp2', b'sqr', b'sqrt2', b'ci',
                         b'ciss', b'powr', b'sqr\0', b'sin\r', b'+']
    signs = OPERATORS + [b'', b'++', b'+-', b'**', b'%', b',', b'.', b'\xe2\x88\x92', b'0', b'\0']
    for letter, before, fields in LINES:
        kind = fields[0]
        for spelling in words if kind in (b'f', b't') else signs if kind in (b'u', b'b') else ():
            c.text(letter, before + line(kind, spelling, *fields[2:]))
        for other in (kind.upper(), kind * 2, b'', b'o', b't', b's', b'\0'):
            c.text(letter, before + line(other, *fields[1:]))


# ---- faults among good lines

GOOD_NODES = [line(*x) for x in (
    [b'n', A, B], [b'v', 3], [b'm', 1, 2], [b'f', b'cos', 1], [b'b', b'*', 3, 0], [b'u', b'-', 4], [b'b', b'/', 5, 2], [b'p'],
    [b'b', b'+', 6, 7])]
BAD_NODES = [b'\n', b'\r\n', b'p\r\n', b'p \n', b'P\n', b'q\n', b'\0\n', b't\t0\n', b's\n', b'p\np', b'v\t1'] + [line(*x) for x in (
    [b'n', A], [b'n', A, B, B], [b'n', A, B[1:]], [b'n', A, b'c' + B[1:]], [b'v', 65536], [b'v', b'00'], [b'v', b''], [b'm', 0],
    [b'm', 65536, 0], [b'm', 0, 1 << 32], [b'f', b'pow', 0], [b'f', b'sin', 9], [b'u', b'*', 0], [b'u', b'-', 1 << 64], [b'b', b'+', 0],
    [b'b', b'+', 0, 9], [b'b', b'&', 0, 0], [b's', 0, 0])]
GOOD_SWAPS = [line(b's', v, node) for v, node in ((0, 8), (3, 0), (4, 8), (900, 3), (65535, 7))]
BAD_SWAPS = [b's\n', b's\t\n', b's 5 0\n', b's\t5\t0\r\n', b'sin\n', P, b'\n', b's\t5\t0', b's'] + [line(*x) for x in (
    [b's', 5], [b's', 5, 9], [b's', 65536, 0], [b's', b'05', 0], [b's', 5, b'00'], [b's', 5, 0, 0], [b's', 5, 1 << 64],
    [b's', 5 + (1 << 64), 0], [b'S', 5, 0], [b'v', 1])]
GOOD_ROWS = [line(*x) for x in (
    [b'v', 1, A, B], [b'v', 2, B, A], [b'v', 30, A, A], [b'm', 1, 7, A], [b'm', 1, 8, B], [b'm', 2, 0, A], [b't', b'sin', A, B, Z, Z, B, B],
    [b't', b'pow', A, A, B, B, A, A], [b't', b'cos', A, B, Z, Z, B, B])]
BAD_ROWS = [b'\n', b'\r\n', P, b's\n', b'V\n', b'v\n', b'm\n', b't\n', b'\0\n', b'v\t9', b't', b'm\t3\t3\t' + A] + [line(*x) for x in (
    [b'n', A, B], [b'v', 1, A], [b'v', 65536, A, A], [b'm', 1, 9, A, A], [b'm', 1, 1 << 32, A], [b'm', 65536, 1, A],
    [b't', b'cis', A, A, Z, Z, A, A], [b't', b'sin', A, A, Z, Z, A], [b't', b'sin', A, A, Z, bits(SIGN), A, A],
    [b't', b'exp', A, A, A, Z, A, A], [b't', b'pow', A, A, A, A])]


def faults(c):
    """Each bad line as the first, a middle and the last line, in place of a good one or before it."""
    for good, letters, bad_lines in ((GOOD_NODES, 'ps', BAD_NODES), (GOOD_ROWS, 'v', BAD_ROWS)):
        for bad in bad_lines:
            for place in (0, pick.randrange(1, 8), pick.choice([8, 9])):
                c.text(pick.choice(letters), b''.join(good[:place] + [bad] + good[place + pick.randrange(2):]))
    for bad in BAD_SWAPS:
        for place in (0, pick.randrange(1, 4), pick.choice([4, 5])):
            c.text('s', b''.join(GOOD_NODES + GOOD_SWAPS[:place] + [bad] + GOOD_SWAPS[place + pick.randrange(2):]))


def several_faults(c):
    """Two faults at once: the earlier line speaks."""
    for good, letter, bad_lines in ((GOOD_NODES, 'p', BAD_NODES), (GOOD_ROWS, 'v', BAD_ROWS)) * 20:
        places = pick.sample(range(9), 2)
        c.text(letter, b''.join(pick.choice(bad_lines) if i in places else x for i, x in enumerate(good)))


# ---- counts, sizes and room

def node_counts(c):
    """1024 node lines and one more, which is counted before it is looked at, also after s lines."""
    for count in (1023, 1024, 1025, 1026):
        c.text('p', P * count)
    swap = line(b's', 3, 0)
    for last in (b'\n', b'q\n', b'p', b'\0', line(b'b', b'+', 2000, 0), b'v\t1\nx', b's\n', b's\t0\t0', swap, b''):
        c.text('p', P * 1024 + last)
        c.text('s', P * 1024 + last)
        c.text(pick.choice('ps'), P * 1023 + last)
    for place in (0, 500, 1022, 1023):
        c.text('p', P * place + b'q\n' + P * (1024 - place))
        for letter in 'ps':
            c.text(letter, P * place + swap + P * (1024 - place))
    for after in (P, b'\n', b'q', b'\xff\n'):
        c.text('s', P * 1024 + swap + after)
        c.text('s', P * 1023 + swap + after)
    for room in (0, 1):
        c.listing(P * 1025, room=room)
    c.text('s', P * 1024 + line(b's', 3, 1023))
    c.text('s', P * 1024 + line(b's', 3, 1024))


def swap_lines(count, start=0):
    return b''.join(line(b's', v, v % 7) for v in range(start, start + count))


def swap_counts(c):
    """256 s lines and one more, which is counted before it is looked at."""
    nodes = b''.join(GOOD_NODES)
    for count in (255, 256, 257, 258):
        c.text('s', nodes + swap_lines(count))
        c.text('s', nodes + swap_lines(count, 65536 - count))
        c.text('p', nodes + swap_lines(count))
    for last in (b's', b's\n', line(b's', 0, 0), line(b's', 999, 99), line(b's', 999, 0), b's\t999\t0', P, b'\n', b'q', b'S\n'):
        c.text('s', nodes + swap_lines(256) + last)
        c.text('s', nodes + swap_lines(255) + last)
    for text in (P * 1024 + swap_lines(256), P * 1024 + swap_lines(257), P * 1024 + swap_lines(256) + P, swap_lines(257)):
        c.text('s', text)


def children(c):
    """Children before, at and after their own line."""
    for place in (0, 1, 2, 10, 100, 1000):
        for child in sorted({0, place - 1, place, place + 1} - {-1}):
            for own in (line(b'f', b'sin', child), line(b'u', b'-', child), line(b'b', b'-', 0, child), line(b'b', b'-', child, 0)):
                c.text('p', P * place + own + P * 2)


def chain(depth, wrap):
    """Lines of which the last has this depth."""
    return line(b'v', 1) + b''.join(wrap(k) for k in range(depth - 1))


def depths(c):
    """Depth 64 and one more, by every kind of parent, also where no root reaches it; a line that is stored is not new."""
    wraps = [lambda k: line(b'u', b'-', k), lambda k: line(b'f', FUNCTIONS[k % 5], k), lambda k: line(b'b', b'+', k, 0),
             lambda k: line(b'b', b'-', 0, k), lambda k: line(b'b', OPERATORS[k % 5], *([k, k - 1] if k % 2 else [0, k]))]
    for wrap in wraps:
        for depth in (63, 64, 65, 66):
            c.text('p', chain(depth, wrap))
        c.text('p', chain(65, wrap) + P)
        c.text('p', chain(64, wrap) + P + wrap(62) + wrap(62))
        c.text('p', chain(64, wrap) + wrap(64))
        c.text('p', chain(64, wrap) + wrap(63)[:-1])
        c.text('s', chain(64, wrap) + P + line(b's', 1, 63) + line(b's', 2, 64))
        c.text('s', chain(65, wrap) + line(b's', 1, 63))


def sized(size, lines):
    """Adds lines of which the last has exactly this size, and answers its number."""
    if size > 1:
        child = sized(size - 1 if size % 2 == 0 else size // 2, lines)
        lines.append(line(b'u', b'-', child) if size % 2 == 0 else line(b'b', b'*', child, child))
    else:
        lines.append(P)
    return len(lines) - 1


def sizes(c):
    """Size 1,000,000 and one more; doubling chains; a line that is stored is not new."""
    for size in (LARGEST - 1, LARGEST, LARGEST + 1):
        lines = []
        top = sized(size, lines)
        text = b''.join(lines)
        for more in (b'', P, lines[top] + P, line(b'f', b'cis', top), line(b'b', b'/', 0, top) + b'q\n', b'q\n'):
            c.text('p', text + more)
        c.text('s', text + line(b'v', 0) + line(b's', 0, top))
    for levels in (18, 19, 20, 63):
        doubled = P + b''.join(line(b'b', b'+', k, k) for k in range(levels))
        c.text('p', doubled)
        c.text('p', doubled + line(b'b', b'+', levels, levels + 1))


def together(c):
    """Too big, too deep and no room at once, in all combinations."""
    lines = []
    half = sized(500000, lines)
    deep = DEEPEST - read_listing(b''.join(lines), False, WORK)[0].depth
    for k in range(deep):
        lines.append(line(b'u', b'+', half + k))
    top = half + deep
    for room in (top + 1, top + 2):
        for last in (line(b'b', b'+', top, top), line(b'b', b'+', 0, top), line(b'b', b'+', half, half), line(b'v', 4), lines[top]):
            c.listing(b''.join(lines) + last, room=room)


def capacities(c):
    """A store of no room, of one place, of just as many as the listing has different nodes, and of one less."""
    texts = [line(b'n', bits(x), bits(y)) + line(b'n', bits(y), bits(x)) for x, y in ((0, SIGN), (NANS[1], NANS[2]), (ONE, 0))]
    texts += [P, P * 5, line(b'v', 1) * 3 + P, b''.join(GOOD_NODES), b''.join(GOOD_NODES * 2), chain(64, lambda k: line(b'u', b'-', k))]
    for text in texts:
        enough = read_listing(text, False, WORK)[1]
        for room in sorted({0, 1, enough - 1, enough, enough + 1}):
            c.listing(text, room=room)
        c.listing(text + b'q\n', room=enough)
        c.listing(text + b'q\n', room=enough - 1)
        c.listing(b'q\n' + text, room=0)
        c.listing(text + line(b's', 1, 0) + line(b's', 2, 0), True, room=enough)
    for room in (NODE_LINES, NODE_LINES - 1):
        c.listing(distinct(NODE_LINES, 3), room=room)


# ---- what is written

def leaf():
    how = pick.randrange(5)
    if how < 2:
        return line(b'n', bits(pick.choice(DOUBLES)), bits(pick.choice(DOUBLES)))
    if how == 2:
        return P
    if how == 3:
        return line(b'v', pick.randrange(9))
    return line(b'm', pick.randrange(3), pick.choice([0, 1, 99999, (1 << 32) - 1]))


def parent(*children):
    if len(children) == 2:
        return line(b'b', pick.choice(OPERATORS), *children)
    kind, names = pick.choice([(b'f', FUNCTIONS), (b'u', OPERATORS[:2])])
    return line(kind, pick.choice(names), *children)


def random_listing(count, leaves):
    """Lines on earlier ones, many of them equal or reached by no root. `leaves` is about the part that are leaves; the last is none."""
    lines = []
    while len(lines) < count:
        known = len(lines)
        if known < 2 or (known < count - 1 and pick.random() < leaves):
            lines.append(leaf())
        else:
            near, other = pick.randrange(max(0, known - max(4, known // 2)), known), pick.randrange(known)
            lines.append(parent(*pick.choice([(near,), (near, other), (other, near)])))
    return b''.join(lines)


def distinct(count, seed):
    """This many different lines, all reached by the last: leaves, and then parents of lines that have none, the oldest first."""
    own, lines = random.Random(seed), []
    for k in range(count // 2):
        lines.append(own.choice([line(b'v', k), line(b'm', k % 5, k * 1000003), line(b'n', bits(own.getrandbits(62)), bits(k))]))
    free = own.sample(range(count // 2), count // 2)
    while len(lines) < count:
        taken, free = free[:2], free[2:] + [len(lines)]
        lines.append(line(b'b', own.choice(OPERATORS), *taken) if len(taken) == 2 else line(b'u', b'-', *taken))
    return b''.join(lines)


def values(c):
    """Doubles of all sorts, read and written: one NaN, zeros with their signs; the ends of other numbers."""
    for x in DOUBLES:
        c.text('p', line(b'n', bits(x), bits(pick.choice(DOUBLES))) + line(b'u', b'-', 0))
        c.text('p', line(b'n', bits(pick.choice(DOUBLES)), bits(x)))
    for nans in (NANS, NANS[:2], NANS[3:5]):
        lines = [line(b'n', bits(x), bits(y)) for x in nans for y in (0, SIGN, pick.choice(NANS))]
        c.text('p', b''.join(lines) + b''.join(line(b'b', b'+', k, k + 1) for k in range(len(lines) - 1)) + line(b'b', b'*', 0, 1))
    zeros = [line(b'n', bits(x), bits(y)) for x in (0, SIGN) for y in (0, SIGN)]
    c.text('p', b''.join(zeros * 2) + line(b'b', b'+', 0, 5) + line(b'b', b'+', 2, 7) + line(b'b', b'+', 8, 9))
    for v in (0, 1, 9, 10, 65535):
        c.text('p', line(b'v', v) + line(b'm', v, v * 65537) + line(b'b', b'^', 0, 1))


def orders(c):
    """Equal lines, lines that nothing reaches, shared nodes, and lines in another order than that of evaluation."""
    leaves = [line(b'v', k) for k in range(4)]
    for sign in OPERATORS:
        c.text('p', b''.join(leaves) + line(b'b', sign, 3, 2) + line(b'b', sign, 1, 0) + line(b'b', sign, 5, 4))
        c.text('p', b''.join(leaves) + line(b'b', sign, 2, 0) + line(b'b', sign, 4, 2) + line(b'b', sign, 0, 5))
    c.text('p', leaves[0] * 3 + line(b'b', b'+', 1, 2) + line(b'b', b'+', 0, 0) + line(b'b', b'-', 3, 4))
    c.text('p', leaves[0] + P + leaves[0])
    c.text('p', b''.join(GOOD_NODES) + leaves[3] + line(b'f', b'cos', 9))
    c.text('p', b''.join(GOOD_NODES) + GOOD_NODES[1])
    c.text('p', P * 30 + line(b'b', b'+', 29, 28) + P * 30 + line(b'b', b'+', 30, 7))
    c.text('p', P * 1020 + leaves[1] + line(b'b', b'+', 1020, 3) + line(b'f', b'cis', 1021) + line(b'b', b'-', 1022, 1020))


def outputs(c):
    """An output that is just long enough, a byte short, empty, half as long, and longer."""
    for text in (P, line(b'v', 65535), b''.join(GOOD_NODES), random_listing(40, 0.4), random_listing(90, 0.3), distinct(200, 1)):
        exact = len(written(read_listing(text, False, WORK)[0], PAPER))
        for spare in (0, -1, 1, -exact, -(exact // 2), PAPER - exact):
            c.listing(text, spare=spare)
        c.listing(text + line(b's', 0, 0) + line(b's', 9, 0), True, spare=-1)


def swaps(c):
    """s lines in and out of order, on equal lines, on lines that nothing else reaches and on lines that are not there."""
    nodes, swap = b''.join(GOOD_NODES), line(b's', 3, 0)
    for variables in ((0,), (65535,), (0, 65535), (1, 2, 3), (9, 10, 99, 100), (5, 10, 1000, 60000), (2, 2), (2, 1), (10, 9), (1, 3, 3),
                      (1, 3, 2), (0, 0), (9, 10, 9), (65535, 0)):
        lines = nodes + b''.join(line(b's', v, pick.randrange(9)) for v in variables)
        c.text('s', lines)
        c.text('p', lines)
    for node in (0, 8, 9, 10, 1024):
        c.text('s', nodes + line(b's', 3, node))
        c.text('s', nodes + swap + line(b's', 4, node))
    c.text('s', P * 3 + line(b'v', 1) + line(b's', 1, 0) + line(b's', 2, 2) + line(b's', 3, 3))
    for text in (nodes, swap, swap + nodes, nodes + swap + nodes, nodes + swap + P + line(b's', 4, 0)):
        c.text('s', text)


def random_listings(c):
    """Listings at random, with room for just their nodes or one less, and outputs that are long enough or a byte short; large ones."""
    for k in range(100):
        text = random_listing(pick.choice([1, 2, 5, 9, 20, 40, 70, 120]), pick.choice([0.2, 0.4, 0.6]))
        enough, lines = read_listing(text, False, WORK)[1], text.count(b'\n')
        if k % 3 == 0:
            variables = sorted(pick.sample(range(12), pick.randrange(6)))
            text += b''.join(line(b's', v, pick.randrange(lines)) for v in variables)
        c.listing(text, k % 3 == 0, pick.choice([WORK, WORK, enough, enough - 1]), pick.choice([None, None, -1, 0]))
    for count in (1000, 1024):
        c.text('p', random_listing(count, 0.3))
        c.text('p', distinct(count, count))
    c.text('s', distinct(NODE_LINES, 5) + b''.join(line(b's', 257 * k, 3 * k) for k in range(256)))
    c.text('p', b''.join(line(b'n', bits(ONE + k), bits(SIGN + k)) for k in range(NODE_LINES)))


def damaged_listings(c):
    """Listings at random with a byte replaced, left out or put in."""
    for k in range(60):
        text = random_listing(pick.choice([2, 5, 12]), 0.4)
        at, byte = pick.randrange(len(text)), bytes([pick.choice(b'\t\n01239ABFpsvubn+-')])
        c.text('ps'[k % 2], text[:at] + (byte if k % 3 else b'') + text[at + (k % 3 != 1):])


# ---- value sheets

def v_rows(count, step=1, start=0):
    return [line(b'v', start + step * k, bits(ONE + k), bits(pick.choice(DOUBLES))) for k in range(count)]


def m_rows(count, width):
    return [line(b'm', k // width, k % width, bits(pick.choice(DOUBLES) if k % 2 else ONE + k)) for k in range(count)]


def t_row(name, *operands):
    operands = (*operands, 0, 0, 0, 0)[:4]
    return line(b't', name, *[bits(x) for x in (*operands, pick.choice(DOUBLES), pick.getrandbits(62))])


def t_rows(count):
    return [t_row(OPERATIONS[k % 5], ONE + k // 5, SIGN * (k % 2), *([k, k + 1] if k % 5 == 4 else [])) for k in range(count)]


def row_counts(c):
    """As many rows of each kind as may be and one more, which is counted before it is looked at."""
    most = {b'v': v_rows(257, 255), b'm': m_rows(1025, 300), b't': t_rows(257)}
    v, m, t = (b''.join(rows[:-1]) for rows in most.values())
    c.text('v', v + m + t)
    for full, kind in ((v, b'v'), (m, b'm'), (t, b't')):
        rows = most[kind]
        c.text('v', full + rows[-1])
        c.text('v', full + pick.choice([kind, kind + b'\n', rows[0], rows[-1][:-1]]))
    for last in (b'', b'v', b'v\n', ONE_M + b'v', ONE_M + most[b'v'][-1], t_row(b'sin', 1) + b'v\n', b'\n', P):
        c.text('v', v + last)
    c.text('v', b''.join(most[b'v'][:-2]) + ONE_M + most[b'v'][-1])
    c.text('v', t + b'm')


def row_orders(c):
    """Kinds and rows in every order, with repeats."""
    v, m, t, last = ONE_V, ONE_M, t_row(b'sin', ONE, SIGN), (1 << 32) - 1
    for rows in ((v, m, t), (v, t, m), (m, v, t), (m, t, v), (t, v, m), (t, m, v), (v,), (m,), (t,), (v, t), (m, t), (v, m), (t, v), (t, m),
                 (m, v), (v, v), (m, m), (t, t), (v, m, v), (m, t, m), (t, t, t), (t, m, t), (v, m, m), (v, v, m)):
        c.text('v', b''.join(rows))
    for row in ((0, 1), (0, 65535), (1, 0), (7, 7), (9, 10), (10, 9), (99, 100, 1000), (1, 3, 2), (1, 2, 2), (65535, 0), (2, 10), (10, 2)):
        c.text('v', b''.join(line(b'v', n, A, B) for n in row))
    for pairs in (((0, 0), (0, 1)), ((0, 9), (1, 0)), ((1, 0), (0, 9)), ((1, 1), (1, 1)), ((2, 9), (2, 10)), ((2, 10), (2, 9)),
                  ((0, last), (1, 0)), ((65535, 0), (65535, last)), ((1, 2), (2, 1)), ((2, 1), (1, 2)), ((0, 1), (1, 0), (1, 1), (3, 0)),
                  ((0, 1), (1, 0), (0, 2)), ((0, 65536), (1, 0)), ((1, 0), (1, 65536), (1, 65537)), ((0, 5), (0, 5), (0, 6)),
                  ((1, last), (2, 0), (2, 0))):
        c.text('v', b''.join(line(b'm', *pair, A) for pair in pairs))


def operands(c):
    """Second operands; the first of several rows for the same; signs of zeros; the one NaN."""
    zeros = [(x, y) for x in (0, SIGN) for y in (0, SIGN)]
    for name in OPERATIONS:
        for second in ((0, SIGN), (SIGN, 0), (0, 1), (NAN, 0), (0, 0)):
            c.sheet(t_row(name, ONE, 0, *second), function_keys(name, (ONE,), (ONE, 0, *second), (ONE, SIGN)))
        c.sheet(t_row(name, ONE, 5) * 2 + t_row(name, ONE, 6) + t_row(name, ONE, 5), function_keys(name, (ONE, 5), (ONE, 6), (ONE, 7)))
        c.sheet(b''.join(t_row(name, *z) for z in zeros[pick.randrange(2):]), function_keys(name, *zeros))
        rows = [t_row(name, x, y) for x in NANS[4:] for y in (0, NANS[4])]
        c.sheet(b''.join(rows), function_keys(name, (NAN, 0), (NAN, SIGN), (NAN, NAN), (0, NAN)))
    both = [(1, 2, 3, 4), (3, 4, 1, 2), (1, 2, 3, 4), (1, 2, 4, 3), (1, 2, 0, 0), (2, 1, 3, 4)]
    c.sheet(b''.join(t_row(b'pow', *x) for x in both[:3]), function_keys(b'pow', *both))
    c.sheet(b''.join(t_row(name, 7, 8) for name in OPERATIONS * 2), [key for name in OPERATIONS for key in function_keys(name, (7, 8))])


def function_keys(name, *operands):
    return [(b't', name, *(*x, 0, 0, 0)[:4]) for x in operands]


def look_ups(c):
    """What stands first, last, between and outside; parts of all sorts."""
    keys = [(b'v', n) for n in (0, 1, 65535)] + [(b'm', *pair) for pair in ((0, 0), (65535, (1 << 32) - 1), (1, 65536))]
    c.sheet(b'', keys + [key for name in OPERATIONS for key in function_keys(name, (0,))])
    for rows in (v_rows(1), v_rows(1, start=65535), v_rows(256, 257), m_rows(1, 1), m_rows(9, 2), m_rows(1024, 1), m_rows(50, 65536),
                 t_rows(5)):
        c.sheet(b''.join(rows), keys)
    for x in DOUBLES:
        rows = line(b'v', 1, bits(x), bits(pick.choice(DOUBLES))) + line(b'v', 2, A, bits(x)) + line(b'm', 0, 0, bits(x))
        c.sheet(rows + line(b't', b'pow', *[bits(x)] * 6))
    pairs = [(0, 65535), (0, 65536), (1, 0), (65535, (1 << 32) - 1)]
    c.sheet(b''.join(line(b'm', *pair, A) for pair in pairs), keys + [(b'm', *pair) for pair in pairs])


def random_sheets(c):
    """Sheets at random, whole, and with a byte replaced."""
    any_bits = lambda: bits(pick.choice(DOUBLES))
    for k in range(40):
        v = sorted(pick.sample(range(pick.choice([20, 65536])), pick.randrange(12)))
        m = sorted({(pick.randrange(4), pick.choice([k, pick.getrandbits(32)])) for _ in range(pick.randrange(12))})
        t = pick.choices(OPERATIONS, k=pick.randrange(8))
        text = b''.join([line(b'v', n, any_bits(), any_bits()) for n in v] + [line(b'm', *pair, any_bits()) for pair in m] + [
            t_row(name, *[pick.choice(DOUBLES) for _ in range(4 if name == b'pow' else 2)]) for name in t])
        c.text('v', text)
        if text and k % 2:
            at = pick.randrange(len(text))
            c.text('v', text[:at] + bytes([pick.choice(b'\t\n0129AFz')]) + text[at + 1:])


# ---- origins, which are read and ignored

NODE_KINDS = [fields for letter, _, fields in LINES if letter == 'p']
ORIGINS = [b'@-'] + [b'@%d' % n for n in (0, 1, 9, 10, 99, 100, 999, 1000, 1009, 1019, 1023)]
NO_ORIGINS = [
    b'', b'@', b'@00', b'@01', b'@007', b'@0-', b'@-0', b'@-1', b'@--', b'-', b'1', b'@1024', b'@1030', b'@1100', b'@2000', b'@9999',
    b'@10000', b'@10230', b'@65535', b'@+1', b'@ 1', b'@1 ', b' @1', b'@1\r', b'@\r', b'@1a', b'@A', b'@x', b'@@1', b'@1@', b'@1.0', b'@/',
    b'@:', b'@\xb2', b'@\0', b'\0@1', b'@_', b'#1'] + [b'@%d' % n for n in ((1 << 32) + 1, (1 << 64) - 1, 1 << 64, (1 << 64) + 5, 10 ** 29)] + [
    b'@' + b'0' * 30, b'@' + b'1' * 3000]


def with_origin(text, origin):
    """A line with one field more."""
    return text[:-1] + b'\t' + origin + b'\n'


def origins(c):
    """Each origin on each kind of node line; equal lines with different ones; on all lines of a listing."""
    for fields in NODE_KINDS:
        for origin in ORIGINS:
            c.text('p', TWO_NODES + line(*fields, origin))
        c.text('s', line(b'v', 7, b'@5') + P + line(*fields, pick.choice(ORIGINS)) + line(b's', 7, 2))
    for text in (line(b'v', 1, b'@0') + line(b'v', 1, b'@1') + line(b'v', 1), line(b'v', 1) + line(b'v', 1, b'@-') + line(b'u', b'-', 1, b'@0'),
                 line(b'p', b'@1023') * 3 + P):
        nodes = read_listing(text, False, WORK)[1]
        for room in (nodes, nodes - 1):
            c.listing(text, room=room)
    for nodes in ([with_origin(x, b'@-') for x in GOOD_NODES], [with_origin(x, b'@%d' % (1023 - i)) for i, x in enumerate(GOOD_NODES)]):
        c.text('p', b''.join(nodes))
        c.text('s', b''.join(nodes + GOOD_SWAPS))
    c.text('p', b''.join(line(b'n', bits(ONE + k), bits(SIGN + k), b'@1023') for k in range(NODE_LINES)))


def no_origins(c):
    """What is no origin, on each kind of node line; two of them; one in another place; one on an s line."""
    for fields in NODE_KINDS:
        for spelling in NO_ORIGINS:
            c.text(pick.choice('pps'), TWO_NODES + line(*fields, spelling))
        c.text('p', TWO_NODES + line(*fields, b'@0', b'@0'))
        c.text('p', TWO_NODES + line(*fields, b'@-', b'1'))
        c.text('p', TWO_NODES + line(*fields, b'', b'@0'))
        for joint in (b'', b' ', b'\t\t', b'\n', b'\n\t', b'\r\t'):
            c.text('p', TWO_NODES + b'\t'.join(fields) + joint + b'@0\n')
        for k in range(len(fields)):
            c.text('p', TWO_NODES + line(*fields[:k], b'@0', *fields[k:]))
            c.text('p', TWO_NODES + line(*fields[:k], b'@0', *fields[k + 1:]))
    for spelling in ORIGINS[:2] + NO_ORIGINS[:8]:
        c.text('s', TWO_NODES + line(b's', 7, 1, spelling))
        c.text('s', TWO_NODES + line(b's', 7, 1) + line(b's', 8, 0, spelling))
    for text in (b'@0\n', b'\t@0\n', b'@-', b's\t@0\n', b'@\t0\n'):
        for before in (b'', TWO_NODES):
            c.text('p', before + text)
            c.text('s', before + text)


def origin_cuts(c):
    """Node lines with an origin, cut at every byte of it, with a line feed there and without; a byte of it changed; other ends."""
    for fields in NODE_KINDS:
        for origin in (b'@1023', b'@-'):
            whole, start = b'\t'.join([*fields, origin]), len(b'\t'.join(fields))
            for k in range(start, len(whole) + 1):
                c.text('p', TWO_NODES + whole[:k])
                c.text('p', TWO_NODES + whole[:k] + b'\n')
            k, byte = pick.randrange(start, len(whole)), bytes([pick.choice(b'\t\n\r 0123456789-@A\0\xff')])
            c.text('p', TWO_NODES + whole[:k] + byte + whole[k + 1:] + b'\n')
            c.text('p', TWO_NODES + whole[:k] + byte + whole[k:] + b'\n')
            for end in (b'\r\n', b'\n\n', b'\r', b'\t\n', b' \n', b'\0\n'):
                c.text('p', TWO_NODES + whole + end)


def origin_counts(c):
    """Origins, good and malformed, on the 1024th node line and on the next, which is counted before it is looked at; before and after s lines."""
    good, bad, swap = line(b'p', b'@0'), [line(b'p', x) for x in (b'@', b'@01', b'@1024')] + [b'p\t@', b'p\t@5'], line(b's', 3, 0)
    c.text('p', good * 1024)
    c.text('p', good * 1025)
    for last in bad:
        for count in (1022, 1023, 1024):
            c.text(pick.choice('ps'), P * count + last)
        c.text('s', P * 1024 + swap + last)
        c.text('s', P * 1023 + swap + last)
    for place in (0, 500, 1023):
        c.text('p', good * place + pick.choice(bad[:3]) + good * (1024 - place))
    c.text('s', good + swap + good)
    c.text('s', good + b''.join(line(b's', k, 0) for k in range(256)) + line(b's', 300, 0, b'@0'))
    c.text('s', good + b''.join(line(b's', k, 0) for k in range(255)) + line(b's', 300, 0, b'@0'))
    for size in (LARGEST, LARGEST + 1):
        lines = []
        sized(size, lines)
        for last in (good, bad[0]):
            c.text('p', b''.join(with_origin(x, b'@-') for x in lines) + last)
    for count in (64, 65):
        c.text('p', chain(count, lambda k: line(b'u', b'-', k, b'@%d' % k)))


def random_origins(c):
    """Listings at random with origins on some lines, whole and with a byte replaced, left out or put in."""
    for k in range(60):
        lines, share = random_listing(pick.choice([1, 4, 12, 30]), 0.4).splitlines(True), pick.choice([0.3, 0.8, 1])
        text = b''.join(with_origin(x, pick.choice(ORIGINS)) if pick.random() < share else x for x in lines)
        if k % 2 == 0:
            c.listing(text, room=pick.choice([WORK, read_listing(text, False, WORK)[1]]))
            continue
        at = pick.choice([m.start() for m in re.finditer(b'@', text)] or [1]) + pick.choice([-1, 0, 0, 1, 2])
        byte, how = bytes([pick.choice(b'\t\n0123456789-@+ a')]), pick.randrange(3)
        c.text(pick.choice('ps'), text[:at] + (byte if how else b'') + text[at + (how != 1):])


GROUPS = (
    smallest, cuts, bytes_changed, tabs, numbers, doubles, long_lines, names, faults, several_faults, node_counts, swap_counts, children,
    depths, sizes, together, capacities, values, orders, outputs, swaps, random_listings, damaged_listings, row_counts, row_orders,
    operands, look_ups, random_sheets, origins, no_origins, origin_cuts, origin_counts, random_origins)


def made():
    """The cases, and what the program has to write of each."""
    c = Cases()
    for group in GROUPS:
        group(c)
    return c.data, c.answers
