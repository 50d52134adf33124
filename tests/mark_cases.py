"""The list of cases of the calls with marks, for the program call_cases: what evaluating and playing answer, and which t rows they use.

A case is a line as in tests/call_cases.py, its texts or its tape, and a line of 64 hex digits, the marks: of the first digit the highest bit
is row 0, of the last the lowest is row 255. The letter is
    E       evaluate a listing with a sheet; it is compiled too, and its tape played with marks has to answer and to mark the same
    Y       play a tape with a sheet
tests/rust/run stores cases of Z, which is simplify with marks, and more of E in the list `rust_marks`, with the rows that the Rust asks for.

The answers and the rows are those of two models: rack_model.py goes through the tree of a listing, tape_model.py plays its tape. Where both
have a say they have to agree. The sheets have rows that nothing asks for, and rows that come again with another value.
"""
import random

import rack_model
import tape_model as tapes
from texts_model import OPERATIONS, SIGN, Refused, read_listing, read_sheet

NODES, ROWS, TEXT = 4096, 256, 32768
MARKS = ROWS // 4 + 1  # bytes of the line
ONE, TWO, HALF, NAN = 0x3FF << 52, 1 << 62, 0x3FE << 52, 0x7FF8 << 48
DOUBLES = [0, SIGN, ONE, SIGN + ONE, TWO, HALF, 0x400921FB54442D18, 1, 0x7FF << 52, NAN]
JUNK = [0xDEADBEEF00010001, (1 << 64) - 1, 1, 0]
BINDING = b'v\t0\t%016X\t%016X\nv\t7\t%016X\t%016X\nm\t1\t2\t%016X\n' % (HALF, 0, TWO, ONE, ONE)

pick = random.Random(8)


# ---- what is right

def evaluated(listing, sheet, nodes):
    """What evaluating answers, as numbers, and the t rows that it uses."""
    try:
        root = read_listing(listing, False, nodes)[0]
        rows = read_sheet(sheet)[1]
    except Refused as why:
        return (why.number, why.place), set()
    try:
        answer = (0, 0, *[tapes.bits_of(x) for x in rack_model.value_of(root, rows, {})])
    except tapes.Need as need:
        answer = (9, *need.args)
    except rack_model.Answer:
        answer = (10, 0)
    return answer, rows.used


def played(tape, sheet):
    """The same of playing."""
    used = set()
    try:
        answer = (0, 0, *tapes.played(tape, sheet, used))
    except Refused as why:
        answer = why.number, why.place
    except tapes.Need as need:
        answer = (9, *need.args)
    return answer, used


def marks_line(used):
    return b'%064x\n' % sum(1 << ROWS - 1 - j for j in used)


class MarkCases:
    """The cases, and how many listings are compiled and played, are too long for a tape, and are refused."""

    def __init__(self):
        self.cases, self.tapes = [], [0, 0, 0]
        for cases in (functions, cis, lacks, refusals, full_sheets, any_jobs, same_values):
            cases(self)

    def add(self, letter, texts, lengths, right, rows):
        assert all(length <= TEXT for length in lengths)
        answer, used = right
        fields = [pick.choice(JUNK), rows, (lengths[0] << 32) + lengths[1], 0, *(*answer, 0, 0, 0, 0)[:6], 0]
        head = letter + '1' + ''.join('\t%016x' % x for x in fields) + '\n'
        self.cases.append(head.encode() + b''.join(texts) + marks_line(used))

    def evaluate(self, listing, sheet, nodes=NODES):
        right = evaluated(listing, sheet, nodes)
        try:
            assert played(tapes.compiled(listing, nodes, 1 << 20), sheet) == right
            self.tapes[0] += 1
        except Refused as why:
            self.tapes[1 if why.number == 14 else 2] += 1
        self.add('E', [listing, sheet], [len(listing), len(sheet)], right, nodes)

    def play(self, tape, sheet):
        digits = b''.join(tape[k:k + tapes.STEP].hex().encode() + b'\n' for k in range(0, len(tape), tapes.STEP))
        self.add('Y', [digits, sheet], [len(tape), len(sheet)], played(tape, sheet), NODES)

    def both(self, listing, sheet):
        self.evaluate(listing, sheet)
        self.play(tapes.compiled(listing, NODES, 1 << 20), sheet)


# ---- lines

def line(*words):
    return ('\t'.join(str(x) for x in words) + '\n').encode()


def number(re, im=0):
    return line('n', '%016X' % re, '%016X' % im)


def row(name, operands, value=(ONE, 0)):
    return line('t', name, *['%016X' % x for x in (*(*operands, 0, 0, 0)[:4], *value)])


def some_value():
    return tuple(pick.choice([pick.choice(DOUBLES), pick.getrandbits(64)]) for _ in range(2))


def among_others(rows, most=ROWS):
    """Rows for these, one each, in any order, with others before, between and after them that are never used."""
    lines = [row(name, operands, some_value()) for name, operands in rows]
    pick.shuffle(lines)
    strays = [row(pick.choice(['sin', 'cos', 'exp', 'sqrt']), (pick.getrandbits(62), SIGN)) for _ in range(pick.choice([0, 1, 3, 9]))]
    for stray in strays:
        lines.insert(pick.randrange(len(lines) + 1), stray)
    for again in pick.sample(rows, pick.randrange(len(rows) + 1)):
        first = [text.rsplit(b'\t', 2)[0] for text in lines].index(row(*again).rsplit(b'\t', 2)[0])
        lines.insert(pick.randrange(first + 1, len(lines) + 1), row(*again, some_value()))
    return b''.join(lines[:most])


# ---- small jobs

SINE, COSINE, OTHER = (row(name, (HALF,), value) for name, value in (('sin', (TWO, 0)), ('cos', (ONE, SIGN)), ('exp', (ONE, 0))))
AGAIN = row('sin', (HALF,), (SIGN, ONE))


def functions(c):
    """Each function alone, its row the first, a later one, doubled, missing, or there for other operands."""
    for name in ('sin', 'cos', 'exp', 'sqrt', 'pow'):
        operands = (HALF, SIGN, TWO, NAN) if name == 'pow' else (HALF, SIGN)
        listing = number(HALF, SIGN) + (number(TWO, NAN) + line('b', '^', 0, 1) if name == 'pow' else line('f', name, 0))
        own, again, near = row(name, operands), row(name, operands, (TWO, TWO)), row(name, (HALF, 0, *operands[2:]))
        for rows in ([own], [near, own], [own, again], [near, again, own, again], [near], []):
            c.both(listing, BINDING * (len(rows) % 2) + b''.join(rows))
    for nan in (NAN, NAN + 1, SIGN + NAN):
        c.both(number(nan, NAN) + line('f', 'sqrt', 0), OTHER + row('sqrt', (SIGN + NAN + 5, nan), (ONE, 0)))
    for zero in (0, SIGN):
        c.both(number(zero) + line('f', 'sin', 0), row('sin', (SIGN,)) + row('sin', (0,)))


def cis(c):
    """cos, then sin: each there, lacking or doubled, in either order."""
    for rows in ([], [SINE], [COSINE], [SINE, COSINE], [COSINE, SINE], [OTHER, COSINE, COSINE], [OTHER, SINE, AGAIN], [AGAIN, COSINE, SINE],
                 [COSINE, OTHER, COSINE, AGAIN, SINE]):
        c.both(number(HALF) + line('f', 'cis', 0), b''.join(rows))
        c.both(number(HALF) + line('f', 'cis', 0) + line('f', 'sin', 0) + line('b', '*', 2, 1), BINDING + b''.join(rows))


def lacks(c):
    """A variable or a cell that is not bound, before, between and after what is looked up."""
    start = number(HALF) + line('f', 'sin', 0) + line('f', 'cos', 0)
    for free in (line('v', 3), line('m', 1, 3)):
        for operands in ((1, 3), (3, 1)):
            c.both(start + free + line('b', '+', *operands), OTHER + SINE + COSINE)
            c.both(start + free + line('b', '+', *operands), OTHER)
            c.both(start + free + line('b', '-', *operands) + line('b', '*', 2, 4), BINDING + AGAIN + COSINE + SINE)
            c.both(start + free + line('b', '-', *operands) + line('b', '*', 4, 2), SINE + COSINE)
    c.both(start + line('b', '+', 1, 2) + line('f', 'exp', 0) + line('b', '+', 3, 4), row('exp', (ONE,)) + COSINE + SINE)
    c.both(start + line('b', '+', 1, 2) + line('f', 'exp', 0) + line('b', '+', 4, 3), row('exp', (ONE,)) + COSINE + SINE)


def refusals(c):
    """What is refused before anything is looked up has no marks."""
    sine, many = number(HALF) + line('f', 'sin', 0), row('sin', (HALF,)) * 257
    deep, big = (line('v', 7) + b''.join(line(*words(k)) for k in range(count)) for words, count in (
        (lambda k: ('u', '-', k), 64), (lambda k: ('b', '+', k, k), 19)))
    for listing in (b'', b'q\n', sine[:-1], sine + b'q\n', b'p\n' * 1025, deep, big):
        c.evaluate(listing, SINE)
    for sheet in (b'q\n', SINE + b'\n', SINE[:-1], SINE + BINDING, many):
        c.evaluate(sine, sheet)
        c.play(tapes.compiled(sine, NODES, 1 << 20), sheet)
    for nodes in (0, 1, 2):
        c.evaluate(sine, SINE, nodes)
    tape = tapes.compiled(sine, NODES, 1 << 20)
    for bad in (b'', tape[:-1], tape + tape, tape[24:], tape + bytes(24), tape[:25] + b'\6' + tape[26:]):
        c.play(bad, SINE)
        c.play(bad, SINE + b'q\n')


# ---- many rows

def sum_of(lines, tops):
    """A sum of the lines of these numbers, balanced."""
    while len(tops) > 1:
        pairs = [tops[k:k + 2] for k in range(0, len(tops), 2)]
        tops = [pair[0] if len(pair) == 1 else len(lines) + k for k, pair in enumerate(pairs)]
        lines += [line('b', '+', *pair) for pair in pairs if len(pair) == 2]
    return b''.join(lines)


def full_sheets(c):
    """256 rows, all of them used, or some; the first and the last among them."""
    rows = [row(OPERATIONS[k % 4].decode(), (ONE + k // 4, k)) for k in range(ROWS)]
    order = pick.sample(rows, ROWS)
    for chosen in (range(ROWS), [0, 255], pick.sample(range(ROWS), 60)):
        lines, tops = [], []
        for k in chosen:
            lines += [number(ONE + k // 4, k), line('f', OPERATIONS[k % 4].decode(), len(lines))]
            tops.append(len(lines) - 1)
        c.evaluate(sum_of(lines, tops), b''.join(pick.choice([rows, order])))
    c.both(number(ONE, 255) + line('f', 'cis', 0), row('sin', (ONE, 255)) * 255 + row('cos', (ONE, 255)))


# ---- at random

def any_listing(count):
    lines = [number(*pick.choices(DOUBLES[:7], k=2)), line('v', 0), line('m', 1, 2)]
    while len(lines) < count:
        children = [pick.randrange(max(0, len(lines) - 5), len(lines)) for _ in range(2)]
        kind = pick.choice('nvuffffbbbb')
        lines.append({
            'n': number(pick.choice(DOUBLES), pick.choice(DOUBLES)), 'v': line('v', pick.choice([0, 7, 9])),
            'u': line('u', pick.choice('+-'), children[0]), 'f': line('f', pick.choice(tapes.FUNCTIONS), children[0]),
            'b': line('b', pick.choice(tapes.OPERATORS + ['^']), *children)}[kind])
    return b''.join(lines)


def asked_for(listing, most):
    """The rows that evaluating asks for, one after the other, each with a value that does as well as any."""
    sheet, rows = BINDING, []
    while len(rows) < most:
        answer, _ = evaluated(listing, sheet, NODES)
        if answer[0] != 9:
            break
        rows.append((OPERATIONS[answer[1] - 1].decode(), answer[2:]))
        sheet += row(*rows[-1], (rows[-1][1][0] ^ 1, ONE))
    return rows


def any_jobs(c):
    """The values in the sheet are others than those with which rows were asked for, so some are not asked for any more and others are lacking."""
    for _ in range(100):
        listing = any_listing(pick.choice([5, 8, 14, 30]))
        rows = asked_for(listing, pick.choice([1, 2, 4, 12, 30]))
        pick.choice([c.evaluate, c.evaluate, c.both])(listing, BINDING + among_others(rows))


def same_values(c):
    """The values are those with which rows were asked for, so that all of them are used, but for one that is left out at times."""
    for _ in range(60):
        listing = any_listing(pick.choice([8, 14, 30]))
        rows = [row(*key, (key[1][0] ^ 1, ONE)) for key in asked_for(listing, 40)]
        order = pick.sample(rows, len(rows))[:pick.choice([len(rows), len(rows), len(rows) - 1]) or None]
        c.evaluate(listing, BINDING + OTHER + b''.join(order + pick.sample(rows, min(3, len(rows)))))
