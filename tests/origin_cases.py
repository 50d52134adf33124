"""The list of cases with origins, for the program call_cases: what substituting and simplifying write with origins, and what each call answers to a
listing that has them.

A case is a line as in tests/call_cases.py, its texts, and what has to be written. The letter is
    S       substitute a listing, with origins
    O       simplify a listing with a sheet, with origins; a line of marks follows, as tests/mark_cases.py has it
or one of those in tests/call_cases.py, tests/mark_cases.py and tests/rust/README.md: c, e, r, s and z, E and Z. Their listings have origins,
which are ignored.

What simplifying gives, and evaluating, is the Rust's: these cases are taken from the lists `rust` and `rust_marks`, which tests/rust/run stores, and
there are none where such a list is not there. To a result the origins are added by the trees of the two listings (texts_model.py). What
substituting, compiling and malformed listings give is the model's alone; so is what simplifying makes of a few small jobs, by hand.
"""
import os
import random
import re

from mark_cases import MARKS, marks_line
from stored import CRATES
from tape_model import STEP, compiled
from texts_model import (
    INF, NAN, NODE_LINES, SIGN, Refused, Tree, first_lines, keep, read_lines, read_listing, written)

NODES, TEXT, PAPER, TAPE = 4096, 32768, 32768, 12288
ONE, TWO = 0x3FF << 52, 1 << 62
JUNK = [0xDEADBEEF00010001, (1 << 64) - 1, 1, 0]
ORIGINS = [b'@-', b'@0', b'@1', b'@5', b'@10', b'@999', b'@1023']
NO_ORIGINS = [b'@', b'@01', b'@1024', b'@x', b'@-1', b'@1\t@2', b'', b'\t@1', b'@1\r', b'@ 1', b'1']
SHORT = 1600  # bytes of the texts of a case that is taken from a list

pick = random.Random(3)


# ---- the lists that are there

class Stored:
    """A case of a list: its letter, the fields of its line, its texts, what has to be written, and its line of marks, b'' where it has none."""

    def __init__(self, letter, fields, listing, sheet, result, marks):
        self.letter, self.fields, self.listing, self.sheet, self.result, self.marks = letter, fields, listing, sheet, result, marks
        self.rows, self.number = min(fields[1], NODES), fields[4]


def stored_cases(name):
    path = os.path.join(CRATES, 'call_cases', 'data', name)
    if not os.path.exists(path):
        return
    with open(path, 'rb') as f:
        data = f.read()
    at = 0
    while at < len(data):
        kind, *fields = data[at:at + 190].split(b'\t')
        fields = [int(x, 16) for x in fields]
        parts, at = [], at + 190
        for length in (fields[2] >> 32, fields[2] % (1 << 32), fields[3] % (1 << 32), MARKS if kind[:1] in b'EZ' else 0):
            parts.append(data[at:at + length])
            at += length
        yield Stored(kind[:1].decode(), fields, *parts)


# ---- cases

class OriginCases:
    """The cases, and how many listings are compiled and played, are too long for a tape, and are refused."""

    def __init__(self):
        self.cases, self.tapes = [], [0, 0, 0]
        for cases in (substitutions, same_trees, longest, rooms, malformed, compilations, small_simplifications, of_the_rust, results_of_the_rust):
            cases(self)

    def add(self, letter, texts, room, answer, result=b'', marks=b'', rows=NODES, limit=0, in_list=None):
        listing, sheet = texts
        assert len(listing) <= TEXT and len(sheet) <= TEXT and room <= PAPER
        fields = [pick.choice(JUNK), rows, (len(listing) << 32) + len(sheet), (room << 32) + len(result), *(*answer, 0, 0, 0, 0)[:6], limit]
        head = letter + '1' + ''.join('\t%016x' % x for x in fields) + '\n'
        self.cases.append(head.encode() + listing + sheet + (result if in_list is None else in_list) + marks)
        if letter in 'eE':
            self.count_tape(listing, rows)

    def count_tape(self, listing, rows):
        """What the program does with an evaluation besides."""
        try:
            compiled(listing, min(rows, NODES), TAPE)
            self.tapes[0] += 1
        except Refused as why:
            self.tapes[1 if why.number == 14 else 2] += 1

    def substitute(self, listing, room=None, rows=NODES):
        """With an output that is just long enough, or a little longer, unless `room` says how long."""
        if room is None:
            room = min(len(substituted(listing, rows, PAPER)[1]) + pick.choice([0, 1, 100]), PAPER)
        answer, result = substituted(listing, rows, room)
        self.add('S', (listing, b''), room, answer, result, rows=rows)

    def simplify(self, listing, sheet, limit, calls, result, marks=b''):
        """Where this is the result; then with an output a byte too short, in which no row is marked."""
        self.add('O', (listing, sheet), len(result), (0, 0, calls), result, marks or marks_line(()), limit=limit)
        self.add('O', (listing, sheet), len(result) - 1, (13, 0), marks=marks_line(()), limit=limit)

    def compile(self, listing, rows=NODES):
        try:
            answer, tape = (0, 0), compiled(listing, rows, TAPE)
        except Refused as why:
            answer, tape = (why.number, why.place), b''
        digits = b''.join(tape[k:k + STEP].hex().encode() + b'\n' for k in range(0, len(tape), STEP))
        self.add('c', (listing, b''), TAPE, answer, tape, rows=rows, in_list=digits)


def substituted(listing, rows, room):
    """What substituting with origins answers, as numbers, and writes."""
    try:
        nodes, _, swaps = read_lines(listing, True, rows)
        stored = {tree.digest for tree in nodes}
        result = replaced(nodes[-1], swaps, stored, rows, {})
        return (0, 0), written(result, room, first_lines(nodes))
    except Refused as why:
        return (why.number, why.place), b''


def replaced(tree, swaps, stored, rows, known):
    if tree.digest not in known:
        kind, *words = tree.words
        result = swaps.get(int(words[0]), tree) if kind == 'v' else Tree(
            tree.words, [replaced(child, swaps, stored, rows, known) for child in tree.children])
        keep(result, stored, rows)
        known[tree.digest] = result
    return known[tree.digest]


# ---- lines

def line(*words):
    return ('\t'.join(str(x) for x in words) + '\n').encode()


def number(re, im=0):
    return line('n', '%016X' % re, '%016X' % im)


def given(listing, share=0.5):
    """The listing with origins on some of its node lines, which say anything."""
    lines = listing.splitlines(True)
    return b''.join(x[:-1] + b'\t' + pick.choice(ORIGINS) + b'\n' if x[:1] != b's' and pick.random() < share else x for x in lines)


# ---- substituting

LEAVES = [number(ONE, SIGN), line('p'), line('v', 0), line('v', 1), line('m', 2, 3)]


def any_listing(count):
    """Many equal lines; the variables 0 and 1 are at its start."""
    lines = [line('v', 0), line('v', 1)]
    while len(lines) < count:
        children = [pick.randrange(max(0, len(lines) - 6), len(lines)) for _ in range(2)]
        lines.append(pick.choice([
            pick.choice(LEAVES), line('u', pick.choice('+-'), children[0]), line('f', pick.choice(['sin', 'cis']), children[0]),
            line('b', pick.choice('+-*'), *children), line('b', pick.choice('+-*'), *children)]))
    return b''.join(lines)


def substitutions(c):
    """What is put in, what is made around it, and what stays; at random with origins in the given listing too."""
    a, b, difference = line('v', 0), line('v', 1), line('b', '-', 0, 1)
    for swaps in (b'', line('s', 0, 1), line('s', 1, 0), line('s', 0, 2), line('s', 1, 2), line('s', 0, 1) + line('s', 1, 0), line('s', 5, 0)):
        c.substitute(a + b + difference + swaps)
        c.substitute(a + b + difference + line('u', '-', 2) + swaps)
        c.substitute(a + b + line('b', '-', 1, 0) + difference + swaps)
        c.substitute(a * 2 + b * 2 + line('b', '*', 1, 3) + line('b', '*', 0, 2) + line('b', '+', 4, 5) + swaps)
    for k in range(60):
        listing = any_listing(pick.choice([3, 6, 12, 30]))
        count = listing.count(b'\n')
        swaps = b''.join(line('s', v, pick.randrange(count)) for v in sorted(pick.sample(range(3), pick.randrange(3))))
        c.substitute((given(listing) if k % 2 else listing) + swaps)


def same_trees(c):
    """Which lines have the same tree: numbers by their bits, with one NaN, and all else by its fields, children by their trees."""
    zeros = b''.join(number(x, y) for x in (0, SIGN) for y in (SIGN, 0))
    nans = b''.join(number(x, ONE) for x in (INF + 1, NAN, SIGN + NAN, NAN + 1))
    for top in range(4):
        c.substitute(zeros + line('b', '+', top, 3 - top))
        c.substitute(zeros * 2 + line('b', '*', top + 4, 7 - top) + line('b', '*', top, 3 - top) + line('b', '-', 8, 9))
        c.substitute(nans + number(INF) + line('b', '+', top, 3) + line('b', '+', 5, 4))
    near = [line('v', 1), line('v', 2), line('m', 1, 2), line('m', 2, 1), line('p'), number(1, 2), number(2, 1)]
    for x in range(len(near)):
        for y in range(x):
            if (x + y) % 3 == 0:
                c.substitute(near[x] + near[y] + near[x] + line('b', '-', 1, 2) + line('b', '-', 1, 0) + line('b', '+', 3, 4))
    for name in ('sin', 'cos', 'exp', 'sqrt', 'cis'):
        c.substitute(line('p') + line('f', name, 0) + line('f', 'sin', 0) + line('f', name, 0) + line('b', '/', 3, 2))
    for sign in '+-*/^':
        c.substitute(line('v', 3) + line('p') + line('b', sign, 0, 1) + line('b', sign, 1, 0) + line('b', sign, 0, 1) + line('b', sign, 4, 3))
    c.substitute(line('v', 0) + line('u', '-', 0) + line('u', '+', 0) + line('u', '-', 0) + line('b', '+', 3, 2))


def longest(c):
    """As many lines as a listing may have, so that an origin is 1023; a result of more."""
    most = b''.join(line('v', k) for k in range(512)) + b''.join(line('b', '+', 2 * k, 2 * k + 1) for k in range(511)) + line('u', '-', 1022)
    c.substitute(most)
    c.substitute(line('p') * (NODE_LINES - 1) + line('v', 0))
    c.substitute(line('p') * (NODE_LINES - 2) + line('v', 0) + line('b', '+', 3, 1022))
    c.substitute(most + line('s', 511, 1023))


def rooms(c):
    """An output that is just long enough, a byte short, as long as it has to be without origins, and empty; rows just enough and one less."""
    for listing in (line('p'), line('v', 1) * 12 + line('u', '-', 11), any_listing(9) + line('s', 0, 8), any_listing(25) + line('s', 1, 24)):
        result = substituted(listing, NODES, PAPER)[1]
        exact, without = len(result), len(re.sub(b'\t@[-0-9]+', b'', result))
        for room in (exact, exact - 1, without, exact + 7, 0):
            c.substitute(listing, room)
        enough = next(rows for rows in range(NODES) if substituted(listing, rows, PAPER)[0] == (0, 0))
        for rows in sorted({enough, enough - 1, enough // 2}):
            c.substitute(listing, exact, rows)
            c.substitute(listing, exact - 1, rows)


def malformed(c):
    """What is no origin, on node lines and s lines: 1 before all else but the count."""
    start = line('v', 0, '@0') + line('p')
    for field in NO_ORIGINS:
        bad = b'u\t-\t1\t' + field + b'\n'
        for listing in (start + bad, start + bad + line('u', '-', 2), bad):
            c.substitute(listing, 100)
        c.compile(start + bad)
        c.substitute(start + line('s', 0, 1)[:-1] + b'\t' + field + b'\n', 100)
    for field in ORIGINS[:3]:
        c.substitute(start + line('s', 0, 1)[:-1] + b'\t' + field + b'\n', 100)
    for last in (b'p\t@\n', b'p\t@1', b'p\t@-\n'):
        for count in (NODE_LINES - 1, NODE_LINES):
            c.substitute(line('p') * count + last, 100)
    for listing in (b'p\t@', b'p\t@1', b'p\t@-', b'p@1\n', b'@1\n', start + b'\t@1\n', start + b'u\t-\t@0\n'):
        c.substitute(listing, 100)
        c.compile(listing)


def compilations(c):
    for origin in ORIGINS:
        for own in (number(ONE, TWO), line('p'), line('v', 65535), line('m', 65535, (1 << 32) - 1), line('f', 'cis', 0), line('u', '-', 0),
                    line('b', '^', 0, 1)):
            c.compile(line('v', 1) + line('p') + own[:-1] + b'\t' + origin + b'\n')


# ---- simplifying

def small_simplifications(c):
    """Jobs whose results and calls are those of examples/ and tests/c."""
    a, b, zero = line('v', 0), line('v', 1), number(0)
    twice_less = a + b + line('b', '-', 0, 1) + line('b', '-', 2, 1)
    c.simplify(twice_less, b'', 10, 11, b'v\t0\t@0\n')
    c.simplify(given(twice_less, 1), b'', 10, 11, b'v\t0\t@0\n')
    c.simplify(b + a * 2 + b + line('b', '-', 2, 3) + line('b', '-', 4, 0), b'', 10, 11, b'v\t0\t@1\n')
    c.simplify(a + line('b', '-', 0, 0), b'', 10, 3, zero[:-1] + b'\t@-\n')
    c.simplify(a + zero + line('b', '-', 0, 0), b'', 10, 3, zero[:-1] + b'\t@1\n')
    c.simplify(a + number(SIGN) + line('b', '-', 0, 0), b'', 10, 3, zero[:-1] + b'\t@-\n')
    c.simplify(zero + a + line('b', '-', 0, 1), b'', 10, 5, b'v\t0\t@1\nu\t-\t0\t@-\n')
    c.simplify(zero + a + line('u', '-', 1) + line('b', '-', 0, 1), b'', 10, 5, b'v\t0\t@1\nu\t-\t0\t@2\n')
    c.simplify(a + line('u', '-', 0) + line('u', '-', 1), b'', 10, 3, b'v\t0\t@0\n')
    c.simplify(a + line('b', '-', 0, 0), b'', 0, 1, b'v\t0\t@0\nb\t-\t0\t0\t@1\n')
    sine = number(0x3FE << 52) + line('f', 'sin', 0)
    rows = b''.join(line('t', name, *['%016X' % x for x in (0x3FE << 52, 0, 0, 0, value, 0)]) for name, value in (('cos', TWO), ('sin', ONE)))
    c.simplify(sine, rows, 10, 2, number(ONE)[:-1] + b'\t@-\n', marks_line({1}))
    c.simplify(number(ONE) + sine.replace(b'\t0\n', b'\t1\n'), rows, 10, 2, number(ONE)[:-1] + b'\t@0\n', marks_line({1}))
    for listing, answer in ((b'p\t@01\n', (1, 0)), (a + b'v\t1\t@\n', (1, 1)), (line('p') * 1024 + b'p\t@\n', (2, 1024)), (line('s', 0, 0), (1, 0))):
        c.add('O', (listing, rows), 100, answer, marks=marks_line(()), limit=10)
        c.add('O', (listing, rows), 100, (5, 0), marks=marks_line(()), limit=11)


# ---- what the Rust answers

def is_short(case):
    return len(case.listing) + len(case.sheet) < SHORT


def again(c, case, letter, listing, room, answer, result, marks):
    c.add(letter, (listing, case.sheet), room, answer, result, marks, case.fields[1], case.fields[10])


def of_the_rust(c):
    """Listings with origins are answered as those without."""
    cases = [case for name in ('rust', 'rust_marks') for case in stored_cases(name) if is_short(case)]
    for letter, count in (('e', 30), ('r', 12), ('s', 24), ('z', 30), ('E', 20), ('Z', 20)):
        own = [case for case in cases if case.letter == letter]
        for case in pick.sample(own, min(count, len(own))):
            again(c, case, letter, given(case.listing, pick.choice([0.5, 1])), case.fields[3] >> 32, case.fields[4:10], case.result, case.marks)


def results_of_the_rust(c):
    """What is written without origins, with those of its lines. Of cases without marks those are taken whose sheets have no t rows."""
    cases = [case for name in ('rust', 'rust_marks') for case in stored_cases(name) if is_short(case)]
    for letter, count in (('s', 60), ('z', 60), ('Z', 60)):
        own = [case for case in cases if case.letter == letter and not (letter == 'z' and b't\t' in case.sheet)]
        for case in pick.sample(own, min(count, len(own))):
            traced(c, case, 'S' if letter == 's' else 'O')


def traced(c, case, letter):
    marks, none = (b'', b'') if letter == 'S' else (case.marks or marks_line(()), marks_line(()))
    listing, answer, room = pick.choice([case.listing, given(case.listing)]), case.fields[4:10], case.fields[3] >> 32
    if case.number != 0:
        return again(c, case, letter, listing, room, answer, b'', marks)
    nodes = read_lines(listing, letter == 'S', case.rows)[0]
    result = written(read_listing(case.result, False, NODES)[0], PAPER, first_lines(nodes))
    again(c, case, letter, listing, len(result) + pick.choice([0, 0, 1, 90]), answer, result, marks)
    return again(c, case, letter, listing, pick.choice([len(result) - 1, len(case.result)]), (13, 0), b'', none)
