#!/usr/bin/env python3
"""Makes lists of cases that the program call_cases replays, with the right answers, by the model of tape_model.py.

    python3 tests/call_cases.py            writes these lists of crates/call_cases/data anew, and args and stdout
    python3 tests/call_cases.py --check    only says whether they are what it would write

Both also play, by the model, the evaluations in the lists `rust` and `rust_marks`, which tests/rust/run stores: whether each value is the
Rust's, whether the marks are, and how many tapes the program has to play. One of these lists that is not there is left out.

A list of cases is a file of data: `sound` and `damaged` tapes, `picks` between two of them, `listings` to compile, `plays` of a tape with
a sheet, `marks`, the calls with marks, of which mark_cases.py says more, `origins`, the calls with origins and listings that have them, of which
origin_cases.py does, and `examples`, the jobs under examples/, of which example_cases.py does. A case is a line and then its texts and tapes.
The line is a letter, a 1 and eleven fields of 16 hex digits, each after a tab:
    k       check a tape; p pick one of two tapes; c compile a listing; y play a tape with a sheet; x an example; E and Y of mark_cases.py;
            S and O of origin_cases.py
    1       the word that rows, desk and table are filled with before
    2       how many rows are lent
    3       eight digits each for the lengths of the first and the second text or tape
    4       eight digits each for the length of the output and of the tape that has to be written there
    5       the number of the refusal, or 0; of a pick 1 for the first, 2 for the second, 0 for neither
    6       the place of the refusal; what NEED asks for, as 1 sin, 2 cos, 3 exp, 4 sqrt, 5 pow; the length of what is picked
    7 to 10 the bits of a value, or NEED's operands
    11      0
A tape stands there in hex digits, a step a line. Its length is that of its bytes.
"""
import os
import random
import sys

from example_cases import example_cases
from mark_cases import MARKS, MarkCases, evaluated, marks_line
from origin_cases import OriginCases
from stored import CRATES, hold_program, pass_over
from tape_model import (
    FUNCTION, FUNCTIONS, INFIX, MEMORY, NUMBER, OPERATORS, PI, PREFIX, SIGNS, STACK, STEP, STEPS, VARIABLE, Need, bad_step, compiled,
    picked, played, step)
from texts_model import INF, NAN, NODE_LINES, OPERATIONS, SIGN, Refused

WORK, TEXT, TAPE = 4096, 32768, 16384  # how many rows the program has, and how long its texts and tapes can be
ONE, TWO = 0x3FF << 52, 1 << 62
NANS = [INF + 1, NAN - 1, NAN + 1, NAN + 0xDEADBEEF, SIGN - 1, SIGN + INF + 1, SIGN + NAN, 2 * SIGN - 1]  # all but the one
DOUBLES = [0, SIGN, 1, SIGN + 1, ONE, ONE + SIGN, TWO, 0x400921FB54442D18, 0x3FB999999999999A, 1 << 52, INF - 1, INF, INF + SIGN, NAN]
JUNK = [0xDEADBEEF00010001, (1 << 64) - 1, 1, 0, 0x3F3F3F3F3F3F3F3F]

pick = random.Random(1)


# ---- cases

class Cases:
    def __init__(self):
        self.lists, self.seen = {name: [] for name in ('sound', 'damaged', 'picks', 'listings', 'plays')}, set()

    def add(self, name, letter, parts, lengths, answer, room=0, written=b'', rows=WORK):
        """`parts` are texts and tapes as they stand in the file; `lengths` those of their bytes."""
        first, second = (*lengths, 0)[:2]
        assert first <= (TEXT if letter == 'c' else TAPE) and second <= (TAPE if letter == 'p' else TEXT) and room <= TAPE
        fields = [pick.choice(JUNK + [pick.getrandbits(64)]), rows, (first << 32) + second, (room << 32) + len(written),
                  *(*answer, 0, 0, 0, 0)[:6], 0]
        head = letter + '1' + ''.join('\t%016x' % x for x in fields) + '\n'
        self.lists[name].append(head.encode() + b''.join(parts) + in_hex(written))

    def is_new(self, *tapes):
        """Whether this tape, or pair, comes the first time."""
        is_new = tapes not in self.seen
        self.seen.add(tapes)
        return is_new

    def check(self, tape):
        """A tape with its verdict."""
        bad = bad_step(tape)
        name, answer = ('sound', (0, 0)) if bad is None else ('damaged', (15, bad))
        if self.is_new(tape):
            self.add(name, 'k', [in_hex(tape)], [len(tape)], answer)

    def sound(self, *steps):
        tape = b''.join(steps)
        assert bad_step(tape) is None
        self.check(tape)

    def damaged(self, bad, *steps):
        """The step that the case is about is given, besides what the model says."""
        tape = b''.join(steps)
        assert bad_step(tape) == bad
        self.check(tape)

    def pick(self, a, b):
        which, part = picked(a, b)
        assert self.is_new(a, b)
        self.add('picks', 'p', [in_hex(a), in_hex(b)], [len(a), len(b)], (which, len(part)))

    def compile(self, listing, nodes=WORK, room=None):
        """With an output that is just long enough, or a little longer, unless `room` says how long."""
        if room is None:
            room = length_of(listing, nodes) + pick.choice([0, 1, 23, 24, 500])
        try:
            answer, tape = (0, 0), compiled(listing, nodes, room)
        except Refused as why:
            answer, tape = (why.number, why.place), b''
        pass_over(pick)
        self.add('listings', 'c', [listing], [len(listing)], answer, room, tape, nodes)

    def play(self, tape, sheet):
        self.add('plays', 'y', [in_hex(tape), sheet], [len(tape), len(sheet)], answer_of(tape, sheet))


def length_of(listing, nodes):
    """How long its tape is, 0 if it has none."""
    try:
        return len(compiled(listing, nodes, TAPE))
    except Refused:
        return 0


def answer_of(tape, sheet):
    """What playing answers, as numbers."""
    try:
        return (0, 0, *played(tape, sheet))
    except Refused as why:
        return why.number, why.place
    except Need as need:
        return (9, *need.args)


def in_hex(tape):
    return b''.join(tape[k:k + STEP].hex().encode() + b'\n' for k in range(0, len(tape), STEP))


# ---- steps, good and bad

def number(re, im=0):
    return step(NUMBER, re=re, im=im)


def variable(n):
    return step(VARIABLE, half=n)


def memory(region, index):
    return step(MEMORY, half=region, word=index)


def call(name):
    return step(FUNCTION, FUNCTIONS.index(name) + 1)


def prefix(sign):
    return step(PREFIX, SIGNS.index(sign) + 1)


def infix(sign):
    return step(INFIX, OPERATORS.index(sign) + 1)


CONSTANT = step(PI)
PLUS, MINUS = infix('+'), prefix('-')
PUSHES = [number(ONE, TWO), CONSTANT, variable(513), memory(258, 16909060)]
GOOD = dict(zip((NUMBER, PI, VARIABLE, MEMORY, FUNCTION, PREFIX, INFIX), PUSHES + [call('cos'), prefix('-'), infix('*')]))
USED = {NUMBER: range(8, 24), PI: (), VARIABLE: range(2, 4), MEMORY: range(2, 8), FUNCTION: [1], PREFIX: [1], INFIX: [1]}  # bytes
FIELDS = {'sub': (1, 1), 'half': (2, 2), 'word': (4, 4), 're': (8, 8), 'im': (16, 8)}  # first byte and width


def around(opcode, own):
    """A tape in which a step stands at its place, and which place that is."""
    pops = {FUNCTION: 1, PREFIX: 1, INFIX: 2}.get(opcode, 0)
    before = [pick.choice(PUSHES) for _ in range(pops)]
    after = [call('sin'), MINUS][:pick.randrange(3)]
    if pick.random() < 0.5:
        before, after = [variable(7), prefix('+')] + before, after + [PLUS]
    return before + [own] + after, len(before)


def spoil(c, opcode, own):
    """The damaged step among good ones; with the good one in its place the tape is sound."""
    steps, place = around(opcode, GOOD[opcode])
    assert bad_step(b''.join(steps)) is None
    steps[place] = own
    c.damaged(place, *steps)


def changed(own, at, value, width=1):
    return own[:at] + value.to_bytes(width, 'little') + own[at + width:]


def unused_fields(c):
    """Every field that an opcode does not use: 1, the highest bit, all bits, and what is zero or NaN as a double."""
    for opcode, own in GOOD.items():
        for at, width in FIELDS.values():
            if at not in USED[opcode]:
                top = 1 << 8 * width - 1
                for value in (1, top, 2 * top - 1) + ((NAN,) if width == 8 else ()):
                    spoil(c, opcode, changed(own, at, value, width))


def unused_bytes(c):
    """Every byte of those fields."""
    for opcode, own in GOOD.items():
        for at in range(1, STEP):
            if at not in USED[opcode]:
                spoil(c, opcode, changed(own, at, pick.choice([1, 2, 16, 128, 255])))


def codes(c):
    """Unknown opcodes, with all else as it was, or zero; unknown subs."""
    for opcode in [0, *range(8, 17), 49, 64, 127, *range(128, 136), 254, 255]:
        spoil(c, opcode % 8 or PI, changed(GOOD[opcode % 8 or PI], 0, opcode))
        c.damaged(0, changed(bytes(STEP), 0, opcode))
    for opcode, known in ((FUNCTION, 5), (PREFIX, 2), (INFIX, 5)):
        for sub in [0, *range(known + 1, 9), 16, 127, *range(128, 134), 255]:
            spoil(c, opcode, changed(GOOD[opcode], 1, sub))


def nans(c):
    """Every NaN but the one, in either part and in both."""
    for nan in NANS:
        for re, im in ((nan, 0), (ONE, nan), (nan, nan), (NAN, nan), (nan, NAN)):
            spoil(c, NUMBER, number(re, im))


# ---- lengths

THREE = [variable(1), variable(2), infix('-')]


def cuts(c):
    """Cut at every byte of a step: the first, the last of three, and behind a whole tape."""
    for k in range(1, STEP):
        c.damaged(0, GOOD[MEMORY][:k])
        c.damaged(0, *THREE[:2], THREE[2][:k])
        c.damaged(0, *THREE, bytes([k] * k))


def chain(count):
    """A sound tape of this many steps, of a stack of two."""
    steps = [variable(0)]
    while len(steps) + 2 <= count:
        steps += [variable(len(steps)), infix(OPERATORS[len(steps) % 5])]
    return steps + [MINUS] * (count - len(steps))


def lengths(c):
    """No step, 512 and more, also where there are other faults."""
    c.damaged(0)
    for count in (1, 2, 3, 511, 512):
        c.sound(*chain(count))
    for count in (513, 514):
        c.damaged(0, *chain(count))
    c.damaged(0, bytes(STEP * 513))
    c.damaged(0, *chain(512), b'\1')
    c.damaged(0, *chain(512), GOOD[NUMBER][:23])
    c.damaged(0, *chain(512)[:-1], MINUS[:23])
    c.damaged(511, *chain(511), bytes(STEP))
    c.damaged(0, *chain(512)[:5], bytes(STEP), *chain(512)[5:])
    c.damaged(0, *THREE[:2], bytes(STEP), b'\1')
    c.damaged(0, *THREE[:2], MINUS[:20])
    c.damaged(0, b'\0')


# ---- the stack

def pushes(count):
    return [PUSHES[k % 4] for k in range(count)]


def heights(c):
    """64 values on the stack and one more, by each step that pushes one; also where the stack was lower in between."""
    c.sound(*pushes(63), *[PLUS] * 62)
    c.sound(*pushes(64), *[infix(OPERATORS[k % 5]) for k in range(63)])
    c.sound(*pushes(64), MINUS, call('sin'), *[PLUS] * 63)
    c.sound(*pushes(64), PLUS, variable(9), *[PLUS] * 63)
    c.sound(*chain(3), *pushes(63), *[PLUS] * 63)
    for own in PUSHES:
        c.damaged(64, *pushes(64), own)
        c.damaged(64, *pushes(64), own, *[PLUS] * 64)
    c.damaged(64, *pushes(65))
    c.damaged(64, *pushes(200))
    c.damaged(66, *pushes(64), MINUS, call('exp'), variable(3), *[PLUS] * 64)
    c.damaged(66, *pushes(64), PLUS, variable(3), variable(4), *[PLUS] * 64)
    c.damaged(66, *chain(3), *pushes(63), variable(3), *[PLUS] * 64)


def pops(c):
    """Pops that find too little: nothing, or one value for an infix."""
    for own in [call(name) for name in FUNCTIONS] + [prefix(sign) for sign in SIGNS] + [infix(sign) for sign in OPERATORS]:
        c.damaged(0, own)
        c.damaged(0, own, *THREE)
    for sign in OPERATORS:
        for own in PUSHES:
            c.damaged(1, own, infix(sign))
        c.damaged(2, variable(1), MINUS, infix(sign))
        c.damaged(3, *THREE, infix(sign))
        c.damaged(3, *THREE, infix(sign), variable(5))
        c.damaged(5, *THREE, variable(3), PLUS, infix(sign), bytes(STEP))
    c.damaged(127, *pushes(64), *[PLUS] * 64)


def counts(c):
    """More than one value at the end: the step past the last."""
    for count in (2, 3, 4, 63, 64):
        c.damaged(count, *pushes(count))
        c.damaged(count + 1, *pushes(count), MINUS)
    c.damaged(126, *pushes(64), *[PLUS] * 62)
    c.damaged(4, *THREE, variable(3))
    c.damaged(6, *THREE, *THREE)
    c.damaged(512, *chain(511), variable(3))
    c.damaged(512, *chain(510), variable(3), MINUS)
    c.damaged(512, *pushes(2), *[MINUS] * 510)


def several(c):
    """Two faults: the first one counts, whatever its kind."""
    faults = [[bytes(STEP)], [number(NANS[0])], [step(PI, sub=1)], [step(INFIX, 6)], [PLUS], pushes(64)]
    for first in faults:
        for second in faults:
            steps = [variable(1)] + first + [MINUS] + second
            c.damaged(64 if first is faults[-1] else 1, *steps)
            c.damaged(2, number(NAN, NAN), MINUS, bytes(STEP), *first)
    c.damaged(2, *pushes(2), bytes(STEP), *pushes(3))
    c.damaged(1, variable(1), step(VARIABLE, 1, 65535), variable(2))


# ---- sound tapes

def all_steps(c):
    """Every opcode and every sub, least and greatest fields."""
    for own in PUSHES + [variable(0), variable(65535), memory(0, 0), memory(65535, (1 << 32) - 1), memory(0, 1 << 31), memory(1 << 15, 0)]:
        c.sound(own)
    for name in FUNCTIONS:
        c.sound(variable(1), call(name))
    for sign in SIGNS:
        c.sound(variable(1), prefix(sign))
    for sign in OPERATORS:
        c.sound(variable(1), variable(2), infix(sign))
    c.sound(*THREE, *THREE, infix('/'), call('cis'), prefix('+'))


def all_numbers(c):
    """Zeros of either sign, infinities, subnormals, and the one NaN."""
    for bits in DOUBLES:
        c.sound(number(bits, pick.choice(DOUBLES)))
        c.sound(number(pick.choice(DOUBLES), bits), MINUS)


# ---- picks

WHOLE = [b''.join(x) for x in ([variable(1)], [variable(2)], THREE, [variable(1), variable(2), infix('/')], chain(4), chain(5))]
BROKEN = [b''.join(x) for x in (
    [], [b'\1'], [bytes(STEP)], [MINUS], [variable(1), variable(2)], THREE + [PLUS], [number(NANS[0])], THREE + [b'\0'])]


def picks(c):
    """Fewer steps, ties, and tapes of which one or both are unsound."""
    for a in WHOLE + BROKEN:
        for b in WHOLE + BROKEN:
            c.pick(a, b)
    for m, n in ((511, 512), (512, 511), (512, 512), (512, 513), (513, 512), (1, 512), (512, 1), (513, 1), (513, 513)):
        c.pick(b''.join(chain(m)), b''.join(chain(n)[:-1] + [prefix('+') if n % 2 == 0 else infix('/')]) if n > 1 else WHOLE[0])


# ---- listings

def line(*words):
    return ('\t'.join(str(x) for x in words) + '\n').encode()


def bits(x):
    return '%016X' % x


def sized(size):
    """Lines of which the last has exactly this size, and is not deep."""
    if size == 1:
        return [line('v', 3)]
    lines = sized(size - 1 if size % 2 == 0 else size // 2)
    k = len(lines) - 1
    return lines + [line('u', '-', k) if size % 2 == 0 else line('b', '-', k, k)]


def leaf_lines():
    return [line('n', bits(x), bits(pick.choice(DOUBLES + NANS))) for x in DOUBLES + NANS] + [
        line('p'), line('v', 0), line('v', 65535), line('m', 0, 0), line('m', 65535, (1 << 32) - 1), line('m', 258, 16909060)]


def small_listings(c):
    """Every leaf alone, and every operation over two leaves, whose order shows."""
    for own in leaf_lines():
        c.compile(own)
    two = line('v', 1) + line('m', 2, 3)
    for name in FUNCTIONS:
        c.compile(two + line('f', name, 0))
    for sign in SIGNS:
        c.compile(two + line('u', sign, 1))
    for sign in OPERATORS:
        c.compile(two + line('b', sign, 0, 1))
        c.compile(two + line('b', sign, 1, 0))


def other_listings(c):
    """Lines in another order than evaluation's, shared, equal and unreachable ones."""
    later = [line('v', 9), line('p'), line('f', 'sin', 1), line('b', '-', 2, 0), line('v', 4), line('b', '/', 4, 3)]
    c.compile(b''.join(later))
    c.compile(b''.join(later) + line('b', '^', 5, 5))
    c.compile(b''.join(later) + line('b', '^', 3, 5) + line('n', bits(0), bits(SIGN)))
    c.compile(b''.join(later * 2))
    c.compile(line('n', bits(0), bits(0)) + line('n', bits(SIGN), bits(0)) + line('b', '*', 1, 0))
    c.compile(line('v', 1) * 3 + line('b', '+', 2, 0) + line('b', '+', 0, 1) + line('b', '-', 3, 4))
    for _ in range(40):
        c.compile(any_listing(pick.randrange(1, 40)))


def any_listing(count):
    lines = []
    for k in range(count):
        child = lambda: pick.randrange(max(0, k - 6), k)
        kind = pick.choice('nvvmpfubbbb') if k else 'v'
        if kind == 'n':
            lines.append(line('n', bits(pick.choice(DOUBLES)), bits(pick.choice(DOUBLES + NANS))))
        elif kind in 'vmp':
            lines.append({'v': line('v', pick.randrange(6)), 'm': line('m', pick.randrange(3), pick.randrange(3)), 'p': line('p')}[kind])
        elif kind in 'fu':
            lines.append(line(kind, pick.choice(FUNCTIONS if kind == 'f' else SIGNS), child()))
        else:
            lines.append(line('b', pick.choice(OPERATORS), child(), child()))
    return b''.join(lines)


def long_listings(c):
    """Sizes about 512, and output that is too short: 14 comes before 13."""
    for size in (255, 510, 511, 512, 513, 514, 1023, 1000000):
        listing = b''.join(sized(size))
        exact = STEP * size
        for room in sorted({0, 1, exact - 1, exact, exact + 1, STEP * STEPS} if size <= STEPS else {0, STEP * STEPS, STEP * STEPS + 23}):
            c.compile(listing, room=room)
    for room in range(0, 3 * STEP + 2):
        if room % STEP in (0, 1, 12, 23):
            c.compile(line('v', 1) + line('p') + line('b', '-', 1, 0), room=room)
    deep = [line('v', 1)] + [line('u', '-', k) for k in range(63)]
    c.compile(b''.join(deep))
    c.compile(line('v', 1) + b''.join(line('b', '-', k, 0) for k in range(63)))
    c.compile(line('v', 1) + b''.join(line('b', '-', 0, k) for k in range(63)))
    c.compile(b''.join(sized(513)) + line('v', 1))


def refused_listings(c):
    """What reading refuses, by number and line, before 14 and 13."""
    good, long = line('v', 1) + line('u', '-', 0), b''.join(sized(513))
    deep = line('v', 1) + b''.join(line('u', '-', k) for k in range(64))
    big = line('p') + b''.join(line('b', '+', k, k) for k in range(20))
    for bad in (b'', b'\n', b'q\n', line('v', 65536), line('u', '-', 2), line('u', '*', 0), good[:-1], line('s', 1, 0), b'p\r\n'):
        for before in (b'', good, long):
            c.compile(before + bad, room=0)
            c.compile(before + bad, room=STEP * STEPS)
    for listing in (deep, big, line('p') * 1024, line('p') * 1025, line('p') * 1024 + b'q\n', good + line('s', 1, 1), deep + b'q\n'):
        for room in (0, STEP * STEPS):
            c.compile(listing, room=room)
    for nodes in range(4):
        for room in (0, STEP * 3, STEP * STEPS):
            c.compile(line('v', 1) + line('p') + line('b', '-', 1, 0), nodes=nodes, room=room)
    c.compile(long, nodes=12, room=0)
    c.compile(long, nodes=3, room=0)
    c.compile(b''.join(line('v', k) for k in range(NODE_LINES)), nodes=NODE_LINES - 1)
    c.compile(b''.join(line('v', k) for k in range(NODE_LINES)), nodes=NODE_LINES)


# ---- plays

def sheet_of(variables, cells, rows):
    return b''.join([line('v', n, bits(x), bits(y)) for n, (x, y) in sorted(variables.items())] +
                    [line('m', *key, bits(x)) for key, x in sorted(cells.items())] +
                    [line('t', name, *[bits(x) for x in words]) for name, words in rows])


def any_number():
    return pick.choice(DOUBLES), pick.choice(DOUBLES[:8])


def plain_number():
    return tuple((pick.choice([0, SIGN]) + (pick.randrange(1016, 1032) << 52) + pick.getrandbits(52)) for _ in range(2))


def fill_sheet(tape, draw, most, unbound):
    """A sheet with a row for each of the first function values that playing asks for; they need not be right. `unbound` is how likely
    a variable or a cell has no line."""
    variables = {n: draw() for n in range(6) if pick.random() >= unbound}
    cells = {(r, k): draw()[0] for r in range(3) for k in range(3) if pick.random() >= unbound}
    rows = []
    while len(rows) < most:
        try:
            played(tape, sheet_of(variables, cells, rows))
        except Need as need:
            operation, *operands = need.args
            rows.append((OPERATIONS[operation - 1].decode(), [*operands, *draw()]))
            continue
        except Refused:
            pass
        break
    return sheet_of(variables, cells, rows)


def any_tape(count):
    """A sound tape of about this many steps, with stacks of any height, and of trees that may be deep."""
    steps, height = [], 0
    while len(steps) < count or height > 1:
        ends = len(steps) >= count
        kind = 'b' if ends else pick.choice('nvvmpfubb')
        if height < 2 and kind == 'b' or height < 1 and kind in 'fu' or height == STACK and kind in 'nvmp':
            continue
        height += {'b': -1, 'f': 0, 'u': 0}.get(kind, 1)
        steps.append({
            'n': number(*any_number()), 'v': variable(pick.randrange(6)), 'm': memory(pick.randrange(3), pick.randrange(3)), 'p': CONSTANT,
            'f': call(pick.choice(FUNCTIONS)), 'u': prefix(pick.choice(SIGNS)), 'b': infix(pick.choice(OPERATORS))}[kind])
    return b''.join(steps)


def arithmetic(c):
    """Each operation on numbers of every kind."""
    for sign in OPERATORS[:4]:
        for k in range(16):
            x, y = (any_number(), any_number()) if k % 2 else (plain_number(), plain_number())
            c.play(number(*x) + number(*y) + infix(sign), b'')
    for x, y in ((ONE, 0), (0, 0), (SIGN, SIGN), (INF, 0), (NAN, ONE)):
        c.play(number(x, y) + number(0, SIGN) + infix('/'), b'')
    for sign in SIGNS:
        for x in DOUBLES:
            c.play(number(x, pick.choice(DOUBLES)) + prefix(sign), b'')
    c.play(CONSTANT, b'')


def functions(c):
    """Each function with its row, without it, and with rows that are not its own; cis asks cos first."""
    for name in FUNCTIONS[:4] + ['^']:
        x, y = plain_number(), plain_number() if name == '^' else (0, 0)
        tape = number(*x) + (number(*y) + infix('^') if name == '^' else call(name))
        row = 'pow' if name == '^' else name
        for rows in ([], [(row, [*x, *y, ONE, TWO])], [(row, [*x, *y, TWO, NANS[0]]), (row, [*x, *y, ONE, TWO])],
                     [(row, [x[0] ^ SIGN, x[1], *y, ONE, TWO])], [('sin' if name != 'sin' else 'cos', [*x, 0, 0, ONE, TWO])]):
            c.play(tape, sheet_of({}, {}, rows))
    x = plain_number()
    sine, cosine = ('sin', [*x, 0, 0, *plain_number()]), ('cos', [*x, 0, 0, *plain_number()])
    for rows in ([], [sine], [cosine], [sine, cosine], [cosine, sine]):
        c.play(number(*x) + call('cis'), sheet_of({}, {}, rows))
    for zero in (0, SIGN):
        c.play(number(zero) + call('sqrt'), sheet_of({}, {}, [('sqrt', [SIGN, 0, 0, 0, ONE, ONE])]))
    c.play(number(NAN) + call('exp'), sheet_of({}, {}, [('exp', [NANS[3], 0, 0, 0, NANS[4], ONE])]))


def lacks(c):
    """Variables and cells without a line, beside function values that are lacking: the first lack counts."""
    sheet = sheet_of({1: (ONE, TWO), 65535: (TWO, ONE)}, {(0, 0): ONE, (1, 5): TWO}, [])
    cells = [memory(*key) for key in ((0, 0), (0, 1), (1, 5), (5, 1), (1, 0))]
    for own in [variable(n) for n in (0, 1, 2, 65535)] + cells:
        c.play(own, sheet)
        c.play(own, b'')
        c.play(own + number(TWO) + call('sin') + PLUS, sheet)
        c.play(number(TWO) + call('sin') + own + PLUS, sheet)
        c.play(own + number(TWO) + infix('-'), sheet)
        c.play(number(TWO) + own + infix('-'), sheet)


def refused_plays(c):
    """An unsound tape, before the sheet is read; then the sheet's 4 and 3."""
    bad_sheets = [b'\n', b'q\n', b'v\t0', line('v', 0, bits(0)), line('v', 1, bits(0), bits(0)) * 2, line('p')]
    long_sheet = b''.join(line('v', n, bits(0), bits(0)) for n in range(257))
    for sheet in bad_sheets:
        for tape in (b'', THREE[0][:23], b''.join(THREE + [PLUS]), b''.join(pushes(64)), b''.join(THREE), call('sin'), number(NANS[1]),
                     number(ONE), variable(5)):
            c.play(tape, sheet)
    for tape in (number(ONE), variable(5), variable(300), call('sin')):
        c.play(tape, long_sheet)
        c.play(tape, b''.join(long_sheet.splitlines(True)[:-1]) + b'v\n')
        c.play(tape, b''.join(long_sheet.splitlines(True)[:-2]) + b'v\n' * 3)
    for tape in (b''.join(chain(513)), bytes(STEP), CONSTANT + bytes(STEP), b''.join(pushes(65))):
        c.play(tape, b'')


def any_plays(c):
    """Tapes at random, short and long; deep trees; the highest stack."""
    for k in range(120):
        tape = any_tape(pick.choice([3, 8, 20, 60]))
        c.play(tape, fill_sheet(tape, pick.choice([any_number, plain_number]), pick.choice([0, 3, 40]), pick.choice([0, 0, 0.1])))
    for count in (511, 512):
        tape = b''.join(chain(count)).replace(infix('^'), infix('+'))
        c.play(tape, b''.join(line('v', n, bits(ONE + n), bits(TWO)) for n in range(0, 2 * 256, 2)))
    tape = b''.join([number(*plain_number()) for _ in range(64)] + [infix(OPERATORS[k % 4]) for k in range(63)])
    c.play(tape, b'')
    c.play(tape, line('v', 0, bits(0), bits(0)))
    left = b''.join([number(*plain_number())] + [x for k in range(255) for x in (number(*plain_number()), infix('+-*/'[k % 4]))] + [MINUS])
    c.play(left, b'')


# ---- the lists that tests/rust/run stores, whose evaluations the program also compiles and plays

def stored_list(name):
    return os.path.join(CRATES, 'call_cases', 'data', name)


def stored_cases(name):
    """The letter, the listing, the sheet, the room for nodes, the stored answer and the line of marks of each, b'' where it has none;
    tests/rust/README.md has the form."""
    with open(stored_list(name), 'rb') as f:
        data = f.read()
    at = 0
    while at < len(data):
        kind, _, rows, texts, outputs, *answer = data[at:at + 190].split(b'\t')
        texts, outputs = int(texts, 16), int(outputs, 16)
        start, middle = at + 190, at + 190 + (texts >> 32)
        end = middle + texts % (1 << 32)
        at = end + outputs % (1 << 32)
        marks = data[at:at + MARKS] if kind[:1] in b'EZ' else b''
        yield kind[:1], data[start:middle], data[middle:end], int(rows, 16), tuple(int(x, 16) for x in answer[:6]), marks
        at += len(marks)


def one_zero(answer):
    return tuple(0 if x == SIGN and answer[0] == 0 else x for x in (*answer, 0, 0, 0, 0)[:6])


def rust_said(name):
    """What has to be said of a list, where the model's answers are the Rust's, zeros of either sign as one, and the marks too."""
    cases, tapes = list(stored_cases(name)), [0, 0, 0]
    for kind, listing, sheet, nodes, wanted, marks in cases:
        if kind not in b'eE':
            continue
        try:
            got = answer_of(compiled(listing, nodes, TAPE), sheet)
            tapes[0] += 1
        except Refused as why:
            got = wanted if why.number == 14 else (why.number, why.place)
            tapes[1 if why.number == 14 else 2] += 1
        if one_zero(got) != one_zero(wanted):
            sys.exit('the model answers %s where the Rust answers %s to\n%s' % (got, wanted, listing.decode()))
        if marks and marks != marks_line(evaluated(listing, sheet, nodes)[1]):
            sys.exit('the model uses other rows than the Rust asks for in\n%s\n%s' % (listing.decode(), sheet.decode()))
    return said_of(name, cases, tapes)


def said_of(name, cases, tapes=None):
    """Of a list that is evaluated it is said besides how many tapes there were."""
    said = '%s: %d cases, 0 wrong\n' % (name, len(cases))
    return said if tapes is None else said + '%d compiled and played, %d too long for a tape, %d refused\n' % tuple(tapes)


def main():
    c = Cases()
    for cases in (
            unused_fields, unused_bytes, codes, nans, cuts, lengths, heights, pops, counts, several, all_steps, all_numbers, picks,
            small_listings, other_listings, long_listings, refused_listings, arithmetic, functions, lacks, refused_plays, any_plays):
        cases(c)
    marks, origins = MarkCases(), OriginCases()
    c.lists['marks'], c.lists['origins'], c.lists['examples'] = marks.cases, origins.cases, example_cases()
    tapes = {'marks': marks.tapes, 'origins': origins.tapes}
    rust = [name for name in ('rust', 'rust_marks') if os.path.exists(stored_list(name))]
    said = ''.join(rust_said(name) for name in rust)
    said += ''.join(said_of(name, cases, tapes.get(name)) for name, cases in c.lists.items())
    lists = {name: b''.join(cases) for name, cases in c.lists.items()}
    hold_program('call_cases', lists, [*rust, *lists], said.encode())
    print(said, end='')


main()
