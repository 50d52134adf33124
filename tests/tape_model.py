"""A second reading of 01 for its tapes, on trees and bytes: the steps of a tree, when bytes are a sound tape, what playing answers and which
t rows it uses, and which of two tapes is picked. The texts are read by texts_model.py."""
import math
import struct

from texts_model import INF, NAN, OPERATIONS, SIGN, Refused, read_listing, read_sheet

STEP, STEPS, STACK = 24, 512, 64
NUMBER, PI, VARIABLE, MEMORY, FUNCTION, PREFIX, INFIX = range(1, 8)
FUNCTIONS, SIGNS, OPERATORS = ['sin', 'cos', 'exp', 'sqrt', 'cis'], ['+', '-'], ['+', '-', '*', '/', '^']
SUBS = {FUNCTION: 5, PREFIX: 2, INFIX: 5}  # how many there are, from 1 on
POPS = {FUNCTION: 1, PREFIX: 1, INFIX: 2}
PI_BITS = 0x400921FB54442D18


# ---- steps and their bytes

def step(opcode, sub=0, half=0, word=0, re=0, im=0):
    return struct.pack('<BBHIQQ', opcode, sub, half, word, re, im)


def fields_of(tape, k):
    return struct.unpack_from('<BBHIQQ', tape, STEP * k)


def step_of(tree):
    """The step of a visit to the root of a tree."""
    kind, *words = tree.words
    if kind == 'n':
        return step(NUMBER, re=int(words[0], 16), im=int(words[1], 16))
    if kind == 'p':
        return step(PI)
    if kind == 'v':
        return step(VARIABLE, half=int(words[0]))
    if kind == 'm':
        return step(MEMORY, half=int(words[0]), word=int(words[1]))
    opcode, names = {'f': (FUNCTION, FUNCTIONS), 'u': (PREFIX, SIGNS), 'b': (INFIX, OPERATORS)}[kind]
    return step(opcode, names.index(words[0]) + 1)


def visits(tree):
    """Evaluation goes depth first, left before right, and a node after its children."""
    for child in tree.children:
        yield from visits(child)
    yield tree


def compiled(listing, nodes, room):
    """The tape of a listing; `nodes` is the room for nodes, `room` that for bytes."""
    root, _, _ = read_listing(listing, False, nodes)
    if root.size > STEPS:
        raise Refused(14, 0)
    if STEP * root.size > room:
        raise Refused(13, 0)
    return b''.join(step_of(tree) for tree in visits(root))


# ---- soundness

def is_known(opcode, sub, half, word, re, im):
    """Whether the codes are known, the unused fields zero, and each NaN the one."""
    if not NUMBER <= opcode <= INFIX:
        return False
    if not (1 <= sub <= SUBS[opcode] if opcode in SUBS else sub == 0):
        return False
    if (half and opcode not in (VARIABLE, MEMORY)) or (word and opcode != MEMORY):
        return False
    if opcode != NUMBER:
        return re == im == 0
    return all(x % SIGN <= INF or x == NAN for x in (re, im))


def bad_step(tape):
    """The first bad step of a tape; None if it is sound."""
    count, rest = divmod(len(tape), STEP)
    if rest or not 1 <= count <= STEPS:
        return 0
    height = 0
    for k in range(count):
        fields = fields_of(tape, k)
        pops = POPS.get(fields[0], 0)
        if not is_known(*fields) or pops > height or height - pops + 1 > STACK:
            return k
        height += 1 - pops
    return None if height == 1 else count


def picked(a, b):
    """0 where neither is sound, 1 for the first, 2 for the second; and what is handed back."""
    sound = [(len(tape), which) for which, tape in ((1, a), (2, b)) if bad_step(tape) is None]
    which = min(sound)[1] if sound else 0
    return which, [b'', a, b][which]


# ---- playing. Numbers are pairs of floats; all NaNs are one.

class Need(Exception):
    pass


def float_of(bits):
    return struct.unpack('<d', struct.pack('<Q', bits))[0]


def bits_of(x):
    return NAN if x != x else struct.unpack('<Q', struct.pack('<d', x))[0]


def over(x, y):
    if y != 0:
        return x / y
    return math.copysign(math.inf, math.copysign(1, x) * math.copysign(1, y)) if abs(x) > 0 else math.nan


def infix(operator, x, y, rows):
    (a, b), (c, d) = x, y
    if operator == '+':
        return a + c, b + d
    if operator == '-':
        return a - c, b - d
    if operator == '*':
        return a * c - b * d, a * d + b * c
    if operator == '/':
        n = c * c + d * d
        return over(a * c + b * d, n), over(b * c - a * d, n)
    return looked_up(b'pow', x, y, rows)


def looked_up(name, x, y, rows):
    operands = [bits_of(part) for part in (*x, *y)]
    if (b't', name, *operands) not in rows:
        raise Need(OPERATIONS.index(name) + 1, *operands)
    return tuple(float_of(bits) for bits in rows.use((b't', name, *operands)))


def function(name, x, rows):
    if name != 'cis':
        return looked_up(name.encode(), x, (0.0, 0.0), rows)
    cosine = looked_up(b'cos', x, (0.0, 0.0), rows)
    sine = looked_up(b'sin', x, (0.0, 0.0), rows)
    return infix('+', cosine, infix('*', (0.0, 1.0), sine, rows), rows)


def bound(key, rows):
    if key not in rows:
        raise Refused(10, 0)
    return tuple(float_of(bits) for bits in rows[key])


def do(stack, rows, opcode, sub, half, word, re, im):
    """One step."""
    if opcode == NUMBER:
        return stack + [(float_of(re), float_of(im))]
    if opcode == PI:
        return stack + [(float_of(PI_BITS), 0.0)]
    if opcode == VARIABLE:
        return stack + [bound((b'v', half), rows)]
    if opcode == MEMORY:
        return stack + [bound((b'm', half, word), rows)]
    if opcode == FUNCTION:
        return stack[:-1] + [function(FUNCTIONS[sub - 1], stack[-1], rows)]
    if opcode == PREFIX:
        a, b = stack[-1]
        return stack[:-1] + [{'+': (a, b), '-': (-a, -b)}[SIGNS[sub - 1]]]
    return stack[:-2] + [infix(OPERATORS[sub - 1], *stack[-2:], rows)]


def played(tape, sheet, used=None):
    """The bits of the value, after the refusals in their order. To `used` the numbers of the t rows are added that are used up to there."""
    bad = bad_step(tape)
    if bad is not None:
        raise Refused(15, bad)
    _, rows = read_sheet(sheet)
    rows.used = set() if used is None else used
    stack = []
    for k in range(len(tape) // STEP):
        stack = do(stack, rows, *fields_of(tape, k))
    [(a, b)] = stack
    return bits_of(a), bits_of(b)
