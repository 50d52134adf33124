"""Makes commands for a store, and what each has to give, by a model that knows trees and no store.

A line of the commands is a letter, a digit and two fields of 16 hex digits:
    j   fill rows and desk with a word
    s   start a store; the first field says how many of the 4096 rows are lent from then on
    n   add the number with these bits; p pi; v the variable; m the cell of a region and an index
    f   add a call, by its digit 1 sin, 2 cos, 3 exp, 4 sqrt, 5 cis, on a node; u 1 + or 2 - before a node
    b   add 1 +, 2 -, 3 *, 4 / or 5 ^ of two nodes
    k   keep the second node as the result of the first; r recall the result of a node; e compare two nodes
    c   clear what is lent; the answer says of each of a row's four words in how many of all rows it is not zero, and `desk` if that is not
What an add is to answer: `node`, its number, the count of nodes, the number of the command (which an add finds on the desk, and leaves
there, as the count of simplify calls), size, depth, class and the node itself, as a line of a listing; or `refused` with number and place.
"""
import hashlib
import random

WHOLE, LARGEST, DEEPEST = 4096, 1000000, 64
SIGN, INF, NAN, ONE, TWO = 1 << 63, 0x7FF << 52, 0x7FF8 << 48, 0x3FF << 52, 1 << 62
FUNCTIONS = ['sin', 'cos', 'exp', 'sqrt', 'cis']
OPERATORS = ['+', '-', '*', '/', '^']
JUNK = 0xDEADBEEF00010001


# ---- trees. Each is known by two digests: trees are identical, or equal, if these are the same.

def canonical(bits):
    return NAN if bits % SIGN > INF else bits


def unsigned_zero(bits):
    return 0 if bits == SIGN else bits


def digest(*parts):
    return hashlib.sha256(repr(parts).encode()).digest()


class Tree:
    def __init__(self, kind, name, values, children):
        self.identical = digest(kind, name, values, [t.identical for t in children])
        loose = [unsigned_zero(x) for x in values] if kind == 'n' else values
        self.equal = digest(kind, name, loose, [t.equal for t in children])
        self.size = 1 + sum(t.size for t in children)
        self.depth = 1 + max([t.depth for t in children], default=0)


# ---- what the store has to do, on trees

class Model:
    def __init__(self):
        self.commands, self.answers = [], []
        self.rows = [JUNK] * WHOLE  # the word that a row has four times; None: what a store left there
        self.start(0)
        self.commands, self.answers = [], []

    def say(self, letter, digit, a, b, answer):
        self.commands.append('%s\t%d\t%016x\t%016x\n' % (letter, digit, a, b))
        self.answers.append(answer + '\n')

    def fill(self, word):
        self.rows = [word] * WHOLE
        self.say('j', 0, word, 0, 'filled')

    def start(self, room):
        self.room = room
        self.stored, self.texts, self.node_of, self.first_of, self.kept = [], [], {}, {}, {}
        self.rows[:room] = [None] * room
        self.say('s', 0, room, 0, 'started')

    def clear(self):
        self.rows[:self.room] = [0] * self.room
        assert None not in self.rows, 'a store left there what no model knows'
        self.stored, self.texts, self.node_of, self.first_of, self.kept = [], [], {}, {}, {}
        self.say('c', 0, 0, 0, 'cleared' + '\t%d' % sum(x != 0 for x in self.rows) * 4)

    def add(self, letter, digit, a, b, tree, text):
        """The number of the tree's node; None after a refusal."""
        at, why = self.node_of.get(tree.identical), 0
        if at is None:
            why = 6 if tree.size > LARGEST else 7 if tree.depth > DEEPEST else 8 if len(self.stored) == self.room else 0
            if why == 0:
                at = self.node_of[tree.identical] = len(self.stored)
                self.first_of.setdefault(tree.equal, at)
                self.stored.append(tree)
                self.texts.append(text)
        if why:
            answer = 'refused\t%d\t0' % why
        else:
            answer = 'node\t%d\t%d\t%d\t%d\t%d\t%d\t%s' % (
                at, len(self.stored), len(self.commands), tree.size, tree.depth, self.first_of[tree.equal], self.texts[at])
        self.say(letter, digit, a, b, answer)
        return at

    def number(self, re, im):
        x, y = canonical(re), canonical(im)
        return self.add('n', 0, re, im, Tree('n', '', [x, y], []), 'n\t%016X\t%016X' % (x, y))

    def pi(self):
        return self.add('p', 0, 0, 0, Tree('p', '', [], []), 'p')

    def variable(self, v):
        return self.add('v', 0, v, 0, Tree('v', '', [v], []), 'v\t%d' % v)

    def cell(self, region, index):
        return self.add('m', 0, region, index, Tree('m', '', [region, index], []), 'm\t%d\t%d' % (region, index))

    def call(self, name, child):
        tree = Tree('f', name, [], [self.stored[child]])
        return self.add('f', FUNCTIONS.index(name) + 1, child, 0, tree, 'f\t%s\t%d' % (name, child))

    def prefix(self, sign, child):
        tree = Tree('u', sign, [], [self.stored[child]])
        return self.add('u', OPERATORS.index(sign) + 1, child, 0, tree, 'u\t%s\t%d' % (sign, child))

    def infix(self, sign, left, right):
        tree = Tree('b', sign, [], [self.stored[left], self.stored[right]])
        return self.add('b', OPERATORS.index(sign) + 1, left, right, tree, 'b\t%s\t%d\t%d' % (sign, left, right))

    def keep(self, e, result):
        self.kept[self.stored[e].equal] = result
        self.say('k', 0, e, result, 'keeps')

    def recall(self, e):
        at = self.kept.get(self.stored[e].equal)
        self.say('r', 0, e, 0, 'nothing' if at is None else 'result\t%d' % at)

    def compare(self, a, b):
        self.say('e', 0, a, b, 'equal' if self.stored[a].equal == self.stored[b].equal else 'unequal')


# ---- the cases

pick = random.Random(1)
NANS = [NAN, INF + 1, INF + (1 << 52) - 1, NAN + SIGN, INF + SIGN + 1, NAN + 0xDEADBEEF]
DOUBLES = [0, SIGN, 1, SIGN + 1, ONE, ONE + SIGN, ONE + 1, TWO, 0x400921FB54442D18, 0x3FB999999999999A, INF, INF + SIGN, NAN]
ZEROS = [(0, 0), (0, SIGN), (SIGN, 0), (SIGN, SIGN)]


def every_kind(m):
    """Nodes of every kind, operator and function, on the newest nodes that there are."""
    for re, im in ZEROS + [(ONE, 0), (ONE, SIGN), (ONE + SIGN, TWO), (NANS[2], 0), (0, NANS[5]), (INF, INF + SIGN)]:
        m.number(re, im)
    m.pi()
    for v in (0, 1, 65535):
        m.variable(v)
    for region, index in ((0, 0), (0, 1), (1, 0), (65535, 4294967295)):
        m.cell(region, index)
    for child in range(min(3, len(m.stored))):
        for name in FUNCTIONS:
            m.call(name, child)
        for sign in '+-':
            m.prefix(sign, len(m.stored) - 1 - child)
        for sign in OPERATORS:
            m.infix(sign, child, len(m.stored) - 1 - child)
            m.infix(sign, len(m.stored) - 1 - child, child)


def fates(m):
    """What is kept and equal, at most of the first nodes."""
    some = range(min(9, len(m.stored)))
    for e in some:
        m.recall(e)
        for other in some:
            m.compare(e, other)
        m.keep(e, len(m.stored) - 1 - e)
        m.recall(e)
    for e in some:
        m.recall(e)


def capacities(m):
    """Every kind, twice, at each capacity, whatever the rows held."""
    for room in (0, 1, 2, 7, 4096):
        for _ in range(5):
            pick.randrange(3)  # nothing uses it: the commands after it stay the stored ones
            m.fill(pick.choice([JUNK, (1 << 64) - 1, 1, 0x0001000100010001, pick.getrandbits(64) | 1]))
            m.start(room)
            every_kind(m)
            every_kind(m)
            fates(m)
            m.clear()
            if room == 4096:
                break


def again(m):
    """A start forgets all of the store before, which stands in the rows."""
    for room in (40, 40, 45, 7, WHOLE, 2):
        m.start(room)
        every_kind(m)
        fates(m)
    m.fill(0)
    m.start(5)
    every_kind(m)
    m.clear()


def zeros(m):
    """Nodes that are equal and not identical: their children differ in the sign of a zero, at any depth."""
    m.fill((1 << 64) - 1)
    m.start(300)
    leaves = [m.number(re, im) for re, im in ZEROS]
    ones = [m.number(ONE, 0), m.number(ONE, SIGN), m.number(ONE + SIGN, 0)]
    sines = [m.call('sin', x) for x in leaves + ones]
    minus = [m.prefix('-', x) for x in sines]
    sums = [m.infix('+', x, y) for x in sines[:4] for y in minus[:4]]
    other = [m.infix('-', x, y) for x, y in zip(sums, reversed(sums))]
    swapped = [m.infix('+', y, x) for x in sines[:2] for y in minus[:2]]
    m.call('cos', sums[0])
    for re in NANS:
        for im in (0, SIGN, NANS[1]):
            m.number(re, im)
            m.number(im, re)
    groups = [leaves, ones, sines, minus, sums, other, swapped, [len(m.stored) - 1, len(m.stored) - 2]]
    for group in groups:
        for x in group[:6]:
            m.compare(x, group[-1])
            m.compare(group[0], x)
            m.compare(x, groups[0][0])
            m.recall(x)
            m.keep(x, group[pick.randrange(len(group))])
            m.recall(group[0])
            m.recall(group[-1])
    for e in range(len(m.stored)):
        m.recall(e)
    m.clear()


def sized(m, size):
    """A node of exactly this size."""
    if size == 1:
        return m.variable(7)
    if size % 2 == 0:
        return m.call('exp', sized(m, size - 1))
    half = sized(m, size // 2)
    return m.infix('+', half, half)


def largest(m):
    """1,000,000 and one more, by every kind of parent."""
    m.fill(JUNK)
    m.start(100)
    most = sized(m, LARGEST)
    m.prefix('-', most)
    m.call('sin', most)
    m.infix('*', most, 0)
    m.infix('*', 0, most)
    half = sized(m, 500000)
    m.infix('*', half, half)
    below = sized(m, 499999)
    m.infix('*', half, below)
    m.infix('*', below, half)
    m.prefix('-', m.infix('/', below, below))
    m.infix('^', most, most)
    m.variable(9)
    m.clear()


def chain(m, start, depth):
    """A node of this depth, from one that is less deep."""
    at = start
    while m.stored[at].depth < depth:
        at = m.prefix('-', at) if m.stored[at].depth % 2 else m.call('cis', at)
    return at


def deepest(m):
    """Depth 64 and one more, on either side of an infix."""
    m.fill(1)
    m.start(80)
    at = chain(m, m.pi(), DEEPEST)
    m.prefix('+', at)
    m.call('sqrt', at)
    m.infix('+', at, 0)
    m.infix('+', 0, at)
    m.infix('+', at - 1, 0)
    m.infix('+', 0, at - 1)
    m.infix('+', at - 1, at - 1)
    m.infix('+', at, at - 1)
    m.variable(3)
    m.clear()


def tower(m, room):
    """A store of this room with a node that is large and of depth 64; the count of nodes in it."""
    m.fill(JUNK)
    m.start(room)
    return chain(m, sized(m, 500000), DEEPEST), len(m.stored)


def together(m):
    """Too big, too deep and no room at once, in all combinations, where what is stored is still found."""
    _, count = tower(m, 1000)
    for room in (count, count + 1):
        at, _ = tower(m, room)
        big = next(k for k in range(len(m.stored)) if m.stored[k].size == 500000)
        m.infix('+', at, at)
        m.prefix('-', at)
        m.infix('+', big, big)
        m.infix('+', 0, at)
        m.variable(1)
        m.variable(2)
        for e in (0, big, at):
            m.recall(e)
            m.keep(e, e)
            m.recall(e)
        chain(m, sized(m, 500000), DEEPEST)
        m.clear()


def node_at(m, k):
    """The k-th of many different nodes, half of them on earlier ones; numbers come in pairs that are equal."""
    kind, i = k % 6, k // 6
    if kind == 0:
        return m.variable(i)
    if kind == 1:
        return m.cell(i % 37, i * 104729 % (1 << 32))
    if kind == 2:
        return m.number(ONE + (i // 2 << 40), SIGN * (i % 2))
    if kind == 3:
        return m.infix(OPERATORS[i % 5], k - 1 - i % 2, max(k - 3, 0) // 2)
    if kind == 4:
        return m.infix('+', 6 * (i // 2), max(k - 3, 0))
    return m.call(FUNCTIONS[i % 5], 6 * (i // 5)) if i % 3 else m.infix('-', k - 3, k - 4)


def full(m):
    """4096 different nodes, more that have no room, and all of them again in another order."""
    m.fill((1 << 64) - 1)
    m.start(WHOLE)
    k = 0
    while len(m.stored) < WHOLE:
        node_at(m, k)
        k += 1
    m.variable(65535)
    m.infix('^', 0, WHOLE - 1)
    m.infix('^', WHOLE - 1, WHOLE - 1)
    order = list(range(k))
    pick.shuffle(order)
    for k in order:
        node_at(m, k)
    for _ in range(60):
        e, result = pick.randrange(WHOLE), pick.choice([0, pick.randrange(WHOLE), WHOLE - 1])
        m.recall(e)
        m.keep(e, result)
        m.recall(e)
        m.compare(e, result)
    m.keep(WHOLE - 1, WHOLE - 1)
    m.recall(WHOLE - 1)
    m.clear()


def any_command(m):
    nodes = len(m.stored)
    choice = pick.randrange(12) if nodes else pick.randrange(4)
    child = lambda: pick.randrange(nodes) if pick.random() < 0.5 else pick.randrange(max(0, nodes - 8), nodes)
    if choice < 2:
        m.number(pick.choice(DOUBLES), pick.choice(DOUBLES[:5] + NANS))
    elif choice == 2:
        m.variable(pick.randrange(20))
    elif choice == 3:
        m.pi() if pick.random() < 0.2 else m.cell(pick.randrange(3), pick.randrange(4))
    elif choice == 4:
        m.call(pick.choice(FUNCTIONS), child())
    elif choice == 5:
        m.prefix(pick.choice('+-'), child())
    elif choice < 9:
        m.infix(pick.choice(OPERATORS), child(), child())
    elif choice == 9:
        m.keep(child(), child())
    elif choice == 10:
        m.recall(child())
    else:
        m.compare(child(), child())


def mixed(m):
    """Commands at random, with few leaves, so that much is equal or stored already."""
    for room in (3, 16, 17, 64, 150, 4095):
        m.fill(pick.getrandbits(64) | 1)
        pick.randrange(4)  # nothing uses it: the commands after it stay the stored ones
        m.start(room)
        for _ in range(5 * min(room, 60)):
            any_command(m)
        m.clear()


def made():
    """The commands, and what the program has to write of each."""
    m = Model()
    for case in (capacities, again, zeros, largest, deepest, together, full, mixed):
        case(m)
    return [line.encode() for line in m.commands], [line.encode() for line in m.answers]
