"""A second reading of 01 for its two texts, on trees and bytes: what a listing and a value sheet say, when they are refused, and how
an expression is written, with and without origins. It knows no store and no table."""
import hashlib
import re

NODE_LINES, SWAP_LINES = 1024, 256
ROW_LINES = {b'v': 256, b'm': 1024, b't': 256}
LARGEST, DEEPEST = 1000000, 64
SIGN, INF, NAN = 1 << 63, 0x7FF << 52, 0x7FF8 << 48


class Refused(Exception):
    def __init__(self, number, place):
        super().__init__(number, place)
        self.number, self.place = number, place


# ---- lines and fields

def lines_of(text):
    """Each line without its line feed, and whether it had one. An empty rest is no line."""
    *ended, rest = text.split(b'\n')
    return [(line, True) for line in ended] + ([(rest, False)] if rest else [])


WHOLE, DOUBLE = b'(0|[1-9][0-9]*)', b'([0-9A-F]{16})'


def form(*fields):
    return re.compile(b'\t'.join(fields))


def fields_of(forms, line):
    """The fields of a line, whose form is known by its first byte; None where it has not that form."""
    match = forms[line[:1]].fullmatch(line) if line[:1] in forms else None
    return match and match.groups()


def double(field):
    bits = int(field, 16)
    return NAN if bits % SIGN > INF else bits


# ---- listings

class Tree:
    """The words of a line before its children's numbers, and the children. Trees are identical if their digests are."""

    def __init__(self, words, children=()):
        self.words, self.children = words, children
        self.digest = hashlib.sha256(repr((words, [t.digest for t in children])).encode()).digest()
        self.size = 1 + sum(t.size for t in children)
        self.depth = 1 + max([t.depth for t in children], default=0)


ORIGIN = b'@(?:-|0|[1-9][0-9]{0,2}|10[01][0-9]|102[0-3])'


def node_form(*fields):
    """A node line, which may have an origin as its last field. Nothing is made of that."""
    return re.compile(b'\t'.join(fields) + b'(?:\t' + ORIGIN + b')?')


NODES = {
    b'n': node_form(b'n', DOUBLE, DOUBLE), b'p': node_form(b'p'), b'v': node_form(b'v', WHOLE), b'm': node_form(b'm', WHOLE, WHOLE),
    b'f': node_form(b'f', b'(sin|cos|exp|sqrt|cis)', WHOLE), b'u': node_form(b'u', b'([+-])', WHOLE),
    b'b': node_form(b'b', b'([-+*/^])', WHOLE, WHOLE)}
SWAPS = {b's': form(b's', WHOLE, WHOLE)}


def tree_of(line, earlier):
    """The tree of a node line, None where it is malformed. `earlier` are the trees of the lines before."""
    fields = fields_of(NODES, line)
    if fields is None:
        return None
    kind = line[:1].decode()
    if kind == 'n':
        return Tree(['n'] + ['%016X' % double(x) for x in fields])
    if kind in 'pvm':
        numbers = [int(x) for x in fields]
        is_within = all(x < limit for x, limit in zip(numbers, (1 << 16, 1 << 32)))
        return Tree([kind] + ['%d' % x for x in numbers]) if is_within else None
    name, *children = fields
    if any(int(x) >= len(earlier) for x in children):
        return None
    return Tree([kind, name.decode()], [earlier[int(x)] for x in children])


def keep(tree, stored, room):
    """Stores a tree, unless it is stored."""
    if tree.digest in stored:
        return
    if tree.size > LARGEST:
        raise Refused(6, 0)
    if tree.depth > DEEPEST:
        raise Refused(7, 0)
    if len(stored) >= room:
        raise Refused(8, 0)
    stored.add(tree.digest)


def swap_of(line, nodes, swaps):
    """The variable and the tree of an s line, None where it is malformed or out of order."""
    fields = fields_of(SWAPS, line)
    if fields is None:
        return None
    variable, node = int(fields[0]), int(fields[1])
    if variable >= 1 << 16 or node >= len(nodes) or any(variable <= v for v in swaps):
        return None
    return variable, nodes[node]


def read_lines(text, substituting, room):
    """The trees of the node lines, how many different ones were stored, and the tree that is put in for each variable."""
    nodes, stored, swaps = [], set(), {}
    for i, (line, is_ended) in enumerate(lines_of(text)):
        is_swap = line[:1] == b's'
        if (len(swaps) == SWAP_LINES) if is_swap else (len(nodes) == NODE_LINES):
            raise Refused(2, i)
        if is_swap:
            swap = swap_of(line, nodes, swaps)
            if not (substituting and is_ended and swap):
                raise Refused(1, i)
            swaps[swap[0]] = swap[1]
        else:
            tree = tree_of(line, nodes)
            if not (is_ended and tree) or swaps:
                raise Refused(1, i)
            keep(tree, stored, room)
            nodes.append(tree)
    if not nodes:
        raise Refused(1, 0)
    return nodes, len(stored), swaps


def read_listing(text, substituting, room):
    """The root instead of all trees."""
    nodes, stored, swaps = read_lines(text, substituting, room)
    return nodes[-1], stored, swaps


def first_lines(nodes):
    """For each tree of a listing's lines the first that gave it."""
    lines = {}
    for i, tree in enumerate(nodes):
        lines.setdefault(tree.digest, i)
    return lines


def finish(tree, numbers, lines, origins=None):
    """Adds a line for each tree that the evaluation of this one is the first to finish, with its origin where `origins` has those that
    came from a line."""
    if tree.digest not in numbers:
        for child in tree.children:
            finish(child, numbers, lines, origins)
        numbers[tree.digest] = len(lines)
        origin = [] if origins is None else ['@%s' % origins.get(tree.digest, '-')]
        lines.append('\t'.join(tree.words + ['%d' % numbers[t.digest] for t in tree.children] + origin) + '\n')


def written(root, room, origins=None):
    lines = []
    finish(root, {}, lines, origins)
    text = ''.join(lines).encode()
    if len(lines) > NODE_LINES:
        raise Refused(2, 0)
    if len(text) > room:
        raise Refused(13, 0)
    return text


# ---- value sheets

OPERATIONS = [b'sin', b'cos', b'exp', b'sqrt', b'pow']
ROWS = {
    b'v': form(b'v', WHOLE, DOUBLE, DOUBLE), b'm': form(b'm', WHOLE, WHOLE, DOUBLE),
    b't': form(b't', b'(sin|cos|exp|sqrt|pow)', *[DOUBLE] * 6)}
NO_OPERAND = (b'0' * 16, b'0' * 16)


def row_of(line):
    """What stands in ascending order, the key that a row is looked up by, and its value; None where the line is malformed."""
    fields, kind = fields_of(ROWS, line), line[:1]
    if fields is None:
        return None
    if kind == b'v':
        number, value = int(fields[0]), (double(fields[1]), double(fields[2]))
        return ((0, number), (kind, number), value) if number < 1 << 16 else None
    if kind == b'm':
        region, index = int(fields[0]), int(fields[1])
        is_within = region < 1 << 16 and index < 1 << 32
        return ((1, region, index), (kind, region, index), (double(fields[2]), 0)) if is_within else None
    if fields[0] != b'pow' and fields[3:5] != NO_OPERAND:
        return None
    numbers = [double(x) for x in fields[1:]]
    return (2,), (kind, fields[0], *numbers[:4]), (numbers[4], numbers[5])


class Values(dict):
    """The value of each key; the number of the first t row that has a key, counted from 0 among the t rows; and the numbers of those that
    were used."""

    def __init__(self):
        super().__init__()
        self.numbers, self.used = {}, set()

    def use(self, key):
        self.used.add(self.numbers[key])
        return self[key]


def read_sheet(text):
    """How many rows of each kind there are, and the value of each key."""
    counts, values, last = {kind: 0 for kind in ROW_LINES}, Values(), ()
    for i, (line, is_ended) in enumerate(lines_of(text)):
        kind = line[:1]
        if kind in counts and counts[kind] == ROW_LINES[kind]:
            raise Refused(4, i)
        row = row_of(line)
        if not (is_ended and row):
            raise Refused(3, i)
        order, key, value = row
        if order < last or (order == last and kind != b't'):
            raise Refused(3, i)
        last = order
        if kind == b't':
            values.numbers.setdefault(key, counts[kind])
        counts[kind] += 1
        values.setdefault(key, value)
    return list(counts.values()), values
