"""A second reading of the rules and of docs/FORMATS.md for the tool rack: what it prints on standard output and says on standard error. It has the
commands evaluate, real, substitute, compile, play, check, show, help and --version, the marks of the t rows that were used, the origins of a
result's lines, and the words that are no command; of simplify and played it has the refusals that come before anything is simplified. Texts and
tapes are read by texts_model.py and tape_model.py.

The wording of the sentences is that of crates/sentences/specs/Sentences.antt and crates/origins/specs/Standing.antt, written down here a second
time; the help and what is said of words are taken from crates/commands/specs/Help.antt. tests/rack_compare.py compares the program with this
model by running."""
import os
import re

import tape_model as tapes
import texts_model as texts
from texts_model import Refused

ROOT = os.path.dirname(os.path.dirname(os.path.abspath(__file__)))
MOST_BYTES, STORE = 262144, 4096
TAPED = {'play', 'check', 'show'}
SHEETED = {'evaluate', 'play', 'simplify', 'played'}
MARKING = {'evaluate', 'play', 'simplify'}
TRACING = {'simplify', 'substitute'}


# ---- three places where the pages left room. The model's first reading was another each time; these are the program's answers, which
# docs/FORMATS.md says since.

# "More words than these are too many" was read of all commands. help, --help and --version look at no further word.
WORDS_AFTER_HELP = True
# A child that is no "number of an earlier node line" was read as out of order, however great. From here on it is a byte that does not belong.
CHILDREN = 1 << 32
# A name that is cut short, as in `f·si·0`, was read as a field "that is cut short". It is a byte that does not belong, as any unknown name is.
NAMES_AS_ONE = True


# ---- the page that has the help

def page(*path):
    with open(os.path.join(ROOT, 'crates', *path), encoding='utf-8') as f:
        return f.read()


def quoted(text):
    """The strings in quotation marks, one after the other."""
    strings = ''.join(re.findall(r'"((?:[^"\\]|\\.)*)"', text))
    return re.sub(r'\\(.)', lambda escaped: {'n': '\n'}.get(escaped.group(1), escaped.group(1)), strings).encode()


def defined(text, name):
    """The strings of a definition that takes no operands."""
    return quoted(re.search(r'^%s =(.*?)(?:\n\n|\Z)' % name, text, re.M | re.S).group(1))


def helping():
    text = page('commands', 'specs', 'Help.antt')
    return {name: defined(text, name) for name in ('help', 'version', 'usage', 'too_many')}


# ---- sentences

LISTING = {
    'byte': 'has a byte, a name or a number that does not belong there.',
    'field': 'lacks a field, or has one that is cut short.',
    'case': 'has a hex digit in lower case: a double is 16 digits from 0 to 9 and A to F.',
    'return': 'has a carriage return: a line ends in a line feed alone.',
    'order': 'is out of order: it names a line that does not come before it, or s lines, which only substitute takes, are not last and ascending.',
    'feed': 'is not ended by a line feed.',
    'sheet': 'is empty: this command takes no sheet of values.'}
SHEET = dict(LISTING, order='is out of order: v lines come first, then m lines, then t lines; v and m lines ascend.')
PLAIN = {
    5: 'The limit is above 10.',
    6: 'The expression is too big: a part of it has a size above 1,000,000.',
    7: 'The expression is too deep: a part of it has a depth above 64.',
    8: 'The store is full: the job makes more nodes than it has room for.',
    11: 'The number is not real: its imaginary part is not below 1e-16 in magnitude.',
    12: 'The expression is neither a number nor pi.',
    14: 'The expression is too long for a tape: its size is above 512.'}


def sentence(number, place, fault):
    """What is said of a refusal. The fault is that of the line, for 1 and 3 alone."""
    at = place + 1
    if number == 1:
        return 'The listing has no node line.' if fault is None else "The listing's line %d %s" % (at, LISTING[fault])
    if number == 2 and place == 0:
        return 'The result has more than 1024 lines.'
    if number == 2:
        return "The listing's line %d is one too many: a listing has at most 1024 node lines and 256 s lines." % at
    if number == 3:
        return "The sheet's line %d, counted after the empty line, %s" % (at, SHEET[fault])
    if number == 4:
        return ("The sheet's line %d, counted after the empty line, is one too many: a sheet has at most 256 v lines, 1024 m lines "
                'and 256 t lines.' % at)
    if number == 15:
        more = ', or there are more than 512 steps' if place == 0 else ''
        return "The tape's step %d is missing, malformed or unsound%s." % (at, more)
    return PLAIN[number]


# ---- which fault a line has: that of the first field that does not read

HEX_FIELD, ZERO_FIELD, ORIGIN_FIELD = 'hex', 'zeros', 'origin'
FIELDS = {
    b'n': [HEX_FIELD] * 2, b'p': [], b'v': [1 << 16], b'm': [1 << 16, 1 << 32],
    b'f': [[b'sin', b'cos', b'exp', b'sqrt', b'cis'], CHILDREN], b'u': [[b'+', b'-'], CHILDREN],
    b'b': [[b'+', b'-', b'*', b'/', b'^'], CHILDREN, CHILDREN], b's': [1 << 16, CHILDREN]}
ROW_FIELDS = {b'v': [1 << 16, HEX_FIELD, HEX_FIELD], b'm': [1 << 16, 1 << 32, HEX_FIELD]}
ROW_NAMES = [b'sin', b'cos', b'exp', b'sqrt', b'pow']


def names_end(names, line, at):
    """Where the name at a place ends, and whether it is whole. Where it is not, the place is that of the byte by which it is judged."""
    for name in names:
        if line.startswith(name, at):
            return at + len(name), True
    agreeing = max(len(os.path.commonprefix([name, line[at:]])) for name in names)
    return at if NAMES_AS_ONE else at + agreeing, False


def whole_end(below, line, at):
    digits = re.compile(b'0|[1-9][0-9]*').match(line, at)
    if digits is None:
        return at, False
    if int(digits.group()) < below:
        return digits.end(), True
    return next(k for k in range(at, digits.end()) if int(line[at:k + 1]) >= below), False


def hex_end(line, at, digits=b'0123456789ABCDEF'):
    end = at
    while end < at + 16 and line[end:end + 1] and line[end:end + 1] in digits:
        end += 1
    return end, end == at + 16


def origin_end(line, at):
    """An origin that is not whole is judged by its first byte."""
    if line.startswith(b'@-', at):
        return at + 2, True
    end, is_whole = whole_end(texts.NODE_LINES, line, at + 1)
    return (end, True) if line[at:at + 1] == b'@' and is_whole else (at, False)


def field_end(kind, line, at):
    if kind == ORIGIN_FIELD:
        return origin_end(line, at)
    if kind == HEX_FIELD:
        return hex_end(line, at)
    if kind == ZERO_FIELD:
        return hex_end(line, at, b'0')
    return names_end(kind, line, at) if isinstance(kind, list) else whole_end(kind, line, at)


def node_fields(line):
    """The fields that are due on a line of a listing. On a node line in which an @ stands an origin is due at the end."""
    due = FIELDS.get(line[:1])
    return due + [ORIGIN_FIELD] if due is not None and line[:1] != b's' and b'@' in line else due


def row_fields(line):
    """The fields that are due on a line of a sheet; those of a t row go by its name."""
    if line[:1] != b't':
        return ROW_FIELDS.get(line[:1])
    operand = HEX_FIELD if line.startswith(b't\tpow') else ZERO_FIELD
    return [ROW_NAMES, HEX_FIELD, HEX_FIELD, operand, operand, HEX_FIELD, HEX_FIELD]


def fault_at(line, at, is_ended, kind, is_due):
    """The fault of the byte at a place, the line feed or the text's end behind the last. `is_due` is whether a field is or follows there."""
    byte = line[at:at + 1]
    if byte == b'\r':
        return 'return'
    if kind in (HEX_FIELD, ZERO_FIELD) and byte and byte in b'abcdef':
        return 'case'
    if byte in (b'', b'\t') and is_due:
        return 'field'
    if byte == b'' and not is_ended:
        return 'feed'
    return 'byte'


def fault_of(line, is_ended, due):
    """The fault of a refused line whose fields, after its first byte, are these; None stands for a first byte of no kind."""
    if due is None:
        return fault_at(line, 0, is_ended, None, True)
    at = 1
    for kind in due:
        if line[at:at + 1] != b'\t':
            return fault_at(line, at, is_ended, None, True)
        at, is_whole = field_end(kind, line, at + 1)
        if not is_whole:
            return fault_at(line, at, is_ended, kind, True)
    if at < len(line) or not is_ended:
        return fault_at(line, at, is_ended, None, False)
    return 'order'


def listing_fault(text, place, has_sheet):
    lines = texts.lines_of(text)
    if not lines:
        return None
    line, is_ended = lines[place]
    if not line and not has_sheet:
        return 'sheet'
    return fault_of(line, is_ended, node_fields(line))


def sheet_fault(text, place):
    line, is_ended = texts.lines_of(text)[place]
    return fault_of(line, is_ended, row_fields(line))


# ---- answers

class Answer(Exception):
    """What is printed and what is said, and the numbers of the t rows that were used."""

    def __init__(self, printed, said=b''):
        super().__init__(printed, said)
        self.printed, self.said, self.used = printed, said, []

    def marked(self, is_asked):
        """With the rows, which are always said and printed where that is asked for."""
        numbers = ['%d' % number for number in self.used]
        printed = fields('marks', *numbers) if is_asked else b''
        said = ' '.join(['rows used:', *numbers]).encode() + b'\n' if numbers else b''
        return Answer(self.printed + printed, self.said + said)


ORIGIN = re.compile(b'\t@([0-9]+)$')


def standing(listing):
    """What is said of a listing with origins: a line for each that has one."""
    found = [(ORIGIN.search(line), i) for i, line in enumerate(listing.splitlines())]
    return b''.join(b'line %s of the job stands at line %d of the result\n' % (origin.group(1), i) for origin, i in found if origin)


def refused(number, place, said):
    return Answer(b'refused\t%d\t%d\n' % (number, place), said.encode() + b'\n')


def fields(*words):
    return '\t'.join(words).encode() + b'\n'


def doubles(*bits):
    return ['%016X' % x for x in bits]


def need(operation, *operands):
    name = texts.OPERATIONS[operation - 1].decode()
    return Answer(fields('need', name, *doubles(*operands)), (
        'The sheet has no row for %s of the operands printed: add a t row with this name, the four fields and the value.\n' % name).encode())


def incomplete(kind, *numbers):
    what = 'variable %d' if kind == b'v' else 'the memory cell of region %d and index %d'
    return Answer(b'incomplete\n', ('The sheet does not bind %s.\n' % (what % numbers)).encode())


def parted(text):
    """What stands before the first empty line and what stands after it."""
    if text.startswith(b'\n'):
        return b'', text[1:]
    at = text.find(b'\n\n')
    return (text, b'') if at < 0 else (text[:at + 1], text[at + 2:])


def nodes_of(text, command):
    """The trees of the node lines, and what the s lines put in."""
    try:
        nodes, _, swaps = texts.read_lines(text, command == 'substitute', STORE)
    except Refused as why:
        fault = listing_fault(text, why.place, command in SHEETED) if why.number == 1 else None
        raise refused(why.number, why.place, sentence(why.number, why.place, fault)) from None
    return nodes, swaps


def root_of(text, command):
    return nodes_of(text, command)[0][-1]


def sheet_of(text):
    try:
        return texts.read_sheet(text)[1]
    except Refused as why:
        fault = sheet_fault(text, why.place) if why.number == 3 else None
        raise refused(why.number, why.place, sentence(why.number, why.place, fault)) from None


def using(rows, ask):
    """The answer, a lack too, and the rows that were used for it."""
    try:
        given = ask()
    except tapes.Need as lack:
        given = need(*lack.args)
    except Answer as lack:
        given = lack
    given.used = sorted(rows.used)
    return given


# ---- the operations

def value_of(tree, rows, known):
    """The value of a tree, a pair of floats. What has been worked out is known by its digest."""
    if tree.digest in known:
        return known[tree.digest]
    kind, *words = tree.words
    if kind == 'n':
        value = tuple(tapes.float_of(int(x, 16)) for x in words)
    elif kind == 'p':
        value = (tapes.float_of(tapes.PI_BITS), 0.0)
    elif kind in 'vm':
        value = looked_up((kind.encode(), *map(int, words)), rows)
    else:
        operands = [value_of(child, rows, known) for child in tree.children]
        if kind == 'f':
            value = tapes.function(words[0], operands[0], rows)
        elif kind == 'u':
            value = operands[0] if words[0] == '+' else tuple(-x for x in operands[0])
        else:
            value = tapes.infix(words[0], *operands, rows)
    # the one NaN
    known[tree.digest] = tuple(tapes.float_of(tapes.bits_of(x)) for x in value)
    return known[tree.digest]


def looked_up(key, rows):
    if key not in rows:
        raise incomplete(*key)
    return tuple(tapes.float_of(bits) for bits in rows[key])


def value(re, im):
    return Answer(fields('value', *doubles(tapes.bits_of(re), tapes.bits_of(im))))


def evaluate(text):
    listing, sheet = parted(text)
    root = root_of(listing, 'evaluate')
    rows = sheet_of(sheet)
    return using(rows, lambda: value(*value_of(root, rows, {})))


def real(text):
    root = root_of(text, 'real')
    kind, *words = root.words
    if kind == 'p':
        return Answer(fields('real', *doubles(tapes.PI_BITS)))
    if kind != 'n':
        return refused(12, 0, PLAIN[12])
    is_real = abs(tapes.float_of(int(words[1], 16))) < 1e-16
    return Answer(fields('real', words[0])) if is_real else refused(11, 0, PLAIN[11])


def replaced(tree, swaps, known):
    """A tree with what the s lines put in. A listing and its result have fewer nodes than the store has room for."""
    if tree.digest not in known:
        kind, *words = tree.words
        if kind == 'v':
            result = swaps.get(int(words[0]), tree)
        else:
            result = texts.Tree(tree.words, [replaced(child, swaps, known) for child in tree.children])
        texts.keep(result, set(), 1)
        known[tree.digest] = result
    return known[tree.digest]


def substitute(text, is_traced=False):
    nodes, swaps = nodes_of(text, 'substitute')
    try:
        printed = texts.written(replaced(nodes[-1], swaps, {}), 1 << 20, texts.first_lines(nodes) if is_traced else None)
    except Refused as why:
        return refused(why.number, why.place, sentence(why.number, why.place, None))
    return Answer(printed, standing(printed))


def traced(result, text):
    """The listing that simplifying a job's listing gave, with origins."""
    origins = texts.first_lines(texts.read_lines(text, False, STORE)[0])
    return texts.written(texts.read_listing(result, False, STORE)[0], 1 << 20, origins)


def step_line(step):
    digits = step.hex().upper()
    return '\t'.join(digits[a:b] for a, b in ((0, 2), (2, 4), (4, 8), (8, 16), (16, 32), (32, 48))).encode() + b'\n'


def compile_(text):
    root = root_of(text, 'compile')
    if root.size > tapes.STEPS:
        return refused(14, 0, PLAIN[14])
    return Answer(b''.join(step_line(tapes.step_of(tree)) for tree in tapes.visits(root)))


STEP_LINE = re.compile(b'\t'.join(b'([0-9A-F]{%d})' % n for n in (2, 2, 4, 8, 16, 16)))


def tape_of(text):
    """The bytes of a tape as compile prints it; a line of another form is a step of zeros."""
    steps = []
    for line, is_ended in texts.lines_of(text):
        match = STEP_LINE.fullmatch(line)
        steps.append(bytes.fromhex(b''.join(match.groups()).decode()) if match and is_ended else bytes(tapes.STEP))
    tape = b''.join(steps)
    bad = tapes.bad_step(tape)
    if bad is not None:
        raise refused(15, bad, sentence(15, bad, None))
    return tape


def left_by(tape, rows):
    """What a sound tape leaves."""
    stack = []
    for k in range(len(tape) // tapes.STEP):
        opcode, sub, half, word, re, im = tapes.fields_of(tape, k)
        if opcode in (tapes.VARIABLE, tapes.MEMORY):
            looked_up((b'v', half) if opcode == tapes.VARIABLE else (b'm', half, word), rows)
        stack = tapes.do(stack, rows, opcode, sub, half, word, re, im)
    return stack[0]


def play(text):
    tape, sheet = parted(text)
    tape = tape_of(tape)
    rows = sheet_of(sheet)
    return using(rows, lambda: value(*left_by(tape, rows)))


def check(text):
    tape_of(text)
    return Answer(b'sound\n')


def words_of(opcode, sub, half, word, re, im):
    if opcode == tapes.NUMBER:
        return ['number', *doubles(re, im)]
    if opcode == tapes.PI:
        return ['pi']
    if opcode == tapes.VARIABLE:
        return ['variable', '%d' % half]
    if opcode == tapes.MEMORY:
        return ['memory', '%d' % half, '%d' % word]
    kind, names = {tapes.FUNCTION: ('function', tapes.FUNCTIONS), tapes.PREFIX: ('prefix', tapes.SIGNS),
                   tapes.INFIX: ('infix', tapes.OPERATORS)}[opcode]
    return [kind, names[sub - 1]]


def show(text):
    tape = tape_of(text)
    return Answer(b''.join(fields('%d' % k, *words_of(*tapes.fields_of(tape, k))) for k in range(len(tape) // tapes.STEP)))


def texts_alone(text):
    """Of what is simplified: the refusals of its texts. None where it has none."""
    listing, sheet = parted(text)
    root_of(listing, 'simplify')
    sheet_of(sheet)


COMMANDS = {
    'evaluate': evaluate, 'real': real, 'substitute': substitute, 'compile': compile_, 'play': play, 'check': check, 'show': show,
    'simplify': texts_alone, 'played': texts_alone}


# ---- the command line

LIMIT = re.compile(b'0|[1-9][0-9]*')


def limit_and_rest(command, rest):
    """The limit of simplifying, and the words after it."""
    if command == 'simplify' and rest and LIMIT.fullmatch(rest[0]) and int(rest[0]) < 1 << 32:
        return int(rest[0]), rest[1:]
    return 10, rest


def word_and_rest(word, commands, command, rest):
    """Whether this word follows on one of the commands that take it, and the words after it."""
    is_asked = command in commands and rest[:1] == [word]
    return is_asked, rest[is_asked:]


def job_answer(command, limit, text, is_traced):
    """What a job comes to; None where it is for the simplifier to say."""
    if len(text) > MOST_BYTES:
        return refused(0, 0, 'The input is too long: it may have 262,144 bytes.')
    if limit > 10:
        return refused(5, 0, PLAIN[5])
    try:
        return substitute(text, is_traced) if command == 'substitute' else COMMANDS[command](text)
    except Answer as given:
        return given


def answer(words, text):
    """What is printed and said for the words after `rack` and the input; None where it is for the simplifier to say."""
    said = helping()
    if not words:
        return Answer(b'', said['usage'])
    command, rest = words[0].decode('latin-1'), words[1:]
    if command not in COMMANDS and command not in ('help', '--help', '--version'):
        return Answer(b'', b'rack has no command ' + words[0] + b'; ./run rack help names the commands.\n')
    limit, rest = limit_and_rest(command, rest)
    is_asked, rest = word_and_rest(b'marks', MARKING, command, rest)
    is_traced, rest = word_and_rest(b'origins', TRACING, command, rest)
    most = 1 if command in COMMANDS else len(rest) if WORDS_AFTER_HELP else 0
    if len(rest) > most:
        return Answer(b'', said['too_many'])
    if command not in COMMANDS:
        return Answer(said['version' if command == '--version' else 'help'])
    given = job_answer(command, limit, text, is_traced)
    return given.marked(is_asked) if given is not None and command in MARKING else given
