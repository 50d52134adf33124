"""python3 tests/rack_compare.py COUNT SEED [PROGRAM]: compares the tool rack with tests/rack_model.py by running.

It makes COUNT random cases from SEED: a command's words and a job, whose node lines have origins at times. A job is whole, or whole and then damaged
in one or two places (a byte changed, added or dropped, a carriage return, a hex digit in lower case, a line dropped, doubled or moved, a field
dropped or replaced, a tab doubled, an origin added or replaced by what is none, the last line feed cut), or its sheet lacks rows. Cases that chance
meets seldom, and odd fields in each place of a line, are always there besides.
It runs the program on each and compares what is printed on standard output and said on standard error with the model, byte for byte. Where the
model leaves the answer to the simplifier, it compares `played` with `simplify` followed by `evaluate`, both run by the program, and looks whether
what `simplify` prints is a listing as it is written, and what it says a count of calls that the rules allow. The t rows that it says it used, and
prints after the word `marks`, have to be those that it asks for one by one where the sheet has none, each the first that matches. With the word
`origins` it has to print the listing that it prints without, with the origin of each line as the model finds it in the job, and to say the same.

PROGRAM is crates/rack/out/rack if none is named, which ./run makes. Each case that differs is printed. The last line counts; the exit status is 0
if nothing differs."""
import collections
import itertools
import os
import random
import re
import subprocess
import sys
import tempfile

import rack_model as model
import tape_model as tapes
import texts_model as texts

ONE, ZERO = '3FF0000000000000', '0' * 16
DOUBLES = [
    ZERO, '8' + '0' * 15, ONE, 'BFF0000000000000', '4000000000000000', '3FE0000000000000', '3FB999999999999A', '400921FB54442D18',
    '7FF0000000000000', 'FFF0000000000000', '7FF8000000000000', '7FF0000000000001', 'FFFFFFFFFFFFFFFF', '0000000000000001',
    '7FEFFFFFFFFFFFFF', '3C9CD2B297D889BC', '3C9CD2B297D889BB', 'BC9CD2B297D889BB', '3DDB7CDFD9D7BDBB', 'C00ABCDEFABCDEFA']
VARIABLES = [0, 1, 2, 3, 10, 255, 65535]
CELLS = [(0, 0), (0, 1), (1, 0), (1, 2), (1, 10), (65535, 4294967295)]
MOST_CALLS = 244531


# ---- whole jobs

def double(pick):
    return pick.choice(DOUBLES) if pick.random() < 0.8 else '%016X' % pick.getrandbits(64)


def leaf(pick):
    kind = pick.choice('nnpvvvvmm')
    if kind == 'n':
        return 'n\t%s\t%s' % (double(pick), pick.choice([ZERO, double(pick)]))
    if kind == 'v':
        return 'v\t%d' % pick.choice(VARIABLES)
    return 'm\t%d\t%d' % pick.choice(CELLS) if kind == 'm' else 'p'


def node(pick, before):
    if before == 0 or pick.random() < 0.35:
        return leaf(pick)
    child = [max(before - 1 - pick.randrange(4), 0) if pick.random() < 0.7 else pick.randrange(before) for _ in range(2)]
    kind = pick.choice('fuubbbbb')
    if kind == 'f':
        return 'f\t%s\t%d' % (pick.choice(['sin', 'cos', 'exp', 'sqrt', 'cis']), child[0])
    if kind == 'u':
        return 'u\t%s\t%d' % (pick.choice('+-'), child[0])
    return 'b\t%s\t%d\t%d' % (pick.choice('+-*/+-*/+-*/^'), *child)


def listing(pick):
    if pick.random() < 0.04:
        lines = pick.choice([many, doubled, deep, wide])(pick)
    else:
        lines = []
        for i in range(pick.choice([1, 1, 2, 3, 4, 6, 9, 14, 30])):
            lines.append(node(pick, i))
    return ''.join(line + '\n' for line in lines).encode()


def traced(pick, text):
    """A listing with origins on some of its lines; most of them are not those of its nodes."""
    share = pick.choice([0.2, 0.7, 1])
    lines = [line + (b'\t' + pick.choice(ORIGINS) if pick.random() < share else b'') for line in text.split(b'\n')[:-1]]
    return b''.join(line + b'\n' for line in lines)


def many(pick):
    """Near the count of node lines."""
    return [leaf(pick)] * pick.choice([1023, 1024, 1025])


def doubled(pick):
    """Near the length of a tape and the greatest size."""
    return [pick.choice(['p', 'v\t1'])] + ['b\t+\t%d\t%d' % (i, i) for i in range(pick.choice([7, 8, 9, 18, 19]))]


def deep(pick):
    """Near the greatest depth."""
    return ['v\t1'] + ['u\t%s\t%d' % (pick.choice('+-'), i) for i in range(pick.choice([40, 62, 63, 64]))]


def wide(pick, products=None):
    """A sum of products with variable 1: once its root is put in for the variable there can be more than 1024 lines."""
    count = products or pick.choice([50, 256])
    lines = ['v\t1'] + ['v\t%d' % (1000 + i) for i in range(count)] + ['b\t*\t0\t%d' % (1 + i) for i in range(count)]
    at = count + 1
    while at + 1 < len(lines):
        lines.append('b\t+\t%d\t%d' % (at, at + 1))
        at += 2
    return lines


def swaps(pick, text):
    """A listing with s lines."""
    count = text.count(b'\n')
    chosen = sorted(pick.sample(VARIABLES, pick.randrange(4))) if pick.random() < 0.8 else [1]
    if pick.random() < 0.01:
        chosen = range(pick.choice([255, 256, 257]))
    return text + b''.join(b's\t%d\t%d\n' % (v, pick.choice([count - 1, pick.randrange(count)])) for v in chosen)


def rows_for(pick, text, play):
    """The t rows that evaluating asks for, one after the other, up to some number."""
    rows = []
    sheet = bindings(pick)
    for _ in range(pick.choice([0, 3, 12])):
        asked = play(text + b'\n' + sheet + b''.join(rows)).printed
        if not asked.startswith(b'need\t'):
            break
        rows.append(b't' + asked[4:-1] + ('\t%s\t%s\n' % (double(pick), double(pick))).encode())
    if pick.random() < 0.2:
        pick.shuffle(rows)
    if pick.random() < 0.4:
        rows = among_others(pick, rows)
    return sheet + b''.join(rows)


def among_others(pick, rows):
    """The same rows, with some that nothing asks for, and some again further down with another value."""
    rows = list(rows)
    for _ in range(pick.choice([1, 2, 4])):
        above, value = pick.randrange(len(rows) + 1), '\t%s\t%s\n' % (double(pick), double(pick))
        if above and pick.random() < 0.6:
            again = rows[above - 1].rsplit(b'\t', 2)[0]
        else:
            again = ('t\t%s\t%s\t%s\t%s\t%s' % (pick.choice(['sin', 'cos', 'exp', 'sqrt']), double(pick), double(pick), ZERO, ZERO)).encode()
        rows.insert(pick.randrange(above, len(rows) + 1), again + value.encode())
    return rows


def bindings(pick):
    share = pick.choice([0, 0.8, 1, 1, 1])
    lines = ['v\t%d\t%s\t%s\n' % (v, double(pick), pick.choice([ZERO, double(pick)])) for v in VARIABLES if pick.random() < share]
    lines += ['m\t%d\t%d\t%s\n' % (*cell, double(pick)) for cell in CELLS if pick.random() < share]
    if pick.random() < 0.005:
        lines = ['v\t%d\t%s\t%s\n' % (v, ONE, ZERO) for v in range(pick.choice([256, 257]))]
    elif pick.random() < 0.005:
        lines += ['m\t65535\t%d\t%s\n' % (4294967296 + i, ONE) for i in range(2)]
    return ''.join(lines).encode()


def answered(ask):
    """A command of the model that raises no answer but gives it."""
    def asked(text):
        try:
            return ask(text)
        except model.Answer as given:
            return given
    return asked


def tape(pick):
    """The tape of a listing that is not refused."""
    while True:
        printed = answered(model.compile_)(listing(pick)).printed
        if not printed.startswith(b'refused'):
            return printed


def odd_tape(pick):
    """Steps that are mostly known, with no care for the stack."""
    steps = []
    for _ in range(pick.choice([1, 2, 3, 5, 66])):
        opcode = pick.choice([1, 2, 3, 3, 4, 4, 5, 6, 7, 7, pick.randrange(256)])
        sub = pick.randrange(1, 7) if opcode > 4 else pick.choice([0, 0, 0, 1])
        half = pick.choice([0, 1, 256, 65535]) if opcode in (tapes.VARIABLE, tapes.MEMORY) else 0
        word = pick.choice([0, 2, 65536]) if opcode == tapes.MEMORY else 0
        re, im = (int(double(pick), 16) if opcode == tapes.NUMBER else 0 for _ in range(2))
        steps.append(tapes.step(opcode, sub, half, word, re, im))
    if pick.random() < 0.05:
        steps = [tapes.step(tapes.PI)] * pick.choice([64, 65, 512, 513])
    return b''.join(model.step_line(step) for step in steps)


def job(pick, command):
    if command in model.TAPED:
        text = tape(pick) if pick.random() < 0.8 else odd_tape(pick)
    else:
        text = listing(pick)
        text = traced(pick, text) if pick.random() < 0.3 else text
    if command == 'substitute':
        return swaps(pick, text)
    if command not in model.SHEETED:
        return text
    ask = answered(model.play if command == 'play' else model.evaluate)
    sheet = rows_for(pick, text, ask)
    return text if not sheet and pick.random() < 0.5 else text + b'\n' + sheet


# ---- damage

def at_some_byte(pick, text):
    return pick.randrange(len(text) + 1)


def changed(pick, text):
    at = at_some_byte(pick, text)
    return text[:at] + some_byte(pick) + text[at + 1:]


def added(pick, text):
    at = at_some_byte(pick, text)
    return text[:at] + some_byte(pick) + text[at:]


def dropped(pick, text):
    at = at_some_byte(pick, text)
    return text[:at] + text[at + pick.choice([1, 1, 2, 5]):]


def some_byte(pick):
    return bytes([pick.choice(b'\t\t\n\r 0019afAFG-+*/^@vmtnpfubsxeioq\0\xff')]) if pick.random() < 0.9 else bytes([pick.randrange(256)])


def returned(pick, text):
    if pick.random() < 0.2:
        return text.replace(b'\n', b'\r\n')
    ends = [m.start() for m in re.finditer(b'\n', text)]
    at = pick.choice(ends) if ends and pick.random() < 0.7 else at_some_byte(pick, text)
    return text[:at] + b'\r' + text[at:]


def lowered(pick, text):
    upper = [m.start() for m in re.finditer(b'[A-F]', text)]
    if not upper:
        return changed(pick, text)
    at = pick.choice(upper)
    return text[:at] + text[at:at + pick.choice([1, 16])].lower() + text[at + 16:] if pick.random() < 0.3 else (
        text[:at] + text[at:at + 1].lower() + text[at + 1:])


def line_dropped(pick, text):
    lines = text.split(b'\n')
    at = pick.randrange(len(lines))
    return b'\n'.join(lines[:at] + lines[at + 1:])


def line_doubled(pick, text):
    lines = text.split(b'\n')
    at = pick.randrange(len(lines))
    return b'\n'.join(lines[:at + 1] + lines[at:])


def lines_moved(pick, text):
    lines = text.split(b'\n')
    i, j = pick.randrange(len(lines)), pick.randrange(len(lines))
    lines[i], lines[j] = lines[j], lines[i]
    return b'\n'.join(lines)


def feed_cut(pick, text):
    return text[:-1] if pick.random() < 0.6 else text[:at_some_byte(pick, text)]


def with_line(change):
    """Changes one line by its fields."""
    def damaged(pick, text):
        lines = text.split(b'\n')
        at = pick.randrange(len(lines))
        lines[at] = b'\t'.join(change(pick, lines[at].split(b'\t')))
        return b'\n'.join(lines)
    return damaged


def field_dropped(pick, parts):
    at = pick.randrange(len(parts))
    return parts[:at] + parts[at + 1:]


def tab_doubled(pick, parts):
    at = pick.randrange(len(parts) + 1)
    return parts[:at] + [b''] + parts[at:]


NUMBERS = [
    b'00', b'01', b'1', b'65535', b'65536', b'70000', b'655350', b'4294967295', b'4294967296', b'42949672950', b'18446744073709551615',
    b'18446744073709551616', b'9' * 40, b'1023', b'1024', b'-0', b'+1', b'1a', b'0x1', b'']
NAMES = [
    b'sin', b'si', b'sinx', b'sinn', b's', b'cos', b'co', b'cis', b'ci', b'c', b'cx', b'exp', b'ex', b'e', b'exq', b'sqrt', b'sqr', b'sq',
    b'sqrtt', b'pow', b'po', b'p', b'powr', b'Sin', b'x', b'si\r', b'sin\r', b'\rsin', b'', b'+', b'-', b'^', b'++', b'+ ']
DIGITS = [
    b'8000000000000000', b'000000000000000', b'00000000000000000', b'0000000000000000\r', b'000000000000000\r', b'7FF8000000000000',
    b'3ff0000000000000', b'3FF000000000000g', b'3FF000000000000G', b'000000000000000a', b'0000000000000000a', b'g00000000000000a',
    b'a00000000000000g', b'0', b'']


ORIGINS = [b'@-', b'@0', b'@1', b'@2', b'@9', b'@10', b'@100', b'@999', b'@1023']
NO_ORIGINS = [
    b'', b'@', b'@00', b'@01', b'@-1', b'@--', b'-', b'@1024', b'@10230', b'@18446744073709551616', b'@+1', b'@ 1', b'@1 ', b'@x', b'@1a',
    b'@@1', b'@\r', b'@\0', b'@1\t@1', b'@-\t', b'\t@1', b'\r@1', b'7\t@1']


def origin_added(pick, parts):
    """An origin, or what is none, as one field more: most often the last."""
    at = len(parts) if pick.random() < 0.8 else pick.randrange(len(parts) + 1)
    return parts[:at] + [pick.choice(ORIGINS if pick.random() < 0.4 else NO_ORIGINS)] + parts[at:]


def field_replaced(pick, parts):
    """Another field in the place of one: most often one that looks like it."""
    at = pick.randrange(len(parts))
    like = NO_ORIGINS if parts[at].startswith(b'@') else NUMBERS if parts[at].isdigit() and len(parts[at]) < 16 else DIGITS if len(parts[at]) == 16 else NAMES
    other = pick.choice(like if pick.random() < 0.8 else NUMBERS + NAMES + DIGITS + ORIGINS)
    return parts[:at] + [other] + parts[at + 1:]


def line_replaced(pick, text):
    lines = text.split(b'\n')
    lines[pick.randrange(len(lines))] = pick.choice([
        b'', b'\r', b'\t', b' ', b's\t0\t0', b's\t0', b's', b'v', b'm\t0', b'p', b'p\t', b'u\t-\t0', b't', b't\tsin', b't\tpow\t',
        b'v\t5\t' + b'0' * 16, b'@0', b'p\t@3', b'p@3', b's\t0\t0\t@3', b'v\t5\t@'])
    return b'\n'.join(lines)


DAMAGES = [
    changed, changed, added, dropped, returned, lowered, line_dropped, line_doubled, lines_moved, feed_cut, with_line(field_dropped),
    with_line(tab_doubled), with_line(field_replaced), with_line(field_replaced), with_line(origin_added), line_replaced]


def damaged(pick, text):
    for _ in range(pick.choice([0, 0, 0, 1, 1, 1, 2])):
        text = pick.choice(DAMAGES)(pick, text)
    return text


# ---- cases

READERS = [command.encode() for command in sorted(model.COMMANDS)]
OTHERS = [b'help', b'--help', b'--version']
UNKNOWN = [
    b'', b'evaluated', b'Evaluate', b'-h', b'version', b'--Version', b'evaluat', b'\xff\xfe', b'a b', b'\xc3\xa9', b'run', b'5', b'helper']
FILES = [b'job', b'./marks', b'./origins', b'./5', b'05', b'4294967296', b'a b', b'\xff', b'-1', b'help']


def words_alone(pick):
    """No words, words of no command, too many words, and the commands that read nothing."""
    more = [pick.choice([b'x', b'y', b'', b'help', b'\xff', b'5', b'marks', b'origins']) for _ in range(4)]
    shape = pick.randrange(20)
    if shape == 0:
        return []
    if shape < 8:
        return [pick.choice(UNKNOWN)] + more[:pick.choice([0, 0, 1, 2, 4])]
    if shape < 14:
        return [pick.choice(OTHERS)] + more[:pick.choice([0, 0, 1, 2, 4])]
    command = pick.choice(READERS + [b'simplify'] * 4)
    if command != b'simplify':
        return [command] + more[:pick.choice([3, 3, 4] if more[0] in (b'marks', b'origins') else [2, 3, 4])]
    first = pick.choice([[b'05'], [b'4294967296'], [b'x'], [b'-1'], [b'1.0'], [b''], [b'5', b'5'], [b'11', b'x'], [b'4294967295', b'x'],
                         [b'marks', b'x'], [b'5', b'marks', b'x'], [b'marks', b'5'], [b'x', b'marks'], [b'origins', b'x'], [b'origins', b'5'],
                         [b'origins', b'marks'], [b'x', b'origins'], [b'marks', b'origins', b'x'], [b'5', b'marks', b'origins', b'x']])
    return [command] + first + more[:pick.choice([1, 2])]


def case(pick):
    """The words, the input, and the file that has it, None where it is standard input."""
    if pick.random() < 0.06:
        return words_alone(pick), b'p\n', None
    command = pick.choice(['evaluate'] * 6 + ['play'] * 4 + ['compile'] * 2 + ['substitute'] * 4 + ['real'] * 2 + ['check'] * 2 + ['show'] * 2
                          + ['simplify'] * 3 + ['played'] * 2)
    text = damaged(pick, job(pick, command))
    if command == 'real' and pick.random() < 0.5:
        text = damaged(pick, leaf(pick).encode() + b'\n')
    if pick.random() < 0.003:
        text = (text + b'p\n' * model.MOST_BYTES)[:model.MOST_BYTES + pick.choice([0, 1])]
    words, file = [command.encode()], None
    if command == 'simplify' and pick.random() < 0.6:
        words.append(b'%d' % pick.choice([0, 1, 2, 5, 9, 10, 11, 4294967295]))
    if command in model.MARKING and pick.random() < 0.4:
        words.append(b'marks')
    if command in model.TRACING and pick.random() < 0.5:
        words.append(b'origins')
    if pick.random() < 0.1:
        file = pick.choice(FILES + names_of_words(command, words))
        words.append(file)
    return words, text, file


def names_of_words(command, words):
    """The words marks and origins where they are names of files: once they stand, or on a command that does not take them."""
    is_file = {b'marks': command not in model.MARKING or words[-1] in (b'marks', b'origins'),
               b'origins': command not in model.TRACING or words[-1] == b'origins'}
    return [word for word in is_file if is_file[word]]


def fixed():
    """What chance meets seldom: each count at its most and one above, a result of too many lines, a full stack, the longest tape."""
    def lines(form, count):
        return b''.join(form % i if b'%' in form else form for i in range(count))

    pick, zero = random.Random(0), ZERO.encode()
    rows = [b'v\t%d\t' + zero + b'\t' + zero + b'\n', b'm\t7\t%d\t' + zero + b'\n', b't\texp' + (b'\t' + zero) * 6 + b'\n']
    pi, plus = (model.step_line(tapes.step(*fields)) for fields in ((tapes.PI,), (tapes.INFIX, 1)))
    for more in (0, 1):
        for row, most in zip(rows, (256, 1024, 256)):
            yield [b'evaluate'], b'p\n\n' + lines(row, most + more), None
            yield [b'simplify'], b'p\n\n' + lines(row, most) + b'x\n' * more, None
        yield [b'compile'], lines(b'v\t%d\n', 1024 + more), None
        yield [b'real'], lines(b'p\n', 1024) + b'x' * more, None
        yield [b'substitute'], b'v\t0\n' + lines(b's\t%d\t0\n', 256 + more), None
        yield [b'check'], lines(pi, 64 + more) + lines(plus, 63 + more), None
        yield [b'play'], pi + lines(pi + plus, 255) + b'x\n' * more, None
        yield [b'show'], lines(pi, 512 + more), None
        yield [b'evaluate'], (b'v\t5\n' * (model.MOST_BYTES // 4 + 1))[:model.MOST_BYTES + more], None
        yield [b'substitute'], lines(b'p\t@%d\n', 1024) + b'p\t@1024\n' * more, None
        yield [b'substitute'], lines(b'p\t@-\n', 1023) + b'p\t@1024\n' * more, None
    for count in (170, 171, 204, 205, 206, 256):
        listed = wide(pick, count)
        for words in ([b'substitute'], [b'substitute', b'origins']):
            yield words, ('\n'.join(listed) + '\ns\t1\t%d\n' % (len(listed) - 1)).encode(), None
    for words in ([b'substitute', b'origins'], [b'simplify', b'0', b'origins'], [b'simplify', b'0', b'marks', b'origins']):
        yield words, longest(), None


def longest():
    """A listing of 1024 lines, of which all are reached and half are numbers, whose lines are the longest."""
    leaves = ['n\t%016X\t%016X\t@1023' % (int(ONE, 16) + i, i) for i in range(512)]
    sums = ['b\t+\t%d\t%d' % (2 * i, 2 * i + 1) for i in range(511)]
    return '\n'.join(leaves + sums + ['u\t-\t1022']).encode() + b'\n'


def odd_lines():
    """Each odd field in each place of a line, and in the place of its origin, with a line feed at its end, without, and after a carriage return."""
    zero = ZERO.encode()
    nodes = [(NUMBERS, [b'v\t%s', b'm\t%s\t0', b'm\t0\t%s', b'u\t-\t%s', b'b\t+\t%s\t0', b'b\t+\t0\t%s', b's\t%s\t0', b's\t0\t%s']),
             (NAMES, [b'%s', b'f\t%s\t0', b'u\t%s\t0', b'b\t%s\t0\t0']), (DIGITS, [b'n\t%s\t' + zero, b'n\t' + zero + b'\t%s']),
             (NO_ORIGINS + ORIGINS[:2], [b'n\t' + zero + b'\t' + zero + b'\t%s', b'p\t%s', b'v\t7\t%s', b'm\t7\t7\t%s', b'f\tsin\t0\t%s',
                                         b'u\t-\t1\t%s', b'b\t+\t0\t0\t%s', b's\t0\t0\t%s', b'%s'])]
    rows = [(NUMBERS, [b'v\t%s\t' + zero + b'\t' + zero, b'm\t%s\t0\t' + zero, b'm\t0\t%s\t' + zero]),
            (NAMES, [b't\t%s' + (b'\t' + zero) * 6]),
            (DIGITS, [b't\t' + name + (b'\t' + zero) * k + b'\t%s' + (b'\t' + zero) * (5 - k) for name in (b'sin', b'pow') for k in range(6)])]
    for commands, before, lines in (([b'substitute', b'compile'], b'p\n', nodes), ([b'evaluate'], b'p\n\n', rows)):
        for odd, forms in lines:
            for text in [before + form % field + end for form in forms for field in odd for end in (b'\n', b'', b'\r\n')]:
                for command in commands:
                    yield [command], text, None


class Comparison:
    """The program's runs in a folder, and how many differ from what is wanted."""

    def __init__(self, program, folder):
        self.started, self.folder = [program.encode()], folder.encode()
        self.cases, self.differ = collections.Counter(), 0

    def run(self, words, text, file=None):
        """What is printed and said. Where a file has the text, standard input has another."""
        if file is not None:
            with open(os.path.join(self.folder, file), 'wb') as f:
                f.write(text)
        done = subprocess.run(
            self.started + words, input=text if file is None else b'x\n', cwd=self.folder, capture_output=True, check=False)
        if file is not None:
            os.remove(os.path.join(self.folder, file))
        return done.stdout, done.stderr

    def wanted(self, words, text):
        """What is wanted; None where it is for `simplify` to say."""
        given = model.answer(words, text)
        if given is not None:
            return given.printed, given.said
        if words[0] == b'simplify':
            return None
        listed, said = self.run([b'simplify'], text)
        if not listed.startswith((b'need\t', b'refused\t')):
            listed, said = self.run([b'evaluate'], listed + b'\n' + model.parted(text)[1])
        return listed, ROWS.sub(b'', said)

    def is_simplified(self, words, text, found):
        """Whether this is what simplifying a job may print and say, with the rows that it has to use."""
        limit, rest = model.limit_and_rest('simplify', words[1:])
        is_asked, rest = model.word_and_rest(b'marks', model.MARKING, 'simplify', rest)
        is_traced, rest = model.word_and_rest(b'origins', model.TRACING, 'simplify', rest)
        printed, used = self.one_by_one([b'simplify', b'%d' % limit], text)
        rows = model.Answer(b'')
        rows.used = [] if printed.startswith(b'refused\t') else sorted(used)
        marks, line = rows.marked(is_asked).args
        listed = model.traced(printed, model.parted(text)[0]) if is_traced and is_listing(printed) else printed
        tail = line + model.standing(listed)
        said = found[1][:len(found[1]) - len(tail)]
        return found == (listed + marks, said + tail) and is_simplified(printed, said)

    def one_by_one(self, words, text):
        """What is printed at last where the sheet gets its t rows one by one, as they are asked for, and the numbers of these rows."""
        listing, sheet = model.parted(text)
        lines = sheet.splitlines(True)
        rows, have, used = [line for line in lines if line[:1] == b't'], [line for line in lines if line[:1] != b't'], set()
        while True:
            printed, _ = self.run(words, listing + b'\n' + b''.join(have))
            row = next((k for k, line in enumerate(rows) if is_asked_for(line, printed)), None)
            if row is None:
                return printed, used
            used.add(row)
            have.append(rows[row])

    def compare(self, words, text, file):
        wanted, found = self.wanted(words, text), self.run(words, text, file)
        self.cases[kind_of(words)] += 1
        if found == wanted if wanted is not None else self.is_simplified(words, text, found):
            return
        self.differ += 1
        print('rack %r < %r\n  prints %r\n  wanted %r' % (words, text, found, wanted))


ROWS = re.compile(b'rows used:(?: [0-9]+)+\n\\Z')


def kind_of(words):
    """What a case is counted as."""
    if not words or words[0] not in READERS:
        return 'of words'
    command = words[0].decode()
    return command + ' with origins' * (command in model.TRACING and b'origins' in words[1:])


def is_listing(printed):
    """Whether this is a listing as it is written, without origins."""
    try:
        return texts.written(texts.read_listing(printed, False, model.STORE)[0], 1 << 20) == printed
    except texts.Refused:
        return False


def is_asked_for(line, printed):
    """Whether a t line is a row for what a need line asks."""
    key = texts.row_of(line[:-1])[1]
    return printed == b'need\t%s\t%016X\t%016X\t%016X\t%016X\n' % key[1:]


def is_simplified(printed, said):
    """Whether this may be what simplifying a job answers whose texts are not refused, without the rows."""
    if printed.startswith(b'need\t') or re.fullmatch(b'refused\t[2678]\t0\n', printed):
        return said.count(b'\n') == 1
    calls = re.fullmatch(b'The expression was simplified in ([0-9]+) (calls?)\\.\n', said)
    is_allowed = calls and 1 <= int(calls.group(1)) <= MOST_CALLS and (calls.group(1) == b'1') == (calls.group(2) == b'call')
    return bool(is_allowed) and is_listing(printed)


def main(count, seed, program):
    if not os.path.isfile(program):
        sys.exit('rack_compare.py: there is no %s; ./run rack makes it' % program)
    pick = random.Random(seed)
    with tempfile.TemporaryDirectory() as folder:
        comparison = Comparison(os.path.abspath(program), folder)
        for given in itertools.chain(fixed(), odd_lines()):
            comparison.compare(*given)
        for _ in range(count):
            comparison.compare(*case(pick))
    counts = ', '.join('%d %s' % (n, kind) for kind, n in sorted(comparison.cases.items()))
    print('%d cases (%s): %d differ' % (sum(comparison.cases.values()), counts, comparison.differ))
    return comparison.differ == 0


if __name__ == '__main__':
    if len(sys.argv) not in (3, 4):
        sys.exit('use: rack_compare.py COUNT SEED [PROGRAM]')
    built = os.path.join(model.ROOT, 'crates', 'rack', 'out', 'rack')
    sys.exit(0 if main(int(sys.argv[1]), int(sys.argv[2]), (sys.argv + [built])[3]) else 1)
