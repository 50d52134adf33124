"""The parts of a proof file in which `c` is the record of a place.

An answer stands in a declaration of its own, `NAME c = ..` under `NAME : tie.Need-..`, or among the arguments of `tie.spec`, where the
order of the needs says which one it answers. A lemma over a place, `NAME : (c : tie.PLACE) → ..`, has such parts too.
"""
import re

from proving.walk import closing

ITEM = re.compile(r'^(?:abbrev |unfoldable )?(?:pub )?(?!--)(\S+) :(?=\s)', re.M)
SPEC = re.compile(r'(?<![\w-])([\w-]+)\.spec(?=\s)')
BLANK = re.compile(r'(?:\s|--.*)*')
ATOM = re.compile(r'[^\s(){}]+')


class Trouble(Exception):
    """What keeps the tools from their work; what they could not work on stays as it is."""


class Part:
    def __init__(self, kind, alias, about, start, end, declared=None, head=None):
        self.kind = kind            # 'need', 'place' or 'spec'
        self.alias = alias          # the name under which the file uses the function's generated module
        self.about = about          # the need or the place
        self.start, self.end = start, end
        self.declared, self.head = declared, head    # the name of the declaration, and where it begins


def items(text):
    """The declarations of a text: from each name to its whole text, without the comments that stand between them."""
    heads = list(ITEM.finditer(text))
    ends = [h.start() for h in heads[1:]] + [len(text)]
    return {h.group(1): re.sub(r'(\n--.*|\s)+$', '', text[h.start():end]) for h, end in zip(heads, ends)}


def parts(text, aliases):
    """The parts of the text, in its order."""
    heads = list(ITEM.finditer(text))
    for head, end in zip(heads, [h.start() for h in heads[1:]] + [len(text)]):
        name = head.group(1)
        body = re.compile(rf'^{re.escape(name)}(?: [^=\n]*)? =', re.M).search(text, head.end(), end)
        signature = text[head.start():body.start() if body else end]
        need = re.search(r'([\w-]+)\.Need-([\w-]+)', signature)
        place = re.search(r'\(c : ([\w-]+)\.([A-Z][\w-]*)', signature)
        if need and body and need.group(1) in aliases:
            yield Part('need', need.group(1), need.group(2), body.end(), end, name, head.start())
        elif place and body and place.group(1) in aliases:
            yield Part('place', place.group(1), place.group(2), head.start() + place.end(), body.start())
            yield Part('place', place.group(1), place.group(2), body.end(), end)
        else:
            for spec in SPEC.finditer(text, head.end(), end):
                if spec.group(1) in aliases:
                    yield Part('spec', spec.group(1), None, spec.end(), end)


def arguments(text, start, end):
    """The arguments that stand one after another from start: (start, end) of each."""
    out, i = [], start
    while True:
        i = BLANK.match(text, i, end).end()
        if i >= end or text[i] in ')}':
            return out
        stop = closing(text, i) if text[i] in '({' else ATOM.match(text, i, end).end()
        if text[i:stop] == 'λ':
            raise Trouble('put the last answer of `spec` into brackets')
        out.append((i, stop))
        i = stop


def answers(text, part, needs, loops):
    """The arguments of a `spec` that answer these needs, and where those before them end: an invariant and a measure for each loop and, in a
    cycle, three readings. loops: how many invariants and measures there are, None if an edit may have changed that."""
    given = arguments(text, part.start, part.end)
    before = len(given) - len(needs)
    if before < 0 or loops is not None and before not in (loops, loops + 3):
        raise Trouble(f'`{part.alias}.spec` has {len(given)} arguments; it takes {loops} for loops and {len(needs)} answers')
    return given[before:], given[before - 1][1] if before else part.start
