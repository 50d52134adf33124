"""The walk that a check makes of a function's code: its places, what is known at each, and the needs in their order.

A place is a record of two fields: `before`, the place before it, and a thing (a call, a test, a loop, a value) with what that tells.
The first place is `Start`. A need is asked at a place, and `c` is that place's record, so a thing that lies k places back is read
`c`, k times ` .before`, ` .THING`. A thing's name is its own in its function, so `@THING` can stand for that path.
"""
import re

START = ('args', 'good', 'fits', 'pre', 'κs')
CALL = ['result', 'ensures', 'last', 'kept', 'ok']


class Place:
    def __init__(self, name, before, thing):
        self.name, self.before, self.thing = name, before, thing
        self.tells = []    # the fields of the thing
        self.kinds = []    # of a call, the kinds of its parameters, by the logic's names

    def slices(self):
        """The parameters, by number, that are `&mut` slices."""
        return [number for number, kind in enumerate(self.kinds) if kind == 'pMutS']


class Walk:
    """Made from a function's generated module `Lts`: its name and its text."""

    def __init__(self, module, text):
        self.module = module
        self.places = {}        # a place by its name
        self.needs = {}         # a need's name to its place's, in the order in which `spec` takes the answers
        self.slices = {}        # of a need of a slice's length, the number of the parameter that is the slice
        self.parameters = []
        self.order = []         # places and needs in the order of the code
        self.words = {}         # of a call or a test, a word for what the source says there
        self.loops = {name: shape.count('→') for name, shape in re.findall(r'^((?:Inv|Measure)T-\S+) =(.*(?:\n    .*)*)', text, re.M)}
        self.callees = list(dict.fromkeys(re.findall(r'Syntax\.call\s+"([^"]+)"', text)))
        told, kinds = {}, {}
        for block in text.split('\n\n'):
            self._read(block, told, kinds)
        for name, (tells, parameters) in told.items():
            if name in self.places:
                self.places[name].tells, self.places[name].kinds = tells, kinds.get(parameters, [])

    def _read(self, block, told, kinds):
        """One declaration of the module: a callee's parameters, a need, what a call or another thing tells, a place, or none of these."""
        parameters = re.match(r'abbrev pub (ps·\d+) :', block)
        need = re.search(r'abbrev pub Need-(\S+) : Type 0\n\s+Need-\S+ =\s+\(c : (\S+?)\)(.*)', block, re.S)
        called = re.search(r'abbrev pub (\S+)·own : Type 0\n\s+\S+ =\s+Called\.Called\s+(\S+)', block)
        record = re.search(r'pub record (\S+) : Type 0 where\n(.*)', block, re.S)
        if parameters:
            kinds[parameters.group(1)] = re.findall(r"[\w']+\.(p[A-Z]\w*)", block)
        elif need:
            name, place, asks = need.groups()
            self.needs[name] = place
            self.order.append(name)
            if name.startswith('same-length'):
                self.slices[name] = int(re.search(r'Row\.get (\d+)', asks).group(1)) - 1
        elif called:
            told[called.group(1)] = (CALL, called.group(2))
        elif record:
            name, fields = record.groups()
            names = re.findall(r'^\s+pub (\S+) :', fields, re.M)
            if name.endswith('·own'):
                told[name[:-len('·own')]] = (names, None)
            elif names[0] == 'before':
                self.places[name] = Place(name, re.search(r'pub before : (\S+)', fields).group(1), names[1])
                self.order.append(name)
            elif name == 'Args':
                self.parameters = names

    def function(self):
        """The way to the function in its crate: modules and name."""
        _, _, *way, last = self.module.split('.')
        return [*way[:-1], last[len('Lts-'):]] if last.startswith('Lts-') else way

    def events(self):
        """The walk in words, in the order of the code: `PLACE.THING` for a place and the need's name for a need, each with the word of its
        call or test, if it has one, after a `#`."""
        out, coming = [], {}
        for name in reversed(self.order):
            place = self.places.get(name)
            thing = place.thing if place else ''
            if place:
                coming[re.sub(r'\d+$', '', thing)] = self.words.get(thing)
            word = self.words.get(thing) if place else coming.get(re.sub(r'-requires(-\d+)?$', '', name))
            out.append((f'{name}.{thing}' if place else name) + (f'#{word}' if word else ''))
        return out[::-1]

    def way(self, place):
        """The places from this one back to the first, without `Start`."""
        way = []
        while place != 'Start':
            way.append(self.places[place])
            place = way[-1].before
        return way

    def find(self, place, name):
        """How far back the thing or place of this name lies, and its place; `Start` for the first place and its fields, or None."""
        way = self.way(place)
        for back, at in enumerate(way):
            if name in (at.thing, at.name):
                return back, at
        return (len(way), 'Start') if name == 'Start' or name in START else None

    def name(self, place, back, field):
        """The short name of the path `c`, back times ` .before`, ` .field` (or no field); None if there is no such thing."""
        way = self.way(place)
        if back < len(way):
            return way[back].name if not field else field if field == way[back].thing else None
        return (field or 'Start') if back == len(way) and (not field or field in START) else None

    def kept(self, need):
        """The answer to the need of a slice's length by what the calls on the way kept of it; None if that does not answer it."""
        if need not in self.slices:
            return None
        slice_, way, parts = self.parameters[self.slices[need]], self.way(self.needs[need]), []
        for back, at in enumerate(way):
            if slice_ in at.tells:
                return None
            for number, came in zip(at.slices(), home(way[:back])):
                if re.fullmatch(rf'{re.escape(slice_)}\d*', came):
                    parts.append(f'c{" .before" * back} .{at.thing} .kept{" .1" * number} .0')
        return ' ∙ '.join(parts) or None


def home(after):
    """The slices that come home after a call, in the order of its parameters, given the places after it, the last first. Each is followed by what is
    known of it."""
    return [came.thing for came, known in zip(after[::-2], after[-2::-2]) if re.match(r'slice-known\d*$', known.thing)]


def closing(text, at):
    """The place after the bracket that closes the one at `at`."""
    depth = 0
    for i in range(at, len(text)):
        depth += (text[i] in '({') - (text[i] in ')}')
        if depth == 0:
            return i + 1
    raise ValueError('a bracket is not closed')
