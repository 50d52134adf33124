"""Folding and filling: the paths of a proof file as short names, and the short names as paths.

A folded file ends in a line for each function with the walk that its names belong to, so that `fill` can follow an edit of the code:
it finds the things and the needs of that walk in the new one, renumbers names and declarations, and answers new needs by `search needs`.
"""
import re

from proving import claims
from proving.moved import Moved
from proving.parts import Trouble, answers, parts

PATH = re.compile(r"(?<![\w.'·@-])c(?![\w'·-])(?! :)((?: \.before)*)(?: \.([\w'·-]+))?")
SHORT = re.compile(r"@([\w'·-]+)(?: \.([\w'·-]+))?")
INLINE = re.compile(r"\(λ c(?: [\w'·]+)*\.")
FOLDED = re.compile(r'^-- walk of (\S+) when folded: (.*)\n', re.M)


class Paths:
    """Of one proof file. walks: from the name under which it uses a generated module to the function's walk. Folding and filling give the new
    text, and what there is to say of it."""

    def __init__(self, text, walks):
        self.text, self.walks, self.said = text, walks, []

    def fold(self):
        if FOLDED.search(self.text):
            return self.text, []
        new = []
        for part in parts(self.text, self.walks):
            walk = self.walks[part.alias]
            if part.kind == 'spec':
                given, _ = answers(self.text, part, walk.needs, len(walk.loops))
                for (need, place), (start, end) in zip(walk.needs.items(), given):
                    new.append((start, end, self._folded(walk, need, place, self.text[start:end])))
                continue
            at = Moved(walk, None).place(part)
            if not at:
                raise Trouble(f'the code has no {part.kind} {part.about}')
            new.append((part.start, part.end, self._folded(walk, *at, self.text[part.start:part.end])))
        walked = {part.alias: ' '.join(self.walks[part.alias].events()) for part in parts(self.text, self.walks)}
        out = replaced(self.text, new) + ''.join(f'-- walk of {alias} when folded: {events}\n' for alias, events in walked.items())
        return out, self.said

    def _folded(self, walk, about, place, text):
        inline = INLINE.match(text)
        head = inline.group(0) if inline else ''
        body = text[len(head):]
        if re.search(r"λ(?: [\w'·]+)* c(?: [\w'·]+)*\.", body):
            self.said.append(f'{about}: a λ in the answer binds c again; left as it is')
            return text
        kept = walk.kept(about)
        if kept and body.strip(' \n)') == kept:
            return head + body.replace(kept, '@Kept')

        def short(m):
            if argument(body, m.start()):
                return f'@{place}' + m.group(0)[1:]
            name = walk.name(place, m.group(1).count('.before'), m.group(2))
            if not name:
                self.said.append(f'{about}: nothing stands at {m.group(0)}')
            return f'@{name}' if name else m.group(0)
        return head + PATH.sub(short, body)

    def fill(self):
        was = {alias: events.split() for alias, events in FOLDED.findall(self.text)}
        self.text = FOLDED.sub('', self.text)
        moved = {alias: Moved(walk, was.get(alias)) for alias, walk in self.walks.items()}
        new, declared = [], {}
        for part in parts(self.text, self.walks):
            move = moved[part.alias]
            if part.kind == 'spec':
                new.append(self._filled_spec(part, move))
                continue
            at = move.place(part)
            if not at and part.kind == 'need':
                self.said.append(f'{part.about}: the code has no such need any more; taken out: {self.text[part.head:part.end].strip()}')
                new.append((part.head, part.end, ''))
            if not at and part.kind == 'place':
                self.said.append(f'{part.about}: the code has no such place any more; a lemma over it is left as it is')
            if not at:
                continue
            new.append((part.start, part.end, self._filled(move, *at, self.text[part.start:part.end])))
            if part.kind == 'need' and part.declared.endswith(part.about):
                declared[part.declared] = part.declared[:-len(part.about)] + at[0]
        self.text = renamed(replaced(self.text, new), moved, declared)
        for name, module in (('needs', 'borrow.Author.Needs'), ('_∙_', 'mathlib.Core.Path')):
            self.text = with_use(self.text, name, module)
        for alias, walk in self.walks.items():
            self.text, said = claims.renewed(self.text, alias, walk)
            self.said += [*said, *loops(self.text, alias, walk)]
        return self.text, self.said

    def _filled_spec(self, part, move):
        """The answers in the order of the needs as they are now: those that stand there, and new ones."""
        given, edge = answers(self.text, part, move.needs, None if move.edited else len(move.walk.loops))
        stand, end = {}, edge
        for need, (start, stop) in zip(move.needs, given):
            now, space, answer = move.needs[need], self.text[end:start], self.text[start:stop]
            end = stop
            if now:
                stand[now] = space, self._filled(move, now, move.walk.needs[now], answer)
            elif INLINE.match(answer):
                self.said.append(f'{need}: the code has no such need any more; taken out: {answer}')
        out, space = '', '\n    '
        for need in move.walk.needs:
            if need not in stand:
                self.said.append(f'{need}: a new need, answered by {unasked(move.walk, need)}')
            space, answer = stand.get(need, (space, unasked(move.walk, need)))
            out += space + answer
        return edge, end, out

    def _filled(self, move, about, place, text):
        walk = move.walk

        def path(m):
            name, field = m.group(1), m.group(2)
            if name == 'Kept':
                return walk.kept(about) or 'search needs'
            now = move.names.get(name, name)
            found = walk.find(place, now) if now else None
            if not found:
                there = ' '.join('@' + at.thing for at in walk.way(place))
                self.said.append(f'{about}: @{name} is not on the way to it; there are {there} @args @good @fits @pre')
                return m.group(0)
            back, at = found
            out, rest = 'c' + ' .before' * back, f' .{numbered(at, field)}' if field else ''
            if now == 'Start' or at != 'Start' and now != at.thing:
                return (f'({out})' if back and argument(text, m.start()) else out) + rest
            return f'{out} .{now}{rest}'
        return SHORT.sub(path, text)


def argument(text, at):
    """Whether what stands there is an argument; a projection after it is then one of the whole application."""
    return re.search(r"[\w'·)] $", text[:at]) and not re.search(r'(?<![\w-])(in|at) $', text[:at])


def numbered(at, field):
    """A field of a thing, under the number that it has now: the third arm of a `match` may be the fourth after an edit."""
    if at == 'Start' or field in at.tells:
        return field
    like = [t for t in at.tells if re.sub(r'\d+$', '', t) == re.sub(r'\d+$', '', field)]
    return like[0] if len(like) == 1 else field


def unasked(walk, need):
    """The answer to a need that is new."""
    if re.search(r'-requires(-\d+)?$', need):
        return '(λ c κs. search needs)'
    return f'(λ c. {walk.kept(need) or "search needs"})'


def with_use(text, name, module):
    """The text with a `use` line for a name that new answers may need, if it stands there and has none."""
    word = name.strip('_')
    used = re.search(rf'(?<![\w.]){re.escape(word)}(?![\w-])', re.sub(r'^(use|--) .*', '', text, flags=re.M))
    line = re.search(rf'^use {re.escape(module)}\.\{{(.*)\}}$', text, re.M)
    if not used or re.search(rf'^use .*[{{ ]{re.escape(name)}[,}}]', text, re.M):
        return text
    if line:
        return text[:line.end() - 1] + f', {name}' + text[line.end() - 1:]
    first = re.search(r'^use ', text, re.M).start()
    return text[:first] + f'use {module}.{{{name}}}\n' + text[first:]


def replaced(text, new):
    """The text with each (start, end, piece) of new put in."""
    for start, end, piece in sorted(new, reverse=True):
        text = text[:start] + piece + text[end:]
    return text


def loops(text, alias, walk):
    """What is to be said of invariants and measures: one that is lacking, or that names more or fewer variables than the loop has."""
    declared = re.findall(rf'^(?:abbrev )?(\S+) : {re.escape(alias)}\.((?:Inv|Measure)T-\S+)$', text, re.M)
    if declared:
        yield from (f'{shape} is not given' for shape in walk.loops if shape not in dict(declared).values())
    for name, shape in declared:
        named = re.search(rf'^{re.escape(name)} ([^=\n]*)=', text, re.M)
        if named and shape in walk.loops and len(named.group(1).split()) != walk.loops[shape]:
            yield f'{name} takes {walk.loops[shape]} variables now, and names {len(named.group(1).split())}: `again` prints them'


def renamed(text, moved, declared):
    """The text with the names of needs, places and loops in types, and of the declarations that answer needs, as they are now."""
    def of_module(m):
        alias, kind, name = m.groups()
        move = moved.get(alias)
        now = move and (move.needs if kind == 'Need-' else move.names).get(name)
        return f'{alias}.{kind}{now}' if now else m.group(0)
    text = re.sub(r"(?<![\w.'·-])([\w-]+)\.(Need-|InvT-|MeasureT-|(?=[A-Z]))([\w-]+)", of_module, text)
    return re.sub(r"(?<![\w.'·@-])[\w'·-]+", lambda m: declared.get(m.group(0), m.group(0)), text)
