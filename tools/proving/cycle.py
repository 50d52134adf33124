"""The proof of a cycle of calls as a file for each member, made from the one long file that a check prints for it."""
import re

from proving.claims import listed, written
from proving.parts import Trouble, arguments, items

MEASURES = '''-- The measures of the cycle, what each member is given at a measure t, and what a call of it asks below t. Assumes nothing.
use Prim.Native.Nat.{ℕ, _<_, _+_, _*_}
use borrow.Fn.Kinds.{In}
use borrow.Fn.PlainCycle.{Measures, is, falls, and}
'''
MEMBER = {'Prim.Native.Nat': ['ℕ'], 'native.Mathlib.Omega': ['arith'], 'borrow.Author.Needs': ['needs']}
KNOT = '-- The proof of a cycle of calls: a file for each member below Proof/. Assumes nothing.\n'
WORD = re.compile(r"(?<![\w.'·-])[\w'·-]+")


class Cycle:
    """The long file in its parts."""

    def __init__(self, text):
        self.home = re.search(r'^use (\S+)\.\{statement\}$', text, re.M).group(1)
        self.modules = {alias: module for module, alias in re.findall(r'^use (\S+) as (\S+)$', text, re.M)}
        self.names = {module: names.split(', ') for module, names in re.findall(r'^use (\S+)\.\{(.*)\}$', text, re.M)}
        self.declared = items(text)
        self.members = [name[2:] for name in self.declared if name.startswith('μ-')]
        self.name = next(name for name in self.declared if name.startswith('+'))
        measured = {name for m in self.members for name in self.measured(m)}
        other = [name for name in self.declared if name not in measured | {self.name} and not any(name in self.own(m) for m in self.members)]
        if other:
            raise Trouble(f'what is not of the form that a check prints goes elsewhere first: {" ".join(other)}')

    def measured(self, m):
        return f'μ-{m}', f'{m}-at', f'{m}-below'

    def own(self, m):
        """What is declared for a member: invariants and measures of its loops, and answers."""
        return {name: item for name, item in self.declared.items() if name.startswith(f'{m}-') and f' {m}-lts.' in item}

    def given(self, m):
        """What the member's `spec` is given: its claims, two more readings, and what is declared for it."""
        knot = self.declared[self.name]
        spec = re.compile(rf'(?<![\w-]){re.escape(m)}-lts\.spec').search(knot)
        return [knot[start:end] for start, end in arguments(knot, spec.end(), len(knot))]


def is_long(text):
    """Whether a file is the one that a check prints for a cycle, with all its members, and not the knot of a cycle that was split."""
    return any(name.startswith('μ-') for name in items(text))


def split(folder, text):
    """Writes Proof.antt, Proof/Measures.antt and Proof/MEMBER.antt from the long file. What stands there of a member or of the measures stays, under
    the cycle's present name. Gives the files that it wrote."""
    cycle = Cycle(text)
    files = {f'Proof/{camel(m)}.antt': member(cycle, m) for m in cycle.members}
    files['Proof/Measures.antt'] = measures(cycle)
    files = {name: renewed((folder / name).read_text(), cycle, made) if (folder / name).exists() else made for name, made in files.items()}
    files['Proof.antt'] = knot(cycle)
    (folder / 'Proof').mkdir(exist_ok=True)
    wrote = [name for name, made in files.items() if not (folder / name).exists() or (folder / name).read_text() != made]
    for name in wrote:
        (folder / name).write_text(files[name])
    return wrote


def camel(name):
    return ''.join(word.capitalize() for word in re.split('[-_]', name))


def measures(cycle):
    out = MEASURES + ''.join(f'use {cycle.modules[name]} as {name}\n' for m in cycle.members for name in (m, f'{m}-kinds'))
    for name in (name for m in cycle.members for name in cycle.measured(m)):
        signature, body = re.split(rf'\n(?={re.escape(name)} )', cycle.declared[name])
        out += '\n' + signature.replace('abbrev ', 'abbrev pub ') + '\n' + re.sub(r'\s+', ' ', body) + '\n'
    return out


def member(cycle, m):
    """The file of a member, with its claims said once and its names without the member's."""
    given, short = cycle.given(m), {name: name[len(m) + 1:] for name in cycle.own(m)}
    claims = listed(given[0])
    cited = dict.fromkeys([claim.split('.')[0] for claim in claims if '.' in claim] + [m])
    below = dict.fromkeys(claim.split()[0] for claim in claims if claim.endswith(' t'))
    out = ''.join(f'use {cycle.modules[name]} as {name}\n' for name in cited)
    out += f'use {cycle.modules[m + "-lts"]} as lts\nuse {cycle.home}.Proof.Measures.{{{", ".join([m + "-at", *below])}}}\n'
    out += f'\nabbrev claims : ℕ → lts.Claims\nclaims t = ({", ".join(claims)})\n'
    for item in cycle.own(m).values():
        item = re.sub(written(claims), '(claims t)', item).replace(f' {m}-lts.', ' lts.')
        out += '\n' + first_answer(WORD.sub(lambda word: short.get(word.group(0), word.group(0)), item)) + '\n'
    readings = f'(claims t) ({m}-at t) {m}.Post'
    out += f'\npub part : {{M : Type 1}} (t : ℕ) → lts.Closed {readings} M\npart t =\n    lts.spec {readings}\n'
    out += ''.join(f'    {WORD.sub(lambda word: short.get(word.group(0), word.group(0)), answer)}\n' for answer in given[3:])
    return f'-- `{m.replace("-", "_")}` meets its contract. Assumes nothing.\n' + brought(cycle, out) + out


def brought(cycle, text):
    """The `use` lines for what a member's file may need, and for what it names of that which the long file uses."""
    out = ''
    for module in dict.fromkeys([*cycle.names, *MEMBER]):
        names = [name for name in cycle.names.get(module, []) if re.search(rf"(?<![\w'·-]){re.escape(name.split()[-1].strip('_'))}(?![\w'·-])", text)]
        names = list(dict.fromkeys(MEMBER.get(module, []) + names))
        if names and not module.startswith((cycle.home, 'borrow.Fn.')):
            out += f'use {module}.{{{", ".join(names)}}}\n'
    return out


def first_answer(item):
    """A declaration with the search, or what calls kept, in the place of a hole, but for invariants, measures and what a return or a loop asks."""
    if re.match(r'abbrev|returns|loop', item):
        return item
    return re.sub(r' = \?$', ' = @Kept' if item.startswith('same-length') else ' = search needs', item)


def knot(cycle):
    of_members = [f'mod {camel(m)}\n' for m in cycle.members], [f'use {camel(m)}.{{part as {m}-part}}\n' for m in cycle.members]
    measured = [f'μ-{m}' for m in cycle.members]
    out = KNOT + 'mod Measures\n' + ''.join(of_members[0]) + f'use {cycle.home}.{{statement}}\nuse {cycle.home}.Tie.{{close}}\n'
    out += f'use Measures.{{{", ".join(measured)}}}\n' + ''.join(of_members[1])
    closed = ' '.join(measured + [f'{m}-part' for m in cycle.members])
    return out + f'\npub {cycle.name} : {{M : Type 1}} → statement M\n{cycle.name} = close {closed}\n'


def renewed(text, cycle, made):
    """A file that stands there, with the cycle's present name in it and, of the measures, with those of members that are new."""
    folder = re.escape(cycle.home.rpartition('.')[0])
    text = re.sub(rf'{folder}\.\+[^.\s]+', lambda m: cycle.home, text)
    measured = {name for m in cycle.members for name in cycle.measured(m)}
    missing = [item for name, item in items(made).items() if name in measured and name not in items(text)]
    lines = [line for line in re.findall(r'^use \S+ as \S+\n', made, re.M) if missing and line not in text]
    last = list(re.finditer(r'^use .*\n', text, re.M))[-1].end()
    return text[:last] + ''.join(lines) + text[last:] + ''.join(f'\n{item}\n' for item in missing)
