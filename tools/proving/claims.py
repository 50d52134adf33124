"""The claims of a member of a cycle of calls: the tuple, in its proof file, of what each function that it calls asks and tells.

Outside a cycle the check puts them together itself. In one, a call of a function that the member did not call before changes the tuple.
"""
import re

from proving.parts import SPEC, arguments


def listed(text):
    """The claims of a tuple, (a, b, c)."""
    return [claim.strip() for claim in text[1:-1].split(',') if claim.strip()]


def written(claims):
    """The tuple of these claims as a pattern, however its lines are broken."""
    return r'\(\s*' + r',\s*'.join(re.escape(claim) for claim in claims) + r',?\s*\)'


def renewed(text, alias, walk):
    """The text with the claims that the member's calls ask for now, and what is to be said of that."""
    spec = next((m for m in SPEC.finditer(text) if m.group(1) == alias), None)
    if '.+' not in walk.module or not spec:
        return text, []
    start, end = arguments(text, spec.end(), len(text))[0]
    named = re.match(r'\(([\w-]+) t\)$', text[start:end])
    stands = re.search(rf'^{named.group(1)} t =\s*(\([^()]*\))', text, re.M).group(1) if named else text[start:end]
    new, lines = asked(text, walk)
    if listed(stands) == new:
        return text, []
    text = re.sub(written(listed(stands)), f'({", ".join(new)})', text)
    return imported(text, walk.module, new, lines), [f'{alias}: the claims are {", ".join(new)} now']


def asked(text, walk):
    """The claims in the order in which the member calls, and the `use` lines that they lack."""
    home, _, cycle = walk.module.rpartition('.')[0].rpartition('.')
    library, _, folder = home.partition('.proofs')
    names = {used: alias for used, alias in re.findall(r'^use (\S+)\.Reads as (\S+)$', text, re.M)}
    claims, lines = [], []
    for callee in walk.callees:
        crate, *way = callee.split('::')
        own = library == f'Rattle·{crate}·proofs'
        reads = '.'.join([library if own else f'Rattle·{crate}', 'proofs', *way])
        member = own and f'.{".".join(way[:-1])}'.rstrip('.') == folder and way[-1] in cycle.split('+')
        name = names.get(reads) or way[-1].replace('_', '-') + ('' if member else '-reads')
        if reads not in names:
            lines.append(f'use {reads}.Reads as {name}')
        claims += [f'{name}-below t', f'{name}.Post'] if member else [f'{name}.Asked', f'{name}.Learnt']
    return claims, lines


def imported(text, module, claims, lines):
    """The text with these `use` lines before that of the member's walk, without those of callees that are none any more, and with what the claims
    name of the cycle's measures."""
    for line, name in re.findall(r'^(use \S+\.Reads as (\S+)\n)', text, re.M):
        if not re.search(rf'(?<![\w-]){re.escape(name)}\.', text):
            text = text.replace(line, '')
    at = re.search(rf'^use {re.escape(module)} as ', text, re.M).start()
    text = text[:at] + ''.join(line + '\n' for line in lines) + text[at:]
    measures = re.search(r'^use \S+\.Proof\.Measures\.\{(.*)\}$', text, re.M)
    if measures:
        names = measures.group(1).split(', ')
        names += [c.split()[0] for c in claims if c.endswith('-below t') and c.split()[0] not in names]
        text = text[:measures.start(1)] + ', '.join(names) + text[measures.end(1):]
    return text
