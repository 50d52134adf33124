"""What the source says at the calls and the tests of a function, by which they are found again after an edit moved their numbers."""
import re
import zlib

from proving.walk import closing


def body(src, way):
    """The text of a function's body, without comments, given the crate's src/ and the function's path in it; '' if it is not found."""
    *home, name = way
    for file in sorted(src.rglob('*.rt')):
        module = [part for part in file.relative_to(src).with_suffix('').parts if part not in ('lib', 'main', 'mod')]
        text = re.sub(r'//.*', '', file.read_text())
        if module != home[:len(module)]:
            continue
        impl = re.search(rf'\bimpl {re.escape(home[-1])}\b', text) if len(home) > len(module) else re.match('', text)
        head = impl and re.compile(rf'\bfn {re.escape(name)}\b').search(text, impl.start())
        if head:
            return last_braces(text, head.end())
    return ''


def last_braces(text, start):
    """The body after a function's name: the first braces that are not those of a clause of its contract."""
    while True:
        opened = text.index('{', start)
        end = closing(text, opened)
        if not re.search(r'\b(requires|ensures|ghost)(\s+\w+)?\s*$', text[start:opened]):
            return text[opened:end]
        start = end


def words(text, things):
    """From each call and test among the things of a walk to a word for what the source says there. Calls are numbered as they end in the
    text, tests as they begin. Where the text has more or fewer of a kind than the walk, that kind has no words."""
    kinds = {'if': [m.group(1) for m in re.finditer(r'\bif\b([^{]*)', text)]}
    for base in {re.sub(r'\d+$', '', thing) for thing in things} - {'if'}:
        calls = [(closing(text, m.end() - 1), m.end()) for m in re.finditer(rf'\b{re.escape(base.replace("-", "_"))}\(', text)]
        kinds[base] = [text[start:end] for end, start in sorted(calls)]
    out = {}
    for kind, said in kinds.items():
        names = [f'if{i}' if kind == 'if' else kind + str(i if i > 1 else '') for i in range(1, len(said) + 1)]
        if {t for t in things if re.fullmatch(rf'{re.escape(kind)}\d*', t)} == set(names):
            out.update({name: format(zlib.crc32(re.sub(r'\s', '', what).encode()), '08x') for name, what in zip(names, said)})
    return out
