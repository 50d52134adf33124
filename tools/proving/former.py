"""The verbs of tools/proof for proof files of an older form, and what they asked of the check of that time: a Proof.antt with paths of ` .before`
and one list of answers. tools/proof refuses these verbs today; it says what stands for each. Nothing calls this file.
"""
import hashlib
import io
import itertools
import os
import pickle
import re
import shutil
import subprocess
import tarfile
import tempfile
from pathlib import Path

from proving import cycle, source
from proving.parts import Trouble
from proving.paths import Paths
from proving.show import shown
from proving.tidy import tidied
from proving.walk import Walk

ROOT = Path(__file__).resolve().parent.parent.parent


# ---- what was asked of the check

def dev(root, crate, *words):
    """One check of a crate, over its incremental folder; what it says, with no line cut."""
    run = subprocess.run(['rt', 'dev', crate, *words], cwd=root, env=dict(os.environ, RT_CUT='0'), capture_output=True, text=True)
    return run.stdout + run.stderr


def walks(root, crate):
    """The walks of the crate's functions by their generated modules' names, by one check, or by none if no code changed since the last."""
    kept, key = root / 'target' / 'walk' / crate, written(root, crate)
    if kept.exists() and kept.read_bytes().startswith(key):
        return pickle.loads(kept.read_bytes()[len(key):])
    with tempfile.TemporaryDirectory() as made:
        said = dev(root, crate, '--generated', made)
        library, found = f'Rattle·{crate}·proofs', {}
        for file in sorted(Path(made, library).rglob('Lts*.antt')):
            way = file.relative_to(Path(made, library)).with_suffix('').parts
            walk = walked('.'.join([library, *way]), file.read_text(), root / 'crates' / crate / 'src')
            found[walk.module] = walk
    if not found:
        raise Trouble(f'the check made no walk of {crate}:\n{said}')
    kept.parent.mkdir(parents=True, exist_ok=True)
    kept.write_bytes(key + pickle.dumps(found))
    return found


def walks_at(root, crate, revision):
    """The walks as they were with the crate's code of another commit, by a check of a copy."""
    with tempfile.TemporaryDirectory() as folder:
        copy, src = copy_of(root, crate, Path(folder).resolve()), f'crates/{crate}/src'
        code = subprocess.run(['git', 'archive', revision, src], cwd=root, check=True, capture_output=True).stdout
        shutil.rmtree(copy / src)
        tarfile.open(fileobj=io.BytesIO(code)).extractall(copy)
        return walks(copy, crate)


def walked(module, text, src):
    """The walk of a function, with words for what its source says."""
    walk = Walk(module, text)
    walk.words = source.words(source.body(src, walk.function()), {place.thing for place in walk.places.values()})
    return walk


def written(root, crate):
    """A sum over the code that the walks of a crate go by: its own, that of the crates under it, and of the tools."""
    under = dict(re.findall(r'^(\w+):(.*)', (root / 'crates.txt').read_text(), re.M))
    todo, seen, total = [crate], set(), hashlib.sha256()
    for file in sorted(Path(__file__).parent.glob('*.py')):
        total.update(file.read_bytes())
    total.update(subprocess.run(['rt', 'version'], capture_output=True).stdout)
    while todo:
        name = todo.pop()
        if name in under and name not in seen:
            seen.add(name)
            todo += under[name].split()
    for name in sorted(seen):
        for file in sorted((root / 'crates' / name / 'src').rglob('*.rt')):
            total.update(str(file.relative_to(root)).encode() + file.read_bytes())
    return total.digest()


def printed(said):
    """The proof files that a check printed: from each path to the text."""
    lines, out = said.split('\n'), {}
    for i, line in enumerate(lines):
        head = re.match(r'help: write (\S+/Proof\.antt) with these lines', line)
        if head:
            text = itertools.takewhile(lambda line: line.startswith('    ') or not line.strip(), lines[i + 1:])
            out[Path(head.group(1))] = '\n'.join(line[4:] for line in text).rstrip() + '\n'
    return out


def copy_of(root, crate, to):
    """A copy of the repository at `to` for work on one crate: that crate's files, and links to the crates under it and to what is proved of them."""
    for folder in ('crates', 'target/rlib', 'target/stamp', 'target/inc'):
        (to / folder).mkdir(parents=True)
    shutil.copy(root / 'crates.txt', to)
    shutil.copytree(root / 'tools', to / 'tools')
    shutil.copytree(root / 'crates' / crate, to / 'crates' / crate)
    for other in (root / 'crates').iterdir():
        if other.name != crate:
            (to / 'crates' / other.name).symlink_to(other)
            stamp = root / 'target' / 'stamp' / other.name
            if stamp.exists() and (root / 'target' / 'rlib' / f'{other.name}.rlib').exists():
                shutil.copy(stamp, to / 'target' / 'stamp')
                (to / 'target' / 'rlib' / f'{other.name}.rlib').symlink_to(root / 'target' / 'rlib' / f'{other.name}.rlib')
    if (root / 'target' / 'inc' / crate).exists():
        shutil.copytree(root / 'target' / 'inc' / crate, to / 'target' / 'inc' / crate)
    return to


# ---- the verbs

def is_of(folder, text, functions):
    """Whether a proof file, given by its folder and its text, is that of one of these functions; of any if none is named."""
    ways = [f'/{folder}/'.replace('/Proof/', '/'), *(f'/{member}/' for member in re.findall(r'^use \S+\.Lts-(\S+) as ', text, re.M))]
    return not functions or any(way.endswith(f'/{function}/') for way in ways for function in functions)


def files(crate, functions):
    """The proof files of these functions, and the text of each."""
    proofs = ROOT / 'crates' / crate / 'proofs'
    every = {f: f.read_text() for f in sorted(proofs.rglob('*.antt')) if f.name == 'Proof.antt' or f.parent.name == 'Proof'}
    found = {f: text for f, text in every.items() if is_of(f.relative_to(proofs).parent, text, functions)}
    for function in functions:
        if not any(is_of(f.relative_to(proofs).parent, text, [function]) for f, text in found.items()):
            raise Trouble(f'{crate} has no proof file of {function}')
    return found


def used(text, walks):
    """The walks of the functions whose generated modules a proof file names, by its names for these."""
    named = re.findall(r'^use (\S+\.(?:Tie|Lts\S*)) as (\S+)$', text, re.M)
    modules = {alias: re.sub(r'\.Tie$', '.Lts', module) for module, alias in named}
    for module in modules.values():
        if module not in walks:
            raise Trouble(f'the check made no walk for {module}: is its function there, under this name, and is its form covered?')
    return {alias: walks[module] for alias, module in modules.items()}


def change(crate, functions, walks, work):
    """Does the work on each proof file, and gives what is left to do."""
    left = []
    for file, text in files(crate, functions).items():
        try:
            new, said = work(Paths(text, used(text, walks)))
            if new != text:
                file.write_text(new)
        except Trouble as trouble:
            said = [f'left as it is: {trouble}']
        left += [f'{file.relative_to(ROOT)}: {line}' for line in said]
    return left


def fold(crate, words):
    if '--was' in words[:-1]:
        at = words.index('--was')
        return change(crate, words[:at] + words[at + 2:], walks_at(ROOT, crate, words[at + 1]), Paths.fold)
    return change(crate, words, walks(ROOT, crate), Paths.fold)


def fill(crate, functions):
    return change(crate, functions, walks(ROOT, crate), Paths.fill)


def show(crate, functions):
    for walk in walks(ROOT, crate).values():
        name = '/'.join(walk.function())
        if is_of(name, '', functions):
            print(f'{name}\n{shown(walk)}\n')


def skeleton(crate, functions):
    """Writes what checks print until one prints nothing new: a caller's file is printed once its callees have theirs."""
    proofs = ROOT / 'crates' / crate / 'proofs'
    while True:
        said, wrote = dev(ROOT, crate), False
        for file, text in printed(said).items():
            if not file.exists() and is_of(file.relative_to(proofs).parent, text, functions):
                file.parent.mkdir(parents=True, exist_ok=True)
                file.write_text(text)
                print('wrote', file.relative_to(ROOT))
                wrote = True
        if not wrote or 'is not made yet' not in said:
            return [line for line in said.split('\n') if re.match(r'fn .*: (?!proved)', line)]


def fresh(crate, folder):
    """The proof file that a check prints where this folder of proofs has none, by a check of a copy."""
    with tempfile.TemporaryDirectory() as place:
        copy = copy_of(ROOT, crate, Path(place).resolve())
        shutil.rmtree(copy / folder.relative_to(ROOT))
        said = dev(copy, crate)
        file = copy / folder.relative_to(ROOT) / 'Proof.antt'
        if file not in printed(said):
            raise Trouble(f'the check printed no file for {folder.name}:\n{said}')
        return printed(said)[file]


def again(crate, functions):
    folders = ([folder for folder in file.parents if folder.name.startswith('+')] or [file.parent] for file in files(crate, functions))
    for folder in dict.fromkeys(found[0] for found in folders):
        print(fresh(crate, folder))


def tidy(crate, functions):
    for file, text in files(crate, functions).items():
        file.write_text(tidied(text))


def split(crate, cycles):
    for name in cycles:
        folder = ROOT / 'crates' / crate / 'proofs' / name
        if not (folder / 'Proof.antt').exists():
            raise Trouble(f'there is no {name}/Proof.antt; `skeleton` writes it')
        text = (folder / 'Proof.antt').read_text()
        for file in cycle.split(folder, text if cycle.is_long(text) else fresh(crate, folder)):
            print('wrote', (folder / file).relative_to(ROOT))
