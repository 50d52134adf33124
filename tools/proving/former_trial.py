"""The trial of fold and fill (former.py) on the proofs of that time, in a temporary copy. Nothing calls this file; tools/test tries the verbs of today."""
import subprocess
import tempfile
from pathlib import Path

from proving import former

ROOT = Path(__file__).resolve().parent.parent.parent
READING, WRITING = 'crates/text/src/reading.rt', 'crates/text/src/writing.rt'
# harmless edits, which move places and the numbers of things and needs
EDITS = [
    # a call and a test before those that there are
    (READING, '    let low = low_digit(b);\n',
     '    let mut spare = low_digit(0);\n    if spare < 9 {\n        spare = 9;\n    }\n    let low = low_digit(b);\n'),
    # another name for a variable
    (READING, '    let low = low_digit(b);\n', '    let little = low_digit(b);\n'),
    (READING, '    if low < 10 {\n', '    if little < 10 {\n'),
    (READING, '        return low;\n', '        return little;\n'),
    # a call in a loop, and calls of functions that are called later too
    (READING, '        worst = greater(worst, d);\n', '        let spare = greater(d, d);\n        worst = greater(worst, d);\n'),
    (READING, '    if byte_at(s, next) != stop {\n', '    let spare = byte_at(s, 0);\n    if byte_at(s, next) != stop {\n'),
    (WRITING, '    out[at] = digit_byte(n / 10);\n', '    let spare = digit_byte(1);\n    out[at] = digit_byte(n / 10);\n'),
    # in a cycle, a call of a function that was not called
    (WRITING, '    let p = write_long(out, at, n / 10);\n', '    let spare = decimal_length(n);\n    let p = write_long(out, at, n / 10);\n'),
]


def proof(copy, *words):
    run = subprocess.run([copy / 'tools' / 'proof', *words], capture_output=True, text=True)
    return run.stdout + run.stderr


def texts(copy, crate):
    return {file: file.read_text() for file in sorted((copy / 'crates' / crate / 'proofs').rglob('*.antt'))}


def round_trip(copy, crate):
    """Folds and fills; the files that then differ, and what was said."""
    committed, said = texts(copy, crate), proof(copy, 'fold', crate)
    folded = texts(copy, crate)
    said += proof(copy, 'fill', crate)
    filled = texts(copy, crate)
    paths = sum(text.count(' .before') for text in folded.values())
    changed = sum(folded[file] != committed[file] for file in committed)
    wrong = [str(file) for file in committed if filled[file] != committed[file]]
    print(f'{crate}: {changed} files folded, {paths} paths left in them, {len(wrong)} files not as they were', flush=True)
    return wrong + said.split('\n')[:-1]


def edited(copy):
    """Folds, edits the code, fills and checks; what went wrong."""
    said = proof(copy, 'fold', 'text')
    for file, old, new in EDITS:
        text = (copy / file).read_text()
        if text.count(old) != 1:
            return [f'{file} has not one place for the edit {old.strip()}']
        (copy / file).write_text(text.replace(old, new))
    print(said + proof(copy, 'fill', 'text'), end='')
    verdict = former.dev(copy, 'text')
    return [] if '\nlogic=proved' in verdict else [verdict]


def trial(crates):
    wrong = []
    for crate in crates or ['text']:
        with tempfile.TemporaryDirectory() as folder:
            copy = former.copy_of(ROOT, crate, Path(folder).resolve())
            wrong += round_trip(copy, crate)
            wrong += [] if crates else edited(copy)
    return wrong
