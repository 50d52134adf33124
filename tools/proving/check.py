"""What the tools ask of today's check: what it says, what it wrote, and a copy of the repository in which to ask."""
import re
import shutil
import subprocess


def dev(root, crate, *words):
    """One check of a crate, over what earlier ones kept; what it says."""
    run = subprocess.run(['rt', 'check', *words], cwd=root / 'crates' / crate, capture_output=True, text=True)
    return run.stdout + run.stderr


def unproved(said):
    """The functions that a check did not prove, but for those that only call one of these."""
    return re.findall(r'^fn \w+::(\S+): (?:not proved$|no proof: (?!it calls))', said, re.M)


def wrote(said):
    """The files that a check wrote, below the crate's folder."""
    return re.findall(r'^wrote \./(\S+)$', said, re.M)


def told(said):
    """What a check says, without its lines on libraries and on itself."""
    return '\n'.join(line for line in said.split('\n') if line and not re.match(r'(rt:|logic |statements |library |crate |axioms |checked |started=)', line))


def under(root, crate):
    """The crate and those that it stands on, each with its line of crates.txt."""
    lines = {line.split()[0].rstrip(':'): line for line in re.sub('#.*', '', (root / 'crates.txt').read_text()).split('\n') if line.strip()}
    found, todo = {}, [crate]
    while todo:
        name = todo.pop()
        if name in lines and name not in found:
            found[name] = lines[name]
            todo += lines[name].partition(':')[2].split()
    return found


def copy_of(root, crate, to):
    """A copy of the repository at `to` for work on one crate: the files of that crate and of those under it, and the tools. What is proved of them
    rt takes from the other checkouts on the machine."""
    listed = under(root, crate)
    (to / 'crates.txt').write_text(''.join(line + '\n' for line in listed.values()))
    shutil.copytree(root / 'tools', to / 'tools')
    for name in listed:
        shutil.copytree(root / 'crates' / name, to / 'crates' / name, ignore=shutil.ignore_patterns('out', 'must-fail', 'data'))
    return to
