"""The files that a script makes for a program: written anew, or with --check compared with those that are there."""
import os
import sys

CRATES = os.path.join(os.path.dirname(os.path.dirname(os.path.abspath(__file__))), 'crates')


def hold(path, content):
    """Writes a file, or stops where it is not this."""
    if sys.argv[1:] != ['--check']:
        with open(path, 'wb') as f:
            f.write(content)
        return
    with open(path, 'rb') as f:
        if f.read() != content:
            sys.exit('%s is not what this script makes' % path)


def pass_over(pick):
    """Draws five numbers that nothing uses, so that the cases after them stay the stored ones."""
    for most in (3, 3, 3, 3, 4):
        pick.randrange(most)


def hold_program(name, lists, args, said):
    """A program's lists, the names of those that it is run on, and what it has to write."""
    folder = os.path.join(CRATES, name)
    for which, content in lists.items():
        hold(os.path.join(folder, 'data', which), content)
    hold(os.path.join(folder, 'args'), ''.join(which + '\n' for which in args).encode())
    hold(os.path.join(folder, 'stdout'), said)
