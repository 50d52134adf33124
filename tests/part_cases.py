#!/usr/bin/env python3
"""Makes the lists that the program part_cases replays, and what it has to write.

    python3 tests/part_cases.py            writes crates/part_cases/data, args and stdout anew
    python3 tests/part_cases.py --check    only says whether they are what it would write

vectors.py, commands.py and texts.py make one list each, and say what its lines stand for and where the right answers come from.
"""
import commands
import texts
import vectors
from stored import hold_program


def main():
    lists, said = {}, b''
    for name, module in (('vectors', vectors), ('commands', commands), ('texts', texts)):
        cases, answers = module.made()
        lists[name] = b''.join(cases)
        said += b''.join(answers)
        print('%s: %d' % (name, len(cases)))
    hold_program('part_cases', lists, lists, said)


main()
