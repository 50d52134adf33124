"""The list of cases that the jobs under examples/ are, for the program call_cases: what rack has to print and to say of each.

A case is a line as in tests/call_cases.py, with the letter x, and then four texts as they are: the words of the command line, each ended
by a line feed; the job; what has to be printed on standard output; and what has to be said on standard error. Field 3 has eight digits each
for the lengths of the words and of the job, field 4 for those of the two outputs; the others are 0.

The words stand in the example's file `words`, or else are its folder's name; the other texts are its files `job`, `expected` and `said`.
"""
import glob
import os

EXAMPLES = os.path.join(os.path.dirname(os.path.dirname(os.path.abspath(__file__))), 'examples')
WORDS, JOB, PRINTED, SAID = 8192, 65536, 65536, 92160  # how long the program's texts can be


def content(folder, name):
    with open(os.path.join(folder, name), 'rb') as f:
        return f.read()


def words_of(folder):
    """A line for each word."""
    if os.path.exists(os.path.join(folder, 'words')):
        words = content(folder, 'words').split()
    else:
        words = [os.path.basename(os.path.dirname(folder)).encode()]
    return b''.join(word + b'\n' for word in words)


def case_of(folder):
    texts = [words_of(folder), *(content(folder, name) for name in ('job', 'expected', 'said'))]
    lengths = [len(text) for text in texts]
    assert all(length <= most for length, most in zip(lengths, (WORDS, JOB, PRINTED, SAID)))
    fields = [0, 0, (lengths[0] << 32) + lengths[1], (lengths[2] << 32) + lengths[3], *[0] * 7]
    return ('x1' + ''.join('\t%016x' % x for x in fields) + '\n').encode() + b''.join(texts)


def example_cases():
    """In the order of the folders' names."""
    jobs = sorted(glob.glob(os.path.join(EXAMPLES, '*', '*', 'job')))
    return [case_of(os.path.dirname(job)) for job in jobs]
