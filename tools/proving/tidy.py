"""A finished proof file in the form in which it is kept: short answers stand in the list of `spec`, and nothing is left of the skeleton."""
import re

from proving.parts import SPEC, arguments, items


def tidied(text):
    """Without the comments that name places of the source, with each answer of one line in its place in the list, and without unused names."""
    text = re.sub(r'^-- src/\S+:\d+:\d+\n', '', text, flags=re.M)
    for name, item in items(text).items():
        word = rf"(?<![\w.'·-]){re.escape(name)}(?![\w'·-])"
        answer = re.fullmatch(rf'{re.escape(name)} : tie\.Need-.*\n{re.escape(name)} (c(?: κs)?) = (\S.*)', item)
        if answer and len(re.findall(word, text)) == 3:
            text = text.replace(f'{item}\n\n', '')
            text = re.sub(word, lambda m: f'(λ {answer.group(1)}. {answer.group(2)})', text)
    text = laid_out(text)
    for line, alias in re.findall(r'^(use \S+ as (\S+)\n)', text, re.M):
        if not re.search(rf'(?<![\w-]){re.escape(alias)}\.', text):
            text = text.replace(line, '')
    return text


def laid_out(text):
    """The text with the arguments of `tie.spec` on a line each, if they do not fit on one."""
    spec = SPEC.search(text)
    line = spec and text[text.rindex('\n', 0, spec.start()) + 1:text.index('\n', spec.start())]
    if not spec or len(line) <= 100 or not line.lstrip().startswith('tie.close (tie.spec '):
        return text
    given = arguments(text, spec.end(), len(text))
    answers = '\n    '.join(text[start:end] for start, end in given)
    return text[:spec.start() - 2] + f'\n    (tie.spec\n    {answers}' + text[given[-1][1]:]
