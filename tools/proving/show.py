"""What is known at each need of a function, by short names, for a person to read."""
import textwrap


def told(at):
    """A thing and what it tells; of a call what it left and kept of its parameters only where one is lent as `&mut`."""
    lent = any(kind.startswith('pMut') for kind in at.kinds)
    fields = [f for f in at.tells if lent or f not in ('last', 'kept', 'ok')]
    return ' '.join(['@' + at.thing, *('.' + f for f in fields)])


def shown(walk):
    """A paragraph for each need, in the order of the needs: what is known there, the nearest first, down to what an earlier need has already."""
    start = f'@args {" ".join("." + p for p in walk.parameters)}, @good, @fits, @pre'
    out, first = [], {'Start': None}
    for number, (need, place) in enumerate(walk.needs.items(), 1):
        known = []
        for at in [*walk.way(place), 'Start']:
            name = at if at == 'Start' else at.name
            if first.get(name):
                known.append(f'and what is known at {first[name]}' if known else f'as at {first[name]}')
                break
            known.append(start if at == 'Start' else told(at))
        first.setdefault(place, None)
        first[place] = first[place] or f'{number} {need}'
        slice_ = f' (of {walk.parameters[walk.slices[need]]})' if need in walk.slices else ''
        out.append(textwrap.fill(f'{number} {need}{slice_}: ' + ', '.join(known), 140, subsequent_indent='    ', break_on_hyphens=False))
    return '\n'.join(out)
