"""From the walk that a function had before an edit of its code to the walk that it has now."""
import difflib
import re


class Moved:
    """What the names of an earlier walk, given by its events, are called in this one; with no earlier walk, names are this one's."""

    def __init__(self, walk, events):
        self.walk, self.edited = walk, events is not None
        self.needs = {need: need for need in walk.needs}
        self.names = {}
        if self.edited:
            now = renames(events, walk.events())
            named = [(event.split('#')[0], now.get(event, '').split('#')[0]) for event in events]
            self.needs = {old: new or None for old, new in named if '.' not in old}
            for old, new in named:
                for name, called in zip(old.split('.'), (new or '.').split('.')) if '.' in old else ():
                    self.names[name] = called or self.names.get(name)

    def place(self, part):
        """Where a part of a proof file stands now: the name of what it is about, and its place; None if the code has it no more."""
        if part.kind == 'need':
            need = self.needs.get(part.about)
            return (need, self.walk.needs[need]) if need in self.walk.needs else None
        place = self.names.get(part.about, part.about)
        return (place, place) if place == 'Start' or place in self.walk.places else None


def said(event):
    """An event by its kind and by what the source says there."""
    return kind(event), event.partition('#')[2]


def kind(event):
    """An event without the numbers that an edit elsewhere in the function moves."""
    return re.sub(r'-?\d+', '', event.split('#')[0])


def shape(event):
    """An event without the names that a function or a variable had."""
    return re.match(r'[A-Za-z]+', event).group(0) if '.' in event else re.search('(-requires)?$', kind(event)).group(0)


def renames(old, new, keys=(said, kind, shape)):
    """From each event of an earlier walk to that of this one: the longest stretches that are alike by the first key, and what is left between
    them by the next. By its shape alone an event is known only among as many as there were, as after a change of names."""
    out, a, b = {}, 0, 0
    if keys[0] is shape and len(old) != len(new):
        return out
    for block in difflib.SequenceMatcher(None, [keys[0](e) for e in old], [keys[0](e) for e in new], autojunk=False).get_matching_blocks():
        if keys[1:]:
            out.update(renames(old[a:block.a], new[b:block.b], keys[1:]))
        a, b = block.a + block.size, block.b + block.size
        out.update(zip(old[block.a:a], new[block.b:b]))
    return out
