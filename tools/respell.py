#!/usr/bin/env python3
"""Brings the names that this repository's specs/ and proofs/ declare to one spelling: words in snake case, types as they are.

usage: respell.py [--check] FOLDER      (FOLDER has crates/ and tests/strength/)

It was run after port.py, for the move to another kit, and twice more for names that it had passed over. `isZero` becomes `is_zero`, `set-swap` becomes `set_swap`.
A name that a library of the kit declares too is turned only in the files that declare it or import it from a crate of this repository.
Where a definition and a lemma would fall together, the definition has the name and the lemma gets `_lem` at its end.
What stands behind a dot in a function's proof files is turned only if it is a field that the repository declares.
--check writes nothing and lists the names.
"""

import collections
import glob
import os
import re
import subprocess
import sys

KIT = os.path.join(os.path.dirname(subprocess.run(["rt", "doc"], capture_output=True, text=True).stdout.strip()), "rattle")
NAME = r"[^\s(){}.;,@\"«»\[\]|]+"
TOKEN = re.compile(NAME)
DECLARED = re.compile(r"^([ \t]*)((?:(?:unfoldable|abbrev|pub|infixl|infixr|ghost) )*)(" + NAME + r"(?:,? " + NAME + r")*)((?: \{[^{}\n]*\})*) : ", re.M)
CONSTRUCTOR = re.compile(r"^\s+\|? ?(" + NAME + r") : ", re.M)
FIELD = re.compile(r"^ {2,4}pub (" + NAME + r") : ", re.M)
ANY_USE = re.compile(r"\buse [^\s{;]*?\.?\{([^}]*)\}")
TOOLS = re.compile(r"^(invariant-.*|decreases-.*|.*[-_]spec|Need-.*)$")

def snake(name):
    if not re.match(r"[a-z]", name):
        return name
    name = name.replace("getD", "get_or")
    name = re.sub(r"(?<=[a-z0-9])([A-Z])", lambda m: "_" + m[1].lower(), name)
    name = re.sub(r"(?<=[A-Z0-9a-z'])-(?=[A-Za-z0-9])", "_", name)
    return name[0] + name[1:].lower() if re.search(r"[A-Z]", name) and name.isascii() else name


def own_files(root):
    out = []
    for top in ("specs", "proofs"):
        out += glob.glob(f"{root}/crates/*/{top}/**/*.antt", recursive=True)
    return sorted(p for p in out if "/out/" not in p)


def declared(text):
    for m in DECLARED.finditer(text):
        if m[1] == "" or "pub" in m[2] or len(m[1]) % 2 == 0:
            for n in m[3].replace(",", " ").split():
                # an answer to a goal is named by Rattle
                if f" : goal.{n}" not in m.string:
                    yield n


def library_names():
    names = set()
    for p in glob.glob(f"{KIT}/**/*.antt", recursive=True):
        try:
            text = open(p, encoding="utf-8").read()
        except (OSError, UnicodeDecodeError):
            continue
        for m in DECLARED.finditer(text):
            names.update(m[3].replace(",", " ").split())
    return names


USE = re.compile(r"\buse (Rattle\.(\w+)\.[^\s{;]*?)\.?\{([^}]*)\}")


def own_imports(text, crates):
    out = set()
    for m in USE.finditer(text):
        if m[2] in crates:
            for part in m[3].split(","):
                out.update(part.replace(" as ", " ").split())
    return out


def outside_strings(line, turn):
    return "".join(p if i % 2 else turn(p) for i, p in enumerate(re.split(r'("(?:[^"\\]|\\.)*")', line)))


def main(argv):
    check = "--check" in argv
    root = [a for a in argv if a != "--check"][0]
    crates = {os.path.basename(os.path.dirname(p + "/")) for p in glob.glob(f"{root}/crates/*")}
    library = library_names()
    files = own_files(root)
    texts = {p: open(p, encoding="utf-8").read() for p in files}
    where, fields = collections.defaultdict(set), set()
    for p in files:
        for n in declared(texts[p]):
            if not TOOLS.match(n):
                where[n].add(p)
        fields.update(m[1] for m in FIELD.finditer(texts[p]))
    turned = {n: snake(n) for n in where}
    back = collections.defaultdict(list)
    for n in sorted(where):
        back[turned[n]].append(n)
    careful = set(library)
    for s, ns in sorted(back.items()):
        if len(ns) > 1:
            stated = [n for n in ns if any("/specs/" in p for p in where[n])]
            first = stated or [n for n in ns if n == s] or [n for n in ns if re.search(r"[a-z][A-Z]", n)] or ns
            for n in ns:
                if n != first[0]:
                    turned[n] = s + ("_law" if s + "_lem" in where else "_lem")
                    careful.add(n)
            print(f"together: {s}: {' '.join(f'{n} -> {turned[n]}' for n in ns)}")
    for p in files:
        mine = own_imports(texts[p], crates) | set(declared(texts[p]))
        taken = {n for m in ANY_USE.finditer(texts[p]) if not USE.match(m[0]) or USE.match(m[0])[2] not in crates for n in m[1].replace(",", " ").split()}
        for n in sorted(mine & set(turned)):
            if turned[n] != n and turned[n] in taken:
                turned[n] += "_lem"
                print(f"meets a library's in {p}: {n} -> {turned[n]}")
    turned = {n: s for n, s in turned.items() if n != s}
    news = set(turned.values())
    if len(news) < len(turned) or news & set(where) - set(turned):
        print("still together", news & set(where) - set(turned))
        return 1
    for n in sorted(turned):
        if n in library:
            print(f"shared: {n}")
    print(f"{len(turned)} names of {len(where)}")
    if check:
        return 0
    everything = files + sorted(glob.glob(f"{root}/crates/*/src/**/*.rt", recursive=True))
    everything += sorted(glob.glob(f"{root}/crates/*/must-fail/*.edit")) + sorted(glob.glob(f"{root}/tests/strength/**/*.edit", recursive=True))
    for p in everything:
        text = texts.get(p) or open(p, encoding="utf-8").read()
        mine = own_imports(text, crates) | (set(declared(text)) if p.endswith(".antt") else set())

        def turn(part):
            def word(m):
                w = m[0]
                if w not in turned:
                    return w
                if w in careful and w not in mine:
                    return w
                if inner and m.start() and m.string[m.start() - 1] == "." and w not in fields:
                    return w
                return turned[w]

            return TOKEN.sub(word, part)

        inner = bool(re.search(r"/proofs/.*/", p))

        new = "".join(outside_strings(l, turn) if not p.endswith(".antt") else turn(l) for l in text.splitlines(keepends=True))
        if new != text:
            with open(p, "w", encoding="utf-8") as f:
                f.write(new)
    return 0


if __name__ == "__main__":
    sys.exit(main(sys.argv[1:]))
