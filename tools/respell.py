#!/usr/bin/env python3
"""Spells the definitions and lemmas of this repository as today's Rattle spells its own: snake case, and types in camel case.

usage: tools/respell.py [CHECKOUT]

Run once, right after the toolchain's own port.py. What was `some-weight` becomes `some_weight`, what was `None-below-zero` becomes
`NoneBelowZero`. Names of the library and names that Rattle makes (`loop-i-preserved`) stay, and so do strings, comments, and the
functions, fields and types of src/. It prints each new name that stood for something else already.
"""

import collections
import os
import re
import sys

HYPHENED = re.compile(r"(?<![\w◌'’\-])[A-Za-z][\w']*(?:-[\w']+)+(?![\w◌\-])")
IMPORT = re.compile(r"use\s+([\w.']+)\.\{([^}]*)\}", re.S)
BOUND = re.compile(r"\b(?:let|λ) \(?([A-Za-z][\w']*(?:-[\w']+)+)(?= ?[:=.])")
SIGNATURE = re.compile(r"^[ ]*(?:(?:abbrev|unfoldable|pub|record|data) )*([A-Za-z][\w']*(?:-[\w']+)+)(?: [({][^=\n]*)?\s:\s*(\S*)", re.M)
COMMENT = {".antt": re.compile(r"--(?: [^\n]*)?$", re.M), ".rt": re.compile(r"//[^\n]*$", re.M), ".edit": re.compile(r"^file:[^\n]*$", re.M)}
STRING = re.compile(r'b?"(?:[^"\\]|\\.)*"|b?\'(?:[^\'\\]|\\.)\'')


def new_name(name):
    parts = name.split("-")
    if name[0].isupper():
        return "".join(p[:1].upper() + p[1:] for p in parts)
    return "_".join(parts)


def sources(root):
    for folder, dirs, files in os.walk(os.path.join(root, "crates")):
        dirs[:] = sorted(d for d in dirs if d != "out")
        for f in sorted(files):
            if f.endswith((".antt", ".rt", ".edit")):
                yield os.path.join(folder, f)


def kept(path, text):
    """The stretches of a text in which nothing is renamed: comments, and the strings of src/ and of edits."""
    ext = os.path.splitext(path)[1]
    spans = [m.span() for m in COMMENT[ext].finditer(text)]
    if ext != ".antt":
        spans += [m.span() for m in STRING.finditer(text)]
    return spans


def is_lemma_file(root, path):
    """A file of specs/, or one that lies right in proofs/: what it names is this repository's or the library's."""
    parts = os.path.relpath(path, root).split(os.sep)
    return path.endswith(".antt") and (parts[2] == "specs" or len(parts) == 4)


def main():
    root = os.path.abspath(sys.argv[1] if len(sys.argv) > 1 else ".")
    texts = {p: open(p, encoding="utf-8").read() for p in sources(root)}
    crates = {os.path.relpath(p, root).split(os.sep)[1] for p in texts}
    library, own, known = set(), set(), collections.defaultdict(set)
    for path, text in texts.items():
        for module, names in IMPORT.findall(text):
            words = module.split(".")
            if not (words[0] == "Rattle" and len(words) > 1 and words[1] in crates):
                library |= {w for n in names.split(",") for w in n.split()}
            else:
                own |= set(HYPHENED.findall(names))
        bare = COMMENT[os.path.splitext(path)[1]].sub("", text)
        if is_lemma_file(root, path):
            own |= set(HYPHENED.findall(bare))
        elif path.endswith(".antt"):
            own |= {name for name, kind in SIGNATURE.findall(bare) if not kind.startswith("goal.")} | set(BOUND.findall(bare))
        for word in re.findall(r"[A-Za-z][\w']*", bare):
            known[word].add(os.path.relpath(path, root))
    own -= library
    names = {n: new_name(n) for n in own}
    for new, olds in collections.Counter(names.values()).items():
        if olds > 1:
            print(f"falls together: {[o for o, n in names.items() if n == new]} as {new}")
    for old, new in sorted(names.items()):
        if new in known:
            print(f"stands already: {old} as {new}: {sorted(known[new])[:4]}")
    changed = 0
    for path, text in texts.items():
        spans = kept(path, text)

        def swap(m):
            if any(a <= m.start() < b for a, b in spans):
                return m.group(0)
            return names.get(m.group(0), m.group(0))

        new = HYPHENED.sub(swap, text)
        if new != text:
            changed += 1
            with open(path, "w", encoding="utf-8") as f:
                f.write(new)
    print(f"{len(names)} names, {changed} files")


main()
