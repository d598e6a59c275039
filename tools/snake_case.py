#!/usr/bin/env python3
"""Brings the repository's own definitions and lemmas from lowerCamelCase to snake_case, as today's library spells its words.

usage: python3 tools/snake_case.py        at the top of the repository, once, after /opt/rattle/port/port.py

It goes over the .rt and .antt files below crates/, the `old:` and `new:` lines of the must-fail edits, and the pages. Functions of src/,
strings, inputs and outputs have no such names, so they stay. Two definitions and three lemmas of a proof would fall together with
another name of their file: OTHER names what they become.
"""
import os
import re

# names of the library, and a word of prose
KEEP = re.compile(r"(mut|uint|bool|shr|walk)_\w*[A-Z]|gRPC$|viewBox$|nDIFFERENCE$|cE$")
# definitions whose snake_case is a theorem's name in the same file
OTHER = {"eachWidth": "each_width_entries", "oneKey": "one_key_calls", "oneKeyKept": "one_key_kept_calls", "getD": "get_or"}
# lemmas of one proof that have the name of the function that they are about
LEMMAS = {
    "crates/frames/proofs/read_read/Proof.antt": "key_fits",
    "crates/rules/proofs/Checked.antt": "key_fits",
    "crates/configuration/proofs/OneRow.antt": "top_byte",
}
NAME = re.compile(r"(?<![A-Za-z0-9_'·./\\])[a-z][a-z0-9_]*[A-Z][A-Za-z0-9_']*")


def snake(name):
    if KEEP.match(name):
        return name
    return OTHER.get(name) or re.sub(r"(?<=[a-z0-9])[A-Z]", lambda m: "_" + m.group().lower(), name)


def dotted(text):
    # a qualified name, as rules.rowFor: the part after the dot
    return re.sub(r"(?<=\w\.)([a-z][a-z0-9_]*[A-Z][A-Za-z0-9_']*)", lambda m: snake(m.group(1)), text)


def respell(text):
    return dotted(NAME.sub(lambda m: snake(m.group()), text))


def own_names(root):
    names = set()
    for path in files(root, (".rt", ".antt")):
        with open(path, encoding="utf-8") as f:
            t = f.read()
        names |= set(NAME.findall(t)) | set(re.findall(r"(?<=\w\.)[a-z][a-z0-9_]*[A-Z][A-Za-z0-9_']*", t))
    return {n for n in names if snake(n) != n}


def files(root, ends):
    for folder, dirs, names in os.walk(root):
        dirs[:] = [d for d in dirs if d not in ("out", "target", ".git")]
        for n in sorted(names):
            if n.endswith(ends):
                yield os.path.join(folder, n)


def write(path, old, new):
    if new != old:
        with open(path, "w", encoding="utf-8") as f:
            f.write(new)


def main():
    own = own_names("crates")
    for path in files("crates", (".rt", ".antt")):
        with open(path, encoding="utf-8") as f:
            old = f.read()
        new = old
        lemma = LEMMAS.get(path)
        if lemma:
            new = re.sub(r"(?<![\w'.-])" + lemma + r"(?![\w'-])", lemma + "_lem", new)
        write(path, old, respell(new))
    for path in files("crates", (".edit",)):
        with open(path, encoding="utf-8") as f:
            old = f.read()
        lines = [respell(l) if l.startswith(("old:", "new:")) else l for l in old.split("\n")]
        write(path, old, "\n".join(lines))
    pages = ["README.md", *files("docs", (".md",))]
    for path in pages:
        with open(path, encoding="utf-8") as f:
            old = f.read()
        # in a page only the repository's own names, within backticks
        def quoted(m):
            return re.sub(r"[A-Za-z_][\w']*", lambda w: snake(w.group()) if w.group() in own else w.group(), m.group())
        write(path, old, re.sub(r"`[^`\n]+`", quoted, old))


if __name__ == "__main__":
    main()
