#!/usr/bin/env python3
"""Spells the repository's own definitions and lemmas as today's Rattle spells words: in snake case, where a dash joins two names.

usage: python3 tools/spelling.py     at the top, once, after /opt/rattle/port/port.py

A name that a file of specs/ or proofs/ declares in camel case is respelled everywhere in crates/ and docs/. A dash that joins two names
stays, and so does the spelling of types, modules and functions. A lemma that would have a definition's name gets `_lem`.
"""

import os
import re

HEAD = re.compile(r"^ *(?:(?:abbrev|unfoldable|pub|opaque|ghost) )*([^\s(){}.;,@\"«»:]+)(?: \{[^{}\n]*\})* :(?= |$)", re.M)
HUMP = re.compile(r"(?<=[a-z0-9'])[A-Z]")
WORD = r"[^\W\d][\w']*(?:-[\w']+)*"
# names that files use for a lemma, a field or a variable, where a definition gets the same spelling
LEMMAS = ("all_codes", "form_in", "goes_on", "all_in", "start_back", "as_first", "same_bytes")
# names of `where` functions, which no declaration at the head of a line shows
INNER = ("loadedFile", "planIn", "standardIn", "startPast")


def files(*endings):
    for top in ("crates", "docs"):
        for folder, folders, names in os.walk(top):
            folders[:] = sorted(it for it in folders if it not in ("out", "landings"))
            yield from (os.path.join(folder, it) for it in sorted(names) if it.endswith(endings))


def read(path):
    with open(path, encoding="utf-8") as f:
        return f.read()


def snake(name):
    parts = (HUMP.sub(lambda m: "_" + m[0].lower(), it) if it[:1].islower() else it for it in name.split("-"))
    return "-".join(parts)


def main():
    names = {it: snake(it) for it in INNER}
    for path in files(".antt"):
        if not path.endswith("/Proof.antt"):
            names.update((it, snake(it)) for it in HEAD.findall(re.sub(r"--.*", "", read(path))))
    names = {old: new for old, new in names.items() if old != new}
    words = re.compile(rf"(?<![\w'-]){WORD}")
    lemmas = re.compile(rf"(?<![\w'.-])({'|'.join(LEMMAS)})(?![\w'-]|\.[A-Z])")
    for path in files(".antt", ".rt", ".md"):
        text = read(path)
        new = lemmas.sub(r"\1_lem", text) if path.endswith(".antt") else text
        new = words.sub(lambda m: names.get(m[0], m[0]), new)
        if new != text:
            with open(path, "w", encoding="utf-8") as f:
                f.write(new)


if __name__ == "__main__":
    main()
