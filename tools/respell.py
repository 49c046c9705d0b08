#!/usr/bin/env python3
"""Brings the repository's own names in specs/, proofs/ and clauses to the library's spelling: words in snake case.

usage: python3 tools/respell.py     at the top of the repository, once, after the kit's port.py

Types, modules and facts have their capital already. What is respelled is a word in camel case: `windowOut` becomes
`window_out`, alone or as a part of a lemma's name that a dash joins. Left as they are: the rules of RFC 3629 (`UTF8-tail`)
and the fields and flags of the PE format (`VirtualSize`, `IMAGE_SCN_MEM_READ`), which have their documents' names.
Of a .rt file only clauses, `ghost use` lines and comments can hold such a word, since its code has none.

One name is another word: `firstOf`, which port.py spells `first_of`, is now a tactic's; it is `first_fault`.
"""
import os
import re

CAMEL = re.compile(r"(?<![\w'])([a-z][a-z0-9]*(?:[A-Z][a-z0-9]*)+)(?![\w'])")
OTHER = {"first_of": "first_fault"}
QUOTED = re.compile(r'"[^"\n]*"')


def snake(word):
    return re.sub(r"(?<=[a-z0-9])([A-Z])", lambda m: "_" + m.group(1).lower(), word)


def hexadecimal(word):
    return re.fullmatch(r"x[0-9A-F]+(u\d+)?", word) is not None


def respelled(text, other):
    def turn(piece):
        piece = CAMEL.sub(lambda m: m.group(0) if hexadecimal(m.group(1)) else snake(m.group(1)), piece)
        for old, new in other.items():
            piece = re.sub(r"(?<![\w'.:])" + old + r"(?![\w'])", new, piece)
        return piece

    out, at = [], 0
    for m in QUOTED.finditer(text):
        out += [turn(text[at : m.start()]), m.group(0)]
        at = m.end()
    return "".join(out + [turn(text[at:])])


def main():
    count = 0
    for folder, dirs, files in os.walk("crates"):
        dirs[:] = [d for d in dirs if d != "out"]
        for name in files:
            if not name.endswith((".rt", ".antt")):
                continue
            path = os.path.join(folder, name)
            with open(path, encoding="utf-8") as f:
                text = f.read()
            if name.endswith(".antt"):
                new = respelled(text, OTHER)
            else:
                # framedata has a function `first_of`, which keeps its name: only what its clause cites is turned
                new = re.sub(r"(ghost use Rattle\.lent\.specs\.Paper\.\{[^}]*|≡ )\bfirst_of\b", r"\1first_fault", respelled(text, {}))
            if new != text:
                count += 1
                with open(path, "w", encoding="utf-8") as f:
                    f.write(new)
    print(f"respell: {count} files")


main()
