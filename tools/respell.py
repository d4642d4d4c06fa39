#!/usr/bin/env python3
"""Respells the repository's own definitions and lemmas: words in snake case, types and facts in camel case.

Run once, at the top of the repository, after the kit's own script that turns an older spelling. A name is the
repository's own if an .antt file of specs/ or proofs/ binds it; names that Rattle makes (goals, steps, loops) and
names that a file takes from a library keep their spelling.
"""

import pathlib
import re
import sys

ROOT = pathlib.Path(__file__).resolve().parent.parent
WORD = r"[A-Za-z_0-9'′\u2080-\u2089Α-ω¹²³ℕℤ]+"
NAME = rf"(?<![\w'′-]){WORD}(?:-{WORD})+(?![\w'′-])"
BINDERS = [
    rf"^[ \t]*(?:(?:pub|abbrev|unfoldable)[ ]+)*((?:[\w'′-]+[ ]+)*[\w'′-]+) : ",
    rf"^[ \t]*(?:pub[ ]+)?(?:data|record)[ ]+([\w'′-]+)",
    rf"[({{]((?:[\w'′-]+[ ]+)*[\w'′-]+) : ",
    rf"\blet ([\w'′-]+)",
    rf"λ ((?:[\w'′-]+[ ]+)*[\w'′-]+)\.",
]
MADE = re.compile(r"^(in-[A-Z]|in-(ok|err)\b|if-(?!right$|first$)|loop-|match-|then-|else-|returns-|invariant-|decreases-|overflow-|bounds-|nonzero-|slice_bounds-)|-requires|-preserved$|-init$|-smaller$|^ghost-")
LIBRARY = re.compile(r"^(?:ghost )?use (Rattle\.std|lib|borrow|mathlib|Prim|denote|logic|specs)\b[^{}\n]*\.\{([^}]*)\}", re.M)


def files():
    for path in sorted((ROOT / "crates").rglob("*")):
        if "out" not in path.parts and path.suffix in (".antt", ".rt"):
            yield path


def own_names():
    names = set()
    for path in files():
        if path.suffix != ".antt":
            continue
        text = path.read_text()
        text = re.sub(r"--[^\n]*", "", text)
        foreign = library_names(text)
        for binder in BINDERS:
            for found in re.finditer(binder, text, re.M):
                line = text[found.start():text.find("\n", found.end())]
                if re.search(r":\s*goal\.", line):
                    continue
                for name in found.group(1).split():
                    if "-" in name.strip("-") and name not in foreign and not MADE.search(name):
                        names.add(name)
    return names


def library_names(text):
    return {name.split(" as ")[-1].strip() for found in LIBRARY.finditer(text) for name in found.group(2).split(",")}


def respelled(name):
    parts = name.split("-")
    if name[0].isupper():
        return "".join(part[:1].upper() + part[1:] for part in parts)
    return "_".join(parts)


def turn(text, names):
    foreign = library_names(text)
    return re.sub(NAME, lambda m: respelled(m[0]) if m[0] in names and m[0] not in foreign else m[0], text)


def main():
    names = own_names()
    new = {}
    for name in names:
        new.setdefault(respelled(name), set()).add(name)
    words = set()
    for path in files():
        words |= set(re.findall(rf"(?<![\w'′-]){WORD}(?![\w'′-])", path.read_text()))
    for to, olds in sorted(new.items()):
        if len(olds) > 1:
            print(f"fall together: {sorted(olds)} -> {to}")
        if to in words:
            print(f"stands already: {sorted(olds)} -> {to}")
    if "--write" in sys.argv:
        for path in files():
            text = path.read_text()
            turned = turn(text, names)
            if turned != text:
                path.write_text(turned)
    print(f"{len(names)} names")


main()
