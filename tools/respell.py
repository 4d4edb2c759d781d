#!/usr/bin/env python3
"""Respells the names of definitions and lemmas: words in snake case, with no dash, types and facts in camel case.

usage: python3 tools/respell.py [FOLDER]     (FOLDER holds crates/; this folder by default)

A name counts where a file of a crate's specs/, or of its proofs/ outside the folders of single functions, declares it.
Every use of it in clauses, specs and proofs is respelled with it. The name of a step or a goal, which the check makes of
the source (`c.cut-left`, `returns-then-x`), stays: behind a dot only a field that a record here declares is respelled.
Prints the names that fall together with another name of the crates.
"""

import os
import re
import sys

LETTER = r"[^\s(){}\[\];.,:λ→⌜⌝∷≡×◌\"|«»⟦⟧]"
NAME = re.compile(LETTER + "+")
DECLARES = re.compile(r"\s*(?:pub |abbrev |unfoldable |data |record |ruleset |module )*(" + LETTER + r"+(?:\s+" + LETTER + r"+)*)\s+:\s")


def files(top, ending):
    for folder, dirs, names in os.walk(os.path.join(top, "crates")):
        dirs[:] = sorted(d for d in dirs if d not in ("out", ".git"))
        for name in sorted(names):
            if name.endswith(ending):
                yield os.path.join(folder, name)


def is_shared(path, top):
    """A file of specs/, or one right below proofs/."""
    parts = os.path.relpath(path, top).split(os.sep)
    return parts[2] == "specs" or (parts[2] == "proofs" and len(parts) == 4)


def declared(top):
    names, fields = set(), set()
    for path in files(top, ".antt"):
        if not is_shared(path, top):
            continue
        inside = None
        for line in open(path, encoding="utf-8"):
            bare = line.strip()
            indent = len(line) - len(line.lstrip())
            if inside is not None and bare and indent <= inside:
                inside = None
            found = DECLARES.match(line) if not bare.startswith("--") else None
            if found:
                for name in found.group(1).split():
                    if name != respelled(name):
                        names.add(name)
                        if inside is not None:
                            fields.add(name)
            if re.match(r"\s*(pub )?record .* where$", line.rstrip()):
                inside = indent
    return names, fields


def respelled(name):
    if "-" not in name[1:-1] and not re.fullmatch(r"[a-z]+[A-Z]\w*", name):
        return name
    if name[0].isupper():
        return "".join(word[0].upper() + word[1:] for word in name.split("-"))
    return re.sub(r"(?<=[a-z])([A-Z])", lambda found: "_" + found.group(1).lower(), name).replace("-", "_")


def turn(text, names, fields):
    def one(found):
        name = found.group(0)
        if name not in names:
            return name
        before = text[: found.start()]
        if before.endswith("."):
            path = re.search(r"([^\s(){}\[\];,]*)\.$", before).group(1)
            if name not in fields or path in ("c", "l", "w"):
                return name
        return respelled(name)

    return NAME.sub(one, text)


def clauses_only(text, names, fields):
    """In a .rt file only clauses, ghost items and their imports have such names: Rust's have no dash."""
    return "\n".join(line if line.strip().startswith("//") else turn(line, names, fields) for line in text.split("\n"))


def main(top):
    names, fields = declared(top)
    there = set()
    for path in list(files(top, ".antt")) + list(files(top, ".rt")):
        there |= set(re.findall(r"[A-Za-z_][\w']*", open(path, encoding="utf-8").read()))
    for name in sorted(names):
        if respelled(name) in there:
            print(f"falls together: {name} -> {respelled(name)}")
    count = 0
    for path in list(files(top, ".antt")) + list(files(top, ".rt")):
        old = open(path, encoding="utf-8").read()
        new = clauses_only(old, names, fields) if path.endswith(".rt") else turn(old, names, fields)
        if new != old:
            count += 1
            open(path, "w", encoding="utf-8").write(new)
    print(f"{len(names)} names, {count} files")


if __name__ == "__main__":
    main(sys.argv[1] if len(sys.argv) > 1 else ".")
