#!/usr/bin/env python3
"""Lists the places in crates/*/src that the design pass looks at, by point, and counts them.

    python3 tools/places.py          the counts
    python3 tools/places.py 3        the places of point 3

A place is a candidate: docs/DESIGN-PASS.md says of each point which of them are one and which are not.
"""
import difflib
import glob
import os
import re
import sys
from collections import defaultdict

TOP = os.path.join(os.path.dirname(os.path.abspath(__file__)), "..")


def sources():
    for path in sorted(glob.glob(os.path.join(TOP, "crates", "*", "src", "*.rt"))):
        with open(path, encoding="utf-8") as file:
            yield os.path.relpath(path, os.path.join(TOP, "crates")).replace("src/", ""), file.read()


def lines_with(pattern):
    found = []
    for name, text in sources():
        for number, line in enumerate(text.split("\n"), 1):
            if re.search(pattern, line) and not line.lstrip().startswith("//"):
                found.append(f"{name}:{number}: {line.strip()}")
    return found


def functions():
    """Each function with a body: its place, its signature, its clauses and its body."""
    for name, text in sources():
        for head in re.finditer(r"^( *)(?:pub(?:\(crate\))? )?fn (\w+)", text, re.M):
            indent = head.group(1)
            body = re.compile(rf"\n{indent}{{\n| {{\n(?!{indent}{indent or '    '}ghost)").search(text, head.start())
            declared = re.compile(r";\n").search(text, head.start())
            if not body or (declared and declared.start() < body.start()):
                continue
            end = text.find(f"\n{indent}}}", body.start() + 1)
            signature = text[head.start():body.start()]
            clauses = re.findall(r"^\s*(requires|ensures)\*?(?: \w+)? \{ (.*) \}$", signature, re.M)
            signature = re.split(r"^\s*(?:requires|ensures)\b", signature, maxsplit=1, flags=re.M)[0]
            yield f"{name}:{text.count(chr(10), 0, head.start()) + 1} {head.group(2)}", signature, clauses, text[body.end():end]


def shape(body):
    body = re.sub(r"//.*", "", body)
    tokens = re.findall(r"[A-Za-z_]\w*|\d\w*|b?'[^']*'|b?\"[^\"]*\"|::|->|=>|[^\s\w]", body)
    words = {"match", "if", "else", "for", "while", "return", "let", "mut", "in", "true", "false"}
    return [t if t in words or not re.match(r"[A-Za-z_]", t) else "name" for t in tokens]


def twins():
    bodies = [(place, shape(body)) for place, _, _, body in functions()]
    bodies = [(place, tokens) for place, tokens in bodies if len(tokens) >= 14]
    found = []
    for i, (one, first) in enumerate(bodies):
        for other, second in bodies[i + 1:]:
            if abs(len(first) - len(second)) * 10 > len(first):
                continue
            alike = difflib.SequenceMatcher(None, first, second, autojunk=False).ratio()
            if alike >= 0.9:
                found.append(f"{one} ~ {other} ({alike:.2f}, {len(first)} tokens)")
    return found


FACTS = r"\b(Weighed|Balanced|Bare|Fair|Legal|LeansLeft|LeansRight|Standing|Inside|Apart|Sound|Summed|Faithful|Measured|Kept|is_name)\b"


def facts():
    where = defaultdict(list)
    for place, _, clauses, _ in functions():
        named = set()
        for kind, clause in clauses:
            named.update(f"{kind} {fact}" for fact in re.findall(FACTS, clause))
            if kind == "requires" and "2 ^ 64" in clause:
                named.add("requires .. < 2 ^ 64")
            if kind == "ensures" and re.search(r"vec_capacity (\w+)\.new ≡ vec_capacity \1\.old", clause):
                named.add("ensures the same capacity")
        for fact in named:
            where[fact].append(place.split()[-1])
    return [f"{fact}: {len(names)} functions" for fact, names in sorted(where.items(), key=lambda e: -len(e[1])) if len(names) >= 3]


def together():
    where = defaultdict(list)
    for place, signature, _, _ in functions():
        names = re.findall(r"\b(?:mut )?(\w+): ", signature.split("(", 1)[-1])
        for i, one in enumerate(names):
            for other in names[i + 1:]:
                where[one, other].append(place.split()[-1])
    return [f"({one}, {other}): {len(f)} functions" for (one, other), f in sorted(where.items(), key=lambda e: -len(e[1])) if len(f) >= 5]


BY_HAND = r"fn (same_\w+|is_\w+|number|capped|reduced|first_place|go_on|\w*digit\w*|\w*decimal\w*|\w*hexadecimal\w*|spaced|write_\w+|print_\w+|copy_\w+|has_room)\b"

POINTS = {
    "1": ("own enums, flags, numbers for kinds and refusals", lambda: lines_with(r"^\s*(pub )?enum ")
          + lines_with(r"^(?!.*\bfn \w+\(&?self).*\b\w+: bool\b") + lines_with(r"\{ 1 \} else \{ 0 \}|^\s+[01]$|=> 0,|=> 1,")),
    "2": ("twins: bodies of the same shape", twins),
    "3": ("loops", lambda: lines_with(r"^\s*(for|while|loop)\b")),
    "4": ("written by hand: equality, conversion, printing; matches that give a flag",
          lambda: lines_with(BY_HAND) + lines_with(r"=> (true|false),")),
    "5": ("facts in three or more contracts, parameters together in five or more", lambda: facts() + together()),
    "6": ("buffers, positions beside them, indices into arrays",
          lambda: lines_with(r"\[b?[0-9'.]+; \d+\]|\bat: usize|: \[.*; \d+\]|^\s*(pub )?(first|count|kept|start|link): usize")),
    "7": ("switches on what to run", lambda: lines_with(r"\bif (last|by_\w+)\b|match step\b")),
    "8": ("answers and lemmas in proofs/", lambda: proofs()),
}


def proofs():
    found = []
    for folder in sorted(glob.glob(os.path.join(TOP, "crates", "*", "proofs"))):
        answers = lemmas = size = 0
        for path in glob.glob(os.path.join(folder, "**", "*.antt"), recursive=True):
            with open(path, encoding="utf-8") as file:
                text = file.read()
            size += text.count("\n")
            if path.endswith("Answers.antt"):
                answers += len(re.findall(r"^(?:abbrev )?pub \S+ : goal\.", text, re.M))
            else:
                lemmas += len(re.findall(r"^(?:abbrev )?(?:pub )?[^\s:-]\S* : (?!goal\.)", text, re.M))
        found.append(f"{folder.split(os.sep)[-2]}: {answers} answers, {lemmas} lemmas, {size} lines")
    return found


def main():
    for point, (title, places) in POINTS.items():
        if len(sys.argv) > 1 and point not in sys.argv[1:]:
            continue
        found = places()
        print(f"point {point}, {title}: {len(found)}")
        if len(sys.argv) > 1:
            print("\n".join("  " + line for line in found))


main()
