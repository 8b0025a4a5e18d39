#!/usr/bin/env python3
"""Brings this repository's own definitions and lemmas to snake case, and its types to camel case, after the kit's port.py.

usage: python3 tools/respell.py [FOLDER]     once, at the top of the repository (or of FOLDER)

A name is the repository's own where a signature, a record or a data type of its specs/ or proofs/ declares it; the names
of goals and of what the kit makes are not. A name that a file imports from the kit keeps its spelling in that file. In .rt
files only names with a dash are met, and no Rust name has one; comments and strings stay. In .edit files the texts are
turned, in documents what stands in backticks. It stops, and writes nothing, where two names would fall together.
"""

import os
import re
import sys

NAME = r"[^\s(){}\[\].,;:λ⌜⌝⟦⟧@«»\"`]+"
SIGNATURE = re.compile(r"^\s*(?:(?:abbrev|unfoldable|pub|data|record)\s+)*(" + NAME + r")\s*:(?:\s|$)")
TYPE = re.compile(r"^\s*(?:pub\s+)?(?:record|data)\s+(" + NAME + ")")
IMPORT = re.compile(r"\buse ((?:Rattle\.std|lib|native|borrow|denote|Prim|mathlib|logic)\b[^\s{;]*)\.\{([^}]*)\}")
COMMENT = re.compile(r"(^|\s)--(\s.*|$)")
TOKEN = re.compile(NAME)


def files(root, endings):
    for folder, dirs, names in os.walk(root):
        dirs[:] = sorted(d for d in dirs if d not in ("out", ".git", "target"))
        for name in sorted(names):
            if name.endswith(endings):
                yield os.path.join(folder, name)


def read(path):
    with open(path, encoding="utf-8") as f:
        return f.read()


def respelled(name):
    if name[0].isupper():
        return "".join(part[:1].upper() + part[1:] for part in name.split("-"))
    return name.replace("-", "_")


def declared(text):
    for line in text.splitlines():
        line = COMMENT.sub("", line)
        found = SIGNATURE.match(line)
        if found and not re.search(r":\s*goal\.", line):
            yield found[1]
        found = TYPE.match(line)
        if found:
            yield found[1]


def own_names(crates):
    own = set()
    for path in files(crates, ".antt"):
        own.update(declared(read(path)))
    turned = {name: respelled(name) for name in own if "-" in name}
    back = {}
    for name, new in turned.items():
        if new in own or new in back:
            raise SystemExit(f"respell: {name} falls together with {back.get(new, new)}: nothing is written")
        back[new] = name
    return turned


def of_the_kit(text):
    names = set()
    for found in IMPORT.finditer(text):
        for item in found[2].split(","):
            names.update(part.strip() for part in item.split(" as "))
    return names


def given_names(text):
    """Names with a dash that a file gives to what it imports, or to what its signatures bind."""
    found = re.findall(r"[{,]\s*" + NAME + r"\s+as\s+(" + NAME + r")\s*(?=[,}])", text)
    for bound in re.findall(r"[({]((?:" + NAME + r"\s+)+):\s", text):
        found += bound.split()
    return {name: respelled(name) for name in found if "-" in name}


def turn(text, names):
    return TOKEN.sub(lambda found: names.get(found[0], found[0]), text)


def turn_antt(text, names):
    lines = []
    for line in text.split("\n"):
        comment = COMMENT.search(line)
        at = comment.start() if comment else len(line)
        lines.append(turn(line[:at], names) + line[at:])
    return "\n".join(lines)


def turn_rt(text, names):
    parts = re.split(r"(//[^\n]*|\"(?:[^\"\\]|\\.)*\")", text)
    return "".join(part if i % 2 else turn(part, names) for i, part in enumerate(parts))


def turn_document(text, names):
    return re.sub(r"`[^`\n]+`", lambda found: turn(found[0], names), text)


def main(root):
    crates = os.path.join(root, "crates")
    names = own_names(crates)
    for path in files(root, (".antt", ".rt", ".edit", ".md")):
        old = read(path)
        kept = of_the_kit(old)
        here = {name: new for name, new in names.items() if name not in kept}
        here.update(given_names(old))
        if path.endswith(".antt"):
            new = turn_antt(old, here)
        elif path.endswith(".md"):
            new = turn_document(old, here)
        else:
            new = turn_rt(old, here)
        if new != old:
            with open(path, "w", encoding="utf-8") as f:
                f.write(new)
    print(f"respell: {len(names)} names")


if __name__ == "__main__":
    main(sys.argv[1] if len(sys.argv) > 1 else ".")
