#!/usr/bin/env python3
"""Respells the repository's own definitions and lemmas: words in snake case, facts and records in camel case.

usage: python3 tools/respell.py [FOLDER]     FOLDER holds crates/; this one if none is given

A name is the repository's own where it is declared in specs/ or in proofs/ of one of its crates. The names of goals
are the toolchain's and stay, as do names that a file imports from a library, comments, strings and functions of src/.
"""

import os
import re
import sys

ROOT = os.path.join(sys.argv[1] if len(sys.argv) > 1 else ".", "crates")
NAME = r"[^\s(){}\[\].;,@\"«»:]+"
DECLARED = re.compile(r"(\s*)(?:pub )?(?:abbrev |unfoldable |record |data )?(?:pub )?(" + NAME + r")(?: \(.*?\))*\s*:\s(.*)")
IMPORTED = re.compile(r"use ([^\s{]+)\.\{([^}]*)\}")
TOKEN = re.compile(r"[^\s(){}\[\].;,@\"«»:]+")


def files(ending):
    for folder, folders, names in os.walk(ROOT):
        folders[:] = sorted(f for f in folders if f != "out")
        for name in sorted(names):
            if name.endswith(ending):
                yield os.path.join(folder, name)


def read(path):
    with open(path, encoding="utf-8") as f:
        return f.read()


def own_names():
    found = set()
    for path in files(".antt"):
        for line in read(path).splitlines():
            m = DECLARED.match(line)
            if m and "-" in m.group(2).strip("-") and not re.match(r"goal\.|given\.|need\.", m.group(3)) and not line.lstrip().startswith(("--", "let ", "in ", "λ")):
                found.add(m.group(2))
    return found


def turned(name):
    parts = name.split("-")
    if name[0].isupper():
        return "".join(p[0].upper() + p[1:] for p in parts)
    return "_".join(parts)


def libraries(text, crates):
    kept = set()
    for m in IMPORTED.finditer(text):
        parts = m.group(1).split(".")
        if parts[0] != "Rattle" or parts[1] not in crates:
            kept |= {n.strip() for n in m.group(2).split(",")}
    return kept


def in_line(line, names, comment):
    out, at, quoted = [], 0, False
    while at < len(line):
        if not quoted and line.startswith(comment, at) and (comment == "//" or at == 0 or line[at - 1].isspace()):
            return "".join(out) + line[at:]
        if line[at] == '"':
            quoted = not quoted
        m = None if quoted else TOKEN.match(line, at)
        if m:
            out.append(names.get(m.group(), m.group()))
            at = m.end()
        else:
            out.append(line[at])
            at += 1
    return "".join(out)


def main():
    crates = set(os.listdir(ROOT))
    names = {n: turned(n) for n in own_names()}
    every = set()
    for path in files(".antt"):
        every |= set(TOKEN.findall(read(path)))
    seen = {}
    for old, new in sorted(names.items()):
        if new in every or new in seen:
            print(f"together: {old} becomes {new}, which stands already")
        seen[new] = old
    for ending, comment in ((".antt", "--"), (".rt", "//"), (".edit", "#")):
        for path in files(ending):
            text = read(path)
            kept = libraries(text, crates)
            here = {old: new for old, new in names.items() if old not in kept}
            clash = sorted(old for old in names if old in kept)
            if clash:
                print(f"{path}: a library has {', '.join(clash)}")
            new = "\n".join(in_line(line, here, comment) for line in text.split("\n"))
            if new != text:
                with open(path, "w", encoding="utf-8") as f:
                    f.write(new)
    print(f"{len(names)} names respelled")


main()
