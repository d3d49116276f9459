#!/usr/bin/env python3
"""Spells the repository's own definitions and lemmas in snake case, their types in camel case. Run once, at the top, after port.py.

A name is turned where it is declared in specs/ or in a file of lemmas, and wherever else it stands in .antt files, clauses and edits.
Functions, exported names, strings, inputs and outputs keep their names, as do the names that the prover makes for goals and steps.
The crate json gets another name, since the kit has a library of that name.
"""

import glob
import os
import re
import subprocess
import sys

CRATE = ("json", "plan_read")
# What opens a declaration, and its name.
DECLARED = re.compile(r"^\s*(?:(?:abbrev|unfoldable|opaque|pub|data|record|ruleset)\s+)*([^\s:(){}\[\].,;=|]+)\s+(?:[({][^:]*:[^)}]*[)}]\s*)*:(?=\s|$)")
PART = r"[^\s(){}\[\].,;\"«»@|]"
TOKEN = re.compile(PART + "+")
STRING = re.compile(r'("(?:[^"\\]|\\.)*")')


def read(path):
    with open(path, encoding="utf-8", newline="") as f:
        return f.read()


def write(path, text):
    with open(path, "w", encoding="utf-8", newline="") as f:
        f.write(text)


def respelled(name):
    if name[0].isupper():
        return "".join(it[:1].upper() + it[1:] for it in name.split("-"))
    return name.replace("-", "_")


def declared():
    """The names with a dash that specs/ and the files of lemmas declare."""
    found = set()
    for path in glob.glob("crates/*/specs/**/*.antt", recursive=True) + glob.glob("crates/*/proofs/*.antt"):
        for line in read(path).split("\n"):
            line = line.split("--")[0] if "--" in line else line
            hit = DECLARED.match(line)
            if hit and "-" in hit.group(1) and re.match(r"[A-Za-z]", hit.group(1)):
                found.add(hit.group(1))
    return found


def turn(text, names):
    """The text with the names turned, but for what stands in strings."""
    parts = STRING.split(text)
    for i in range(0, len(parts), 2):
        parts[i] = TOKEN.sub(lambda m: respelled(m.group()) if m.group() in names else m.group(), parts[i])
    return "".join(parts)


def of_libraries(text, crates):
    """The names that a file imports from modules that are not the repository's."""
    found = set()
    for path, listed in re.findall(r"use (\S+)\.\{([^}]*)\}", text):
        parts = path.split(".")
        if parts[0] != "Rattle" or parts[1] not in crates:
            found |= {it.strip() for it in listed.split(",")}
    return found


def turn_antt(text, names):
    out = []
    for line in text.split("\n"):
        code, dashes, said = line.partition("--") if re.search(r"(^|\s)--(\s|$)", line) else (line, "", "")
        out.append(turn(code, names) + dashes + said)
    return "\n".join(out)


def turn_rt(text, names):
    """Clauses and ghost imports alone: no name of the code has a dash, and a comment is prose."""
    return "\n".join(line if line.lstrip().startswith("//") else turn(line, names) for line in text.split("\n"))


def turn_edit(text, names):
    return "\n".join(turn(line, names) if re.match(r"(old|new):", line) else line for line in text.split("\n"))


def rename_crate():
    old, new = CRATE
    if not os.path.isdir(f"crates/{old}"):
        return
    subprocess.run(["git", "mv", f"crates/{old}", f"crates/{new}"], check=True)
    lines = read("crates.txt").split("\n")
    write("crates.txt", "\n".join(re.sub(rf"\b{old}\b", new, it) if not it.startswith("#") else it for it in lines))
    for path in files():
        text = read(path)
        turned = re.sub(rf"\bRattle\.{old}\.", f"Rattle.{new}.", text)
        if path.endswith((".rt", ".edit")):
            turned = re.sub(rf"\b{old}::", f"{new}::", turned)
        if turned != text:
            write(path, turned)


def files():
    return sorted(
        it
        for end in ("antt", "rt", "edit")
        for it in glob.glob(f"crates/**/*.{end}", recursive=True)
        if "/out/" not in it
    )


def main():
    names = declared()
    there = {it for path in files() if path.endswith("antt") for it in TOKEN.findall(read(path))}
    for name in sorted(names):
        if respelled(name) in there:
            print(f"falls together, unless the other is a name of src/: {name} and {respelled(name)}")
    crates = set(os.listdir("crates"))
    turns = {"antt": turn_antt, ".rt": turn_rt, "edit": turn_edit}
    for path in files():
        text = read(path)
        turned = turns[path[-4:] if not path.endswith(".rt") else ".rt"](text, names - of_libraries(text, crates))
        if turned != text:
            write(path, turned)
    rename_crate()
    print(f"{len(names)} names")


if __name__ == "__main__":
    sys.exit(main())
