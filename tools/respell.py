#!/usr/bin/env python3
"""Brings this repository's own definitions and lemmas to snake case, and its own types to camel case.

usage: python3 tools/respell.py [FOLDER]     once, right after the kit's port.py, at the top of the repository

A name is the repository's own where an .antt file of crates/ declares it: at the head of a line, or as a field of a
record. Names that Rattle makes (goals, steps and the like) and names that the kit's library has keep their spelling, and
so do strings, functions of src/, inputs and outputs.
"""
import os
import re
import sys

ROOT = sys.argv[1] if len(sys.argv) > 1 else "."
# What the library has under the same name, and is imported from there in other files.
LIBRARY = {"append-nil"}
# Names bound inside a proof, an argument or an alias of an import.
INNER = ["None-under", "own-tail", "still-own", "after-way", "units-fit", "entry-fault", "read-fault"]
DECLARED = re.compile(r"^(\s*)(?:(?:abbrev|unfoldable|data|record|pub)\s+)*([^\s(){}:.,;λ]+)\s*(?:\([^=]*|\{[^=]*)?:(?!=)")
IDENT = r"[\w'-]"


def texts(kinds):
    for folder, dirs, files in os.walk(os.path.join(ROOT, "crates")):
        dirs[:] = sorted(d for d in dirs if d != "out")
        for name in sorted(files):
            if name.endswith(kinds):
                yield os.path.join(folder, name)


def camel(name):
    return "".join(part[:1].upper() + part[1:] for part in re.split("[-_]", name))


def own_names():
    heads, fields = set(INNER), set()
    for path in texts((".antt",)):
        with open(path, encoding="utf-8") as file:
            for line in file:
                found = DECLARED.match(line)
                if not found or "goal." in line or "-" not in found.group(2):
                    continue
                (fields if found.group(1) else heads).add(found.group(2))
    return heads - LIBRARY, fields - LIBRARY


def turned(name):
    return camel(name) if name[:1].isupper() else name.replace("-", "_")


def respell(text, heads, fields):
    names = sorted(heads | fields, key=len, reverse=True)
    pattern = re.compile(r'"(?:[^"\\\n]|\\.)*"|(?<!' + IDENT + r")(\.?)(" + "|".join(map(re.escape, names)) + r")(?!" + IDENT + ")")

    def one(found):
        if found.group(2) is None:
            return found.group(0)
        dot, name = found.group(1), found.group(2)
        before = re.search(r"([\w'«»]+)$", text[: found.start()])
        module = before and (before.group(1)[:1].isupper() or before.group(1) in ALIASES)
        generated = dot and before and before.group(1) in ("c", "w")
        if generated or dot and name not in fields and not module:
            return found.group(0)
        return dot + turned(name)

    return pattern.sub(one, text)


# Modules that some file imports under a name of its own.
ALIASES = {"clocks", "lengths", "network", "clock", "length", "layers", "queue", "board", "soonest"}


def main():
    heads, fields = own_names()
    for path in texts((".antt", ".rt", ".edit")):
        with open(path, encoding="utf-8") as file:
            text = file.read()
        new = respell(text, heads, fields)
        if new != text:
            with open(path, "w", encoding="utf-8") as file:
                file.write(new)


main()
