#!/usr/bin/env python3
"""Respells this repository's own definitions and lemmas: words in snake case, facts and modules in camel case.

usage: python3 tools/respell.py          at the top of the repository, once, after the toolchain's own script
       python3 tools/respell.py --list   prints old and new names, and names that fall together, and writes nothing

A name is ours if a .antt file of the repository declares it, or imports it under another name by 'as'. Names of the
library, names that the check makes, and names of the Rust-like code are left as they are.
"""

import collections
import os
import re
import sys

TOKEN = re.compile(r"[^\s(){}.,;\[\]:\"]+")
SEVERAL = re.compile(r"(?:^|[({])\s*((?:[^\s(){}.,;:\[\]\"]+\s+)+):\s")
SIGNATURE = re.compile(r"\s*(?:(?:abbrev|pub|unfoldable|opaque)\s+)*(?:(?:record|data)\s+)?([^\s(){}.,;:\[\]\"]+)(?:\s+[({].*)?\s*:\s")
ALIAS = re.compile(r"\sas\s+([^\s(){}.,;:]+)")
IMPORT = re.compile(r"use\s+(\S+?)\.\{([^}]*)\}")
MADE = re.compile(r":\s*(?:goal|given|need)\.")
ITSELF = re.compile(r"(?<![\w'-])([\w']+) as \1(?![\w'-])")

# two names that would fall together with another of ours
CHOSEN = {
    "of-entity": "fault_of_entity",  # beside ofEntity of Faults
    "type-number": "type_mark",  # beside typeNumber of Kinds
}


def files(root):
    for folder, dirs, names in os.walk(os.path.join(root, "crates")):
        dirs[:] = sorted(d for d in dirs if d not in ("out", "target", "must-fail"))
        for name in sorted(names):
            if name.endswith((".antt", ".rt")):
                yield os.path.join(folder, name)


def text_of(path):
    with open(path, encoding="utf-8") as f:
        return f.read()


def code_of(line, path):
    return re.sub(r"\s*(?:--|//).*", "", line) if path.endswith(".rt") else re.sub(r"\s*--.*", "", line)


def old_spelling(name):
    return bool(re.search(r"\w-\w", name) or re.match(r"[a-z][\w]*[A-Z]", name) or "\u2032" in name)


def respelled(name):
    if name in CHOSEN:
        return CHOSEN[name]
    name = name.replace("\u2032", "'")
    parts = name.split("-")
    if parts[0][:1].isupper():
        return "".join(p[:1].upper() + p[1:] for p in parts)
    return "_".join(re.sub(r"(?<=[a-z0-9])([A-Z])", lambda m: "_" + m[1].lower(), p) for p in parts)


def own_names(root):
    """Each name in an old spelling that the repository declares."""
    found = set()
    for path in files(root):
        for line in text_of(path).split("\n"):
            line = code_of(line, path)
            declared = SIGNATURE.match(line + " ") if path.endswith(".antt") and not MADE.search(line) else None
            if declared:
                found.add(declared[1])
            if path.endswith(".antt") and not MADE.search(line):
                found.update(name for names in SEVERAL.findall(line + " ") for name in names.split())
            if path.endswith(".antt") or "ghost use" in line:
                found.update(ALIAS.findall(line))
    return {name: respelled(name) for name in sorted(found) if old_spelling(name)}


def together(root, names):
    """New spellings that some file already uses, or that two old names share."""
    used = collections.defaultdict(set)
    for path in files(root):
        for word in set(TOKEN.findall(text_of(path))):
            used[word].add(os.path.relpath(path, root))
    shared = collections.Counter(names.values())
    for old, new in names.items():
        if new in used or shared[new] > 1:
            yield old, new, sorted(used[new])


def of_others(text, crates):
    """The names that a file imports from modules that are not ours; a name after 'as' is the file's own."""
    found = set()
    for path, items in IMPORT.findall(text):
        if not any(path.startswith(f"Rattle.{crate}.") for crate in crates):
            found.update(item.split(" as ")[0].strip() for item in items.split(","))
    return found


def respell(root, names):
    crates = os.listdir(os.path.join(root, "crates"))
    for path in files(root):
        before = text_of(path)
        kept = of_others(before, crates)
        ours = {old: new for old, new in names.items() if old not in kept}
        after = "\n".join(turned(line, path, ours) for line in before.split("\n"))
        if after != before:
            with open(path, "w", encoding="utf-8") as f:
                f.write(after)


def turned(line, path, names):
    """The line with our names respelled; comments keep their words."""
    code = code_of(line, path)
    return ITSELF.sub(r"\1", TOKEN.sub(lambda m: names.get(m[0], m[0]), code)) + line[len(code) :]


def main(words):
    root = os.getcwd()
    names = own_names(root)
    if "--list" in words:
        for old, new in names.items():
            print(old, new)
        for old, new, where in together(root, names):
            print("together:", old, new, *where[:6])
        return 0
    respell(root, names)
    print(f"{len(names)} names respelled")
    return 0


if __name__ == "__main__":
    sys.exit(main(sys.argv[1:]))
