#!/usr/bin/env python3
"""Brings the repository's own definitions and lemmas to one spelling: words in snake case, types in upper camel case.

usage: python3 tools/respell.py [--dry]     at the top of the repository, once

A name is respelled where it is declared in specs/ or proofs/ with a dash, or is a fact or a type that begins small. What a
proof answers (`name : goal.name`) keeps the name that the check made, and so does what a library is asked for. Comments and
strings keep their words.
"""

import os
import re
import sys

SPLIT = re.compile(r'("(?:[^"\\]|\\.)*"|--[^\n]*|[\s(){}\[\],.;«»]+)')
SPLIT_RT = re.compile(r'(b?"(?:[^"\\]|\\.)*"|//[^\n]*|[\s(){}\[\],.;:«»]+)')
LIBRARY = re.compile(r"use (?:Rattle\.std|lib|native|mathlib|denote|borrow|Prim)[^{\n;]*\.\{([^}]*)\}")
NAME = r"[^\s(){}\[\],.;:«»]+"


def files(root, ends):
    for folder, dirs, names in os.walk(root):
        dirs[:] = sorted(d for d in dirs if d not in ("out", "target", ".git"))
        for n in sorted(names):
            if n.endswith(ends):
                yield os.path.join(folder, n)


def read(path):
    with open(path, encoding="utf-8") as f:
        return f.read()


def camel(name):
    return "".join(p[:1].upper() + p[1:] for p in re.split(r"[-_]", name))


def snake(name):
    return name.replace("-", "_")


def declared(text):
    """The names that a file declares, each with whether it is a type or a fact."""
    lines = text.split("\n")
    inside = None
    for i, line in enumerate(lines):
        if not line.strip() or line.strip().startswith("--"):
            continue
        if not line[0].isspace():
            inside = None
        m = re.match(r"\s*(?:pub )?(record|data) (" + NAME + r")", line)
        if m:
            inside = m.group(1)
            yield m.group(2), True
            continue
        m = re.match(r"\s*(?:(?:abbrev|unfoldable) )?(?:pub )?((?:" + NAME + r" )+):(?: (.*))?$", line)
        if not m or line.lstrip().startswith(("use ", "module ", "let ", "|")):
            continue
        kind = m.group(2) or ""
        j = i + 1
        while j < len(lines) and re.match(r"\s", lines[j]) and (not kind.strip() or kind.rstrip().endswith(("→", "(", ",", "×", ":"))):
            kind += " " + lines[j].strip()
            j += 1
        if re.match(r"goal\.", kind):
            continue
        fact = inside is None and bool(re.search(r"(^|→ )Type( 0)?\s*$", kind))
        for name in m.group(1).split():
            yield name, fact


def respelled(names):
    to = {}
    for name, fact in names:
        if fact and (name[0].islower() or "-" in name or "_" in name) and not re.search(r"[◌^A-Za-z0-9_'\-]", re.sub(r"[A-Za-z0-9_'\-]", "", name)):
            to[name] = camel(name)
        elif "-" in name and re.fullmatch(r"[A-Za-z0-9_'\-]+", name):
            to.setdefault(name, snake(name))
    return to


def turned(text, to, split):
    parts = split.split(text)
    for k in range(0, len(parts), 2):
        parts[k] = to.get(parts[k], parts[k])
    return "".join(parts)


def main(argv):
    names, where = {}, {}
    for path in files("crates", ".antt"):
        if not re.search(r"/(specs|proofs)/", path):
            continue
        for name, fact in declared(read(path)):
            names[name] = names.get(name, False) or fact
            where.setdefault(name, set()).add(path)
    library = {n.split(" as ")[0].strip() for path in files("crates", (".antt", ".rt")) for line in LIBRARY.findall(read(path)) for n in line.split(",")}
    to = {a: b for a, b in respelled(sorted(names.items())).items() if a not in library}
    new = {}
    for a, b in to.items():
        new.setdefault(b, set()).add(a)
    for b, olds in sorted(new.items()):
        if len(olds) > 1 or b in names:
            print(f"falls together: {b}: {sorted(olds)}{' and one that had this name' if b in names else ''}")
    if "--dry" in argv:
        for a, b in sorted(to.items()):
            print(f"{a} -> {b}")
        return 0
    for path in files("crates", (".antt", ".rt")):
        old = read(path)
        text = turned(old, to, SPLIT if path.endswith(".antt") else SPLIT_RT)
        if text != old:
            with open(path, "w", encoding="utf-8") as f:
                f.write(text)
    for path in [*files("docs", ".md"), "README.md"]:
        old = read(path)
        text = re.sub(r"`([^`\n]+)`", lambda m: "`" + turned(m.group(1), to, SPLIT) + "`", old)
        if text != old:
            with open(path, "w", encoding="utf-8") as f:
                f.write(text)
    return 0


if __name__ == "__main__":
    raise SystemExit(main(sys.argv[1:]))
