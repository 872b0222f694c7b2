#!/usr/bin/env python3
"""Respells this repository's own definitions and lemmas: words in snake case, types and facts in camel case.

usage: python3 tools/respell.py [--dry]     at the top of the repository, once, after the toolchain's own script

A name with a dash that a file of specs/ or proofs/ defines is respelled wherever it stands as a whole word: in specs/
and proofs/, in src/ outside comments, in must-fail edits, and between backquotes of README.md and docs/.
Names that the toolchain makes (goals, steps, cases) keep their dashes, and so do the names of its library.
It tells where two names would fall together.
"""
import os
import re
import sys

DRY = "--dry" in sys.argv[1:]
DEF = re.compile(r"^(\s*)((?:(?:abbrev|unfoldable|pub|record|data)\s+)*)([^\s:(){}\[\],;.]+)\s*(:|\()(.*)$")
MADE = re.compile(r"^(goal|need|rules)\.")
# a token: what stands between white space, brackets, commas, colons, semicolons and dots
TOKEN = re.compile(r"[^\s(){}\[\],;:.\"`]+")


def files(ending, *below):
    for folder, dirs, names in sorted(os.walk("crates")):
        dirs[:] = sorted(d for d in dirs if d != "out")
        for name in sorted(names):
            path = os.path.join(folder, name)
            if name.endswith(ending) and (not below or path.split(os.sep)[2] in below):
                yield path


def read(path):
    with open(path, encoding="utf-8") as f:
        return f.read()


def spelled(name):
    name = name.replace("getD-", "get_or-")
    if name[0].isupper():
        return "".join(p[0].upper() + p[1:] for p in name.split("-"))
    return name.replace("-", "_")


def defined():
    """The names that are respelled, and the other ones."""
    names, plain = {}, set()
    for path in files(".antt", "specs", "proofs"):
        for line in read(path).split("\n"):
            if line.startswith(("--", "use ")) or not line.strip():
                continue
            m = DEF.match(line)
            if not m:
                continue
            indent, words, name, mark, rest = m.groups()
            if " = " in line.split(":")[0] or line.lstrip().startswith(("let ", "→", "λ", "∙", "elim")):
                continue
            if mark == "(" and not words and " : " not in line:
                continue
            if MADE.match(rest.strip()) or not re.match(r"[A-Za-z]", name):
                continue
            if mark == "(" and not ("record" in words or "data" in words):
                continue
            if "-" in name:
                names[name] = path
            else:
                plain.add(name)
    return names, plain


NAMES, PLAIN = defined()
NEW = {n: spelled(n) for n in NAMES}


def turn(text):
    """The text with each name respelled wherever it stands as a whole word."""
    return TOKEN.sub(lambda m: NEW.get(m.group(0), m.group(0)), text)


def turn_rt(text):
    out = []
    for line in text.split("\n"):
        at = line.find("//")
        out.append(turn(line) if at < 0 else turn(line[:at]) + line[at:])
    return "\n".join(out)


def turn_page(text):
    return re.sub(r"`[^`\n]+`", lambda m: turn(m.group(0)), text)


def clashes():
    """Two old names with one new name, or a new name that a shared file of specs/ or proofs/ has already."""
    bad, seen = [], {}
    for old, new in sorted(NEW.items()):
        if seen.setdefault(new, old) != old:
            bad.append(f"{old} and {seen[new]} both become {new}")
        if new in PLAIN:
            bad.append(f"{old} becomes {new}, which is defined already")
    for path in files(".antt", "specs", "proofs"):
        words = set(TOKEN.findall(re.sub(r"(?m)^use .*$", lambda m: m.group(0)[m.group(0).rfind(".{"):], read(path))))
        for old in words & set(NEW):
            if NEW[old] in words and path.count(os.sep) == 3:
                bad.append(f"{path}: {old} becomes {NEW[old]}, which stands there already")
    return bad


def main():
    bad = clashes()
    for line in bad:
        print("clash: " + line)
    todo = [(p, turn) for p in files(".antt")] + [(p, turn_rt) for p in files(".rt")] + [(p, turn) for p in files(".edit")]
    todo += [(os.path.join(d, n), turn_page) for d, _, ns in os.walk("docs") for n in sorted(ns) if n.endswith(".md") and not n.startswith("PORT")]
    todo.append(("README.md", turn_page))
    changed = 0
    for path, how in todo:
        old = read(path)
        new = how(old)
        if new != old:
            changed += 1
            if not DRY:
                with open(path, "w", encoding="utf-8") as f:
                    f.write(new)
    print(f"{len(NEW)} names, {changed} files")
    return 1 if bad else 0


if __name__ == "__main__":
    sys.exit(main())
