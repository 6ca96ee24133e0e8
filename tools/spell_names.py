#!/usr/bin/env python3
"""Brings the names of this repository's definitions and lemmas to today's spelling, in crates/*/{src,specs,proofs,must-fail}, once, after the toolchain's
own script: words in snake case, types and facts in upper camel case. A dash in a name of our own becomes an underscore, or goes where the name begins with a
capital. Names of the library, of goals and of steps stay as they are, and so do files that import a name of the library that one of ours equals.

usage: tools/spell_names.py [--list]     at the top of the repository
"""
import glob
import os
import re
import sys

TOKEN = re.compile(r"[^\s(){}\[\];,.«»|]+")
HEAD = re.compile(r"^(?P<in>\s*)(?:(?:abbrev|unfoldable|pub|private|data|record)\s+)*(?P<name>[^\s(){}\[\];,.:=«»|]+)(?=[\s(:{])(?P<rest>.*)$")
LIBRARY = re.compile(r"^\s*(?:ghost )?use (Rattle\.std|native|borrow|denote|mathlib|lib|Prim|base|logic)[.\w']*\.\{([^}]*)\}")
SIGNED = re.compile(r"(^|\s):(\s|$)")


def files(*kinds):
    for kind in kinds:
        for path in sorted(glob.glob(f"crates/*/{kind}/**/*", recursive=True)):
            if path.endswith((".rt", ".antt", ".edit")) and os.path.isfile(path):
                yield path


def read(path):
    with open(path, encoding="utf-8") as f:
        return f.read()


def turned(name):
    if name[0].isupper():
        return "".join(part[0].upper() + part[1:] for part in re.split("[-_]", name))
    return name.replace("-", "_")


def wants(name):
    return "-" in name[1:-1] and re.fullmatch(r"[A-Za-z][A-Za-z0-9'_]*(-[A-Za-z0-9'_]+)+", name) is not None or (name[0].isupper() and "_" in name and name.replace("_", "").isalnum())


def own():
    """The names that the repository declares: definitions, lemmas, fields and constructors, each with the files that declare it."""
    found = {}
    for path in files("src", "specs", "proofs"):
        # a name that a file gives to what it imports
        for line in read(path).split("\n"):
            if re.match(r"\s*(ghost )?use ", line):
                for name in re.findall(r" as ([^\s,}]+)", line):
                    if wants(name):
                        found.setdefault(name, set()).add(path)
        if not path.endswith(".antt"):
            continue
        lines = read(path).split("\n")
        for line in lines:
            for name in re.findall(r"\blet ([^\s(){}:=]+)", line) + re.findall(r"[(λ ]\(?([a-z]+-[a-z]+) : ", line):
                if wants(name) and not line.lstrip().startswith("--"):
                    found.setdefault(name, set()).add(path)
            if line.lstrip().startswith("--") or re.match(r"\s*(use|let|in)\b", line):
                continue
            m = HEAD.match(line)
            if not m or not wants(m["name"]):
                continue
            rest = m["rest"]
            if ": goal." in rest:
                continue
            if SIGNED.search(rest):
                found.setdefault(m["name"], set()).add(path)
    return found


def main():
    names = own()
    tables = {}
    for path in files("src", "specs", "proofs", "must-fail"):
        text = read(path)
        taken = set()
        for line in text.split("\n"):
            m = LIBRARY.match(line)
            if m:
                taken |= {w.strip().split(" as ")[-1].strip() for w in m[2].split(",")} | {w.strip().split(" as ")[0].strip() for w in m[2].split(",")}
        goals = set(re.findall(r"^(?:abbrev )?pub (\S+) : goal\.", text, re.M))
        out, last, changed = [], 0, set()
        spans = [m.span() for m in re.finditer(r"^\s*(?:ghost )?use (?:Rattle\.std|native|borrow|denote|mathlib|lib|Prim|base|logic)\b.*$", text, re.M)]
        for m in TOKEN.finditer(text):
            word = m[0]
            if word not in names or word in taken or word in goals:
                continue
            if any(a <= m.start() < b for a, b in spans):
                continue
            # a goal keeps its name; a step is named after a function of src/, which has underscores
            if text[:m.start()].endswith("goal."):
                continue
            out.append(text[last:m.start()])
            out.append(turned(word))
            last = m.end()
            changed.add(word)
        new = "".join(out) + text[last:]
        new = re.sub(r"«(\w+)» as \1\b", r"\1", new)
        # a name that now falls together with another of the file
        old_words = set(TOKEN.findall(text))
        for word in sorted(changed):
            if turned(word) in old_words:
                tables.setdefault("together", set()).add(f"{path}: {word} -> {turned(word)}")
        if new != text and "--list" not in sys.argv:
            with open(path, "w", encoding="utf-8") as f:
                f.write(new)
        for word in sorted(taken & set(names)):
            tables.setdefault("library", set()).add(f"{path}: {word}")
    turns = {}
    for name in names:
        turns.setdefault(turned(name).lower(), set()).add(name)
    for low, those in sorted(turns.items()):
        if len(those) > 1:
            print("fall together:", sorted(those))
    for kind in sorted(tables):
        for line in sorted(tables[kind]):
            print(kind + ":", line)
    print(len(names), "names")


if __name__ == "__main__":
    main()
