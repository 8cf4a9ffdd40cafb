#!/usr/bin/env python3
"""Brings this repository's own names in specs/ and proofs/ to the spelling of today's Rattle.

usage: tools/respell.py [ROOT]

Definitions, lemmas and their helpers are spelled in snake case, and what is a fact, a type or a statement in camel case:
`height-at` becomes `height_at`, `May-skip` becomes `MaySkip`. Names that the checker makes (`returns-in_ok`, `loop-t-preserved`),
names of the library, of functions, strings and the text of comments stay. It was run once, behind the kit's own script.
"""
import os
import re
import sys

ROOT = os.path.abspath(sys.argv[1]) if len(sys.argv) > 1 else os.path.dirname(os.path.dirname(os.path.abspath(__file__)))
WORD = re.compile(r"[^\s(){}\[\],.;:λ\"«»⌜⌝]+")
HEAD = re.compile(r"^(\s*)(?:(?:abbrev|unfoldable|pub|record|data|module|ruleset)\s+)*([^\s:(){}\[\],.;λ\"«»]+)\s*(?=[:({])(.*)$")
MADE = re.compile(r"^(returns|overflow|loop|invariant|decreases|ghost|nonzero|bounds|slice_bounds|slice-bounds|offset|type_inv|match|if|in|in_ok|in_err|then|else)-")
# two of them would fall together with another name
OTHER = {}


def files():
    for folder, dirs, names in os.walk(os.path.join(ROOT, "crates")):
        dirs[:] = sorted(d for d in dirs if d not in ("out", ".git", "must-fail", "data"))
        for name in sorted(names):
            if name.endswith((".antt", ".rt")):
                yield os.path.join(folder, name)


def spelled(name):
    if name in OTHER:
        return OTHER[name]
    parts = name.split("-")
    if name[0].isupper():
        return "".join(p[:1].upper() + p[1:] for p in parts)
    return "_".join(parts)


def code(line):
    """The line without its comment."""
    for mark in ("-- ", "// "):
        at = line.find(mark)
        if at >= 0 and line[:at].strip() == "":
            return ""
    return line


def own_names():
    names = set()
    for path in files():
        with open(path, encoding="utf-8") as f:
            lines = f.read().split("\n")
        if path.endswith(".antt"):
            of_function = os.path.basename(path) in ("Answers.antt", "Invariants.antt", "Proof.antt")
            for line in map(code, lines):
                m = HEAD.match(line)
                if m and "-" in m.group(2)[1:-1] and "goal." not in m.group(3) and not (of_function and MADE.match(m.group(2))):
                    names.add(m.group(2))
        for line in map(code, lines):
            if re.match(r"\s*(ghost )?use ", line):
                names.update(re.findall(r" as ([A-Za-z]\w*(?:-\w+)+)", line))
    return {n for n in names if re.match(r"^[\w'-]+$", n) and not n.startswith("-")}


def foreign(lines):
    """Names that a file takes from the library."""
    crates = "|".join(os.listdir(os.path.join(ROOT, "crates")))
    out = set()
    for line in lines:
        m = re.match(r"\s*(?:pub )?(?:ghost )?use ([^{]*)\{(.*)\}", line)
        if m and not re.match(r"Rattle\.(" + crates + r")\.", m.group(1)):
            for item in m.group(2).split(","):
                out.add(item.strip().split(" as ")[0])
    return out


def turned(line, names, keep, clause):
    if not clause and code(line) == "":
        return line

    def one(m):
        w = m.group(0)
        return spelled(w) if w in names and w not in keep else w

    out, at = [], 0
    for m in re.finditer(r'"(?:[^"\\]|\\.)*"', line):
        out += [WORD.sub(one, line[at : m.start()]), m.group(0)]
        at = m.end()
    out.append(WORD.sub(one, line[at:]))
    return "".join(out)


def main():
    names = own_names()
    new = {}
    for n in sorted(names):
        new.setdefault(spelled(n), []).append(n)
    said = {n for n in new if len(new[n]) > 1}
    for n in sorted(said):
        print(f"fall together: {new[n]} as {n}")
    every = set()
    for path in files():
        with open(path, encoding="utf-8") as f:
            text = f.read()
        every.update(WORD.findall("\n".join(map(code, text.split("\n")))))
    for n in sorted(new):
        if n in every:
            print(f"stands already: {n} ({new[n][0]})")
    changed = 0
    for path in files():
        with open(path, encoding="utf-8") as f:
            text = f.read()
        lines = text.split("\n")
        keep = foreign(lines)
        for n in sorted(keep & names):
            print(f"of the library: {n} in {os.path.relpath(path, ROOT)}")
        out = "\n".join(turned(line, names, keep, False) for line in lines)
        if out != text:
            changed += 1
            with open(path, "w", encoding="utf-8") as f:
                f.write(out)
    print(f"{len(names)} names, {changed} files")


main()
