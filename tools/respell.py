#!/usr/bin/env python3
"""Spells the names that this repository's specs and proofs declare in snake case: joinBoxes and box-of-parts as join_boxes and box_of_parts.

usage: tools/respell.py [--check] [TOP]

It reads each .antt file below crates/*/specs and crates/*/proofs, and takes the names that these declare: definitions, lemmas, fields, constructors.
A name that begins with a capital letter (a type, a module) keeps its camel case. The answers to goals, whose type begins 'tie.', have Rattle's own names and stay.
It rewrites whole words in .antt files, in the ghost text of .rt files, in must-fail edits, and in the code spans of pages.
A name that would meet another name of the repository, or one that a file imports from a library, is printed and stays.
"""
import collections
import os
import re
import sys

# Fields that are named as those of another record.
FIELDS = ("x-", "y-")
WORD = re.compile(r'[^\s(){}.;,@"«»\[\]`]+')
DECLARED = re.compile(r"^ *(?:(?:pub|abbrev|unfoldable|pattern) +)*([^\s(){}.;,@\"«»\[\]`:]+) :(?= |$)")
GOAL = re.compile(r"^ *(?:(?:pub|abbrev|unfoldable) +)*\S+ : (?:tie|lts)\.")
USE = re.compile(r"^(?:pub )?use ([^\s{]+)(?:\{([^}]*)\})?", re.M)
QUIET = re.compile(r'"(?:[^"\\\n]|\\.)*"|(?<![^\s(){}.;,@"«»])--[^\n]*')
SPAN = re.compile(r"`[^`\n]+`")


def files(top, *kinds):
    for folder, dirs, names in os.walk(top):
        dirs[:] = sorted(d for d in dirs if d not in ("out", "target", ".git"))
        for n in sorted(names):
            if n.endswith(kinds):
                yield os.path.join(folder, n)


def respelled(name):
    """The name in snake case. The part before a first dash keeps a capital, as a fact in a lemma's name does."""
    words = re.sub(r"(?<=[a-z0-9])[A-Z](?=[a-z])", lambda m: "_" + m[0].lower(), name) if not name[:1].isupper() else name
    return re.sub(r"(?<=[\w'′])-(?=[\w])", "_", words)


def is_ours(path, crates):
    steps = path.split(".")
    return steps[0] == "Rattle" and len(steps) > 1 and steps[1] in crates


def main(argv):
    check = "--check" in argv
    rest = [a for a in argv if not a.startswith("--")]
    top = rest[0] if rest else "."
    inside = os.path.join(top, "crates")
    crates = set(os.listdir(inside))
    texts = {p: open(p, encoding="utf-8").read() for p in files(inside, ".antt")}
    declared, imported = collections.Counter(), collections.defaultdict(set)
    bound, uses = {}, {}
    for p, t in texts.items():
        bare = QUIET.sub("", t)
        bound[p] = set(m[0] for m in WORD.finditer(bare) if bare[m.start() - 1:m.start()] != "." and bare[m.end():m.end() + 1] != ".")
        uses[p] = set(WORD.findall(bare))
        g = re.search(r"\(tie\.spec\b([^)]*)\)", bare)
        goals = set(WORD.findall(g[1])) if g else set()
        for line in bare.splitlines():
            m = DECLARED.match(line)
            if m and not GOAL.match(line) and m[1] not in goals:
                declared[m[1]] += 1
        for m in USE.finditer(bare):
            if not is_ours(m[1], crates):
                for item in (m[2] or "").split(","):
                    item = item.strip()
                    if item:
                        imported[p].add(item.split(" as ")[-1].strip())
                        imported[p].add(item.split(" as ")[0].strip())
    everywhere = set().union(*imported.values()) if imported else set()
    table = {}
    for name in sorted(declared):
        new = respelled(name)
        if new == name or not re.match(r"[A-Za-z]", name):
            continue
        if name in everywhere:
            print(f"library: {name}")
        table[name] = new
    back = collections.defaultdict(list)
    for a, b in table.items():
        back[b].append(a)
    for b, names in back.items():
        if len(names) > 1:
            for a in names:
                if "-" in a:
                    table[a] += "_lem"
            print(f"fall together: {' '.join(f'{a} -> {table[a]}' for a in names)}")
    for p in texts:
        for a in sorted(uses[p]):
            b = table.get(a)
            if b and b in bound[p]:
                lemma = a if "-" in a else b if b in declared else None
                if lemma and lemma[:2] not in FIELDS:
                    table[lemma] = b + "_lem"
                    print(f"meets: {a} -> {table[a]}, {b} -> {table.get(b, b)}")
                else:
                    print(f"meets: {p}: {a} -> {b}, and both stay apart by their record")
    for p in files(inside, ".rt"):
        t = open(p, encoding="utf-8").read()
        for a, b in table.items():
            if a in WORD.findall(t) and re.search(rf"(?<![\w.]){b}(?!\w)(?! *[<(])", t):
                print(f"meets: {p}: {a} -> {b}")

    def word(p):
        kept = imported.get(p, ())
        return lambda m: table[m[0]] if m[0] in table and m[0] not in kept else m[0]

    def turn(p, t):
        out, at = [], 0
        for q in QUIET.finditer(t):
            out.append(WORD.sub(word(p), t[at:q.start()]))
            out.append(SPAN.sub(lambda s: WORD.sub(word(p), s[0]), q[0]))
            at = q.end()
        out.append(WORD.sub(word(p), t[at:]))
        return "".join(out)

    changed = 0
    for p in list(files(inside, ".antt", ".rt", ".edit")) + list(files(os.path.join(top, "docs"), ".md")):
        t = texts.get(p) or open(p, encoding="utf-8").read()
        if p.endswith(".md"):
            new = SPAN.sub(lambda s: WORD.sub(word(p), s[0]), t)
        elif p.endswith(".rt"):
            new = "\n".join(l if l.lstrip().startswith("//") else WORD.sub(word(p), l) for l in t.split("\n"))
        else:
            new = turn(p, t)
        if new != t:
            changed += 1
            if not check:
                open(p, "w", encoding="utf-8").write(new)
    print(f"{len(table)} names, {changed} files")
    for a, b in sorted(table.items()):
        if check:
            print(f"  {a} -> {b}")


main(sys.argv[1:])
