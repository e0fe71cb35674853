#!/usr/bin/env python3
"""Brings this repository's own definitions and lemmas to today's spelling: words in snake case.

usage: python3 tools/respell.py [--dry] [--list]      at the top of the checkout, once, after the toolchain's own port script

Names are those that a file of specs/ or proofs/ declares, with capitals inside or dashes, and the variables and aliases of those
files. A lemma that would fall together with a definition is told apart by `_lem`. In clauses a definition goes by its own name,
where an alias kept it apart from the function of that name. Respelled are .antt files and the clauses and imports of .rt files;
functions, strings, the prose of comments, must-fail edits and pages are left alone, and so are the
constructors of `Class`, which would fall together with definitions.
"""
import collections
import glob
import re
import sys

TOKEN = re.compile(r"[^\s(){}.,;:\"«»\[\]`]+")
DECLARED = re.compile(r"^\s*(?:(?:abbrev|unfoldable|pub|rec)\s+)*([^\s(){}.,:;«»\[\]\"]+)(?:\s+\{[^}]*\})?\s*:(?!=)\s")
MADE = re.compile(r"^(returns|the-|loop-|if-|Need-)")

# What goes for a file alone: facts, which are spelled as types; a point and an alias that stand beside no definition of their name.
ALONE = {
    "crates/decoder/proofs/Others.antt": {"asked": "Asked"},
    "crates/checker/specs/parts/Ledger.antt": {"moves": "Moves"},
    "crates/checker/proofs/Moving.antt": {"moves": "Moves"},
    "crates/rules/proofs/Points.antt": {"stranded_at_lem": "stranded_at"},
    "crates/pairs/proofs/Unique.antt": {"role_after_lem": "role_after"},
}


def files():
    for pattern in ("crates/*/specs/**/*.antt", "crates/*/proofs/**/*.antt"):
        yield from sorted(glob.glob(pattern, recursive=True))


def by_hand(path):
    """The proof of one function: its local names and the names that a check makes are left as they are."""
    return path.endswith(("/Proof.antt", "/Answers.antt", "/Invariants.antt"))


def snake(name):
    name = name.replace("-", "_")
    if name[0].isupper():
        return name
    return re.sub(r"(?<=[a-z0-9])([A-Z])", lambda m: "_" + m[1].lower(), name)


def declared():
    names = collections.defaultdict(set)
    for path in files():
        if by_hand(path):
            continue
        with open(path, encoding="utf-8") as f:
            for line in f:
                m = DECLARED.match(line)
                if m and not line.lstrip().startswith("--"):
                    names[m[1]].add("definition" if "/specs/" in path else "lemma")
    return names


def renaming(names):
    new = {}
    for name in names:
        if snake(name) != name and not MADE.match(name):
            new[name] = snake(name)
    ends = collections.defaultdict(set)
    for name in names:
        ends[new.get(name, name)].add(name)
    for end, froms in sorted(ends.items()):
        if len(froms) > 1:
            lemmas = [n for n in froms if names[n] == {"lemma"}]
            if len(lemmas) != len(froms) - 1:
                sys.exit(f"respell: {sorted(froms)} fall together as {end}")
            for n in lemmas:
                new[n] = end + "_lem"
                print(f"respell: {n} is {end}_lem beside the definition {end}")
    return new


def respell(text, new):
    return TOKEN.sub(lambda m: new.get(m[0], m[0]), text)


def definitions(path, text, new):
    """A file of specs/ or proofs/: in comments only what is in backticks or has capitals inside; then the file's own variables and
    aliases."""
    lines = []
    for line in text.split("\n"):
        if line.lstrip().startswith("--"):
            capitals = {name: end for name, end in new.items() if re.search(r"[a-z0-9][A-Z]", name)}
            parts = re.split(r"(`[^`]*`)", line)
            lines.append("".join(respell(p, new if p.startswith("`") else capitals) for p in parts))
        else:
            lines.append(respell(line, new))
    if by_hand(path):
        return "\n".join(lines)
    alone, imported, words = dict(ALONE.get(path, {})), set(), set()
    for line in lines:
        if re.match(r"\s*(use|open)\b", line):
            imported.update(TOKEN.findall(line.partition("{")[2]))
            words.add(line.partition("} as " if "{" in line else " as ")[2].strip())
        elif not line.lstrip().startswith("--"):
            words.update(TOKEN.findall(line))
    for word in words - imported:
        if re.fullmatch(r"[a-z][a-z0-9]*((-[a-z0-9]+)+|([A-Z][a-z0-9]*)+)'*", word) and snake(word) not in words | imported and not word.startswith("of-"):
            alone[word] = snake(word)
    return "\n".join(line if line.lstrip().startswith("--") else respell(line, alone) for line in lines)


def source(text, new):
    """Only clauses, imports of definitions and comments of a .rt file have these names, with capitals or dashes; a function's name has
    neither. Strings are left. Aliases go."""
    for name, alias in re.findall(r"([\w-]+) as «([^»]+)»", text):
        text = text.replace(f"{name} as «{alias}»", name).replace(f"«{alias}»", name)
    old = {name: end for name, end in new.items() if not re.fullmatch(r"[a-z0-9_]+", name)}
    parts = re.split(r'("(?:[^"\\]|\\.)*")', text)
    return "".join(p if p.startswith('"') else respell(p, old) for p in parts)


def main(argv):
    new = renaming(declared())
    print(f"respell: {len(new)} names")
    if "--list" in argv:
        for name in sorted(new):
            print(f"  {name} -> {new[name]}")
    if "--dry" in argv:
        return
    turned = 0
    for path in list(files()) + sorted(glob.glob("crates/*/src/**/*.rt", recursive=True)):
        with open(path, encoding="utf-8") as f:
            text = f.read()
        out = definitions(path, text, new) if path.endswith(".antt") else source(text, new)
        if out != text:
            turned += 1
            with open(path, "w", encoding="utf-8") as f:
                f.write(out)
    print(f"respell: {turned} files")


main(sys.argv[1:])
