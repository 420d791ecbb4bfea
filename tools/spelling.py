#!/usr/bin/env python3
"""Spells this repository's own definitions and lemmas as the language does: words in snake case, a dash between two names alone.

usage: tools/spelling.py [--list] [FOLDER]     (FOLDER: a checkout, by default this one)

A name that specs/ or a law file of proofs/ declares is turned where it stands: in .antt files, in the ghost lines and clauses
of .rt files, in must-fail edits, and between backquotes in docs/ and README.md. Types, modules and goals keep their names.
A dash stays where the words on both sides of it are names themselves. A name whose new spelling stands already in a file
beside it stays, and a line says so. --list prints old and new, and writes nothing.
In edits and in docs/ the names of spelling.tsv come first, which the kit's own script turned in specs/ and proofs/.
"""

import os
import re
import sys

WORD = r"[^\s(){}\[\].,;@\"«»`]+"
DECLARED = re.compile(rf"^\s*(?:(?:abbrev|unfoldable|rec|pub)\s+)*({WORD})(?:\s+\{{[^{{}}\n]*\}}|\s+\([^()\n]*\))*\s+:(?:\s|$)")
# What a word keyword declares is a definition; a dash may stand between two of them.
DEFINED = re.compile(rf"^ {{0,4}}(?:pub )?(?:(?:abbrev|unfoldable|rec)\s+)+(?:pub )?({WORD})\s")
# Lemmas that would have their definition's name.
LEMMAS = "counted_of end_line in_group in_order last_line none_free one_more room_of stands_at".split()
FIRST = {name: name + "_lem" for name in LEMMAS} | {"get_d_any": "get_or_any"}
GOALS = re.compile(r"/proofs/(?:.*/)?(?:Answers|Invariants|Proof)\.antt$")
TOKEN = re.compile(WORD)


def files(root, *ends):
    for top in ("crates", "docs", "README.md"):
        path = os.path.join(root, top)
        if os.path.isfile(path) and path.endswith(ends):
            yield path
        for folder, dirs, names in os.walk(path):
            dirs[:] = sorted(d for d in dirs if d != "out")
            for name in sorted(names):
                if name.endswith(ends):
                    yield os.path.join(folder, name)


def read(path):
    with open(path, encoding="utf-8") as f:
        return f.read()


def words(name):
    """The name in snake case, word by word; a fact that is spelled as a type keeps its capital."""
    name = name.replace("′", "'")
    parts = []
    for part in name.split("-"):
        part = {"getD": "get_or"}.get(part, part)
        if not re.match(r"[A-Z]", part):
            part = re.sub(r"(?<=[a-z0-9])([A-Z])", lambda m: "_" + m[1].lower(), part)
        parts.append(part)
    return parts


def table(root):
    """Old and new spelling of each name that changes, and what stays because two would meet."""
    declared, heads, tokens = set(), set(), {}
    for path in files(root, ".antt"):
        text = first(read(path))
        tokens[path] = set(TOKEN.findall(text))
        if GOALS.search(path):
            continue
        for line in text.splitlines():
            if line.lstrip().startswith("--"):
                continue
            m = DECLARED.match(line)
            if m:
                declared.add(m[1])
            m = DEFINED.match(line)
            if m:
                heads.add("_".join(words(m[1])))
            for used in re.findall(r"\{([^{}]*)\}", line) if line.startswith("use Rattle.std") else []:
                heads.update(w.strip() for w in used.split(",") if "-" not in w)
    for path in files(root, ".rt"):
        # A function of the same name is no clash: no clause can name it. A parameter or a field is.
        text = read(path)
        names = re.findall(r"\b(\w+):(?!:)|\blet (?:mut )?(\w+)", text)
        ghosts = " ".join(re.findall(r"(?s)ghost use .*?;", text))
        tokens[path] = {w for pair in names for w in pair} | set(TOKEN.findall(ghosts))
    new, stays, taken = {}, [], {}
    for name in sorted(declared, key=lambda d: ("-" in d, d)):
        parts = words(name)
        to = parts[0]
        for left, right in zip(parts, parts[1:]):
            to += ("-" if left in heads and right in heads else "_") + right
        if to == name or not re.match(r"[a-zT→]", name):
            continue

        def met(to):
            return to in taken or to in declared or any(name in t and to in t for t in tokens.values())

        if met(to) and "-" in name:
            to += "_lem"
        if met(to):
            stays.append((name, to))
        else:
            new[name] = to
            taken[to] = name
    return new, stays


def first(text):
    """Without the lemmas that fall together with a definition; behind a dot such a name is a function of src/."""
    return re.sub(rf"(?<![.\w'-])({'|'.join(FIRST)})(?![\w'-])", lambda m: FIRST[m[1]], text)


def turn(text, new):
    return TOKEN.sub(lambda m: new.get(m[0], m[0]), text)


def projected(text):
    """Paths and projections as they are written today."""
    text = re.sub(r"Rattle·(\w+)(?:·(?:specs|proofs))?\.(specs|proofs)\.", r"Rattle.\1.\2.", text)
    text = re.sub(r"(?<=[\w'₀-₉)]) \.(?=[a-z])", ".", text).replace("′", "'")
    return re.sub(r"(?<= )\((\w+(?:\.[\w-]+)+)\)", r"\1", text)


def turned():
    """What the kit's script turned in specs/ and proofs/, for the files that it leaves."""
    with open(os.path.join(os.path.dirname(os.path.realpath(__file__)), "spelling.tsv"), encoding="utf-8") as f:
        return dict(l.split() for l in f)


def turn_file(path, text, new):
    def told(text):
        return turn(first(turn(text, turned())), new)

    if path.endswith(".antt"):
        return turn(first(text), new)
    if path.endswith(".edit"):
        return "".join(told(projected(l)) if re.match(r"(old|new):", l) else l for l in text.splitlines(keepends=True))
    if path.endswith(".md"):
        return re.sub(r"`[^`\n]+`", lambda m: told(projected(m[0])), text)
    # Of Rust the ghost lines and what stands between the braces of a clause.
    text = re.sub(r"(?ms)^\s*ghost use .*?;", lambda m: turn(m[0], new), text)
    return re.sub(r"(?ms)^(\s*)(requires|ensures|ghost|invariant)\b.*?(?=^\1(?:requires|ensures|ghost|invariant|\{)|^\S|\Z)", lambda m: turn(m[0], new), text)


def main(argv):
    listed = "--list" in argv
    argv = [a for a in argv if a != "--list"]
    root = argv[0] if argv else os.path.dirname(os.path.dirname(os.path.realpath(__file__)))
    new, stays = table(root)
    for name, to in stays:
        print(f"stays: {name}, since {to} stands beside it", file=sys.stderr)
    if listed:
        for name, to in sorted(new.items()):
            print(name, to)
        return
    for path in files(root, ".antt", ".rt", ".edit", ".md"):
        text = read(path)
        to = turn_file(path, text, new)
        if to != text:
            with open(path, "w", encoding="utf-8") as f:
                f.write(to)


if __name__ == "__main__":
    main(sys.argv[1:])
