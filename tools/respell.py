#!/usr/bin/env python3
"""Spells the repository's own names of specs/ and proofs/ in snake case, as tools/respelled.tsv lists them: old name, tab, new name, and where
the name is another's elsewhere, a tab and the files that it is turned in.

usage: python3 tools/respell.py [FOLDER]      below FOLDER (this repository): crates' .rt, .antt and .edit files, and the pages' code spans

Run once, after the kit's port.py. A name that a file takes from another library keeps its spelling there.
"""
import os
import re
import sys

TOP = os.path.join(os.path.dirname(os.path.abspath(__file__)), "..")
NAME = r"[^\s(){}.;,@\"«»\[\]\\`]+"
TOKEN = re.compile(NAME)
USE = re.compile(r"^\s*(?:pub |ghost )*use ([^\s{;]+?)(?:\.\{([^}]*)\})?(?: as ([^\s;]+))?;?\s*$")


def table():
    """The new name by the old one, and by the start of a path what is turned there alone."""
    names, there = {}, {}
    with open(os.path.join(TOP, "tools", "respelled.tsv"), encoding="utf-8") as f:
        for line in f:
            old, new, *path = line.rstrip("\n").split("\t")
            if path:
                there.setdefault(path[0], {})[old] = new
            else:
                names[old] = new
    return names, there


def crates(top):
    return set(os.listdir(os.path.join(top, "crates")))


def is_own(module, own):
    part = module.split(".")
    return len(part) > 1 and part[0] == "Rattle" and part[1] in own


def turn_code(text, names, own):
    """Names of a .antt or .rt file; in comments those in backticks alone."""
    foreign, aliases = set(), set()
    for line in text.split("\n"):
        m = USE.match(line)
        if m and not is_own(m[1], own):
            foreign |= {it.split(" as ")[-1].strip() for it in (m[2] or "").split(",")}
            foreign |= {it.split(" as ")[0].strip() for it in (m[2] or "").split(",")}
            aliases.add(m[3] or m[1].split(".")[-1])
    out = []
    for line in re.sub(r"\bspecs\.Contracts\b", "specs.Promises", text).split("\n"):
        line = "pub mod Promises" if line == "pub mod Contracts" else line
        m = USE.match(line)
        if m and not is_own(m[1], own):
            out.append(line)
            continue
        code, mark, note = line, "", ""
        m = re.search(r"(^|\s)(--|//)(\s|$)", line)
        if m:
            code, note = line[: m.start(2)], line[m.start(2) :]

        def one(it):
            word = it[0]
            if word not in names or word in foreign:
                return word
            before = code[: it.start()]
            base = re.search(rf"({NAME})\.$", before)
            if base and base[1] in aliases:
                return word
            return names[word]

        out.append(TOKEN.sub(one, code) + turn_spans(note, names))
    return "\n".join(out)


def turn_spans(text, names):
    """Names between backticks."""
    return re.sub(r"`[^`\n]*`", lambda it: TOKEN.sub(lambda w: names.get(w[0], w[0]), it[0]), text)


def turn_edit(text, names, own):
    out = []
    for line in text.split("\n"):
        head = re.match(r"(old: |new: )", line)
        out.append(head[0] + turn_code(line[5:], names, own) if head else turn_spans(line, names) if line.startswith("#") else line)
    return "\n".join(out)


def move_contracts(top):
    """Rattle makes a module `specs.contracts`: a file Contracts of specs/ is called Promises."""
    for crate in sorted(crates(top)):
        path = os.path.join(top, "crates", crate, "specs", "Contracts.antt")
        if os.path.isfile(path):
            os.rename(path, path.replace("Contracts", "Promises"))


def main(top):
    move_contracts(top)
    (everywhere, there), own = table(), crates(top)
    for folder, dirs, files in os.walk(top):
        dirs[:] = [d for d in dirs if d not in ("out", "target", ".git", "tools", "notes")]
        for name in files:
            path = os.path.join(folder, name)
            below = os.path.relpath(path, top)
            inside = below.startswith("crates")
            names = dict(everywhere)
            for start, more in there.items():
                if below.startswith(start):
                    names.update(more)
            if inside and name.endswith((".rt", ".antt")):
                turn = lambda t, names=names: turn_code(t, names, own)
            elif inside and name.endswith(".edit"):
                turn = lambda t, names=names: turn_edit(t, names, own)
            elif name.endswith(".md"):
                turn = lambda t, names=names: turn_spans(t, names)
            else:
                continue
            with open(path, encoding="utf-8") as f:
                text = f.read()
            new = turn(text)
            if new != text:
                with open(path, "w", encoding="utf-8") as f:
                    f.write(new)


if __name__ == "__main__":
    main(os.path.abspath(sys.argv[1] if len(sys.argv) > 1 else TOP))
