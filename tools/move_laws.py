#!/usr/bin/env python3
"""Moves theorems that rest on definitions which must-fail edits change from specs/ to proofs/: an edit of a definition is then refused in proofs/.

usage: python3 tools/move_laws.py [FOLDER]      run again after a merge: it moves what is left, and turns the paths
"""
import os
import re
import sys

TOP = os.path.abspath(sys.argv[1] if len(sys.argv) > 1 else os.path.join(os.path.dirname(os.path.abspath(__file__)), ".."))
# What moves, by crate; a name after '=' where proofs/ has a file of that name already.
MOVED = {
    "arithmetic": ["Examples", "Laws=CellLaws", "Monotone", "Rounding=RoundedQuotients"],
    "guarantees": ["Laws", "Tests", "Theorems"],
    "lines": ["Laws", "TableLaws"],
    "meaning": ["Laws", "Theorems"],
    "mixing": ["Laws", "Tests", "Theorems"],
    "typing": ["Examples", "Laws", "Theorems"],
    "words": ["Laws"],
}


def files(top):
    for folder, dirs, names in os.walk(os.path.join(top, "crates")):
        dirs[:] = [d for d in dirs if d != "out"]
        for name in names:
            if name.endswith((".rt", ".antt", ".edit")):
                yield os.path.join(folder, name)


def main():
    turns = []
    for crate, modules in MOVED.items():
        specs, proofs = (os.path.join(TOP, "crates", crate, part) for part in ("specs", "proofs"))
        for module in modules:
            old, _, new = module.partition("=")
            new = new or old
            turns.append((re.compile(rf"\bRattle\.{crate}\.specs\.{old}\b(?![A-Za-z0-9_'-])"), f"Rattle.{crate}.proofs.{new}"))
            os.makedirs(proofs, exist_ok=True)
            for end in (".antt", ""):
                if os.path.exists(os.path.join(specs, old + end)):
                    if end == "" and os.path.isdir(os.path.join(proofs, new)):
                        for name in os.listdir(os.path.join(specs, old)):
                            os.rename(os.path.join(specs, old, name), os.path.join(proofs, new, name))
                        os.rmdir(os.path.join(specs, old))
                    else:
                        os.rename(os.path.join(specs, old + end), os.path.join(proofs, new + end))
            lib = os.path.join(specs, "Lib.antt")
            with open(lib, encoding="utf-8") as f:
                text = f.read()
            line = re.search(rf"^(pub mod|mod) {old}$\n?", text, re.M)
            if line:
                with open(lib, "w", encoding="utf-8") as f:
                    f.write(text.replace(line[0], "", 1))
            lib = os.path.join(proofs, "Lib.antt")
            text = open(lib, encoding="utf-8").read() if os.path.exists(lib) else ""
            if not re.search(rf"^(pub )?mod {new}$", text, re.M):
                with open(lib, "w", encoding="utf-8") as f:
                    f.write(text + f"pub mod {new}\n")
    for path in files(TOP):
        with open(path, encoding="utf-8") as f:
            text = f.read()
        new = text
        for old, to in turns:
            new = old.sub(to, new)
        if path.endswith(".edit"):
            crate = os.path.relpath(path, TOP).split(os.sep)[1]
            for module in MOVED.get(crate, []):
                old, _, to = module.partition("=")
                new = re.sub(rf"^file: specs/{old}(/|\.antt)", rf"file: proofs/{to or old}\1", new, flags=re.M)
        if new != text:
            with open(path, "w", encoding="utf-8") as f:
                f.write(new)


if __name__ == "__main__":
    main()
