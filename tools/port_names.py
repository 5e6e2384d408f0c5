#!/usr/bin/env python3
"""Brings the repository's own definitions and lemmas to snake case, after the kit's port.py.

usage: tools/port_names.py [--list]     at the top of the repository, once, with everything committed

A word in camel case or with dashes becomes one in snake case: blockOutput is block_output, untouched-share untouched_share.
Types, modules, functions of src/, exported C names, strings, inputs and outputs keep their names. So does what a file
brings in from a library, and what the check itself names in a function's proof. In comments and documents a name stands
between backquotes. --list writes nothing: it prints each name, old and new, and which names would fall together.
"""
import collections
import glob
import os
import re
import sys

LIBRARY = re.compile(r"^\s*(?:pub )?use ((?:borrow|lib|native|mathlib|Prim|denote|specs|machine|seplogic|logic|Rattle\.(?:std|core|io|os|libc))\b[^\s{]*)(.*)$")
TOKEN = re.compile(r"[^\s(){}\[\],;.`\"]+")
OWN = re.compile(r"^(?:(?:abbrev|unfoldable|pub|data|record|ruleset|infixl|infixr|infix) )*([^\s(){}\[\],;.:]+)")
SPECIAL = {"getD": "get_or"}


def is_word(name):
    """A word to respell: camel case that begins small, or words joined by dashes."""
    if not re.match(r"[a-z]", name) or re.search(r"[=<>|\\/]|--|->", name):
        return False
    return "-" in name.strip("-") or re.search(r"[a-z0-9][A-Z]", name) is not None


def snake(name):
    for old, new in SPECIAL.items():
        name = re.sub(rf"{old}(?![a-z])", new, name)
    name = name.replace("-", "_")
    # a type keeps its capital where it is a part of its own; inside a word a capital begins the next word
    parts = [re.sub(r"(?<=[a-z0-9])([A-Z]+)", lambda m: "_" + m[1].lower(), part) if re.match(r"[a-z]", part) else part
             for part in name.split("_")]
    return "_".join(parts)


def read(path):
    with open(path, encoding="utf-8", newline="") as f:
        return f.read()


def kind_of(path):
    if path.endswith(".antt"):
        return "function" if os.path.basename(path) == "Proof.antt" else "lemmas"
    return "source" if path.endswith(".rt") else "edit" if path.endswith(".edit") else "document"


def split_comment(line, mark):
    """The code of a line and its comment."""
    at = re.search(rf"(?:^|\s){re.escape(mark)}(?:\s|$)", line)
    return (line[: at.start()], line[at.start() :]) if at else (line, "")


def brought_in(text):
    """What a file brings in from a library by name."""
    names = set()
    for line in text.split("\n"):
        group = LIBRARY.match(line)
        if group:
            names.update(TOKEN.findall(group[2]))
            names.update(group[1].split("."))
    return names


def respell(code, names, kept):
    return TOKEN.sub(lambda m: names[m[0]] if m[0] in names and m[0] not in kept else m[0], code)


def in_comment(text, names):
    return re.sub(r"`[^`\n]+`", lambda m: respell(m[0], names, ()), text)


def outside_strings(code, names, kept):
    parts = re.split(r'("(?:[^"\\]|\\.)*")', code)
    return "".join(it if it.startswith('"') else respell(it, names, kept) for it in parts)


def turn(path, text, names):
    kind = kind_of(path)
    if kind == "document":
        # code stands in lines that are indented by four, and between backquotes
        return "\n".join(respell(it, names, ()) if it.startswith("    ") else in_comment(it, names) for it in text.split("\n"))
    kept = brought_in(text) if kind != "source" else set()
    mark = "//" if kind == "source" else "--"
    out = []
    for line in text.split("\n"):
        if LIBRARY.match(line) and kind in ("lemmas", "function"):
            out.append(line)
            continue
        code, comment = (line, "") if kind == "edit" else split_comment(line, mark)
        turned = outside_strings(code, names, kept) if kind in ("source", "edit") else respell(code, names, kept)
        out.append(turned + in_comment(comment, names))
    return "\n".join(out)


def own_names(paths):
    """Every word that specs/ and the lemmas of proofs/ define, bind or use, and no library gives."""
    names = set()
    for path in paths:
        if kind_of(path) != "lemmas":
            continue
        text = read(path)
        kept = brought_in(text)
        for line in text.split("\n"):
            if LIBRARY.match(line):
                continue
            code, _ = split_comment(line, "--")
            names.update(it for it in TOKEN.findall(code) if is_word(it) and it not in kept)
    return names


def respelled(words, defined):
    """The new name of each word. A lemma that would get the name of a definition has _lem after it."""
    names = {it: snake(it) for it in words}
    taken = {snake(it) for it in words if "-" not in it} | {it for it in defined if not is_word(it)}
    return {old: new + "_lem" if "-" in old and new in taken else new for old, new in names.items()}


def main():
    if sys.argv[1:] not in ([], ["--list"]):
        sys.exit(__doc__.split("\n\n")[1])
    crates = sorted(glob.glob("crates/*/specs/**/*.antt", recursive=True) + glob.glob("crates/*/proofs/**/*.antt", recursive=True))
    sources = sorted(glob.glob("crates/*/src/**/*.rt", recursive=True))
    edits = sorted(glob.glob("crates/*/must-fail/*.edit"))
    documents = ["README.md", *sorted(glob.glob("docs/*.md"))]
    defined = {it for path in crates if kind_of(path) == "lemmas" for line in read(path).split("\n") for it in OWN.findall(line)}
    names = respelled(own_names(crates), defined)
    words = collections.Counter(it for path in crates + sources for it in TOKEN.findall(read(path)))
    came = collections.defaultdict(set)
    for old, new in names.items():
        came[new].add(old)
    together = [(new, sorted(olds), words[new]) for new, olds in sorted(came.items()) if len(olds) > 1 or words[new]]
    if sys.argv[1:]:
        for old, new in sorted(names.items()):
            print(old, new)
        print(f"-- {len(names)} names; these fall together, or stand already (how often):")
        for new, olds, often in together:
            print("--", new, *olds, often or "")
        return
    turned = 0
    for path in crates + sources + edits + documents:
        text = read(path)
        new = turn(path, text, names)
        if new != text:
            turned += 1
            with open(path, "w", encoding="utf-8", newline="") as f:
                f.write(new)
    print(f"{len(names)} names, {turned} files turned")


if __name__ == "__main__":
    main()
