#!/usr/bin/env python3
"""Counts forms in the sources at a commit: tools/forms.py [COMMIT] [--places]

Of each form it prints how often it stands in crates/*/src, or in the proofs, by crate; with --places each place.
docs/DESIGN-PASS.md says what the forms are counted for."""
import collections
import re
import subprocess
import sys

# form: (where, pattern). The pattern is sought line by line.
FORMS = {
    "1 an answer enum": ("src", r"^pub enum (\w*Answer|Tested)\b"),
    "1 a refusal by its number": ("src", r"\brefuse\(\w+, [^)]"),
    "1 a place that is a length if there is none": ("src", r"^ *// .*(length|number)( of \w+)? if there is none"),
    "2 a function with a width, stride or direction to switch on": ("src", r"^ *(pub )?fn \w+\((width|stride|inverse): |^ *(width|stride|inverse): (u32|usize|bool),"),
    "3 while, and loop": ("src", r"^ *(let \w+ = )?(while|loop)\b"),
    "3 an index that is counted up by hand": ("src", r"^ *\w+ [+-]= \d+;"),
    "4 an answer, a conversion or a comparison by hand": ("src", r"^ *(pub )?fn (answer_of|same_\w+|wide|number32|number64)\b"),
    "5 the random bytes, list and values of a run as parameters": ("src", r"\bwatch: &\[u32\]|\blist: &\[u32\]"),
    "5 a struct of a value with counts": ("src", r"^ *pub (counts: Counts|step: u32|next: u32),"),
    "6 bytes with an offset or a length beside them": ("src", r"\b(at|a|b|from): usize\b"),
    "7 a bool or a number that says which step to run": ("src", r"\binverse: bool|fn choose\("),
    "8 a typed let of an answer": ("proofs", r"^ +let \w+ : .*"),
}
# a fact that stands in the clauses of three functions or more of a crate
FACT = re.compile(r"(?:requires|ensures)(?: \w+)? \{ ([^{}]*) \}")


def at(commit, *words):
    return subprocess.run(["git", *words], check=True, capture_output=True, text=True).stdout


def files(commit):
    for name in at(commit, "ls-tree", "-r", "--name-only", commit, "crates").split("\n"):
        m = re.fullmatch(r"crates/(\w+)/(src|proofs)/.*\.(rt|antt)", name)
        if m:
            yield m[1], m[2], name, at(commit, "show", f"{commit}:{name}").split("\n")


def facts(lines):
    for m in FACT.finditer("\n".join(lines)):
        for fact in m[1].split(" × "):
            yield fact.strip().strip("()")


def main():
    words = [w for w in sys.argv[1:] if w != "--places"]
    if len(words) > 1 or any(w.startswith("-") for w in words):
        sys.exit(__doc__)
    commit = words[0] if words else "HEAD"
    found = {form: collections.Counter() for form in FORMS}
    places = collections.defaultdict(list)
    stated = collections.defaultdict(collections.Counter)
    repeated = collections.Counter()
    for crate, where, name, lines in files(commit):
        for form, (of, pattern) in FORMS.items():
            if of == where and not form.startswith("8"):
                for k, line in enumerate(lines, 1):
                    if re.search(pattern, line):
                        found[form][crate] += 1
                        places[form].append(f"{name}:{k}: {line.strip()}")
        if where == "src":
            stated[crate].update(facts(lines))
        elif name.endswith("Answers.antt"):
            lets = collections.Counter(line.strip() for line in lines if re.search(FORMS["8 a typed let of an answer"][1], line))
            repeated[crate] += sum(n - 1 for n in lets.values() if n > 1)
    found["8 a typed let of an answer"] = +repeated
    for form, by in found.items():
        print(f"{sum(by.values()):5}  {form}: " + ", ".join(f"{c} {n}" for c, n in sorted(by.items())))
        if "--places" in sys.argv:
            print("\n".join("         " + p for p in places[form]))
    many = [(n, crate, fact) for crate, by in stated.items() for fact, n in by.items() if n >= 3]
    print(f"{sum(n for n, _, _ in many):5}  5 a fact in the clauses of three functions or more: {len(many)} facts")
    for n, crate, fact in sorted(many, reverse=True):
        print(f"         {n:3} {crate}: {fact}")


if __name__ == "__main__":
    main()
