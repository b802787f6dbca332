#!/usr/bin/env python3
"""Respells the repository's own definitions and lemmas, once, after the kit's script has turned the tree.

usage: python3 tools/respell.py [--dry] [--anyway]      at the top of the repository; it stops where names fall together, unless told
       to go on

A definition, field, constructor or lemma is in snake case (`waitingCount` becomes `waiting_count`, `landed-sound` becomes
`landed_sound`); a fact whose name begins with a capital is in upper camel case (`At-most-one-inside` becomes `AtMostOneInside`).
A dash stays where the name begins with a word of the library, as in `length-freeing`. Goals, which stand in the files of a function's
proof (Answers.antt, Invariants.antt, Proof.antt), keep their spelling. The text of code, strings, inputs
and outputs is left alone: in .rt files only clauses and imports of definitions have such names.
"""
import os
import re
import sys

GOALS = ("Answers.antt", "Invariants.antt", "Proof.antt", "Choices.antt")
DECLARED = re.compile(r"^[ ]*(?:abbrev |unfoldable |pub |data |record |axiom )*([A-Za-z][\w'-]*)[ ]*(?:\{[^{}]*\}[ ]*|\((?:[^()]|\([^()]*\))*\)[ ]*)*:[ \n]", re.M)
# a lemma that only one function's proof uses, and a name that an import gives
HELPER = re.compile(r"^([A-Za-z][\w'-]*) : (?!goal\.)", re.M)
ALIAS = re.compile(r" as ([a-z][\w'-]*)")
TOKEN = re.compile(r"[A-Za-z_◌ℕℤ][\w'◌ℕℤ+-]*")
# names that would fall together with another name, or that the rules leave unclear
OWN = {
    "getD-nils": "get_or-nils",
    "getD-zeros": "get_or-zeros",
    "getD-take-past": "get_or-take_past",
    "set-take-past": "set-take_past",
    "take-set-any": "take-set_any",
    "length-freeing": "length-freeing",
    "length-kept-parts": "length-kept_parts",
    # a lemma that would have the name of a definition
    "accepted-asked": "accepted_asked_lem",
    "doing-asked": "doing_asked_lem",
    "doing-at": "doing_at_lem",
    "few-kept": "few_kept_lem",
    "first-tables": "first_tables_lem",
    "guard-asked": "guard_asked_lem",
    "inside-asked": "inside_asked_lem",
    "inside-by": "inside_by_lem",
    "is-hazard": "is_hazard_lem",
    "is-inside-asked": "is_inside_asked_lem",
    "land-checks": "land_checks_lem",
    "node-asked": "node_asked_lem",
    "none-due": "none_due_lem",
    "owner-unlock1": "owner_unlock1_lem",
    "owner-unlock2": "owner_unlock2_lem",
    "owner-unlock3": "owner_unlock3_lem",
    "owner-unlock4": "owner_unlock4_lem",
    "retired-asked": "retired_asked_lem",
    "sees-from": "sees_from_lem",
    "Numbers-fit": "EveryNumberFits",
    "in-range": "in_range_lem",
}


def snake(name):
    name = re.sub(r"(?<=[a-z0-9'])([A-Z])", lambda m: "_" + m.group(1).lower(), name)
    return name.replace("-", "_").lower()


def camel(name):
    return "".join(p[:1].upper() + p[1:] for p in name.split("-"))


def respelled(name):
    if name in OWN:
        return OWN[name]
    if name in OWN.values():
        return name
    if name[0].isupper():
        return camel(name) if "-" in name else name
    if "-" in name or re.search(r"[A-Z]", name):
        return snake(name)
    return name


def files(top, endings):
    for folder, dirs, names in os.walk(os.path.join(top, "crates")):
        dirs[:] = sorted(d for d in dirs if d != "out")
        for n in sorted(names):
            if n.endswith(endings):
                yield os.path.join(folder, n)


def read(path):
    with open(path, encoding="utf-8") as f:
        return f.read()


def code_only(line, ending):
    """Where a line's comment begins."""
    mark = "--" if ending == ".antt" else "//"
    m = re.search(r"(?:^|(?<=\s))" + mark + r"(?=\s|$)", line)
    return m.start() if m else len(line)


def main(argv):
    dry = "--dry" in argv
    names, taken = {}, {}
    for p in files(".", (".antt", ".rt")):
        text = read(p)
        for line in text.splitlines():
            for t in TOKEN.findall(line[: code_only(line, os.path.splitext(p)[1])]):
                taken.setdefault(t, p)
        if p.endswith(".antt"):
            own = [m.group(1) for m in DECLARED.finditer(text)]
            if os.path.basename(p) in GOALS and os.path.basename(os.path.dirname(p)) != "proofs":
                own = HELPER.findall(text)
            for name in own + ALIAS.findall(text):
                if respelled(name) != name:
                    names[name] = respelled(name)
    made = {}
    for old, new in sorted(names.items()):
        made.setdefault(new, []).append(old)
    bad = 0
    for new, olds in sorted(made.items()):
        if len(olds) > 1 or new in taken:
            print("falls together:", new, olds, taken.get(new, ""))
            bad += 1
    print(len(names), "names respelled,", bad, "fall together")
    if dry:
        return 0
    if bad and "--anyway" not in argv:
        return 1

    def swap(m):
        return names.get(m.group(0), m.group(0))

    for p in files(".", (".antt", ".rt", ".edit")):
        ending = os.path.splitext(p)[1]
        lines = []
        for line in read(p).split("\n"):
            cut = len(line) if ending == ".edit" else code_only(line, ending)
            code, comment = line[:cut], line[cut:]
            if ending != ".edit" or not line.startswith("file:"):
                code = TOKEN.sub(swap, code)
            comment = re.sub(r"`([^`]*)`", lambda m: "`" + TOKEN.sub(swap, m.group(1)) + "`", comment)
            lines.append(code + comment)
        with open(p, "w", encoding="utf-8") as f:
            f.write("\n".join(lines))
    for folder in (".", "docs"):
        for n in sorted(os.listdir(folder)):
            if n.endswith(".md"):
                p = os.path.join(folder, n)
                text = re.sub(r"`([^`\n]*)`", lambda m: "`" + TOKEN.sub(swap, m.group(1)) + "`", read(p))
                with open(p, "w", encoding="utf-8") as f:
                    f.write(text)
    return 0


if __name__ == "__main__":
    raise SystemExit(main(sys.argv[1:]))
