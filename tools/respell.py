#!/usr/bin/env python3
"""Spells the definitions and lemmas of this repository as its Rattle does: words in snake case, types in camel case.

usage: python3 tools/respell.py        at the top of the repository, once, right after the kit's own script

It was run once, in the commit that docs/PORT.md names, and stays so that anybody can lay the older text beside today's.
It renames what specs/ and the lemma files of proofs/ declare; functions of src/, strings and goal names stay.
"""
import glob
import os
import re
import sys

WORD = r"[\w'·≡≢‿-]"
TOKEN = re.compile(r"(?<!%s)[A-Za-z]%s*" % (WORD, WORD))
DECLARED = re.compile(r"\s*(?:pub\s+|abbrev\s+|unfoldable\s+)*(?:record\s+|data\s+)?([A-Za-z]%s*)\s*(?::|\(|\{|$)" % WORD)
PROOF_OF_A_FUNCTION = ("Answers.antt", "Invariants.antt", "Choices.antt", "Proof.antt")

# a lemma whose name joins two names keeps its dash
JOINED = {"length-spaced"}
# names that would fall together with another
OTHERWISE = {}


def texts():
    found = []
    for pattern in ("crates/*/specs/**/*.antt", "crates/*/proofs/**/*.antt", "crates/*/src/**/*.rt"):
        found += glob.glob(pattern, recursive=True)
    return sorted(set(found))


def declared():
    names = set()
    for path in texts():
        if path.endswith(".rt"):
            continue
        answers = "/proofs/" in path and os.path.basename(path) in PROOF_OF_A_FUNCTION
        for line in open(path, encoding="utf-8"):
            line = re.sub(r"--.*", "", line)
            if line.startswith("use "):
                continue
            if answers and not line.startswith(" ") and re.match(r"(pub|abbrev pub)\b", line):
                continue
            m = DECLARED.match(line)
            if m and "-" in m.group(1) and not (answers and not line.startswith(" ") and is_goal(m.group(1))):
                names.add(m.group(1))
    return names


def is_goal(name):
    return re.match(r"(returns|loop|invariant|overflow|decreases)-", name) or name.endswith("-requires")


def respelt(name):
    if name in OTHERWISE:
        return OTHERWISE[name]
    if name in JOINED:
        return name
    parts = name.split("-")
    if name[0].isupper():
        return parts[0] + "".join(p[:1].upper() + p[1:] for p in parts[1:])
    return "_".join(parts)


def outside_strings(text, change):
    """Changes what is not within double quotes, line by line."""
    lines = []
    for line in text.split("\n"):
        pieces = re.split(r'("(?:[^"\\]|\\.)*")', line)
        lines.append("".join(p if i % 2 else change(p) for i, p in enumerate(pieces)))
    return "\n".join(lines)


def main():
    names = {n for n in declared() if not is_goal(n)}
    new = {n: respelt(n) for n in names}
    used = set()
    for path in texts():
        used |= set(TOKEN.findall(open(path, encoding="utf-8").read()))
    clash = 0
    by_new = {}
    for n in sorted(names):
        by_new.setdefault(new[n], []).append(n)
        if new[n] != n and new[n] in used:
            print(f"look: {n} becomes {new[n]}, which is in use")
            clash += 1
    for k, olds in by_new.items():
        if len(olds) > 1:
            print(f"look: {olds} fall together as {k}")
            clash += 1
    if "--names" in sys.argv:
        return 0
    for path in texts():
        text = open(path, encoding="utf-8").read()
        turn = lambda piece: TOKEN.sub(lambda m: new.get(m.group(0), m.group(0)), piece)
        turned = outside_strings(text, turn) if path.endswith(".rt") else turn(text)
        if turned != text:
            open(path, "w", encoding="utf-8").write(turned)
    print(f"{len(names)} names respelt, {clash} to look at")
    return 0


if __name__ == "__main__":
    sys.exit(main())
