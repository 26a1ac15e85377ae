#!/usr/bin/env python3
"""Brings the repository's own names in specs/, proofs/ and clauses to today's spelling.

A fact or type is in camel case (All-met: AllMet), any other word in snake case (job-within: job_within). Goals, steps
and names of the library keep theirs. Run once at the top of the repository, after port.py.
"""
import glob
import re
import sys

WORD = r"[^\W\d][\w'-]*"
TOKEN = re.compile(r"(?<![\w'-])" + WORD)
DECLARED = re.compile(
    r"^(\s*)(abbrev\s+|unfoldable\s+)?(?:pub\s+)?(record\s+|data\s+)?(" + WORD + r")((?:\s*\([^()]*(?:\([^()]*\)[^()]*)*\)|\s*\{[^{}]*\})*)\s*:\s(.*)$"
)
CLAUSE = re.compile(r"^\s*(pub )?(ghost|requires|ensures)\b|^\s*(→|×|⊎)")

# Names that no line declares: of imports, and of parts bound in proofs.
BOUND = {"code-world", "code-state", "code-job", "code-ends", "code-reader"}
BOUND |= {"O-is", "G-is", "L-is", "o-size", "g-size", "apart-both", "not-ok"}

# Names whose camel case is that of a variant which stands beside them, and one with an old word of the library.
OTHER = {"Job-fails": "FailsAtJob", "Goal-fails": "FailsAtGoal", "getD-everywhere": "get_or_everywhere"}


def is_answers(path):
    return path.endswith(("/Answers.antt", "/Invariants.antt"))


def antt_files():
    return sorted(glob.glob("crates/*/specs/**/*.antt", recursive=True) + glob.glob("crates/*/proofs/**/*.antt", recursive=True))


def declared():
    """Every name that the repository declares in antt, goals and invariants left out."""
    names = set()
    for path in antt_files():
        for line in open(path, encoding="utf-8"):
            m = DECLARED.match(line)
            if not m:
                continue
            name, rest = m.group(4), m.group(6)
            if rest.startswith("goal."):
                continue
            if is_answers(path) and re.match(r"(invariant|decreases|ghost)-", name):
                continue
            names.add(name)
    return names


def spelled(name):
    if name in OTHER:
        return OTHER[name]
    parts = name.split("-")
    if name[0].isupper() and len(parts[0]) > 1:
        return "".join(p[0].upper() + p[1:] for p in parts)
    return "_".join(parts)


def respell(text, names, answers):
    def one(m):
        word, before = m.group(0), text[: m.start()]
        if answers and re.search(r"(?<![\w'-])(goal|c|l|w)(\.[\w'-]+)*\.$", before[-200:]):
            return word
        return names.get(word, word)

    return TOKEN.sub(one, text)


def main():
    every = declared() | BOUND
    names = {n: spelled(n) for n in every if "-" in n}
    together = sorted((old, new) for old, new in names.items() if new in every)
    print("fall together:", together)
    if "--dry" in sys.argv:
        for old, new in sorted(names.items()):
            print(old, new)
        return
    for path in antt_files():
        text = open(path, encoding="utf-8").read()
        new = respell(text, names, is_answers(path))
        if new != text:
            open(path, "w", encoding="utf-8").write(new)
    for path in sorted(glob.glob("crates/*/src/**/*.rt", recursive=True)):
        lines = open(path, encoding="utf-8").read().split("\n")
        new = [respell(l, names, False) if CLAUSE.match(l) else l for l in lines]
        if new != lines:
            open(path, "w", encoding="utf-8").write("\n".join(new))


main()
