#!/usr/bin/env python3
"""Spells the repository's own definitions and lemmas in snake case.

usage: python3 tools/rename.py [--list]        at the top of the repository, once, after the toolchain's own script

A dash within a name becomes an underscore; it stays where it joins the name of a function on lists to what a lemma says of it (length-rows).
sumN and sumZ become sum_nat and sum_int, and getD, which the library now calls get_or, is called so in the names of lemmas too.
Names of the library and names that the prover makes for proofs (the first name behind c., l. or goal., and the names of answers) stay.
With --list nothing is written: the names are printed, and those that would meet another.
"""

import collections
import glob
import re
import sys

SKIP = re.compile(r'"(?:[^"\\\n]|\\.)*"|--[^\n]*')
SKIP_CODE = re.compile(r'b?"(?:[^"\\]|\\.)*"|//[^\n]*')
TOKEN = re.compile(r'[^\s(){}.;,@"«»\[\]]+')
ANSWERS = re.compile(r"/proofs/.*/(?:Answers|Invariants)(?:/.*)?\.antt$")
LIBRARY = re.compile(r"use Rattle\.(?:std|core|io|std_alloc|std_heap|std_io)[\w.+]*\.\{([^}]*)\}")
IMPORT = re.compile(r"use Rattle\.[^\s{;]*?\.\{([^}]*)\}")
DECLARED = re.compile(r"(?m)^[ \t]*(?:(?:pub|abbrev|unfoldable|pattern|data|record) )*(\S+) :[ \n]")
WHOLE = {"sumN": "sum_nat", "sumZ": "sum_int"}
# names that would meet a function of the same file
OTHER = {"past-lblock": "section_past_lblock", "source-share": "share_of_source", "target-share": "share_of_target"}
JOINING = ("length", "take", "drop", "map", "get_or", "filter")


def is_name(word):
    return re.fullmatch(r"[A-Za-z][\w'+*]*(?:-[\w'+*ℤ]+)+", word) or word.split("-")[0] in WHOLE


def new_name(word):
    if word in OTHER:
        return OTHER[word]
    word = word.replace("getD", "get_or")
    for old, new in WHOLE.items():
        word = re.sub(rf"(?<![A-Za-z]){old}(?![A-Za-z])", new, word)
    head, dash, rest = word.partition("-")
    if head in JOINING and dash:
        return head + "-" + rest.replace("-", "_")
    return word.replace("-", "_")


def pieces(text, skip):
    """The text in parts: (part, whether it is a comment or a string)."""
    at = 0
    for m in skip.finditer(text):
        yield text[at : m.start()], False
        yield m[0], True
        at = m.end()
    yield text[at:], False


def read(path):
    with open(path, encoding="utf-8", newline="") as it:
        return it.read()


def turned(text, skip, names, answers):
    """The text with the names respelled. Where it answers goals, what the prover names stays."""

    def one(part):
        def put(m):
            before = part[: m.start()]
            if m[0] not in names:
                return m[0]
            if answers and re.search(r"(?<![\w.])(?:c|l|goal|κs)\.$", before):
                return m[0]
            if answers and m[0] in answers:
                return m[0]
            return names[m[0]]

        return TOKEN.sub(put, part)

    return "".join(part if skipped else one(part) for part, skipped in pieces(text, skip))


def answered(text):
    """What a file of answers declares for the prover: names whose type is that of a goal."""
    return {m[1] for m in re.finditer(r"(?m)^(?:abbrev |pub )*(\S+) : goal\.", text)} | {"goal"}


def main():
    proofs = sorted(glob.glob("crates/*/specs/**/*.antt", recursive=True) + glob.glob("crates/*/proofs/**/*.antt", recursive=True))
    code = sorted(glob.glob("crates/*/src/**/*.rt", recursive=True))
    texts = {p: read(p) for p in proofs + code}
    skips = {p: SKIP if p.endswith(".antt") else SKIP_CODE for p in texts}
    library, used, seen = set(), set(), set()
    for p, t in texts.items():
        bare = "".join(part for part, skipped in pieces(t, skips[p]) if not skipped)
        for m in LIBRARY.finditer(bare):
            library |= {w.split(" as ")[0].strip() for w in m[1].split(",")}
        seen |= set(TOKEN.findall(bare))
        if not ANSWERS.search(p):
            used |= {w for w in TOKEN.findall(bare) if is_name(w)}
        else:
            used |= {w for w in DECLARED.findall(bare) if is_name(w) and w not in answered(t)}
            for m in IMPORT.finditer(bare):
                used |= {w.strip() for m2 in m[1].split(",") for w in m2.split(" as ") if is_name(w.strip())}
    names = {w: new_name(w) for w in sorted(used - library)}
    names = {w: n for w, n in names.items() if w != n}
    twice = collections.Counter(names.values())
    met = sorted(w for w, n in names.items() if twice[n] > 1 or n in seen)
    if "--list" in sys.argv:
        print("\n".join(f"{w}\t{n}" for w, n in names.items()))
        print("would meet another:", " ".join(f"{w}->{names[w]}" for w in met) or "none")
        return
    for p, t in texts.items():
        new = turned(t, skips[p], names, answered(t) if ANSWERS.search(p) else None)
        if new != t:
            with open(p, "w", encoding="utf-8", newline="") as it:
                it.write(new)


main()
