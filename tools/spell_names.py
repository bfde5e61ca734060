#!/usr/bin/env python3
"""Spells the names that this repository's own definitions and lemmas have as today's Rattle does.

usage: python3 tools/spell_names.py        at the top of the repository, after the toolchain's own port script, once

A name that begins with a small letter becomes snake case, as with_member for withMember and has_below for has-below; a type
with a dash becomes camel case, as MainLaw for Main-law. Names are those that crates/*/specs and crates/*/proofs declare, but
for answers to goals, whose names Rattle makes. They are turned in definitions, proofs, clauses and must-fail edits. Functions
of src/, strings, inputs and outputs stay. In a comment only a name turns that no ordinary word could be. If two names
would fall together, nothing is written.
"""

import glob
import os
import re
import sys

NAME = r"[^\s(){}\[\].;,@\"«»:=`/]+"
DECLARED = re.compile(r"^ *(?:(?:unfoldable|abbrev|opaque|private|pub|record|data) )*(%s)(?: +[^\n:=]*?)?(?<! ) : (.*)$" % NAME, re.M)
LOCAL = re.compile(r"(?:\blet|(?<=[({])) *(%s) : " % NAME)
MADE = re.compile(r"^(?:goal|need|given)\.")
STRING = re.compile(r'"(?:[^"\\\n]|\\.)*"')
COMMENT = {".antt": re.compile(r"--[^\n]*"), ".rt": re.compile(r"//[^\n]*"), ".edit": re.compile(r"//[^\n]*")}


# Names whose spelling would fall together with another: lemmas and labels that are called as a definition or a module.
OTHERWISE = {
    "name-added": "name_added_lem",
    "clause-added": "clause_added_lem",
    "clashes-owned": "clashes_have_owners",
    "needs-owned": "needs_have_owners",
    "Read-back": "ReadsBack",
}
# A label that is called as a function of src/ is no clash.
APART = {"free_set"}


def spelled(name):
    """The name as today's Rattle spells it."""
    if name in OTHERWISE:
        return OTHERWISE[name]
    if name[0].isupper():
        return re.sub(r"-(\w)", lambda m: m.group(1).upper(), name)
    name = re.sub(r"(?<=[a-z0-9])([A-Z])(?=[a-z]|$)", lambda m: "_" + m.group(1).lower(), name)
    return re.sub(r"(?<=\w)-(?=\w)", "_", name)


def files():
    found = []
    for ending in ("specs/**/*.antt", "proofs/**/*.antt", "src/**/*.rt", "must-fail/*.edit"):
        found += glob.glob("crates/*/" + ending, recursive=True)
    return sorted(found)


def code(text, kind):
    """The text with its comments and strings blanked."""
    text = STRING.sub(lambda m: " " * len(m.group()), text)
    return COMMENT[kind].sub(lambda m: " " * len(m.group()), text)


def main():
    texts = {p: open(p, encoding="utf-8").read() for p in files()}
    declared, taken = set(), set()
    for p, t in texts.items():
        if not p.endswith(".antt"):
            continue
        c = code(t, ".antt")
        made = os.path.basename(p) in ("Answers.antt", "Invariants.antt", "Proof.antt")
        for m in DECLARED.finditer(c):
            if not (made and MADE.match(m.group(2))):
                declared.add(m.group(1))
        declared.update(m.group(1) for m in LOCAL.finditer(c))
        taken.update(re.findall(NAME, c))
    made_names = {m.group(1) for p, t in texts.items() if os.path.basename(p) in ("Answers.antt", "Invariants.antt") for m in DECLARED.finditer(t) if MADE.match(m.group(2))}
    table = {n: spelled(n) for n in declared if spelled(n) != n and re.fullmatch(r"[A-Za-z][\w'-]*", n) and n not in made_names}
    bad = [f"{a} and {b} would both be {table[a]}" for a in table for b in table if a < b and table[a] == table[b]]
    bad += [f"{a} would be {table[a]}, which stands already" for a in sorted(table) if table[a] in taken - APART]
    if bad:
        print("\n".join(bad))
        return 1
    word = re.compile(r"(?<![\w'·-])(?:%s)(?![\w'·-])" % "|".join(sorted(map(re.escape, table), key=len, reverse=True)))
    plain = re.compile(r"[a-z]+(-[a-z]+)*")
    for p, t in texts.items():
        kind = os.path.splitext(p)[1]
        comments = [m.span() for m in COMMENT[kind].finditer(STRING.sub(lambda m: " " * len(m.group()), t))]
        strings = [m.span() for m in STRING.finditer(t)]

        def turned(m):
            at = m.start()
            if any(a <= at < b for a, b in comments):
                return m.group() if plain.fullmatch(m.group()) else table[m.group()]
            if any(a <= at < b for a, b in strings):
                return m.group()
            return table[m.group()]

        new = word.sub(turned, t)
        if new != t:
            open(p, "w", encoding="utf-8").write(new)
    for a in sorted(table):
        print(a, table[a])
    return 0


if __name__ == "__main__":
    sys.exit(main())
