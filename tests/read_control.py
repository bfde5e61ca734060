#!/usr/bin/env python3
"""Reads a control file by section 6 of docs/RULES.md, and prints its ground or its fault.

It is a second reading, made from the rules alone, for the tests to compare with. It does not stop at the first fault.
It notes all the faults that it sees, and gives the one that comes first by 6.21 and 6.22.

Usage: read_control.py [FILE...]    (without a file: standard input)
"""

import re
import sys

MAX_BYTES = 65535  # 6.1
MAX_COMPONENTS = 64  # 1.1
MAX_CLAUSES = 512  # 1.3
SHOWN = 8  # how many names and clauses of a ground are printed: the last ones

# Section 9, the refusals that a text can have.
WORDS = {
    1: "bad-line",
    2: "stray-field",
    3: "bad-name",
    4: "name-twice",
    5: "too-many",
    6: "table-full",
    16: "too-long",
}

FIELD_LINE = re.compile(rb"([A-Za-z][A-Za-z0-9-]*):")  # 6.6
GOOD_NAME = re.compile(rb"[a-z0-9][a-z0-9+.-]{1,63}")  # 6.11
TOKEN = re.compile(rb"[,|]|[^ \t,|]+")  # a separator or a name, 6.11
SEPARATORS = {b"Package": b"", b"Depends": b",|", b"Conflicts": b","}  # 6.12, 6.13, 6.14


class Value:
    """The value of a read field: its separators and names, each with its place, and the place of its end (6.7)."""

    def __init__(self, text, start, end):
        self.tokens = [(found.start(), found[0]) for found in TOKEN.finditer(text, start, end)]
        self.end = end

    def names(self):
        return [token for _, token in self.tokens if is_name(token)]

    def clauses(self):
        """The tokens from comma to comma, and the place where they close: the comma, or the end of the value."""
        if not self.tokens:  # 6.8: without value it adds nothing
            return
        clause = []
        for place, token in self.tokens:
            if token == b",":
                yield clause, place
                clause = []
            else:
                clause.append((place, token))
        yield clause, self.end


def is_name(token):
    return token not in (None, b",", b"|")


def is_good(name):
    return GOOD_NAME.fullmatch(name) is not None


def lines(text):
    """6.2: where each line begins and ends."""
    start = 0
    while start < len(text):
        feed = text.find(b"\n", start)
        end = feed if feed >= 0 else len(text)
        yield start, end
        start = end + 1


def split(text, faults):
    """6.2 to 6.10: the stanzas, each as a table from read fields to values."""
    stanzas = []
    in_stanza = False
    may_continue = False
    for start, end in lines(text):
        line = text[start:end]
        if line == b"":  # 6.3
            in_stanza = may_continue = False
            continue
        if may_continue and line[:1] in (b" ", b"\t"):  # 6.10
            continue
        begins_stanza = not in_stanza
        if begins_stanza:
            stanzas.append({})
            in_stanza = True
        field = FIELD_LINE.match(line)
        if field is None:
            faults.append((start, 1, "file"))
            continue
        label = field[1]
        if begins_stanza and label != b"Package" or label in stanzas[-1]:  # 6.8
            faults.append((start, 2, "file"))
        elif label in SEPARATORS:
            stanzas[-1][label] = Value(text, start + field.end(), end)
        may_continue = label not in SEPARATORS  # 6.9, 6.10
    return stanzas


def check_value(label, value, faults):
    """6.20: the faults of a value that lie in the order of its names and separators, or in the names."""
    if label != b"Package" and not value.tokens:  # 6.13, 6.14: nothing is allowed
        return
    before = None
    for place, token in value.tokens:
        if is_name(token):
            if is_name(before):
                faults.append((place, 1, "field"))
            if not is_good(token):
                faults.append((place, 3, "name"))
        else:
            if token not in SEPARATORS[label]:
                faults.append((place, 1, "field"))
            if not is_name(before):
                faults.append((place, 3, "name"))
        before = token
    if not is_name(before):  # 6.25
        faults.append((value.end, 3, "name"))


def check_package(number, value, earlier, faults):
    """6.23: what is checked once a good Package name has been read."""
    if not value.tokens or not is_good(value.tokens[0][1]):
        return
    place, name = value.tokens[0]
    if name in earlier:
        faults.append((place, 4, "file"))
    if number >= MAX_COMPONENTS:
        faults.append((place, 5, "file"))


def check_clause_count(stanzas, faults):
    """6.24: clause number 513, if no fault is in it."""
    count = 0
    for stanza in stanzas:
        if b"Depends" not in stanza:
            continue
        for clause, close in stanza[b"Depends"].clauses():
            count += 1
            if count <= MAX_CLAUSES or not clause:
                continue
            first = clause[0][0]
            if not any(first <= place <= close for place, _, _ in faults):
                faults.append((first, 6, "field"))


def meaning(stanzas):
    """6.15 to 6.17: the names, the clauses as pairs of owner and members, and the conflict set of each component."""
    names = [stanza[b"Package"].names()[0] for stanza in stanzas]
    number = {name: i for i, name in enumerate(names)}
    needs = []
    conflicts = [set() for _ in names]
    for owner, stanza in enumerate(stanzas):
        if b"Depends" in stanza:
            for clause, _ in stanza[b"Depends"].clauses():
                needs.append((owner, {number[token] for _, token in clause if token in number}))
        if b"Conflicts" in stanza:
            for name in stanza[b"Conflicts"].names():
                other = number.get(name, owner)
                if other != owner:
                    conflicts[owner].add(other)
                    conflicts[other].add(owner)
    return names, needs, conflicts


def read(text):
    """The fault of a text and its ground; one of the two is None (6.20)."""
    if len(text) > MAX_BYTES:  # 6.1
        return (MAX_BYTES, 16, "file"), None
    faults = []
    stanzas = split(text, faults)
    earlier = set()
    for number, stanza in enumerate(stanzas):
        for label, value in stanza.items():
            check_value(label, value, faults)
        if b"Package" in stanza:
            check_package(number, stanza[b"Package"], earlier, faults)
            earlier.update(stanza[b"Package"].names()[:1])
    check_clause_count(stanzas, faults)
    if faults:
        # 6.21: the lowest place. 6.22: at the same byte the lowest number.
        return min(faults), None
    return None, meaning(stanzas)


def show_fault(fault):
    place, number, layer = fault
    return f"(refused {number} {WORDS[number]} {layer} {place})"


def show_set(numbers):
    return "{" + ", ".join(str(number) for number in sorted(numbers)) + "}"


def show_ground(ground):
    """One line: how many names and clauses there are and the last of them, a clause as owner and members; then each
    component that has conflicts, and its conflict set."""
    names, needs, conflicts = ground
    words = [f"{len(names)} names"]
    words.extend(name.decode("ascii") for name in names[-SHOWN:])
    words[-1] += ";"
    words.append(f"{len(needs)} needs")
    words.extend(f"{owner}{show_set(members)}" for owner, members in needs[-SHOWN:])
    words[-1] += ";"
    words.append("clashes")
    words.extend(f"{i}{show_set(others)}" for i, others in enumerate(conflicts) if others)
    return " ".join(words)


def outcome(text):
    fault, ground = read(text)
    return show_ground(ground) if fault is None else show_fault(fault)


def main():
    if len(sys.argv) == 1:
        print(outcome(sys.stdin.buffer.read()))
    for path in sys.argv[1:]:
        with open(path, "rb") as file:
            print(outcome(file.read()))


if __name__ == "__main__":
    main()
