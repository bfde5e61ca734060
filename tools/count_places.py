#!/usr/bin/env python3
"""Lists places that today's Rattle may write better (docs/DESIGN-PASS.md): count_places.py [ROOT] [-v] (-v prints each)."""
import collections
import glob
import os
import re
import sys

VERBOSE = "-v" in sys.argv
ROOT = next((a for a in sys.argv[1:] if not a.startswith("-")), ".")
SOURCES = sorted(glob.glob(os.path.join(ROOT, "crates/*/src/**/*.rt"), recursive=True))


def lines():
    """Each line of code with its file and number, without comments."""
    for path in SOURCES:
        with open(path, encoding="utf-8") as source:
            for number, line in enumerate(source, 1):
                if not line.lstrip().startswith("//"):
                    yield os.path.relpath(path, ROOT), number, line.rstrip("\n")


def show(title, rows):
    print(f"{len(rows):4}  {title}")
    if VERBOSE:
        for row in rows:
            print("        " + row)


def matching(title, pattern, but=None):
    """The lines that match."""
    rows = []
    for path, number, line in lines():
        if re.search(pattern, line) and not (but and re.search(but, line)):
            rows.append(f"{path}:{number}: {line.strip()}")
    show(title, rows)


class Function:
    def __init__(self, path, name, parameters, clauses, body):
        self.path, self.name, self.parameters, self.clauses, self.body = path, name, parameters, clauses, body

    def __str__(self):
        return f"{self.path}: {self.name}"


def closing(text, at, pair):
    """The place behind the bracket that closes the one at `at`."""
    depth = 0
    while at < len(text):
        depth += (text[at] == pair[0]) - (text[at] == pair[1])
        at += 1
        if depth == 0:
            break
    return at


def functions():
    found = []
    for path in SOURCES:
        with open(path, encoding="utf-8") as source:
            text = re.sub(r"//.*", "", source.read())
        for match in re.finditer(r"\bfn (\w+)(?:<[^(]*>)?\(", text):
            end = closing(text, match.end() - 1, "()")
            parameters = text[match.end():end - 1]
            clauses = []
            at = end
            while True:
                clause = re.compile(r"[^{;]*?\b(requires|ensures)\*?\s*(\w*)\s*\{").match(text, at)
                if not clause or re.search(r"\bfn \w+", clause.group(0)):
                    break
                stop = closing(text, clause.end() - 1, "{}")
                clauses.append((clause.group(1), text[clause.end():stop - 1].strip()))
                at = stop
            body = re.compile(r"[^{;]*").match(text, at)
            at = body.end()
            code = text[at:closing(text, at, "{}")] if at < len(text) and text[at] == "{" else ""
            found.append(Function(os.path.relpath(path, ROOT), match.group(1), parameters, clauses, code))
    return found


KEYWORDS = set("let mut if else match for in while loop return break continue self Self Ok Err Some None true false fn as".split())


def shape(code):
    """A body with each name and number left out."""
    tokens = re.findall(r"[A-Za-z_]\w*|\d+|\"[^\"]*\"|b?'[^']*'|[^\s\w]", code)
    return " ".join(t if t in KEYWORDS or not re.match(r"[\w\"']", t) else "_" for t in tokens)


def twins():
    """Functions whose bodies differ only in names and constants, shorter ones than a call of a call left out."""
    groups = collections.defaultdict(list)
    for function in functions():
        form = shape(function.body)
        if len(form.split()) >= 14:
            groups[form].append(str(function))
    show("groups of functions with bodies of one shape", [" | ".join(g) for g in groups.values() if len(g) > 1])


def repeated_facts():
    """What a premise says of a value, or a clause as a premise, in three or more functions."""
    heads = collections.defaultdict(set)
    for function in functions():
        for kind, clause in function.clauses:
            premises = re.findall(r"\b([A-Z]\w+) \(", clause) if kind == "requires" else re.findall(r"\b([A-Z]\w+) \([^→]*?\) →", clause)
            for premise in premises:
                heads[premise].add(str(function))
    show("facts that are premises of three or more functions", [f"{k}: " + ", ".join(sorted(v)) for k, v in heads.items() if len(v) > 2])
    quantified = [str(f) for f in functions() if any("(text : List ℕ) →" in c for _, c in f.clauses)]
    show("functions whose contract speaks of every text", quantified)


def travelling():
    """Pairs of parameters that three or more functions take together."""
    pairs = collections.defaultdict(list)
    for function in functions():
        parts = [p.strip() for p in re.split(r",\s*(?![^<]*>)", function.parameters) if ":" in p]
        parts = sorted({re.sub(r"\s+", " ", p) for p in parts if not p.startswith("&")})
        for i, one in enumerate(parts):
            for other in parts[i + 1:]:
                pairs[(one, other)].append(str(function))
    show("pairs of parameters that three or more functions take", [f"{a}, {b}: " + ", ".join(v) for (a, b), v in pairs.items() if len(v) > 2])


def structs():
    """Structs with a length or a place beside a buffer, and structs with several tables."""
    beside, parallel = [], []
    for path in SOURCES:
        with open(path, encoding="utf-8") as source:
            text = re.sub(r"//.*|ghost \w+: \{.*\},", "", source.read())
        for match in re.finditer(r"\bstruct (\w+)[^;{(]*\{([^}]*)\n\}", text):
            fields = match.group(2)
            name = f"{os.path.relpath(path, ROOT)}: {match.group(1)}"
            if re.search(r"Vec<|&'\w+ \[|\[\w+;", fields) and re.search(r"\b(size|len|count|start|end|at): usize", fields):
                beside.append(name)
            if len(re.findall(r"Vec<|Sheet,", fields)) > 1:
                parallel.append(name)
            if re.search(r"\bstart: usize", fields) and re.search(r"\bend: usize", fields):
                beside.append(name + " (an index pair)")
    show("structs with a length, a place or an index pair beside a buffer", beside)
    show("structs with several tables", parallel)


def proofs():
    answers = sorted(glob.glob(os.path.join(ROOT, "crates/*/proofs/**/Answers.antt"), recursive=True))
    goals = [f"{os.path.relpath(p, ROOT)}: {g}" for p in answers for g in re.findall(r"^pub (\S+) : goal\.", open(p, encoding="utf-8").read(), re.M)]
    show("files of answers", [os.path.relpath(p, ROOT) for p in answers])
    show("goals answered", goals)
    lemmas = [p for p in glob.glob(os.path.join(ROOT, "crates/*/proofs/**/*.antt"), recursive=True)]
    print(f"{sum(len(open(p, encoding='utf-8').readlines()) for p in lemmas):4}  lines of proofs")


print("1. Option, Result, flags, codes")
matching("enums", r"^\s*(pub(\([a-z]+\))? )?enum ")
matching("fields that are flags", r"^\s+(pub(\([a-z]+\))? )?[a-z_]+: bool,")
matching("a value beside an error", r"Result<.*, \(")
matching("Ok or Err taken apart by hand", r"let Ok\(.*else|Err\(_\) =>|return Err\(|=> Err\(")
matching("numbers for kinds", r"-> u(8|16|32|64)\b| as u(8|16|32|64)\b|^const [A-Z_]+: usize = \d+;")
print("2. Twins")
twins()
matching("structs without fields", r"^\s*(pub(\([a-z]+\))? )?struct \w+;")
print("3. Loops that count by hand")
matching("while loops", r"^\s*while ")
matching("loops over a range of indices", r"^\s*for \w+ in .*\.\..*(len\(\)|size\(\)|count)")
matching("loops that number what they go over", r"\.enumerate\(\)")
matching("numbers counted up", r"\+= 1\b|= \w+\.saturating_add\(1\)|= \w+ \+ 1;")
print("4. Written by hand")
matching("impls of printing, conversion, equality, order, copying", r"^\s*impl\b.*\b(Display|Debug|From<.*>|TryFrom<.*>|PartialEq|Eq|PartialOrd|Ord|Clone|Copy|Default|Hash) for ")
matching("methods that copy, compare or convert", r"^\s*(pub(\([a-z]+\))? )?fn (copy|same|number|word|pair|either)\b")
matching("formats of one type in several places", r"\"\(kernel ")
print("5. Facts and parameters that recur")
repeated_facts()
travelling()
print("6. Buffers, tables, indices")
structs()
matching("look-ups after a bounds test by hand", r"\[place\]|\[component\]")
print("7. Switches on steps")
matching("tables of functions", r"\bfn\(|dyn |impl Fn|F: Fn")
matching("arms that choose a step", r"=> self\.\w+\(")
print("8. Proofs")
proofs()
