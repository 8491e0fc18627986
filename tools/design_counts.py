#!/usr/bin/env python3
"""Counts the places of each point of docs/DESIGN-PASS.md in crates/*/src, and prints them: python3 tools/design_counts.py [CHECKOUT] [--list]

It goes by text. What it finds are candidates: docs/DESIGN-PASS.md says of each what it is.
"""
import collections, pathlib, re, sys

top = pathlib.Path(next((a for a in sys.argv[1:] if a != "--list"), "."))
shows = "--list" in sys.argv
sources = sorted(p for p in top.glob("crates/*/src/**/*.rt"))
text = {p: p.read_text() for p in sources}


def tell(name, places):
    print(f"{name}: {len(places)}")
    if shows:
        for place in places:
            print("   ", place)


def lines(pattern):
    found = []
    for path, source in text.items():
        for number, line in enumerate(source.splitlines(), 1):
            if re.search(pattern, line) and not line.lstrip().startswith("//"):
                found.append(f"{path.relative_to(top)}:{number}: {line.strip()}")
    return found


def functions():
    """Each function: its file, its name, its head without clauses, its clauses, its body."""
    for path, source in text.items():
        for m in re.finditer(r"^( *)(?:pub )?(?:extern \"C\" )?fn (\w+)", source, re.M):
            end = re.compile(rf"^{m[1]}\}}$", re.M).search(source, m.end())
            whole = source[m.start() : end.end() if end else len(source)]
            clauses = re.findall(r"^\s+(requires|ensures)\b[^\n]*", whole, re.M)
            asks = re.findall(r"^\s+requires(?: \w+)? \{ (.*) \}$", whole, re.M)
            body = re.split(r"^ *\{\n", whole, maxsplit=1, flags=re.M)
            head = re.split(r"^\s+(?:requires|ensures)\b|\{\n", whole, maxsplit=1, flags=re.M)[0]
            yield path.relative_to(top), m[2], head, asks, body[1] if len(body) > 1 else "", clauses


def shape(body):
    """A body with every name and numeral in the order of its first use: equal shapes differ in names, types and constants alone."""
    names, out = {}, []
    for token in re.findall(r"[A-Za-z_]\w*|\d\w*|\S", re.sub(r"//[^\n]*", "", body)):
        if re.match(r"\w", token) and token not in ("if", "else", "let", "match", "return", "for", "in", "while", "mut", "as"):
            token = f"n{names.setdefault(token, len(names))}"
        out.append(token)
    return " ".join(out), len(out)


every = list(functions())

tell("1 enums with a case for a refusal or a failure", lines(r"^\s*(Refused\(u32\)|Failed|Interrupted),$"))
tell("1 numbers for refusals", lines(r"^pub const (NO|OFF|NOT|BAD|TOO|TWO|HALF|NOTHING)_\w+: u32 = \d+;"))
tell("1 results whose error is a number", lines(r"Result<[^>]*, u\d+>"))

groups = collections.defaultdict(list)
for path, name, head, asks, body, clauses in every:
    form, size = shape(body)
    if size >= 20:
        groups[form].append(f"{path}: {name}")
twins = [" = ".join(g) for g in groups.values() if len(g) > 1]
tell("2 groups of functions of one shape", twins)

tell("3 while loops", lines(r"\bwhile\b"))

tell("4 functions named as a comparison, a conversion or a print", [f"{p}: {n}" for p, n, *_ in every if re.match(r"(same|are_same|is_same|equal|compare|widen|narrow|copy|print|to|into|from)(_|$)", n)])
tell("4 casts of every field", [f"{p}: {n}" for p, n, h, a, b, c in every if len(re.findall(r"\w+\.\w+ as \w+", b)) >= 6])

facts = collections.defaultdict(set)
for path, name, head, asks, body, clauses in every:
    for clause in asks:
        for fact in re.split(r" × ", clause):
            fact = re.sub(r"\b\w+\.(now|old)\b", "s", fact)
            fact = re.sub(r"\b[a-z]\b", "v", fact)
            facts[fact.strip("()")].add(f"{path}: {name}")
tell("5 facts that three or more functions ask", [f"{len(who)} x {fact}: {', '.join(sorted(who))}" for fact, who in sorted(facts.items()) if len(who) >= 3])

tell("6 functions with a slice and its length, a place in it or a count", [f"{p}: {n}" for p, n, h, *_ in every if re.search(r"&(mut )?\[", h) and re.search(r"\b(len|count|at|each|first_len|second_len|from|to|first|m|n): usize", h)])
tell("6 flat arrays of more than a hundred numbers", lines(r"\[[^;\]]*; \d{3,}\]"))

tell("7 switches on a number of a step", lines(r"match (call|way|step|set|row|kind)\b|\b(call|way|step): (usize|u32)"))

proofs = [p for part in ("specs", "proofs") for p in top.glob(f"crates/*/{part}/**/*.antt")]
answers = [p for p in proofs if p.name in ("Answers.antt", "Invariants.antt")]
print(f"8 files of answers and invariants: {len(answers)}, of {sum(len(p.read_text().splitlines()) for p in answers)} lines")
print(f"8 all lines of .antt: {sum(len(p.read_text().splitlines()) for p in proofs)}")
