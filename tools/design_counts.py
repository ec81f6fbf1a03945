#!/usr/bin/env python3
"""Counts the places of the design pass (docs/DESIGN-PASS.md), point by point, in the crates of this checkout.

    tools/design_counts.py            a line for each count
    tools/design_counts.py --list     each place too, as file:line

What is counted is text that a pattern finds, not judgement: what a place is worth, and why one stays, docs/DESIGN-PASS.md says.
"""
import collections
import pathlib
import re
import sys

ROOT = pathlib.Path(__file__).resolve().parent.parent
SOURCES = sorted(ROOT.glob("crates/*/src/**/*.rt"))
ANSWERS = sorted(ROOT.glob("crates/*/proofs/**/Answers.antt"))


def lines(path):
    return path.read_text(encoding="utf-8").split("\n")


def matching(pattern):
    """The places in src whose line, comments and clauses aside, has the pattern."""
    form = re.compile(pattern)
    found = []
    for path in SOURCES:
        for number, line in enumerate(lines(path), 1):
            if re.match(r"\s*(//|requires|ensures|ghost)", line):
                continue
            if form.search(line):
                found.append((path, number, line.strip()))
    return found


def blocks(keyword):
    """Each item of that keyword, as its place and the lines between its braces."""
    found = []
    for path in SOURCES:
        text = lines(path)
        for number, line in enumerate(text):
            if re.match(rf"(pub )?{keyword} \w+.* \{{$", line):
                end = next(i for i in range(number, len(text)) if text[i] == "}")
                found.append((path, number + 1, line.strip(), text[number + 1 : end]))
    return found


def two_ways():
    """Enums of two variants, one of which holds something."""
    found = []
    for path, number, name, body in blocks("enum"):
        variants = [v for v in body if re.match(r"    [A-Z]", v)]
        if len(variants) == 2 and any("(" in v or "{" in v for v in variants):
            found.append((path, number, name))
    return found


def beside_end():
    """Structs with a value beside an answer of two ways, in the old form or the library's, or beside a flag."""
    return [
        (path, number, name)
        for path, number, name, body in blocks("struct")
        if len(body) > 1 and any(re.match(r"\s+(pub )?\w+: (Place|bool|Result<.*>|Option<.*>),", line) for line in body)
    ]


def functions():
    """Each function with a body, as its place, its name and the body's lines."""
    for path in SOURCES:
        text = lines(path)
        for number, line in enumerate(text):
            head = re.match(r"(\s*)(?:pub )?fn (\w+)", line)
            if not head:
                continue
            close = next((i for i in range(number, len(text)) if text[i] == head.group(1) + "}"), None)
            if close is None:
                continue
            opening = next((i for i in range(number, close) if text[i] in (head.group(1) + "{", line if line.endswith("{") else "")), None)
            if opening is not None:
                yield path, number + 1, head.group(2), [l for l in text[opening + 1 : close] if l.strip() and not l.strip().startswith("//")]


def twins():
    """Functions of three lines or more whose body is another's but for names, numbers and texts."""
    shapes = collections.defaultdict(list)
    for path, number, name, body in functions():
        if len(body) < 3:
            continue
        order = {}
        shape = re.sub(r"b?\"[^\"]*\"|b?'[^']*'|\w+", lambda m: str(order.setdefault(m.group(0), len(order))), "\n".join(body))
        shapes[shape].append((path, number, name))
    return [place for places in shapes.values() if len(places) > 1 for place in places]


def stepped():
    """Loops whose body ends in a step by hand of a counter that their test names."""
    found = []
    for path in SOURCES:
        text = lines(path)
        for number, line in enumerate(text):
            test = re.match(r"(\s*)while (.*) \{$", line)
            if not test:
                continue
            end = next(i for i in range(number, len(text)) if text[i] == test.group(1) + "}")
            for step in text[number + 1 : end]:
                counter = re.match(r"\s+(\w+) [+-]= 1;$", step)
                if counter and re.search(rf"\b{counter.group(1)}\b", test.group(2)):
                    found.append((path, number + 1, line.strip()))
                    break
    return found


def repeated_requires():
    """Requires that stand, word for word, in three functions of a crate or more."""
    seen = collections.defaultdict(list)
    for path in SOURCES:
        crate = path.relative_to(ROOT).parts[1]
        for number, line in enumerate(lines(path), 1):
            clause = re.match(r"\s*requires( \w+)? \{ (.*) \}$", line)
            if clause:
                seen[crate, clause.group(2)].append((path, number, clause.group(2)))
    return [places[0] for places in seen.values() if len(places) >= 3]


def many_parameters():
    """Functions of six parameters or more."""
    found = []
    for path in SOURCES:
        text = path.read_text(encoding="utf-8")
        for head in re.finditer(r"\bfn (\w+)(?:<[^>]*>)?\(([^)]*)\)", text):
            parameters = [p for p in head.group(2).split(",") if p.strip()]
            if len(parameters) >= 6:
                found.append((path, text.count("\n", 0, head.start()) + 1, head.group(1)))
    return found


def answers(pattern):
    form = re.compile(pattern, re.M)
    found = []
    for path in ANSWERS:
        text = path.read_text(encoding="utf-8")
        found += [(path, text.count("\n", 0, m.start()) + 1, m.group(0).strip()) for m in form.finditer(text)]
    return found


COUNTS = [
    ("1 enums of two variants, one of which holds something", two_ways),
    ("1 structs with a value beside an answer or a flag", beside_end),
    ("1 fields and parameters tag, kind or code that are numbers", lambda: matching(r"\b(tag|kind|code): u(8|16|32|64)\b")),
    ("1 matches that hand a refusal on as it is", lambda: matching(r"(Fault|Refused|Err)\((\w+)\) => (return )?(\w+::)*(Fault|Refused|Err|fault|refused)\(\2\)")),
    ("2 functions whose body is another's but for names", twins),
    ("3 while loops", lambda: matching(r"^\s*while ")),
    ("3 while loops whose counter is stepped by hand", stepped),
    ("4 newtypes compared by their numbers", lambda: matching(r"\.0 [!=]= \w+(\.\w+)*\.0\b")),
    ("4 functions that compare, copy or name by hand", lambda: matching(r"\bfn (same_\w+|before|larger|smaller|equal\w*|code|sum|is_same\w*)\b")),
    ("4 bool functions that end in a bare true or false", lambda: matching(r"^    (true|false)$")),
    ("5 requires in three functions of a crate or more", repeated_requires),
    ("5 functions of six parameters or more", many_parameters),
    ("6 words put or got one by one", lambda: matching(r"\[\w+ \+ [2-9]\]")),
    ("8 answers", lambda: answers(r"^pub [^\s:]+ :\s+goal\.\S+$")),
    ("8 answers that are one search", lambda: answers(r"^\S+( \w+)* = search .*$")),
]


def main():
    listed = "--list" in sys.argv[1:]
    for name, count in COUNTS:
        found = count()
        print(f"{len(found):5}  {name}")
        if listed:
            for path, number, text in found:
                print(f"         {path.relative_to(ROOT)}:{number}  {text}")


if __name__ == "__main__":
    main()
