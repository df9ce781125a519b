#!/usr/bin/env python3
"""design_places.py [WORD..]: the places of src/ that docs/DESIGN-PASS.md counts, a line for each with its point, crate, file and line, and
the sums at the end; WORDS are points, as `1 3`, to list those alone.

  1  an enum of two variants one of which carries nothing (Option), or of one good answer beside refusals (Result); a struct with a flag
     beside values; a parameter or field of type u8 that is a model, a kind, a rule or a number of a command
  2  two functions of src/ whose bodies differ in names and numbers alone (four statements or more)
  3  a `while` or a `loop`; counted where an index is stepped by one, walked where it goes to the next number of a row
  4  a function that copies, compares, or turns a value into a number or back, by a `match` or a loop
  5  a fact that stands in the contracts of three or more functions of a crate; parameters that stand together in three or more
  6  a struct with an array and its length; two or more arrays that go by one index
  7  a number that says which step to run
  8  answers in proofs/ (files that the check may need or not)"""
import collections
import pathlib
import re
import sys

wanted = set(sys.argv[1:])
sums = collections.Counter()


def tell(point, path, line, what):
    sums[point] += 1
    if not wanted or point.split()[0] in wanted:
        print(f"{point}: {path}:{line} {what}")


def block(text, at):
    depth = 0
    for i in range(at, len(text)):
        depth += {"{": 1, "}": -1}.get(text[i], 0)
        if depth == 0 and text[i] == "}":
            return text[at : i + 1]
    return text[at:]


GOOD = {"Good", "Done", "Yes", "List", "Length", "Taken", "Through", "Accepted", "Shown", "Cut", "Held"}
shapes = collections.defaultdict(list)
for path in sorted(pathlib.Path("crates").glob("*/src/**/*.rt")):
    crate, text = path.parts[1], path.read_text()
    at_line = lambda i: text.count("\n", 0, i) + 1
    for m in re.finditer(r"^(?:pub(?:\(crate\))? )?enum (\w+) \{\n(.*?)^\}", text, re.M | re.S):
        names = re.findall(r"^    (\w+)(,| \{|\()", m[2], re.M)
        bare = [n for n, end in names if end == ","]
        if len(names) == 2 and len(bare) == 1:
            tell("1 option", path, at_line(m.start()), m[1])
        elif any(n in GOOD for n, _ in names) and len(names) > 2 or len(names) == 2 and {n for n, _ in names} & {"Taken", "Refused"}:
            tell("1 result", path, at_line(m.start()), m[1])
    for m in re.finditer(r"^(?:pub(?:\(crate\))? )?struct (\w+)[^\n]*\{\n(.*?)^\}", text, re.M | re.S):
        if re.search(r": bool,", m[2]):
            tell("1 flag", path, at_line(m.start()), m[1])
        if re.search(r"\b(len|count)\w*: usize", m[2]) and ";" in m[2]:
            tell("6 length beside", path, at_line(m.start()), m[1])
    for m in re.finditer(r"\b(model|kind|first|second|rule|reason|command|spelling)s?: u8\b", text):
        tell("1 number", path, at_line(m.start()), m[0])
    for m in re.finditer(r"^( *)(while [^\n]*|loop) \{$", text, re.M):
        body = block(text, m.end() - 1)
        last = [x.strip() for x in body.split("\n") if x.strip() not in ("", "}")][-1]
        v = re.match(r"while (\w+) <", m[2])
        kind = "counted" if v and last == f"{v[1]} += 1;" or re.match(r"while 0 < \w+$", m[2]) else "walked" if re.search(r"= (rows::)?next\(", last) else "other"
        tell(f"3 {kind}", path, at_line(m.start()), m[2])
    for m in re.finditer(r"^ *(?:pub(?:\(crate\))? )?fn (\w+)[^\n]*", text, re.M):
        at = m.start() + re.compile(r"(?: |^ *)\{$", re.M).search(text[m.start() :]).end() - 1
        body = block(text, at)
        if re.search(r"^(equal|same|copy|clear|number|spelling|kind|value_of|as_|from_|to_)", m[1]) or re.fullmatch(r"\{\s*match \w+ \{(\s*[\w:]+(\(\w+\))? => [\w:]+,)+\s*\}\s*\}", body):
            tell("4 by hand", path, at_line(m.start()), m[1])
        flat = re.sub(r"\s+", " ", re.sub(r"//[^\n]*", "", body))
        if flat.count(";") >= 4:
            shapes[re.sub(r"\b[A-Za-z_]\w*\b|\b\d+\b", "x", flat)].append((path, at_line(m.start()), m[1]))
    for m in re.finditer(r"\b(step|s|command|which): (u8|usize)\b", text):
        tell("7 which step", path, at_line(m.start()), m[0])
for same in shapes.values():
    for path, line, name in same[1:]:
        tell("2 twin", path, line, f"{name} as {same[0][2]} of {same[0][0]}")
for crate in sorted(pathlib.Path("crates").iterdir()):
    facts, together = collections.Counter(), collections.Counter()
    for path in crate.glob("src/**/*.rt"):
        for m in re.finditer(r"^ *(?:pub(?:\(crate\))? )?fn \w+(?:<[^>]*>)?\((.*?)\)(?: -> [^\n]*?)?\n(.*?)^ *\{$", path.read_text(), re.M | re.S):
            for fact in set(re.findall(r"So \([^()]*\)|\([^()×→]*[≤<≡][^()×→]*\)|(?<=[{×] )[^()×→{}]*[≤<≡][^()×→{}]*(?= [×}])", re.sub(r"\bensures[^\n]*", "", m[2]))):
                facts[fact.strip("() ")] += 1
            names = re.findall(r"(\w+): ([^,]+)", m[1])
            for i in range(len(names)):
                for j in range(i + 1, len(names)):
                    together[(names[i][0], names[j][0])] += 1
    for fact, n in sorted(facts.items()):
        if n >= 3:
            tell("5 fact", crate, n, fact)
    for pair, n in sorted(together.items()):
        if n >= 5:
            tell("5 together", crate, n, ", ".join(pair))
    answers = sum(len(re.findall(r"^pub \S+ : goal\.", p.read_text(), re.M)) for p in crate.glob("proofs/**/Answers.antt"))
    if answers:
        sums["8 answers"] += answers
        if not wanted or "8" in wanted:
            print(f"8 answers: {crate} {answers}")
for point, n in sorted(sums.items()):
    print(f"{n:5} {point}")
