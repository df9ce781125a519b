#!/usr/bin/env python3
"""Spells the repository's own antt names as today's Rattle does: a word in snake case where it was in lower camel case, a prime an apostrophe.

usage: tools/respell.py [--check]        at the top of the repository; --check only says which names would fall together

It goes by words: each part of a name between dashes that begins in lower case and has a capital is turned, in specs/, proofs/, clauses, must-fail edits and the
pages that name definitions. Types and modules keep their capitals. Names of the kit, and names of one or two letters of a local, stay.
"""

import os
import re
import sys

WORD = re.compile(r"[A-Za-z_][A-Za-z0-9_?'′⁻¹₀₁₂₃₄₅₆₇₈₉-]*")
CAMEL = re.compile(r"^[a-z][a-z0-9]*(?:[A-Z][a-z0-9]*)+$")
STAY = {"hL", "jK", "inK", "onK", "onP"}
PAGES = ("docs/RULES.md", "docs/PROMISES.md", "docs/DECISIONS.md", "docs/PAPERS.md", "docs/GUIDE.md", "CONTRIBUTING.md", "README.md")


def snake(part):
    return re.sub(r"(?<=[a-z0-9])([A-Z])", lambda m: "_" + m.group(1).lower(), part).lower()


def spelled(word):
    word = word.replace("′", "'")
    parts = word.split("-")
    done = []
    for part in parts:
        tail = part[len(part.rstrip("?'⁻¹₀₁₂₃₄₅₆₇₈₉")):] if part.rstrip("?'⁻¹₀₁₂₃₄₅₆₇₈₉") else ""
        core = part[: len(part) - len(tail)] if tail else part
        done.append(snake(core) + tail if core not in STAY and CAMEL.match(core) else part)
    return "-".join(done)


def files():
    for folder, dirs, names in os.walk("crates"):
        dirs[:] = sorted(d for d in dirs if d not in ("out", ".git"))
        for name in sorted(names):
            if name.endswith((".antt", ".rt", ".edit")):
                yield os.path.join(folder, name)


def known(words):
    """The camel words of the repository that are names of antt: those that stand in specs/ or proofs/."""
    found = {}
    for path in files():
        if path.endswith(".antt"):
            with open(path, encoding="utf-8") as f:
                for word in WORD.findall(f.read()):
                    for part in word.split("-"):
                        found[part.rstrip("?'′⁻¹₀₁₂₃₄₅₆₇₈₉")] = True
    return found


def main():
    names = known(None)
    together = {}
    for name in names:
        if name not in STAY and CAMEL.match(name) and snake(name) in names:
            together[name] = snake(name)
    for name, other in sorted(together.items()):
        print(f"falls together: {name} {other}")
    if "--check" in sys.argv:
        return
    turned = 0
    pages = [p for p in PAGES if os.path.exists(p)]
    for path in [*files(), *pages]:
        with open(path, encoding="utf-8") as f:
            text = f.read()

        def one(m):
            word = m.group(0)
            camels = [p.rstrip("?'′⁻¹₀₁₂₃₄₅₆₇₈₉") for p in word.split("-")]
            camels = [p for p in camels if CAMEL.match(p)]
            if any(p not in names for p in camels):
                return word.replace("′", "'") if path.endswith(".antt") else word
            return spelled(word)

        new = WORD.sub(one, text)
        if new != text:
            turned += 1
            with open(path, "w", encoding="utf-8") as f:
                f.write(new)
    print(f"turned: {turned} files")


main()
