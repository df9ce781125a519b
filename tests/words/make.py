#!/usr/bin/env python3
"""make.py: writes the cases of this folder anew, from document 02 and not from any program.

NAME.txt through `words` gives NAME.out, a line of words for each of the eight threads; NAME.back, a text, an empty line and words, through `words back` gives
NAME.out, what the loads saw by record number, a line each. Where NAME.err is, nothing is printed but that line on standard error.

A case says beside each load its list and its digit, worked out by hand: the first value of its address, then what the other writers of the address wrote,
by record number. The words follow by whole numbers of any size: the first load is least, and a new word starts where the product of the lists' lengths
would pass 2 to the 64th."""
from pathlib import Path

HERE = Path(__file__).resolve().parent
LIMIT = 2**64


def words(digits):
    """The words of one thread's loads, each told as (digit, length of its list)."""
    out, weight = [], LIMIT + 1
    for digit, length in digits:
        if weight * length > LIMIT:
            out.append(0)
            weight = 1
        out[-1] += weight * digit
        weight *= length
    return out


def lines(threads):
    """A line for each of the eight threads, by their loads."""
    return "".join(" ".join(map(str, words(threads.get(thread, [])))) + "\n" for thread in range(8))


BUFFERS = "0: M[0] := 1\n0: M[1] == 0\n1: M[1] := 1\n1: M[0] == 0\n"
# both loads may have read 0 or 1
SEEN = "0: M[0] := 1\n0: M[1] == 1\n1: M[1] := 1\n1: M[0] == 0\n"

# record 0 is a swap: 5, 8, 9 and not its own 7; record 3 a load: 5, 7, 8, 9; record 4 a swap: 5, 7, 8; record 5 reads address 1, which nobody writes: 0
SWAPS = "init: M[2] := 5\n0: { M[2] == 8; M[2] := 7 }\n1: M[2] := 8\n1: sync\n0: M[2] == 7\n2: { M[2] == 5; M[2] := 9 }\n0: M[1] == 0\n"
SWAPS_WORDS = lines({0: [(1, 3), (1, 4), (0, 1)], 2: [(0, 3)]})

# three writers and the first value: four choices for each load, so 32 loads have a product of exactly 2 to the 64th, and the 33rd begins a word
WRITERS = "0: M[0] := 1\n0: M[0] := 2\n0: M[0] := 3\n"


def fours(count, read):
    return WRITERS + "".join(f"1: M[0] == {read(k)}\n" for k in range(count))


def many(count, read):
    return lines({1: [(read(k), 4) for k in range(count)]})


# 171 writers and the first value: 172 choices a load, 8 loads have a product below 2 to the 60th, and the ninth would pass 2 to the 64th
WIDE = "".join(f"0: M[3] := {value}\n" for value in range(1, 172)) + "".join(f"1: M[3] == {171 - k}\n" for k in range(20))

FORTH = {
    "store-buffers": (BUFFERS, "0\n0\n\n\n\n\n\n\n"),
    "store-buffers-seen": (SEEN, "1\n0\n\n\n\n\n\n\n"),
    "no-loads": ("0: M[0] := 1\n1: sync\n", "\n" * 8),
    "no-records": ("", "\n" * 8),
    "swaps": (SWAPS, SWAPS_WORDS),
    "product-exactly": (fours(32, lambda k: 3), many(32, lambda k: 3)),
    "product-past": (fours(33, lambda k: (k + 1) % 4), many(33, lambda k: (k + 1) % 4)),
    "wide": (WIDE, lines({1: [(171 - k, 172) for k in range(20)]})),
}
BACK = {
    "back-store-buffers": (SEEN + "\n1\n0\n", "1\n0\n"),
    "back-one-line": (BUFFERS + "\n1 1", "1\n1\n"),
    "back-swaps": (SWAPS + "\n" + SWAPS_WORDS, "8\n7\n5\n0\n"),
    "back-swaps-others": (SWAPS + "\n11 2\n", "9\n9\n8\n0\n"),
    "back-largest": (fours(32, lambda k: 0) + "\n" + str(LIMIT - 1) + "\n", "3\n" * 32),
    "back-no-loads": ("0: M[0] := 1\n\n\n\n", ""),
}
REFUSED = {
    "unlisted.txt": ("0: M[0] := 1\n0: M[0] == 2\n1: M[0] == 3\n", "refused 23 record 1"),
    "own-write.txt": ("0: { M[0] == 4; M[0] := 4 }\n", "refused 23 record 0"),
    "no-form.txt": ("0: M[0] := 1\n0: M[1] = 0\n", "refused 3 line 2"),
    "lost-core.txt": ("0: sync\n2: sync\n", "refused 22 line 0"),
    "back-too-large.back": (BUFFERS + "\n1\n2\n", "refused 24 word 1"),
    "back-too-few.back": (BUFFERS + "\n1\n", "refused 26"),
    "back-too-many.back": (BUFFERS + "\n0\n0\n0\n", "refused 26"),
    "back-no-empty-line.back": (BUFFERS, "refused 26"),
    "back-past-64-bits.back": (fours(32, lambda k: 0) + "\n" + str(LIMIT) + "\n", "no list of words"),
    "back-no-number.back": (BUFFERS + "\n1 x\n", "no list of words"),
    "back-no-form.back": ("0: M[0] = 1\n\n0\n", "refused 3 line 1"),
}


def main():
    for old in HERE.iterdir():
        if old.suffix in (".txt", ".back", ".out", ".err"):
            old.unlink()
    for name, (text, out) in FORTH.items():
        (HERE / f"{name}.txt").write_text(text)
        (HERE / f"{name}.out").write_text(out)
    for name, (text, out) in BACK.items():
        (HERE / f"{name}.back").write_text(text)
        (HERE / f"{name}.out").write_text(out)
    for name, (text, line) in REFUSED.items():
        (HERE / name).write_text(text)
        (HERE / name).with_suffix(".err").write_text(line + "\n")


main()
