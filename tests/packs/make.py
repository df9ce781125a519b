#!/usr/bin/env python3
"""make.py: writes the cases of this folder anew: texts, packed files, and the line of a refusal, from document 02's layout and not from any program.

NAME.txt with NAME.pyr: `pack` makes the file of the text, `unpack` the text of the file. NAME.txt or NAME.pyr with NAME.err: it is turned back with that
line."""
from pathlib import Path

HERE = Path(__file__).resolve().parent


def two(n):
    return bytes([n % 256, n // 256])


def load(thread, address, read):
    return f"{thread}: M[{address}] == {read}", bytes([0, thread, address, 0]) + two(read) + two(0)


def store(thread, address, written):
    return f"{thread}: M[{address}] := {written}", bytes([1, thread, address, 0]) + two(0) + two(written)


def swap(thread, address, read, written):
    line = f"{thread}: {{ M[{address}] == {read}; M[{address}] := {written} }}"
    return line, bytes([2, thread, address, 0]) + two(read) + two(written)


def fence(thread):
    return f"{thread}: sync", bytes([3, thread, 0, 0, 0, 0, 0, 0])


def both(firsts, records):
    """The plainest text of a trace, and its file."""
    lines = [f"init: M[{address}] := {value}" for address, value in firsts] + [line for line, _ in records]
    head = b"PYR" + two(1) + bytes([len(firsts)]) + two(len(records))
    entries = b"".join(bytes([address]) + two(value) for address, value in firsts) + b"".join(entry for _, entry in records)
    return "".join(line + "\n" for line in lines).encode(), head + entries


BUFFERS = [store(0, 0, 1), load(0, 1, 0), store(1, 1, 1), load(1, 0, 0)]
BOUNDS = [fence(thread) for thread in range(8)] + [store(7, 15, 65535), swap(7, 15, 65535, 65534), load(0, 15, 256)]
GOOD = {
    "empty": both([], []),
    "store-buffers": both([], BUFFERS),
    "first-values": both([(0, 1), (3, 7), (15, 65535)], [swap(0, 3, 7, 178), fence(0), load(1, 15, 65535)]),
    "bounds": both([], BOUNDS),
    "records-256": both([], [store(0, 5, value) for value in range(1, 257)]),
}
FILE = GOOD["store-buffers"][1]


def harmed(place, byte):
    return FILE[:place] + bytes([byte]) + FILE[place + 1 :]


REFUSED = {
    "text-one-equals.txt": (b"0: M[0] := 1\n0: M[1] = 0\n", (3, 2)),
    "text-lost-core.txt": (b"0: sync\n2: sync\n", (22, 0)),
    "file-mark.pyr": (harmed(2, 0x53), (18, 0)),
    "file-version.pyr": (harmed(3, 2)[:-1], (19, 0)),
    "file-cut-short.pyr": (FILE[:-1], (18, 0)),
    "file-left-over.pyr": (FILE + b"\0", (18, 0)),
    "file-records-257.pyr": (both([], [fence(0)] * 257)[1], (7, 257)),
    "file-first-value-0.pyr": (both([(3, 0)], BUFFERS)[1], (20, 0)),
    "file-addresses-stay.pyr": (both([(3, 1), (3, 2)], BUFFERS)[1], (20, 0)),
    "file-first-address-16.pyr": (both([(16, 1)], BUFFERS)[1], (4, 0)),
    "file-kind-4.pyr": (harmed(8 + 8, 4), (20, 2)),
    "file-load-writes.pyr": (harmed(8 + 8 + 6, 1), (20, 2)),
    "file-address-16.pyr": (harmed(8 + 2, 16), (4, 1)),
    "file-first-written.pyr": (both([(1, 1)], BUFFERS)[1], (6, 3)),
    "file-written-before.pyr": (harmed(8 + 16 + 2, 0), (8, 3)),
    "file-lost-core.pyr": (both([], [store(0, 0, 1), fence(2)])[1], (22, 0)),
}


def main():
    for old in HERE.iterdir():
        if old.suffix in (".txt", ".pyr", ".err"):
            old.unlink()
    for name, (text, file) in GOOD.items():
        (HERE / f"{name}.txt").write_bytes(text)
        (HERE / f"{name}.pyr").write_bytes(file)
    for name, (given, (number, line)) in REFUSED.items():
        (HERE / name).write_bytes(given)
        (HERE / name).with_suffix(".err").write_text(f"refused {number} line {line}\n")


if __name__ == "__main__":
    main()
