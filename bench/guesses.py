#!/usr/bin/env python3
"""Prints how many declared names of a policy are found by a guess, and how many are halved.

usage: guesses.py FOLDER

FOLDER has the modules of a policy, as bench/distribution.py writes them. The names that its texts declare are put into
a table as crates/cil_names/src/guesses.rt does; what inheritance and calls bring is not counted. A name that several
namespaces declare is never guessed. A guess that is missing makes no reply wrong, but costs a search by halving for each
namespace that is asked: so at least 99 % of the names that are declared once should be in the table. If guesses.rt has
another hash, this script has to follow.
"""
import pathlib
import re
import sys

FIRST, PRIME, ALL = 0xCBF29CE484222325, 0x100000001B3, 2**64 - 1
WAYS, LONGEST, END = 4, 64, 32
NAME_SPACES = {
    "type": 0, "typealias": 0, "typeattribute": 0, "role": 1, "roleattribute": 1, "user": 2, "userattribute": 2,
    "class": 3, "classmap": 3, "block": 4, "macro": 4,
}
PART = re.compile(r'"[^"]*"|;[^\n]*|\(\s*([^\s()]+)\s+([^\s()]+)|[()]')


def hashed(first, name):
    for byte in name:
        first = (first ^ byte) * PRIME & ALL
    return first


def hash_of(name):
    if len(name) <= LONGEST:
        whole = hashed(FIRST, name)
    else:
        whole = hashed(hashed(FIRST ^ len(name), name[:END]), name[-END:])
    return whole ^ whole >> 32


def declared(text):
    """The names that a text declares: each with its name space, and the blocks and macros round it."""
    around = []
    for part in PART.finditer(text):
        if part[1]:
            if part[1] in NAME_SPACES:
                yield part[2], NAME_SPACES[part[1]], ".".join(filter(None, around))
            around.append(part[2] if part[1] in ("block", "macro") else "")
        elif part[0] == "(":
            around.append("")
        elif part[0] == ")":
            around.pop()


def guessed(names, entries):
    """How many of some names have a slot in the table for so many entries."""
    size = 16
    while size < entries:
        size *= 2
    slots, count = [False] * (4 * size + WAYS), 0
    for name in names:
        first = hash_of(name.encode()) & 4 * size - 1
        free = [slot for slot in range(first, first + WAYS) if not slots[slot]]
        if free:
            slots[free[0]] = True
            count += 1
    return count


def main():
    if len(sys.argv) != 2 or sys.argv[1].startswith("-"):
        sys.exit(__doc__.strip())
    spaces = {}
    for path in sorted(pathlib.Path(sys.argv[1]).glob("*.cil")):
        for name, rank, space in declared(path.read_text("utf-8")):
            spaces.setdefault((name, rank), set()).add(space)
    entries = sum(map(len, spaces.values()))
    once = sorted(key for key, found in spaces.items() if len(found) == 1)
    found = guessed([name for name, _ in once], entries)
    print(f"names {len(spaces)}, declared once {len(once)}, guessed {found}: {100 * found / max(1, len(once)):.2f} %")


main()
