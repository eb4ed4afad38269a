#!/usr/bin/env python3
"""Asks the program files of tables that are made to be dear.

usage: tables.py [PROGRAM] FORM SIZE

Writes a file of tables of that form with about SIZE bytes, and lets `cilhost decide` ask it. Prints the form, the bytes of
the file, the seconds in which the processor ran the program, the most memory that it held at once, and its reply. The
forms, by the layout of tables:

    names      as many types and aliases of them as there is room for, with names of 1,024 bytes
    rules      rules of two types each
    sets       rules whose sets have every second type, which takes most memory for a set
    bounds     one set of all types in each rule
    conditions rules, each with a condition of 127 negations
    links      pairs of roles and types
    nothing    zeros: the first byte is wrong

PROGRAM has a slash in its name. Without it the program is crates/cilhost/out/cilhost of this repository.
"""
import itertools
import os
import resource
import subprocess
import sys
import tempfile

MOST_TYPES = 65_535


def number(value, size=4):
    return value.to_bytes(size, "big")


def section(records):
    return number(len(records)) + b"".join(records)


def names(*texts):
    return section([number(len(text)) + text for text in texts])


def members(*numbers):
    return number(len(numbers), 2) + b"".join(number(it, 2) for it in numbers)


def type_names(count, length=6):
    """So many names in rising order, each of so many bytes."""
    return [b"t%0*d" % (length - 1, n) for n in range(count)]


def tables(types=(b"t",), aliases=(), booleans=(), links=(), rules=()):
    """Tables of one user, one more role and one class: rules are the records of section 14, and links those of section 12."""
    return b"".join((
        b"CILT\x01\x00", bytes(16), names(b"u"), names(b"object_r", b"r"), names(*types), section(aliases),
        section([number(4) + b"file" + b"\x01" + number(4) + b"read"]), section(booleans),
        section([number(0, 2) + number(1, 2)]), section(links), section([]), section(rules), bytes(12),
    ))


def rule(source, target, condition=b"\0"):
    return condition + source + b"\0" + target + number(0, 2) + number(1)


def of_names(size):
    count = max(size // 2 // 1028, 1)
    kinds = [b"t%01023d" % n for n in range(min(count, MOST_TYPES))]
    aliases = [number(1024) + b"u%01023d" % n + number(0, 2) for n in range(max(size // 1030 - len(kinds), 0))]
    return tables(types=kinds, aliases=aliases)


def of_rules(size):
    pairs = itertools.product(range(MOST_TYPES), repeat=2)
    rules = [rule(members(a), members(b)) for a, b in itertools.islice(pairs, size // 18)]
    return tables(types=type_names(MOST_TYPES), rules=rules)


def of_sets(size):
    half = members(*range(0, MOST_TYPES, 2))
    count = size // (len(half) + 14)
    rules = [rule(members(n, *range(n + 1, MOST_TYPES, 2)), members(0)) for n in range(count)]
    return tables(types=type_names(MOST_TYPES), rules=sorted(rules))


def of_bounds(size):
    whole = members(*range(MOST_TYPES))
    rules = [rule(members(n), whole) for n in range(size // (len(whole) + 14))]
    return tables(types=type_names(MOST_TYPES), rules=rules)


def of_conditions(size):
    deep = b"\x01" + b"\x02" * 127 + b"\x01" + number(0, 2)
    pairs = itertools.product(range(MOST_TYPES), repeat=2)
    rules = [rule(members(a), members(b), deep) for a, b in itertools.islice(pairs, size // (17 + len(deep)))]
    return tables(types=type_names(MOST_TYPES), booleans=[number(1) + b"b" + b"\0"], rules=rules)


def of_links(size):
    links = [number(role, 2) + number(kind, 2) for role in (0, 1) for kind in range(min(size // 8, MOST_TYPES))]
    return tables(types=type_names(MOST_TYPES), links=links)


FORMS = {
    "names": of_names, "rules": of_rules, "sets": of_sets, "bounds": of_bounds, "conditions": of_conditions, "links": of_links,
    "nothing": bytes,
}


def main(program, form, size):
    with tempfile.TemporaryDirectory() as folder:
        path = f"{folder}/tables"
        with open(path, "wb") as file:
            file.write(FORMS[form](size))
        length = os.path.getsize(path)
        done = subprocess.run([program, "decide", "--tables", path, "u:r:t", "u:r:t", "file"], capture_output=True, check=False)
        used = resource.getrusage(resource.RUSAGE_CHILDREN)
    reply = (done.stdout + done.stderr)[:100].decode("ascii", "replace").strip()
    print(f"{form:10} {length:>11} bytes {used.ru_utime + used.ru_stime:8.2f} s {used.ru_maxrss / 1000:8.1f} MB  {reply}")


if __name__ == "__main__":
    words = sys.argv[1:]
    here = os.path.dirname(os.path.abspath(__file__))
    program = words.pop(0) if words and "/" in words[0] else f"{here}/../crates/cilhost/out/cilhost"
    if len(words) != 2 or words[0] not in FORMS or not words[1].isdigit():
        sys.exit(__doc__)
    main(program, words[0], int(words[1]))
