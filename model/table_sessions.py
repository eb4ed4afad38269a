#!/usr/bin/env python3
"""Random bytes of tables, right and wrong, and what `decode` says of them by the model.

`table_sessions.py FOLDER COUNT [FIRST]` writes COUNT groups of cases, 100 to a file, one case a line in hexadecimal; a
fifth as many groups with wide levels; and tables at their limits. Beside each file is NAME.stdout with the answers of a
program that says `ok same` where `encode` gives the bytes back, else the code. `rt try --cases FOLDER` compares.
What was met of the rules is counted on standard output.
"""
import collections
import pathlib
import random
import sys

import table_bytes
from table_bytes import (
    CONDITIONS, LEVEL_PAIRS, LEVELS, MOST, OBJECT_ROLE, RECORDS, ROLE, TYPE, USER, Constraint, Decoder, Refused, Rule,
    Tables, items_of, record_bytes,
)
from texts import RESERVED

NAMES = b"""
    a b c A Z _ a-b a.b a_b a0 aa ab b.a a.a.a selfs x.t3 t T1 All r10 a.object_r object_ object_rr u-1 read z z9
    process _- q.w.e.r
""".split()
LONG_NAMES = [b"n" * 1024, b"a." + b"m" * 1024, b"m" * 1024 + b".a"]
BAD_NAMES = [
    *sorted(RESERVED), b"a.all", b"self.x", b"a.not.b", b"t1.a", b"", b".", b".a", b"a.", b"a..b", b"a b", b"a\0",
    b"a\n", b"a\x80", b"\xc3\xa9", b"n" * 1025, b"a." + b"n" * 1025, b"n" * 1025 + b".a",
    *b'1a -a a.1 a.-b a/b a:b a,b a@ a[ a` a{ @ [ ` { / :a a; ( "'.split(),
]
SECTIONS = list(RECORDS)
NAMED = SECTIONS[:10]
PLAIN = ("categories", "roles", "types")
ALIASES = ("category_aliases", "sensitivity_aliases", "type_aliases")
PAIRS = (("user_roles", "users", "roles"), ("role_types", "roles", "types"), ("role_allows", "roles", "roles"))
RULES = ("allow", "auditallow", "dontaudit")
MASKED = (*RULES, "constraints")


def often(rng, chance):
    return rng.random() < chance


def names(rng, most):
    return sorted(rng.sample(NAMES, rng.randint(0, most)))


def some_of(rng, count, least=0):
    """A set of numbers below a count."""
    return tuple(sorted(rng.sample(range(count), rng.randint(min(least, count), count))))


def condition(rng, booleans, depth):
    tag = rng.choice(list(CONDITIONS)) if depth > 1 and often(rng, 0.7) else 1
    if tag == 1:
        return 1, rng.randrange(booleans)
    return tag, *(condition(rng, booleans, depth - 1) for _ in CONDITIONS[tag])


def constraint(rng, tables, depth):
    """An expression of a constraint."""
    tag = rng.choice([2, 3, 4, 16, 17]) if depth > 1 else rng.choice([16, 17])
    if tag == 16:
        pair = rng.choice([USER, ROLE, TYPE, *(sorted(LEVEL_PAIRS) if tables.mls else ())])
        return 16, *pair, rng.randrange(5 if pair[0] in LEVELS else 2)
    if tag == 17:
        variable = rng.randrange(6)
        return 17, variable, rng.randrange(2), some_of(rng, len(items_of(tables, variable)))
    return tag, *(constraint(rng, tables, depth - 1) for _ in range(1 if tag == 2 else 2))


def deep(rng, expression, depth):
    """An expression of a depth, round one of depth 1: the way to its deepest leaf turns left and right."""
    for _ in range(depth - 1):
        tag = rng.choice([2, 2, 3, 4])
        expression = (tag, expression) if tag == 2 else (tag, *rng.sample([expression, leaf_of(expression)], 2))
    return expression


def leaf_of(expression):
    while expression[0] in (2, 3, 4):
        expression = next((each for each in expression[1:] if each[0] not in (2, 3, 4)), expression[-1])
    return expression


def rule(rng, tables):
    kind = rng.randrange(3) if tables.booleans else 0
    asked = (kind, condition(rng, len(tables.booleans), rng.randint(1, 4))) if kind else ()
    types, of_class = len(tables.types), with_permissions(rng, tables)
    target = None if often(rng, 0.3) else some_of(rng, types, 1)
    return Rule(asked, some_of(rng, types, 1), target, of_class, mask(rng, tables, of_class))


def with_permissions(rng, tables):
    return rng.choice([number for number, (_, permissions) in enumerate(tables.classes) if permissions])


def mask(rng, tables, of_class):
    return rng.randint(1, (1 << len(tables.classes[of_class][1])) - 1)


def level(rng, tables, least=(0, ())):
    """A level over another one, where there is one."""
    sensitivity = rng.randrange(least[0], len(tables.sensitivities))
    permitted = tables.sensitivities[sensitivity][1]
    return sensitivity, tuple(each for each in permitted if each in least[1] or often(rng, 0.5))


def levels(rng, tables):
    low = level(rng, tables)
    high = level(rng, tables, low)
    while not set(low[1]) <= set(high[1]):
        low = low[0], low[1][:-1]
    return low, high


def tables_of(rng):
    """Tables that keep the rules."""
    most = rng.choice([1, 3, 5, 8])
    made = Tables(often(rng, 0.6), *[()] * (len(Tables._fields) - 1))
    categories = rng.sample(NAMES, rng.randint(0, most))
    made = made._replace(categories=tuple(categories))
    made = made._replace(category_aliases=aliases(rng, categories, most))
    sensitivities = rng.sample(NAMES, rng.randint(0, most))
    made = made._replace(sensitivities=tuple((name, some_of(rng, len(categories))) for name in sensitivities))
    made = made._replace(sensitivity_aliases=aliases(rng, sensitivities, most))
    if sensitivities or not made.mls:
        made = made._replace(users=tuple((name, levels(rng, made) if made.mls else ()) for name in names(rng, most)))
    made = made._replace(roles=tuple(sorted({OBJECT_ROLE, *names(rng, most)})), types=tuple(names(rng, most)))
    made = made._replace(type_aliases=aliases(rng, made.types, most))
    permissions = [b"p%d" % number for number in range(28)] + [b"read", b"A", b"_", b"a-b"]
    made = made._replace(classes=tuple(
        (name, tuple(sorted(rng.sample(permissions, rng.choice([0, 1, 2, 3, 7, 8, 9, 31, 32])))))
        for name in names(rng, most)
    ))
    made = made._replace(booleans=tuple((name, rng.randrange(2)) for name in names(rng, most)))
    for name, one, other in PAIRS:
        every = [(a, b) for a in range(len(getattr(made, one))) for b in range(len(getattr(made, other)))]
        made = made._replace(**{name: tuple(sorted(rng.sample(every, min(len(every), rng.randint(0, most)))))})
    if any(permissions for _, permissions in made.classes):
        for name in RULES:
            if made.types:
                made = made._replace(**{name: in_order(name, [rule(rng, made) for _ in range(rng.randint(0, most))])})
        found = [
            Constraint(each, mask(rng, made, each), constraint(rng, made, rng.randint(1, 4)))
            for each in (with_permissions(rng, made) for _ in range(rng.randint(0, most)))
        ]
        made = made._replace(constraints=in_order("constraints", found))
    return made


def wide_tables(rng):
    """Tables with many categories: levels, and little else."""
    count, sensitivities = rng.choice([63, 64, 65, 127, 128, 129, 300, 1023, 1024]), rng.choice([1, 2, 3, 255, 256])
    usual = frozenset(some_of(rng, count, count // 2))
    made = Tables(True, *[()] * (len(Tables._fields) - 1))._replace(
        categories=tuple(b"c%d" % number for number in range(count)),
        sensitivities=tuple(
            (b"s%d" % number, tuple(sorted(usual.union(some_of(rng, count))) if number < 3 else ()))
            for number in range(sensitivities)
        ),
        category_aliases=((b"a", rng.randrange(count)),),
        sensitivity_aliases=((b"a", rng.randrange(sensitivities)),),
        roles=(OBJECT_ROLE,),
    )
    return made._replace(users=tuple((name, levels(rng, made)) for name in names(rng, 3)))


def bend_category(rng, tables):
    """Takes one category from a level or from what is permitted to a sensitivity, or adds one."""
    section, at = any_record(rng, tables, ("users", "users", "sensitivities"))
    name, held = getattr(tables, section)[at]
    if section == "sensitivities":
        return with_record(tables, section, at, (name, with_other(rng, held, len(tables.categories))))
    which = rng.randrange(2)
    sensitivity, categories = held[which]
    bent_level = sensitivity, with_other(rng, categories, len(tables.categories))
    return with_record(tables, section, at, (name, (bent_level, held[1]) if which == 0 else (held[0], bent_level)))


def with_other(rng, members, count):
    """A set with one of its members left out, or with one more."""
    return tuple(sorted(set(members) ^ {rng.choice(members) if members and often(rng, 0.5) else rng.randrange(count)}))


def aliases(rng, items, most):
    free = sorted(set(NAMES).difference(items))
    count = rng.randint(0, most) if items else 0
    return tuple((name, rng.randrange(len(items))) for name in sorted(rng.sample(free, count)))


def in_order(section, records):
    return tuple(sorted(set(records), key=lambda each: record_bytes(section, each)))


# Changes of tables. Each gives other tables, or the same where it does not fit.

def any_record(rng, tables, sections):
    """A section with records, of these, and the place of one; nothing where there is none."""
    filled = [name for name in sections if getattr(tables, name)]
    section = rng.choice(filled) if filled else None
    return (section, rng.randrange(len(getattr(tables, section)))) if filled else (None, 0)


def with_record(tables, section, at, record):
    records = getattr(tables, section)
    return tables._replace(**{section: (*records[:at], record, *records[at + 1:])})


def move_record(rng, tables):
    """Exchanges two neighbours, or says one twice, or leaves one out."""
    section, at = any_record(rng, tables, SECTIONS)
    if section is None:
        return tables
    records = list(getattr(tables, section))
    how = rng.randrange(4)
    if how < 2 and len(records) > 1:
        at = min(at, len(records) - 2)
        records[at:at + 2] = records[at + 1], records[at]
    elif how == 2:
        records.insert(at, records[at])
    else:
        del records[at]
    return tables._replace(**{section: tuple(records)})


def rename(rng, tables):
    """Gives a record the name of another one of any section, or a bad one."""
    section, at = any_record(rng, tables, NAMED)
    if section is None:
        return tables
    others = [each if name in PLAIN else each[0] for name in NAMED for each in getattr(tables, name)]
    name = rng.choice(rng.choice([others, others, BAD_NAMES, NAMES + LONG_NAMES]))
    record = getattr(tables, section)[at]
    return with_record(tables, section, at, name if section in PLAIN else (name, *record[1:]))


def alias_an_item(rng, tables):
    """Names an alias as one of its items."""
    section, at = any_record(rng, tables, ALIASES)
    if section is None:
        return tables
    items = {"category_aliases": tables.categories, "type_aliases": tables.types}.get(section)
    name = rng.choice(items or [each for each, _ in tables.sensitivities] or NAMES)
    return with_record(tables, section, at, (name, getattr(tables, section)[at][1]))


def drop_object_role(_, tables):
    return tables._replace(roles=tuple(each for each in tables.roles if each != OBJECT_ROLE))


def bent_set(rng, members, count):
    """A set that is empty, falls, says one number twice, has one more or leaves one out."""
    members = list(members)
    how = rng.randrange(6)
    if how == 0:
        return ()
    if how == 1:
        return tuple(reversed(members))
    if how == 2 and members:
        members.insert(rng.randrange(len(members)), rng.choice(members))
    elif how == 3:
        members.insert(rng.randint(0, len(members)), rng.choice([count, count + 1, 65535]))
    elif how == 4:
        return some_of(rng, count)
    elif members:
        del members[rng.randrange(len(members))]
    return tuple(members)


def bend_level(rng, tables):
    """Changes a level of a user, or turns the two, or takes what is permitted from a sensitivity."""
    if not tables.mls or not tables.users or not tables.users[0][1] or not tables.sensitivities:
        return tables
    if often(rng, 0.2):
        at = rng.randrange(len(tables.sensitivities))
        name, permitted = tables.sensitivities[at]
        return with_record(tables, "sensitivities", at, (name, bent_set(rng, permitted, len(tables.categories))))
    at = rng.randrange(len(tables.users))
    name, (low, high) = tables.users[at]
    if often(rng, 0.3):
        return with_record(tables, "users", at, (name, (high, low)))
    bent = [low, high]
    which = rng.randrange(2)
    sensitivity, categories = bent[which]
    if often(rng, 0.4):
        sensitivity = rng.randrange(len(tables.sensitivities) + 1)
    bent[which] = sensitivity, bent_set(rng, categories, len(tables.categories))
    return with_record(tables, "users", at, (name, tuple(bent)))


def bend_rule(rng, tables):
    """Changes a set, the class or the mask of a rule or the mask of a constraint, one or several at once."""
    section, at = any_record(rng, tables, MASKED)
    if section is None:
        return tables
    record = getattr(tables, section)[at]
    for _ in range(rng.choice([1, 1, 2])):
        wide = 1 << min(31, len(tables.classes[record.of_class % len(tables.classes)][1]))
        new_mask = rng.choice([0, 0, wide, wide - 1, wide | 1, 1 << 31, rng.randrange(1 << 32)])
        how = rng.choice(["mask", "source", "target", "of_class"]) if section != "constraints" else "mask"
        if how == "mask":
            record = record._replace(mask=new_mask)
        elif how == "of_class":
            record = record._replace(of_class=rng.randint(0, len(tables.classes)))
        else:
            record = record._replace(**{how: bent_set(rng, getattr(record, how) or (), len(tables.types))})
    return with_record(tables, section, at, record)


def bend_expression(rng, tables):
    """Deepens the expression of a rule or a constraint to about the most, or bends a comparison."""
    section, at = any_record(rng, tables, MASKED)
    if section is None:
        return tables
    record = getattr(tables, section)[at]
    depth = rng.choice([2, 60, 126, 127, 128, 128, 128, 129, 129, 130, 140])
    if section != "constraints":
        if not record.condition:
            return tables
        kind, expression = record.condition
        expression = deep(rng, leaf_of_condition(expression), depth)
        return with_record(tables, section, at, record._replace(condition=(kind, expression)))
    leaf = leaf_of(record.expression)
    if often(rng, 0.7):
        leaf = rng.choice([
            (16, rng.randrange(10), rng.randrange(11), rng.randrange(6)),
            (17, rng.randrange(11), rng.randrange(6), bent_set(rng, (0, 1), 2)),
            (16, *rng.choice([USER, ROLE, TYPE, *sorted(LEVEL_PAIRS)]), rng.randrange(6)),
            (17, rng.randrange(6), rng.randrange(3), some_of(rng, rng.randint(0, 6))),
        ])
        depth = rng.choice([1, 2, 3, depth])
    return with_record(tables, section, at, record._replace(expression=deep(rng, leaf, depth)))


def leaf_of_condition(expression):
    while expression[0] != 1:
        expression = expression[-1]
    return expression


def turn_levels(_, tables):
    return tables._replace(mls=not tables.mls)


OF_TABLES = [move_record, rename, alias_an_item, drop_object_role, bend_level, bend_rule, bend_expression, turn_levels]
WEIGHTS = [5, 3, 2, 1, 5, 5, 5, 1]


# Changes of fields.

NUMBERS = [0, 1, 2, 3, 4, 5, 6, 7, 8, 9, 10, 16, 17, 18, 31, 32, 33, 127, 128, 255]
COUNTS = [*(each + 1 for each in MOST.values()), *MOST.values(), 2**31, 2**32 - 1, 65536]


def bend_field(rng, fields):
    """Other bytes in one field, which is chosen by its kind first."""
    by_kind = collections.defaultdict(list)
    for at, (kind, _) in enumerate(fields):
        by_kind[kind].append(at)
    kind = rng.choice(sorted(by_kind))
    if kind in ("magic", "layout", "levels") and often(rng, 0.7):
        kind = rng.choice(sorted(by_kind))
    at = rng.choice(by_kind[kind])
    old = fields[at][1]
    value = int.from_bytes(old, "big")
    if kind in ("text", "magic"):
        new = rng.choice(BAD_NAMES + NAMES + LONG_NAMES) if kind == "text" and often(rng, 0.8) else bent_bytes(rng, old)
        if kind == "text" and often(rng, 0.9):
            fields[at - 1] = "length", len(new).to_bytes(4, "big")
    elif kind in ("count", "length"):
        near = [value + 1, value + 2, max(0, value - 1), 0, value + 256, value << 8]
        new = (rng.choice(rng.choice([near, near, COUNTS])) % 2**32).to_bytes(4, "big")
    elif kind == "mask":
        new = rng.choice([0, value | 1 << rng.randrange(32), value << 1, rng.randrange(2**32)]) % 2**32
        new = new.to_bytes(4, "big")
    elif kind in ("number", "set"):
        new = (rng.choice([value + 1, value - 1, value + 256, 65535, *NUMBERS]) % 65536).to_bytes(2, "big")
    else:
        new = bytes([rng.choice([value + 1, value - 1, rng.randrange(256), *NUMBERS]) % 256])
    fields[at] = kind, new


def bent_bytes(rng, data):
    """One byte changed, taken out or put in, or the bytes from there on cut."""
    if not data:
        return bytes([rng.randrange(256)])
    at = rng.randrange(len(data))
    byte = bytes([rng.choice([*NUMBERS, rng.randrange(256), data[at] ^ 1 << rng.randrange(8)]) % 256])
    return rng.choice([
        data[:at] + byte + data[at + 1:], data[:at] + data[at + 1:], data[:at] + byte + data[at:], data[:at],
        data + byte, data + data[:at],
    ])


def bent(rng, tables):
    """The bytes of tables with one to three changes, each of tables, of fields or of bytes."""
    kinds = sorted(rng.choices(range(4), [5, 3, 1, 1], k=rng.choice([1, 1, 1, 2, 2, 3])))
    for _ in range(kinds.count(0)):
        tables = rng.choices(OF_TABLES, WEIGHTS)[0](rng, tables)
    fields = table_bytes.fields(tables)
    for _ in range(kinds.count(1)):
        bend_field(rng, fields)
    if 2 in kinds:
        at = rng.randrange(len(fields))
        fields[at:at + 1] = rng.choice([[], [fields[at]] * 2])
    data = b"".join(each for _, each in fields)
    return bent_bytes(rng, data) if 3 in kinds else data


def judged(data):
    """`ok`, or the code of a fault; how many bytes had been read then, and what was broken."""
    try:
        Decoder(data).read()
    except Refused as fault:
        return str(fault.code), fault.at, fault.why
    return "ok same", len(data), "none"


def group(number):
    """Cases around one table: it, other bytes made of it, and these cut round the place of their fault."""
    rng = random.Random(f"tables {number}")
    tables = tables_of(rng)
    data = table_bytes.encode(tables)
    assert table_bytes.decode(data) == tables, number
    cases = [data]
    for _ in range(8):
        other = bent(rng, tables)
        _, at, _ = judged(other)
        cases += [other, other[:at], other[:max(0, at - 1)], other[:at] + bytes([rng.randrange(256)])]
    return cases


def wide_group(number):
    """The same round a table with many categories."""
    rng = random.Random(f"wide tables {number}")
    tables = wide_tables(rng)
    data = table_bytes.encode(tables)
    assert table_bytes.decode(data) == tables, number
    cases = [data]
    for _ in range(4):
        other = table_bytes.encode(rng.choice([bend_category, bend_category, bend_level])(rng, tables))
        cases += [other, other[:judged(other)[1]]]
    return cases + [bent(rng, tables)]


def at_limits():
    """Tables with as many items of a kind as may be, and with one more."""
    empty = Tables(False, *[()] * (len(Tables._fields) - 1))._replace(roles=(OBJECT_ROLE,))
    for section, most in MOST.items():
        for count in (most, most + 1):
            made = sorted(b"n%05d" % number for number in range(count))
            if section == "roles":
                made[-1] = OBJECT_ROLE
            rest = 0 if section == "booleans" else ()
            records = made if section in PLAIN else [(each, rest) for each in made]
            yield table_bytes.encode(empty._replace(**{section: records}))
    types = empty._replace(types=tuple(b"n%05d" % number for number in range(65535)), classes=((b"c", (b"p",)),))
    for members in (range(65535), range(65534)):
        for target in (None, tuple(members)):
            yield table_bytes.encode(types._replace(allow=(Rule((), tuple(members), target, 0, 1),)))
    many = tuple(sorted(b"n%05d" % number for number in range(5000)))
    yield table_bytes.encode(empty._replace(types=(b"a",), type_aliases=tuple((each, 0) for each in many)))
    yield table_bytes.encode(empty._replace(categories=(b"a",), category_aliases=tuple((each, 0) for each in many)))


def write(folder, name, cases, census):
    answers = [judged(each) for each in cases]
    census.update((answer, why) for answer, _, why in answers)
    (folder / name).write_text("".join(each.hex() + "\n" for each in cases))
    (folder / (name + ".stdout")).write_text("".join(answer + "\n" for answer, _, _ in answers))


def main(folder, count, first="0"):
    folder, census = pathlib.Path(folder), collections.Counter()
    first, end = int(first), int(first) + int(count)
    folder.mkdir(parents=True, exist_ok=True)
    for start in range(first, end, 100):
        numbers = range(start, min(start + 100, end))
        write(folder, f"tables{start:06}", [case for number in numbers for case in group(number)], census)
        write(folder, f"wide{start:06}", [case for number in numbers[::5] for case in wide_group(number)], census)
    write(folder, "limits", [*at_limits()], census)
    for (answer, why), times in sorted(census.items()):
        print(f"{times:8} {answer:8} {why}")


if __name__ == "__main__":
    main(*sys.argv[1:])
