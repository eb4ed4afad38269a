#!/usr/bin/env python3
"""Writes the modules of a policy that is as large as the flat part of a distribution's policy, or as a whole one.

usage: distribution.py [--blocks | --optionals [--scale N] | --attributes [--scale N] | --booleans [--scale N] |
                        --whole [--scale N]] FOLDER

The folder gets 187 files NAME.cil, the same on every run: 134 classes, 4,100 types, 5,300 roletype and 154,000 allow
statements, about 11 MB in all. Names, classes and permissions are of the kind that distributions have; which type may
do what is made up.

With --blocks it is the same policy in 2,000 blocks. They inherit their types, and what all domains have, from three
templates; 20,000 of the rules are made by calls of 50 macros. Templates and macros are in a block lib, in the module
base. One more file, names, has a line for each type: its name without blocks, and its name here. So what is asked of
the one policy can be asked of the other, and has the same answer.

With --optionals it is another policy, of the shape of a whole distribution's: 330 modules, 23 MB, 300,000 statements,
which have 817,000 looked-up words. It has 10,000 optionals, up to 60 deep in one another, of which 1,500 are left out.
With --scale N, from 2 to 100, it has an N-th of all this. Four more files say what must follow: queries and answers are
requests AV and their replies; optionals has for each optional its namespace, its label, and in or out, sorted; counts
has the numbers of statements and of words, what inheritance and calls bring included.

With --attributes it is a policy without blocks and optionals whose words stand for sets: 4,098 types, 284 aliases and
338 attributes, which 59,699 statements give their members, 6,799 roletype and 175,718 allow statements over all these.
It takes --scale too, and the files queries and answers say what must follow.

With --booleans it is that policy with 312 booleans: 20,000 of the rules are in branches of 1,429 booleanifs, and there
are 30 neverallows over nearly all types, which nothing violates. It takes --scale too. Among the queries are requests
SET, with the answer OK.

With --whole it is a policy of the whole shape of a distribution's, but for levels and constraints: what --booleans has,
most of it in 10,122 optionals, up to ten deep, of which 1,522 are out; 21,861 dontaudits and 330 auditallows beside the
175,718 allow statements, 134 classes with 7 commons, and statements without effect on decisions. It takes --scale too,
and the files are those of --optionals; counts has the number of all statements, and of those of each kind. Among the
queries are requests SET and CHECK.
"""
import os
import sys

from distribution_attributes import Policy as Attributes
from distribution_booleans import Policy as Booleans
from distribution_library import Library
from distribution_optionals import Policy
from distribution_whole import Policy as Whole
from distribution_words import DOMAINS, NAMES, OBJECTS, ROLES, USED, Numbers, allow, base, classes

MODULES, TYPES, ROLETYPES, RULES = 187, 4100, 5300, 154_000
BLOCKS, CALLS = 2000, 20_000


def names():
    """Each module but the first with its types, its domains first."""
    suffixes = DOMAINS + OBJECTS
    types = {}
    for number, name in enumerate(NAMES):
        count = TYPES // (MODULES - 1) + (number < TYPES % (MODULES - 1))
        types[name] = [name + suffix for suffix in suffixes][:count]
        types[name] += [f"{name}_file{extra}_t" for extra in range(count - len(suffixes))]
    assert sum(map(len, types.values())) == TYPES
    return types


def rules(types, lists):
    """The rules of each module: most on its own types, some on those of others, a few on a domain itself."""
    numbers = Numbers(1)
    used = [(name, list_) for weight, name, lists_ in USED for list_ in lists_ for _ in range(weight * 6 // len(lists_))]
    assert all(set(list_.split()) <= set(lists[name].split()) for name, list_ in used)
    all_types = [type_ for own in types.values() for type_ in own]
    rules_of = {name: [] for name in types}
    given = set()
    modules = list(types)
    while len(given) < RULES:
        module = modules[len(given) % len(modules)]
        source = types[module][numbers.below(len(DOMAINS))]
        kind = numbers.below(10)
        target = "self" if kind == 0 else numbers.one_of(types[module] if kind < 3 else all_types)
        name, list_ = numbers.one_of(used)
        if (source, target, name, list_) not in given:
            given.add((source, target, name, list_))
            rules_of[module].append((source, target, name, list_))
    return rules_of


def flat(types, pairs, rules_of):
    """The lines of each module but the first, without blocks."""
    for module, own in types.items():
        domains = set(own[:len(DOMAINS)])
        lines = [f"(type {type_})" for type_ in own]
        lines += [f"(roletype {role} {domain})" for role, domain in pairs if domain in domains]
        yield module, lines + [allow(*rule) for rule in rules_of[module]]


def placed(types):
    """Each type with its block and its name there: a domain is t in a block of its own, objects are o0 and o1."""
    places = {}
    for number, (module, own) in enumerate(types.items()):
        count = BLOCKS // len(types) + (number < BLOCKS % len(types))
        for place, type_ in enumerate(own[:len(DOMAINS)]):
            places[type_] = f"{module}_{place}", "t"
        for place, type_ in enumerate(own[len(DOMAINS):]):
            assert place < 2 * count
            places[type_] = f"{module}_{place % count}", f"o{place // count}"
    assert len({block for block, _ in places.values()}) == BLOCKS
    return places


def in_blocks(types, pairs, rules_of, places, library):
    """The lines of each module but the first, in blocks. The rules of a module are spread over its blocks."""
    called = seen = 0
    for module, own in types.items():
        blocks = {places[type_][0]: [] for type_ in own}
        for block, lines in blocks.items():
            here = {name for place, name in places.values() if place == block}
            lines += ["(blockinherit lib.domain)"] if "t" in here else []
            lines += ["(blockinherit lib.two)" if "o1" in here else "(blockinherit lib.one)"]
        for role, domain in pairs:
            if places[domain][0] in blocks and role not in library.roles:
                blocks[places[domain][0]].append(f"(roletype {role} t)")
        for number, (source, target, name, list_) in enumerate(rules_of[module]):
            block = list(blocks)[number % len(blocks)]
            words = [word if word == "self" else spelled(places[word], block) for word in (source, target)]
            seen += 1
            if target != "self" and called * RULES < CALLS * seen and called < CALLS:
                called += 1
                blocks[block].append(library.call(*words, name, list_))
            else:
                blocks[block].append(allow(*words, name, list_))
        yield module, [line for block, lines in blocks.items() for line in (f"(block {block}", *lines, ")")]
    assert called == CALLS


def spelled(place, block):
    """A type as it is written in a block."""
    return place[1] if place[0] == block else ".".join(place)


def flat_or_in_blocks(has_blocks):
    """The files of the policy without optionals, by their names."""
    lists, types = classes(), names()
    rules_of = rules(types, lists)
    pairs = [(role, domain) for role in ROLES for own in types.values() for domain in own[:len(DOMAINS)]][:ROLETYPES]
    assert len(pairs) == ROLETYPES
    texts, others = {"base": base(lists)}, {}
    if has_blocks:
        places = placed(types)
        # The roles that all domains have are in the template.
        library = Library(ROLES[:ROLETYPES // (len(types) * len(DOMAINS))])
        texts["base"] += library.lines()
        texts.update(in_blocks(types, pairs, rules_of, places, library))
        others["names"] = [f"{type_} {'.'.join(place)}" for type_, place in places.items()]
    else:
        texts.update(flat(types, pairs, rules_of))
    assert len(texts) == MODULES
    return {**{name + ".cil": lines for name, lines in texts.items()}, **others}


def with_optionals(scale):
    """The files of the policy with optionals, by their names."""
    policy = Policy(scale)
    asked = list(policy.queries())
    return {
        **{name + ".cil": lines for name, lines in policy.texts().items()},
        "queries": [query for query, _ in asked],
        "answers": [reply for _, reply in asked],
        "optionals": sorted(policy.told),
        "counts": [f"{what} {policy.counts[what]}" for what in ("statements", "words")],
    }


def with_sets(policy):
    """The files of a policy with attributes, by their names."""
    asked = list(policy.queries())
    return {
        **{name + ".cil": lines for name, lines in policy.texts().items()},
        "queries": [query for query, _ in asked],
        "answers": [reply for _, reply in asked],
    }


def with_all(scale):
    """The files of the policy that has all of it, by their names."""
    policy = Whole(scale)
    counts = policy.counted()
    return {
        **with_sets(policy),
        "optionals": sorted(policy.told),
        "counts": [f"statements {sum(counts.values())}", *(f"{what} {count}" for what, count in sorted(counts.items()))],
    }


def main():
    arguments = sys.argv[1:]
    forms = "--blocks", "--optionals", "--attributes", "--booleans", "--whole"
    form = arguments.pop(0) if arguments and arguments[0] in forms else None
    scale = 1
    if form in forms[1:] and len(arguments) == 3 and arguments[0] == "--scale" and arguments[1].isdecimal():
        scale = int(arguments[1])
        arguments = arguments[2:]
    if len(arguments) != 1 or arguments[0].startswith("-") or not 1 <= scale <= 100:
        print(__doc__, end="")
        return 0 if sys.argv[1:] == ["--help"] else 2
    scaled = {
        "--optionals": with_optionals, "--attributes": lambda scale: with_sets(Attributes(scale)),
        "--booleans": lambda scale: with_sets(Booleans(scale)), "--whole": with_all,
    }
    files = scaled[form](scale) if form in scaled else flat_or_in_blocks(form == "--blocks")
    os.makedirs(arguments[0], exist_ok=True)
    for name, lines in files.items():
        with open(os.path.join(arguments[0], name), "w", encoding="ascii") as file:
            file.writelines(line + "\n" for line in lines)
    return 0


if __name__ == "__main__":
    sys.exit(main())
