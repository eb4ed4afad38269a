#!/usr/bin/env python3
"""Writes the modules of a policy whose rules are on class maps, or of class permissions that give to one another.

usage: maps.py [--scale N] FOLDER
       maps.py --chain N FOLDER
       maps.py --ring N FOLDER

The folder gets files NAME.cil, the same on every run, and two more, queries and answers: requests AV, and the replies
that must follow from how the policy was made.

Without an option it is a policy in the style of CIL that is written by hand: 100 classes, 30 class maps of eight
permissions, 150 class permissions, 1,000 types and 20,000 allow statements, of which most have lists on class maps or
names of class permissions, some with operators. Class permissions have sets on classes and on class maps, and some are
mapped. With --scale N, from 2 to 20, it has an N-th of the rules.

With --chain N it is N class permissions, each of which has what the next one has; the last one has one permission of a
class. With --ring N the last one has what the first one has, and 32 permissions of a class come into the circle at equal
distances. Between two class permissions is a class map of its own.
"""
import os
import sys

from distribution_words import Numbers

CLASSES, MAPS, NAMED, TYPES, RULES = 100, 30, 150, 1_000, 20_000
MAPPED = "look read change append create remove run manage".split()
PERMISSIONS = [f"p{number:02}" for number in range(32)]

# A module has at most 4,194,304 bytes.
LONGEST = 4_000_000

# How many queries there are, one for each of so many rules.
EVERY = 10


def modules(name, lines):
    """Files of these lines, each as long as a module may be."""
    files, length = [[]], 0
    for line in lines:
        if length + len(line) + 1 > LONGEST:
            files, length = [*files, []], 0
        files[-1].append(line)
        length += len(line) + 1
    return {f"{name}{number}.cil": lines_ for number, lines_ in enumerate(files)}


def reply(allowed, listed):
    """The reply to AV for a class with these permissions."""
    return f"OK {','.join(sorted(allowed)) or '-'} - {','.join(sorted(listed))}"


class Written:
    """A policy that is being made, with what it gives. What class permissions and class maps give is found in rounds."""

    def __init__(self):
        self.numbers = Numbers(7)
        self.classes = {f"c{n}": PERMISSIONS[:4 + n % 29] for n in range(CLASSES)}
        self.maps = {f"m{n}": MAPPED for n in range(MAPS)}
        self.named = [f"n{n}" for n in range(NAMED)]
        # What statements give: to a holder the classes' permissions, and holders whose permissions go to it.
        self.own, self.others = {}, {}
        self.lines = [f"(class {name} ({' '.join(list_)}))" for name, list_ in self.classes.items()]
        self.lines += [f"(classmap {name} ({' '.join(list_)}))" for name, list_ in self.maps.items()]
        self.lines += [f"(classpermission {name})" for name in self.named]
        self.give()
        self.held = self.rounds()

    def some(self, listed):
        """A set of some of these, as it is written, and its members."""
        one, other = self.numbers.one_of(listed), self.numbers.one_of(listed)
        forms = [(f"({one} {other})", {one, other}), (f"({one})", {one}), (one, {one}), ("(all)", set(listed)),
                 (f"(not ({one}))", set(listed) - {one}),
                 (f"(xor all ({one} {other}))", set(listed) - {one, other}),
                 (f"(and (not {one}) (or {one} {other}))", {other} - {one})]
        return self.numbers.one_of(forms)

    def on_class(self):
        """A list on a class, and what it has."""
        name = self.numbers.one_of(list(self.classes))
        text, members = self.some(self.classes[name])
        return f"({name} {text})", {(name, it) for it in members}, set()

    def on_map(self):
        """A list on a class map, and whose permissions it has."""
        name = self.numbers.one_of(list(self.maps))
        text, members = self.some(self.maps[name])
        return f"({name} {text})", set(), {(name, it) for it in members}

    def by_name(self):
        name = self.numbers.one_of(self.named)
        return name, set(), {name}

    def give(self):
        """Each class permission has a set or two, and nearly each permission of a class map is mapped to some classes."""
        for name in self.named:
            for _ in range(1 + self.numbers.below(3)):
                text, own, others = self.on_map() if self.numbers.below(5) == 0 else self.on_class()
                self.put(f"(classpermissionset {name} {text})", name, own, others)
        for name, listed in self.maps.items():
            for permission in listed:
                for _ in range(self.numbers.below(5)):
                    text, own, others = self.by_name() if self.numbers.below(6) == 0 else self.on_class()
                    self.put(f"(classmapping {name} {permission} {text})", (name, permission), own, others)

    def put(self, line, holder, own, others):
        self.lines.append(line)
        self.own.setdefault(holder, set()).update(own)
        self.others.setdefault(holder, set()).update(others)

    def rounds(self):
        held = {holder: set(own) for holder, own in self.own.items()}
        is_changed = True
        while is_changed:
            is_changed = False
            for holder, others in self.others.items():
                more = set().union(*(held.get(other, set()) for other in others)) - held[holder]
                held[holder] |= more
                is_changed |= bool(more)
        return held

    def rules(self, count):
        """Rules, and what each pair of types may do by them."""
        lines, allowed = [], {}
        for number in range(count):
            source, target = f"ty{number % TYPES}", f"ty{self.numbers.below(TYPES)}"
            kind = self.numbers.below(10)
            text, own, others = self.on_map() if kind < 6 else self.by_name() if kind < 9 else self.on_class()
            lines.append(f"(allow {source} {target} {text})")
            given = set(own).union(*(self.held.get(other, set()) for other in others))
            allowed.setdefault((source, target), set()).update(given)
        return lines, allowed

    def asked(self, allowed):
        """Queries on pairs of types, on a class of which they may do something where there is one; and the replies."""
        for number, ((source, target), given) in enumerate(allowed.items()):
            if number % EVERY:
                continue
            classes = sorted({name for name, _ in given}) or list(self.classes)
            name = self.numbers.one_of(classes)
            may = [permission for of, permission in given if of == name]
            yield f"AV us:object_r:{source} us:object_r:{target} {name}", reply(may, self.classes[name])


def of_maps(scale):
    """The files of the policy of class maps, by their names."""
    policy = Written()
    rules, allowed = policy.rules(RULES // scale)
    asked = list(policy.asked(allowed))
    types = ["(user us)", *(f"(type ty{number})" for number in range(TYPES))]
    return {
        "base.cil": policy.lines + types, **modules("rules", rules),
        "queries": [query for query, _ in asked], "answers": [answer for _, answer in asked],
    }


def link(number, following):
    """A class permission that has what another one has, by a class map of its own."""
    return (f"(classmap m{number} (x))(classmapping m{number} x p{number})"
            f"(classpermission p{number})(classpermissionset p{number} (m{following} (x)))")


def one_by_one(count, is_ring):
    """The files of class permissions in a chain or on a circle, by their names."""
    base = [f"(class c ({' '.join(PERMISSIONS)}))(type ty)(user us)(allow ty ty p0)"]
    if is_ring:
        lines = [link(number, (number + 1) % count) for number in range(count)]
        lines += [f"(classpermissionset p{bit * count // 32} (c ({PERMISSIONS[bit]})))" for bit in range(32)]
        may = PERMISSIONS
    else:
        lines = [link(number, number + 1) for number in range(count - 1)]
        last = count - 1
        lines += [f"(classmap m{last} (x))(classmapping m{last} x p{last})(classpermission p{last})"]
        lines += [f"(classpermissionset p{last} (c ({PERMISSIONS[0]})))"]
        may = PERMISSIONS[:1]
    return {
        "base.cil": base, **modules("permissions", lines),
        "queries": ["AV us:object_r:ty us:object_r:ty c"], "answers": [reply(may, PERMISSIONS)],
    }


def main():
    arguments = sys.argv[1:]
    form, number = None, 1
    if len(arguments) == 3 and arguments[0] in ("--scale", "--chain", "--ring") and arguments[1].isdecimal():
        form, number = arguments[0], int(arguments[1])
        arguments = arguments[2:]
    most = 1_000_000 if form in ("--chain", "--ring") else 20
    if len(arguments) != 1 or arguments[0].startswith("-") or not 1 <= number <= most:
        print(__doc__, end="")
        return 0 if sys.argv[1:] == ["--help"] else 2
    files = one_by_one(number, form == "--ring") if form in ("--chain", "--ring") else of_maps(number)
    os.makedirs(arguments[0], exist_ok=True)
    for name, lines in files.items():
        with open(os.path.join(arguments[0], name), "w", encoding="ascii") as file:
            file.writelines(line + "\n" for line in lines)
    return 0


if __name__ == "__main__":
    sys.exit(main())
