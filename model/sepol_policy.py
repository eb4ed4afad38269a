#!/usr/bin/env python3
"""Compares the program with SELinux itself over a whole policy: its decisions with those of libsepol.

usage: model/sepol_policy.py PROGRAM FOLDER [COUNT]      COUNT queries of each kind; 4000 where none is given

FOLDER has the files *.cil of a policy that secilc compiles, each of at most 4,194,304 bytes; debian_policy.sh gets that of
Debian. What the program does not support yet (LATER) is left out of it; no decision goes by that. Levels and constraints of levels are
kept. Queries are made of the policy: sources, targets and classes of its rules, with the role object_r, changes from a context of a
user to another, of the class process, and such contexts and a class of a constraint. Where `mls` turns levels on, contexts have
ranges, most of them permitted, few of them turned or with names that are none, and some that the user does not have. All three
lists of each reply are compared, and whether the contexts are valid. Status: 0, or 1 if a reply differs.

It wants Debian's packages secilc, libsepol-dev and gcc.
"""
import pathlib
import random
import re
import subprocess
import sys
import tempfile
import time

sys.dont_write_bytecode = True

import sepol

LATER = [b"typepermissive"]
TOKEN = re.compile(rb';[^\n]*|"[^"\n]*"|[()]|[^\s()";]+|\s+')


def without(text, words):
    """A text without the lists that begin with some words, wherever they stand."""
    tokens, kept, at = TOKEN.findall(text), [], 0
    while at < len(tokens):
        if tokens[at] == b"(" and first_word(tokens, at) in words:
            at = behind(tokens, at)
        else:
            kept.append(tokens[at])
            at += 1
    return b"".join(kept)


def first_word(tokens, at):
    at += 1
    while at < len(tokens) and tokens[at].isspace():
        at += 1
    return tokens[at] if at < len(tokens) else b""


def behind(tokens, at):
    """The place behind the list that begins at a place."""
    depth = 0
    while True:
        depth += {b"(": 1, b")": -1}.get(tokens[at], 0)
        at += 1
        if not depth:
            return at


class Queries:
    """What may be asked of a policy."""

    def __init__(self, text, seed):
        self.rng = random.Random(seed)
        self.types = sorted(set(re.findall(r"\(type (\w+)\)", text)))
        known = set(self.types)
        self.rules = re.findall(r"\((?:allow|auditallow|dontaudit) (\w+) (\w+) \((\w+) ", text)
        self.constrained = sorted(set(re.findall(r"\((?:mls)?constrain \((\w+) ", text)))
        self.has_levels = re.search(r"\(mls true\)", text) is not None
        self.sensitivities, self.categories = (
            [name for row in re.findall(r"\(%s \(([^()]*)\)\)" % keyword, text) for name in row.split()]
            for keyword in ("sensitivityorder", "categoryorder")
        )
        self.users = sorted(set(re.findall(r"\(userrole (\w+) (\w+)\)", text)))
        roles = re.findall(r"\(roletype (\w+) (\w+)\)", text)
        self.contexts = [(u, r, t) for u, r in self.users for role, t in roles if role == r and t in known]
        self.of_type = {}
        for each in self.contexts:
            self.of_type.setdefault(each[2], []).append(each)

    def made(self, kinds, count):
        """Queries of these kinds, so many of each."""
        queries = [kind() for kind in kinds for _ in range(count)]
        if not self.has_levels:
            return queries
        return [(f"{source}:{self.range()}", f"{target}:{self.range()}", name) for source, target, name in queries]

    def range(self):
        """The range of a context: often the lowest level alone, or up to all categories of the highest."""
        form = self.rng.random()
        if form < 0.35:
            return self.sensitivities[0]
        if form < 0.5:
            return f"{self.sensitivities[0]}-{self.level(self.sensitivities[-1], [0, len(self.categories) - 1])}"
        if form < 0.53:
            return self.rng.choice(["nobody", f"{self.sensitivities[0]}:", f"{self.sensitivities[0]}:nobody", ""])
        places = sorted(self.rng.sample(range(len(self.categories)), min(len(self.categories), 4)))
        low, high = sorted(self.rng.choices(range(len(self.sensitivities)), k=2))
        if form < 0.7:
            return self.level(self.sensitivities[high], places[:self.rng.choice([1, 2, 2, 3])])
        lowest, highest = places[:self.rng.choice([0, 0, 1])], self.rng.choice([places, places[:2], places[1:3]])
        return f"{self.level(self.sensitivities[low], lowest)}-{self.level(self.sensitivities[high], highest)}"

    def level(self, sensitivity, places):
        """A level of a sensitivity: two places are the ends of a range, and others are items by themselves."""
        if len(places) == 2 and places[0] < places[1]:
            return f"{sensitivity}:{self.categories[places[0]]}.{self.categories[places[1]]}"
        return ":".join([sensitivity, *([",".join(self.categories[each] for each in places)] if places else [])])

    def of_rule(self):
        """What a rule is about; an attribute becomes any type."""
        source, target, class_name = self.rng.choice(self.rules)
        source = source if source in self.types else self.rng.choice(self.types)
        target = source if target == "self" else target if target in self.types else self.rng.choice(self.types)
        user = self.users[0][0]
        return f"{user}:object_r:{source}", f"{user}:object_r:{target}", class_name

    def of_roles(self):
        """Two contexts of users, more often of the two types of a rule on processes than not."""
        source, target, class_name = self.rng.choice(self.rules)
        ends = self.of_type.get(source), self.of_type.get(target)
        if class_name != "process" or not all(ends):
            ends = self.contexts, self.contexts
        return *(":".join(self.rng.choice(end)) for end in ends), "process"

    def of_constraint(self):
        """Two contexts of users, or what such a context may do to an object, and a class that some constraint is on."""
        source, target = (self.rng.choice(self.contexts) for _ in range(2))
        if self.rng.random() < 0.5:
            target = (self.rng.choice(self.users)[0], "object_r", self.rng.choice(self.types))
        rule = self.rng.choice(self.rules)
        if self.rng.random() < 0.8 and self.of_type.get(rule[0]):
            source = self.rng.choice(self.of_type[rule[0]])
            kind = rule[1] if rule[1] in self.types else source[2] if rule[1] == "self" else target[2]
            target = target[:2] + (kind,) if target[1] == "object_r" else self.rng.choice(self.of_type.get(kind, [target]))
            if rule[2] in self.constrained:
                return ":".join(source), ":".join(target), rule[2]
        return ":".join(source), ":".join(target), self.rng.choice(self.constrained or ["process"])


def of_program(program, texts, queries):
    """What the program replies to the queries, and the seconds of the session; ends where it does not load the policy."""
    asked = [b"INSTALL %d\n%s" % (len(text), text) for text in texts] + [b"LOAD\n"]
    asked += ["AV {} {} {}\n".format(*each).encode() for each in queries]
    begun = time.time()
    lines = subprocess.run([program, "session"], input=b"".join(asked), capture_output=True, check=False).stdout.split(b"\n")
    taken = time.time() - begun
    if not lines[len(texts)].startswith(b"OK"):
        sys.exit(b"\n".join(lines[len(texts):len(texts) + 10]).decode())
    return lines[len(texts) + 1:], taken


def main():
    if len(sys.argv) not in (3, 4):
        sys.exit(__doc__)
    program, folder = sys.argv[1], pathlib.Path(sys.argv[2])
    count = int(sys.argv[3]) if len(sys.argv) > 3 else 4000
    files = [path.read_bytes() for path in sorted(folder.glob("*.cil"))]
    texts = [without(text, LATER) for text in files]
    made = Queries(b"\n".join(texts).decode("latin1"), 7)
    queries = made.made([made.of_rule, made.of_roles, made.of_constraint], count)
    with tempfile.TemporaryDirectory() as name:
        room = pathlib.Path(name)
        names = [room / f"{number}.cil" for number in range(len(files))]
        for path, text in zip(names, files):
            path.write_bytes(without(text, []))
        policy = room / "policy"
        is_on = "true" if made.has_levels else "false"
        subprocess.run(["secilc", "-M", is_on, "-o", policy, "-f", room / "contexts", *names], check=True)
        asked = "".join("{} {} {}\n".format(*each) for each in queries).encode()
        wanted = subprocess.run([sepol.built(room), policy], input=asked, capture_output=True, check=True).stdout.split(b"\n")
    replies, taken = of_program(program, texts, queries)
    wrong = changes = invalid = 0
    for asked, want, got in zip(queries, wanted, replies):
        changes += asked[0].split(":")[1] != asked[1].split(":")[1]
        invalid += want == b"none"
        if got != b"OK " + want and not (want == b"none" and got.startswith(b"ERR")):
            wrong += 1
            if wrong <= 10:
                print(*asked, got.decode(), "libsepol", want.decode())
    print(f"{len(texts)} modules, {len(queries)} queries in {taken:.1f} s, {changes} of two roles, {invalid} of contexts that are"
          f" not valid: {wrong} differ")
    return min(wrong, 1)


if __name__ == "__main__":
    sys.exit(main())
