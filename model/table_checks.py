#!/usr/bin/env python3
"""Checks the tables that the model makes of policies, without the program: that their bytes read back as what was written,
and that queries answered from them alone are answered as the model answers them from the policy.

usage: model/table_checks.py rows             the rows of rows/*.session but those of limits.session
       model/table_checks.py KIND COUNT       random sessions of a kind of compare.py

Status: 0, or 1 after the first that is wrong.
"""
import pathlib
import sys

sys.dont_write_bytecode = True
sys.path.insert(1, str(pathlib.Path(__file__).resolve().parent.parent / "scripts"))

import compare
import model
import table_bytes
from policy import CHANGES, PROCESS
from table_bytes import LEVELS, OBJECT_ROLE, ROLE, TYPE, USER
from table_records import Records, numbered


class Answers:
    """Queries answered from tables."""

    def __init__(self, tables):
        self.tables = tables
        self.users, self.roles = numbered(name for name, _ in tables.users), numbered(tables.roles)
        self.types = {**numbered(tables.types), **dict(tables.type_aliases)}
        self.classes = numbered(name for name, _ in tables.classes)
        self.booleans = [name for name, _ in tables.booleans]
        self.sensitivities = written([name for name, _ in tables.sensitivities], tables.sensitivity_aliases)
        self.categories = written(tables.categories, tables.category_aliases)

    # ---- contexts: the numbers of user, role and type, and with levels the low and the high one

    def context(self, text):
        """The parts of a valid context, or nothing."""
        tables = self.tables
        parts = text.split(b":", 3)
        if len(parts) != 3 + tables.mls:
            return None
        user, role, type_ = (names.get(part) for names, part in zip((self.users, self.roles, self.types), parts))
        if None in (user, role, type_):
            return None
        levels = self.levels(parts[3]) if tables.mls else ()
        if levels is None:
            return None
        if parts[1] != OBJECT_ROLE:
            if (user, role) not in tables.user_roles or (role, type_) not in tables.role_types:
                return None
            if tables.mls:
                low, high = tables.users[user][1]
                if not dominates(levels[0], low) or not dominates(high, levels[1]):
                    return None
        return (user, role, type_, *levels)

    def levels(self, text):
        low, hyphen, high = text.partition(b"-")
        found = [self.level(low), self.level(high if hyphen else low)]
        return None if None in found or not dominates(found[1], found[0]) else found

    def level(self, text):
        name, colon, listed = text.partition(b":")
        sensitivity, categories = self.sensitivities.get(name), set()
        for item in listed.split(b",") if colon else []:
            ends = [self.categories.get(each) for each in item.split(b".", 1)]
            if None in ends or ends[-1] < ends[0]:
                return None
            categories.update(range(ends[0], ends[-1] + 1))
        if sensitivity is None or not categories.issubset(self.tables.sensitivities[sensitivity][1]):
            return None
        return sensitivity, frozenset(categories)

    # ---- decisions

    def mask(self, rules, source, target, of_class, settings):
        found = 0
        for rule in rules:
            is_target = source[2] == target[2] if rule.target is None else target[2] in rule.target
            if rule.of_class == of_class and source[2] in rule.source and is_target and self.is_active(rule, settings):
                found |= rule.mask
        return found

    def is_active(self, rule, settings):
        return not rule.condition or self.is_on(rule.condition[1], settings) == (rule.condition[0] == 1)

    def is_on(self, expression, settings):
        tag, *operands = expression
        if tag == 1:
            return settings[self.booleans[operands[0]]]
        first, second = ([self.is_on(each, settings) for each in operands] * 2)[:2]
        return {2: not first, 3: first and second, 4: first or second, 5: first != second, 6: first == second, 7: first != second}[tag]

    def is_met(self, expression, values):
        tag, *operands = expression
        if tag == 16:
            one, other, op = operands
            return compared(op, values[one], values[other], one in LEVELS)
        if tag == 17:
            variable, op, held = operands
            return (values[variable] in held) == (op == 0)
        inner = [self.is_met(each, values) for each in operands]
        return {2: not inner[0], 3: all(inner), 4: any(inner)}[tag]

    def lists(self, source, target, of_class, settings):
        """The three lists of a decision, as names of permissions."""
        tables = self.tables
        allowed, audited, quiet = (
            self.mask(rules, source, target, of_class, settings)
            for rules in (tables.allow, tables.auditallow, tables.dontaudit)
        )
        values = dict(zip((USER[0], ROLE[0], TYPE[0], 6, 8), source)) | dict(zip((USER[1], ROLE[1], TYPE[1], 7, 9), target))
        for each in tables.constraints:
            if each.of_class == of_class and not self.is_met(each.expression, values):
                allowed &= ~each.mask
        name, permissions = tables.classes[of_class]
        denied = {
            each for each in CHANGES
            if name == PROCESS and source[1] != target[1] and (source[1], target[1]) not in tables.role_allows
        }
        named = [
            [permission for bit, permission in enumerate(permissions) if mask >> bit & 1] for mask in (allowed, audited, ~quiet)
        ]
        return [each for each in named[0] if each not in denied], named[1], named[2]

    def decided(self, source, target, class_name, settings):
        """The lists, or the refusal of the query."""
        ends = self.context(source), self.context(target)
        for number, end in enumerate(ends, 1):
            if end is None:
                return b"ERR 72 %d" % number
        if class_name not in self.classes:
            return b"ERR 73"
        return self.lists(*ends, self.classes[class_name], settings)

    def query(self, *asked):
        found = self.decided(*asked)
        return found if isinstance(found, bytes) else b"OK " + b" ".join(b",".join(each) or b"-" for each in found)

    def check(self, source, target, class_name, permission, settings):
        found = self.decided(source, target, class_name, settings)
        if isinstance(found, bytes):
            return found
        if permission not in self.tables.classes[self.classes[class_name]][1]:
            return b"ERR 74"
        return b"OK yes" if permission in found[0] else b"OK no"


def written(names, aliases):
    """The numbers by names and aliases that a context can have."""
    known = {**numbered(names), **dict(aliases)}
    return {name: number for name, number in known.items() if b"." not in name and b"-" not in name}


def dominates(one, other):
    return one[0] >= other[0] and set(one[1]) >= set(other[1])


def compared(op, one, other, is_of_levels):
    if op < 2:
        return (one == other) == (op == 0)
    assert is_of_levels
    forth, back = dominates(one, other), dominates(other, one)
    return {2: forth, 3: back, 4: not forth and not back}[op]


class Wrong(Exception):
    """What is wrong with tables."""


class Host(model.Host):
    """A host that checks the tables of each load and what is answered from them, and counts both."""

    loads = queries = 0

    def load(self):
        reply = super().load()
        if reply.startswith(b"OK"):
            tables = Records(self.policy).tables()
            read = table_bytes.decode(table_bytes.encode(tables))
            if read != tables:
                raise Wrong(f"{tables} is read as {read}")
            self.answers = Answers(read)
            Host.loads += 1
        return reply

    def query(self, *asked):
        return self.alike(super().query(*asked), "query", asked)

    def check(self, *asked):
        return self.alike(super().check(*asked), "check", asked)

    def alike(self, reply, name, asked):
        if self.policy:
            found = getattr(self.answers, name)(*asked, self.settings)
            if found != reply:
                raise Wrong(f"{asked}: {reply} by the policy, {found} by {self.answers.tables}")
            Host.queries += 1
        return reply


def row_sessions():
    import sessions
    for path in sessions.files():
        if path.name != "limits.session":
            for row in sessions.rows_of(path):
                for steps in row.sessions:
                    yield f"{path.name}: {row.name}", b"".join(step.given for step in steps)


def random_sessions(kind, count):
    for number in range(count):
        yield f"{kind} {number}", b"".join(compare.session(kind, number))


def main():
    words = sys.argv[1:]
    if words != ["rows"] and not (len(words) == 2 and words[0] in compare.KINDS | compare.OF_STAGES and words[1].isdecimal()):
        sys.exit(__doc__)
    count = 0
    for name, given in row_sessions() if words == ["rows"] else random_sessions(words[0], int(words[1])):
        count += 1
        try:
            model.run(given, Host())
        except Wrong as wrong:
            print(f"{name}: {str(wrong)[:2000]}")
            return 1
    print(f"{' '.join(words[:1])}: {count} sessions, {Host.loads} tables and {Host.queries} replies from them as they should be")
    return 0


if __name__ == "__main__":
    sys.exit(main())
