"""The tables of a policy: what of it stands in each section, from the rules alone. `table_bytes.py` has their bytes.

An item is told by its number, its place in its section.
"""
import hashlib

from expressions import Form
from faults import printed
from names import Entry
from table_bytes import Constraint, Rule, Tables, encode, record_bytes

CONDITIONS = {b"not": 2, b"and": 3, b"or": 4, b"xor": 5, b"eq": 6, b"neq": 7}
CONSTRAINTS = {b"not": 2, b"and": 3, b"or": 4}
BOOLEAN, PAIR, MEMBERS = 1, 16, 17
VARIABLES = {b"u1": 0, b"u2": 1, b"r1": 2, b"r2": 3, b"t1": 4, b"t2": 5, b"l1": 6, b"l2": 7, b"h1": 8, b"h2": 9}
OPERATORS = {b"eq": 0, b"neq": 1, b"dom": 2, b"domby": 3, b"incomp": 4}
BRANCHES = {b"true": 1, b"false": 2}


def loaded(policy):
    """What is told of a policy that is accepted: how many bytes its tables have, and their SHA-256."""
    data = encode(Records(policy).tables())
    return b"%d %s" % (len(data), hashlib.sha256(data).hexdigest().encode())


def numbered(names):
    return {name: number for number, name in enumerate(names)}


class Records:
    """What stands in the sections, where the policy has no fault."""

    def __init__(self, policy):
        self.policy, self.levels = policy, policy.levels
        self.categories, self.sensitivities = (
            numbered(map(printed, each.order())) for each in (self.levels.categories, self.levels.sensitivities)
        )
        self.users, self.roles, self.types, self.classes, self.booleans = (
            numbered(sorted(policy.names[kind])) for kind in (b"user", b"role", b"type", b"class", b"boolean")
        )
        self.permissions = {name: numbered(sorted(policy.permissions[name])) for name in self.classes}
        # What numbers the items that constraints name, by the first letters of variables.
        self.named = {b"u": self.users, b"r": self.roles, b"t": self.types}

    def tables(self):
        policy, levels = self.policy, self.levels
        return Tables(
            mls=levels.is_on,
            categories=tuple(self.categories),
            category_aliases=aliases(levels.categories.aliases(), self.categories),
            sensitivities=tuple(
                (name, self.set_of_categories(levels.permitted[place])) for name, place in self.sensitivities.items()
            ),
            sensitivity_aliases=aliases(levels.sensitivities.aliases(), self.sensitivities),
            users=tuple((name, self.range_of(name) if levels.is_on else ()) for name in self.users),
            roles=tuple(self.roles),
            types=tuple(self.types),
            type_aliases=aliases(policy.aliases, self.types),
            classes=tuple((name, tuple(held)) for name, held in self.permissions.items()),
            booleans=tuple((name, int(policy.defaults[name])) for name in self.booleans),
            user_roles=pairs(policy.pairs[b"userrole"], self.users, self.roles),
            role_types=pairs(policy.pairs[b"roletype"], self.roles, self.types),
            role_allows=pairs(policy.pairs[b"roleallow"], self.roles, self.roles),
            allow=self.rules("allow"),
            auditallow=self.rules("auditallow"),
            dontaudit=self.rules("dontaudit"),
            constraints=self.constraints(),
        )

    # ---- levels

    def set_of_categories(self, paths):
        return members(map(printed, paths), self.categories)

    def range_of(self, user):
        """The low and the high level of a user."""
        (given,) = self.levels.user_ranges[Entry(b"user", tuple(user.split(b".")))]
        return tuple((each.sensitivity, self.set_of_categories(each.categories)) for each in given)

    # ---- rules and constraints

    def masks(self, given):
        """The mask of each class that has some of these pairs of a class and a permission."""
        found = {}
        for of_class, permission in given:
            found[of_class] = found.get(of_class, 0) | 1 << self.permissions[of_class][permission]
        return [(self.classes[of_class], mask) for of_class, mask in found.items()]

    def rules(self, kind):
        found = []
        for each in self.policy.rules:
            if each.instance.statement.keyword == kind.encode() and each.sources and each.targets != frozenset():
                source = members(each.sources, self.types)
                target = None if each.targets is None else members(each.targets, self.types)
                condition = self.condition_of(each.instance.branch)
                found += [Rule(condition, source, target, *mask) for mask in self.masks(each.pairs)]
        return by_bytes(kind, found)

    def condition_of(self, branch):
        return (BRANCHES[branch.value], self.condition(branch.condition)) if branch else ()

    def condition(self, part):
        if not isinstance(part, Form):
            return BOOLEAN, self.booleans[printed(self.policy.all_names.named(part).path)]
        return CONDITIONS[part.head], *map(self.condition, part.parts)

    def constraints(self):
        return by_bytes("constraints", [
            Constraint(*mask, self.asked(each.asked)) for each in self.policy.constraints for mask in self.masks(each.pairs)
        ])

    def asked(self, part):
        if part.head in CONSTRAINTS:
            return CONSTRAINTS[part.head], *map(self.asked, part.parts)
        operator, first, second = part.head
        if second:
            return PAIR, VARIABLES[first], VARIABLES[second], OPERATORS[operator]
        held = {printed(path) for word in part.parts for path in self.policy.sets[first[:1]].stands_for(word)}
        return MEMBERS, VARIABLES[first], OPERATORS[operator], members(held, self.named[first[:1]])


def aliases(named, numbers):
    """Each alias with the number of what it stands for."""
    return tuple((name, numbers[item]) for name, item in sorted(named.items()))


def pairs(named, firsts, seconds):
    return tuple(sorted((firsts[first], seconds[second]) for first, second in named))


def members(names, numbers):
    return tuple(sorted(numbers[name] for name in names))


def by_bytes(section, records):
    """The records of a section, each once, in the order of their bytes."""
    return tuple(sorted(set(records), key=lambda record: record_bytes(section, record)))
