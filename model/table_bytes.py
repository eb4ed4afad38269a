"""Tables as bytes, in layout 1: what `decode` and `encode` do, from the rules alone.

A set is a tuple of numbers, a level a sensitivity and a set, an expression its tag and then its operands. The number of
an item is its place in its section.
"""
import collections
import functools

from texts import RESERVED, is_name

OBJECT_ROLE = b"object_r"
MOST = {
    "categories": 1024, "sensitivities": 256, "users": 4096, "roles": 4096, "types": 65535, "classes": 1024,
    "booleans": 4096,
}
MOST_PERMISSIONS = 32
DEEPEST = 128

# What follows the tags of expressions. Those of conditions have a boolean, those of constraints variables and sets.
CONDITIONS = {1: ("boolean",), 2: ("node",), **{tag: ("node", "node") for tag in (3, 4, 5, 6, 7)}}
CONSTRAINTS = {2: ("node",), 3: ("node", "node"), 4: ("node", "node"), 16: ("pair",), 17: ("members",)}

USER, ROLE, TYPE = (0, 1), (2, 3), (4, 5)
LOW_1, LOW_2, HIGH_1, HIGH_2 = LEVELS = (6, 7, 8, 9)
LEVEL_PAIRS = {(LOW_1, LOW_2), (LOW_1, HIGH_2), (HIGH_1, LOW_2), (HIGH_1, HIGH_2), (LOW_1, HIGH_1), (LOW_2, HIGH_2)}
EQUALITY, COMPARISONS = range(2), range(5)

# A rule: its condition is () or the byte and the expression, and its target None for self.
Rule = collections.namedtuple("Rule", "condition source target of_class mask")
Constraint = collections.namedtuple("Constraint", "of_class mask expression")

# The sections in their order. `levels` are those of users, () where levels are off.
Tables = collections.namedtuple(
    "Tables",
    "mls categories category_aliases sensitivities sensitivity_aliases users roles types type_aliases classes booleans"
    " user_roles role_types role_allows allow auditallow dontaudit constraints",
)


class Refused(Exception):
    """The first fault of bytes: its code, how many bytes had been read, and what of the rules is broken."""

    def __init__(self, code, at, why):
        super().__init__(code, at, why)
        self.code, self.at, self.why = code, at, why


class Reader:
    """Bytes from the left, and the tables that they have had up to now."""

    def __init__(self, data):
        self.data, self.at = data, 0
        self.tables = Tables(*[()] * len(Tables._fields))

    def want(self, condition, code, why):
        if not condition:
            raise Refused(code, self.at, why)

    def take(self, count):
        if self.at + count > len(self.data):
            raise Refused(93, len(self.data), "short")
        self.at += count
        return self.data[self.at - count:self.at]

    def number(self, size, end, why):
        """A number below an end."""
        value = int.from_bytes(self.take(size), "big")
        self.want(value < end, 95, why)
        return value

    def text(self):
        return self.take(int.from_bytes(self.take(4), "big"))

    def name(self):
        name = self.text()
        self.want(all(is_name(part) and part not in RESERVED for part in name.split(b".")), 95, "name")
        return name

    def permission(self):
        permission = self.text()
        self.want(is_name(permission) and permission not in RESERVED, 95, "permission")
        return permission

    def set_of(self, items):
        """A set of numbers of these items."""
        count = self.number(2, len(items) + 1, "count of a set")
        members = tuple(self.number(2, len(items), "number in a set") for _ in range(count))
        self.want(is_rising(members), 94, "set")
        return members

    def level(self):
        sensitivity = self.number(2, len(self.tables.sensitivities), "sensitivity of a level")
        categories = self.set_of(self.tables.categories)
        self.want(set(categories) <= set(self.tables.sensitivities[sensitivity][1]), 95, "category not permitted")
        return sensitivity, categories

    def expression(self, operands, depth=1):
        self.want(depth <= DEEPEST, 95, "depth")
        tag = self.number(1, 256, "")
        self.want(tag in operands, 95, "tag")
        found = [tag]
        for operand in operands[tag]:
            if operand == "node":
                found.append(self.expression(operands, depth + 1))
            elif operand == "boolean":
                found.append(self.number(2, len(self.tables.booleans), "boolean"))
            else:
                found += getattr(self, operand)()
        return tuple(found)

    def variable(self):
        variable = self.number(1, 10, "variable")
        self.want(self.tables.mls or variable not in LEVELS, 95, "level variable without levels")
        return variable

    def pair(self):
        one, other = self.variable(), self.variable()
        self.want((one, other) in {USER, ROLE, TYPE} | LEVEL_PAIRS, 95, "pair")
        op = self.number(1, len(COMPARISONS), "op")
        self.want(one in LEVELS or op in EQUALITY, 95, "op of a pair")
        return one, other, op

    def members(self):
        variable = self.variable()
        self.want(variable not in LEVELS, 95, "level variable with a set")
        op = self.number(1, len(COMPARISONS), "op")
        self.want(op in EQUALITY, 95, "op with a set")
        return variable, op, self.set_of(items_of(self.tables, variable))

    def mask(self, of_class):
        return self.number(4, 1 << len(self.tables.classes[of_class][1]), "mask past the permissions")

    def of_class(self):
        return self.number(2, len(self.tables.classes), "class")

    def section(self, name, record, key=None):
        """The records of a section. They rise by a key, or where there is none by their bytes."""
        count = self.number(4, MOST.get(name, 2**32) + 1, "count of " + name)
        records, before = [], None
        self.tables = self.tables._replace(**{name: records})
        for _ in range(count):
            start = self.at
            value = record()
            here = self.data[start:self.at] if key is None else key(value)
            self.want(before is None or here is None or before < here, 94, "order of " + name)
            before = here
            records.append(value)
        self.tables = self.tables._replace(**{name: tuple(records)})


def no_key(_):
    """For records that stand in an order of their own."""


def itself(record):
    return record


def first(record):
    return record[0]


def is_rising(items):
    return all(one < other for one, other in zip(items, items[1:]))


def items_of(tables, variable):
    return tables.users if variable in USER else tables.roles if variable in ROLE else tables.types


class Decoder(Reader):
    """Reads the records of each section."""

    def read(self):
        for byte in b"CILT":
            self.want(self.take(1)[0] == byte, 91, "magic")
        self.want(self.take(1)[0] == 1, 92, "layout")
        self.tables = self.tables._replace(mls=self.number(1, 2, "levels on or off") == 1)
        self.section("categories", self.category, no_key)
        self.section("category_aliases", functools.partial(self.alias, "categories"), first)
        self.section("sensitivities", self.sensitivity, no_key)
        self.section("sensitivity_aliases", functools.partial(self.alias, "sensitivities"), first)
        self.section("users", self.user, first)
        self.section("roles", self.name, itself)
        self.want(OBJECT_ROLE in self.tables.roles, 95, "no object_r")
        self.section("types", self.name, itself)
        self.section("type_aliases", functools.partial(self.alias, "types"), first)
        self.section("classes", self.class_, first)
        self.section("booleans", self.boolean, first)
        self.section("user_roles", self.pairs("users", "roles"))
        self.section("role_types", self.pairs("roles", "types"))
        self.section("role_allows", self.pairs("roles", "roles"))
        for kind in ("allow", "auditallow", "dontaudit"):
            self.section(kind, self.rule)
        self.section("constraints", self.constraint)
        self.want(self.at == len(self.data), 96, "bytes after the end")
        return self.tables

    def category(self):
        name = self.name()
        self.want(name not in self.tables.categories, 95, "category twice")
        return name

    def alias(self, section):
        name, items = self.name(), getattr(self.tables, section)
        names = items if section != "sensitivities" else [each for each, _ in items]
        self.want(name not in names, 95, "alias named as an item of " + section)
        return name, self.number(2, len(items), "number of an alias")

    def sensitivity(self):
        name = self.name()
        self.want(name not in [each for each, _ in self.tables.sensitivities], 95, "sensitivity twice")
        return name, self.set_of(self.tables.categories)

    def user(self):
        name = self.name()
        if not self.tables.mls:
            return name, ()
        low, high = self.level(), self.level()
        self.want(high[0] >= low[0] and set(high[1]) >= set(low[1]), 95, "high does not dominate low")
        return name, (low, high)

    def class_(self):
        name = self.name()
        count = self.number(1, MOST_PERMISSIONS + 1, "count of permissions")
        permissions = tuple(self.permission() for _ in range(count))
        self.want(is_rising(permissions), 94, "permissions")
        return name, permissions

    def boolean(self):
        return self.name(), self.number(1, 2, "default of a boolean")

    def pairs(self, *sections):
        """What reads a number of each of these sections."""
        return lambda: tuple(self.number(2, len(getattr(self.tables, each)), "number of a pair") for each in sections)

    def rule(self):
        kind = self.number(1, 3, "condition byte")
        condition = (kind, self.expression(CONDITIONS)) if kind else ()
        source = self.set_of(self.tables.types)
        is_self = self.number(1, 2, "target byte")
        target = None if is_self else self.set_of(self.tables.types)
        of_class = self.of_class()
        mask = self.mask(of_class)
        self.want(mask, 94, "mask 0 of a rule")
        self.want(source, 94, "empty source set")
        self.want(target != (), 94, "empty target set")
        return Rule(condition, source, target, of_class, mask)

    def constraint(self):
        of_class = self.of_class()
        mask = self.mask(of_class)
        expression = self.expression(CONSTRAINTS)
        self.want(mask, 94, "mask 0 of a constraint")
        return Constraint(of_class, mask, expression)


def decode(data):
    """The tables that bytes are, or the code of their first fault."""
    try:
        return Decoder(data).read()
    except Refused as fault:
        return fault.code


def u8(kind, value):
    return kind, bytes([value & 0xFF])


def u16(kind, value):
    return kind, (value & 0xFFFF).to_bytes(2, "big")


def u32(kind, value):
    return kind, (value & 0xFFFFFFFF).to_bytes(4, "big")


def text_fields(text):
    return [u32("length", len(text)), ("text", text)]


def set_fields(members):
    return [u16("set", len(members)), *(u16("number", each) for each in members)]


def level_fields(level):
    return [u16("number", level[0]), *set_fields(level[1])]


def condition_fields(expression):
    tag, *operands = expression
    rest = [u16("number", operands[0])] if tag == 1 else joined(map(condition_fields, operands))
    return [u8("tag", tag), *rest]


def constraint_fields(expression):
    tag, *operands = expression
    if tag == 16:
        return [u8("tag", tag), u8("variable", operands[0]), u8("variable", operands[1]), u8("op", operands[2])]
    if tag == 17:
        return [u8("tag", tag), u8("variable", operands[0]), u8("op", operands[1]), *set_fields(operands[2])]
    return [u8("tag", tag), *joined(map(constraint_fields, operands))]


def rule_fields(rule):
    kind, *expressions = rule.condition or (0,)
    condition = [u8("condition", kind), *joined(map(condition_fields, expressions))]
    target = [u8("target", 1)] if rule.target is None else [u8("target", 0), *set_fields(rule.target)]
    return [
        *condition, *set_fields(rule.source), *target, u16("number", rule.of_class), u32("mask", rule.mask)
    ]


def alias_fields(alias):
    return [*text_fields(alias[0]), u16("number", alias[1])]


# The fields of a record of each section.
RECORDS = {
    "categories": text_fields,
    "category_aliases": alias_fields,
    "sensitivities": lambda each: [*text_fields(each[0]), *set_fields(each[1])],
    "sensitivity_aliases": alias_fields,
    "users": lambda each: [*text_fields(each[0]), *joined(map(level_fields, each[1]))],
    "roles": text_fields,
    "types": text_fields,
    "type_aliases": alias_fields,
    "classes": lambda each: [
        *text_fields(each[0]), u8("permissions", len(each[1])), *joined(map(text_fields, each[1]))
    ],
    "booleans": lambda each: [*text_fields(each[0]), u8("default", each[1])],
    **{name: lambda each: [u16("number", each[0]), u16("number", each[1])]
       for name in ("user_roles", "role_types", "role_allows")},
    **{name: rule_fields for name in ("allow", "auditallow", "dontaudit")},
    "constraints": lambda each: [
        u16("number", each.of_class), u32("mask", each.mask), *constraint_fields(each.expression)
    ],
}


def joined(lists):
    return [each for one in lists for each in one]


def fields(tables):
    """All fields of tables, which need not be right: what each is, and its bytes."""
    found = [("magic", b"CILT"), u8("layout", 1), u8("levels", tables.mls)]
    for name, record in RECORDS.items():
        found += [u32("count", len(getattr(tables, name))), *joined(map(record, getattr(tables, name)))]
    return found


def record_bytes(name, record):
    return b"".join(each for _, each in RECORDS[name](record))


def encode(tables):
    return b"".join(each for _, each in fields(tables))
