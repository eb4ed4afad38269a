"""Random sessions with statements of all kinds in every form. They show faults of shapes alone, since one is always unknown."""
import expressions
import table
from pieces import LATER, ODD, UNKNOWN, Quoted, bent, install, module_of, often
from texts import RESERVED

# How many modules a session has.
MODULES = 50

KEYWORDS = [[keyword.decode(), items] for keyword, items in sorted(table.ROWS.items())]
PLAIN = [b"a", b"b", b"c", b"x", b"y", b"u", b"r", b"t", b"s0", b"c1", b"m", b"file", b"read"]
RARE = [b".a", b"a.b", b"self", b"all"]
ANY_KIND = [*sorted(table.KINDS), b"block", b"ipaddr", b"sensitivityalias", b"self", b"1x"]
OPERATORS = [*expressions.OPERANDS, b"eq", b"neq", b"range", b"dom", b"domby", b"incomp", b"all"]
VARIABLES = [*expressions.VARIABLES, b"l1", b"l2", b"h1", b"h2"]
PAIRS = sorted(expressions.VARIABLE_PAIRS | expressions.LEVEL_PAIRS)


class Writer:
    """Makes up statements. `odd` is how often a word is no name, `wrong` how often a form has something else."""

    def __init__(self, rng):
        self.rng = rng
        self.odd, self.wrong = rng.choice([0, 0, 0.02, 0.1, 0.3]), rng.choice([0, 0, 0.03, 0.1, 0.3])
        self.rare, self.depth = rng.choice([0, 0, 0.05, 0.2]), 0

    def is_wrong(self):
        return often(self.rng, self.wrong)

    def word(self):
        if often(self.rng, self.odd):
            return self.rng.choice(self.rng.choice([ODD, sorted(RESERVED), OPERATORS, VARIABLES]))
        return self.rng.choice(RARE if often(self.rng, self.rare) else PLAIN)

    # ---- rows

    def statement(self, keywords=KEYWORDS):
        keyword, items = self.rng.choice(keywords)
        return [keyword.encode(), *self.nodes(items)]

    def nodes(self, items):
        return [node for item in items for node in self.repeated(item)]

    def repeated(self, item):
        count = 1
        if item.name == "branch":
            return self.branches()
        if item.name == "s":
            return self.statements(table.ROWS_ANYWHERE | table.BRANCH_ROWS)
        if item.most is None:
            count = max(item.least - self.is_wrong(), self.rng.choice([0, 1, 1, 2, 3]))
        elif item.least != item.most:
            count = self.rng.randrange(2)
        return [self.node(item) for _ in range(count)]

    def node(self, item):
        if self.is_wrong() and often(self.rng, 0.5):
            return self.rng.choice([Quoted(b"a"), [], [self.word()], [self.word(), self.word()], self.word()])
        if item.either:
            return self.node(self.rng.choice(item.either))
        if item.items is not None:
            return self.nodes(item.items)
        if item.name.startswith("E("):
            return self.expression(item.name[2:-1], 3)
        if item.name in ("true", "false"):
            return self.word() if self.is_wrong() else item.name.encode()
        made = getattr(self, "make_" + item.name, None)
        return made() if made else self.word()

    def make_kind(self):
        return self.rng.choice(ANY_KIND)

    def make_NAME(self):
        return self.rng.choice([Quoted(b"a b"), Quoted(b""), b"all", b"..", self.word()])

    def make_arg(self):
        return self.rng.choice([Quoted(b"a"), self.word(), [self.word(), [Quoted(b"")]], []])

    def make_tg(self):
        return self.rng.choice([b"self", b"self", b"notself", b"other", *(self.word() for _ in range(5))])

    def make_cp(self):
        return self.word() if often(self.rng, 0.2) else self.nodes(table.FORMS["cp"])

    def make_mapped(self):
        return self.node(self.rng.choice((table.Item("P"), table.Item(items=table.FORMS["mapped"]))))

    def make_lev(self):
        return self.word() if often(self.rng, 0.4) else self.nodes(table.FORMS["lev"])

    def make_rng(self):
        return self.word() if often(self.rng, 0.3) else self.nodes(table.FORMS["rng"])

    def make_order(self):
        first = [b"unordered"] if often(self.rng, 0.4) else []
        return first + [self.word() for _ in range(self.rng.randrange(3))]

    def make_be(self):
        return self.condition(4)

    def make_ce(self):
        return self.constraint(self.depth_of_constraint(), False)

    def make_me(self):
        return self.constraint(self.depth_of_constraint(), True)

    def depth_of_constraint(self):
        return self.rng.choice([1, 2, 3]) if often(self.rng, 0.98) else 110

    # ---- expressions

    def operands(self, count, make):
        if self.is_wrong():
            count = self.rng.randrange(4)
        return [make() for _ in range(count)]

    def expression(self, sign, depth):
        """A set. One without operators is as frequent."""
        if depth == 0 or often(self.rng, 0.35):
            return b"all" if often(self.rng, 0.1) else self.word()
        if often(self.rng, 0.4):
            operator = self.rng.choice([b"not", b"and", b"or", b"xor", b"range", b"all"])
            if self.is_wrong():
                operator = self.rng.choice(OPERATORS)
            if operator == b"range" and (sign == "GS" or self.is_wrong()):
                return [operator, *self.operands(2, lambda: [self.word()] if self.is_wrong() else self.word())]
            if operator in expressions.OPERANDS:
                count = expressions.OPERANDS[operator]
                return [operator, *self.operands(count, lambda: self.expression(sign, depth - 1))]
            if operator != b"range":
                return [operator]
        return [self.expression(sign, depth - 1) for _ in range(self.rng.choice([0, 1, 1, 2, 2, 3]))]

    def condition(self, depth):
        if depth == 0 or often(self.rng, 0.4):
            return self.word()
        if often(self.rng, 0.15):
            return self.operands(1, lambda: self.condition(depth - 1))
        operator = self.rng.choice(list(expressions.CONDITION_OPERANDS))
        if self.is_wrong():
            operator = self.rng.choice(OPERATORS)
        count = expressions.CONDITION_OPERANDS.get(operator, 2)
        return [operator, *self.operands(count, lambda: self.condition(depth - 1))]

    def constraint(self, depth, has_levels):
        if depth > 3:
            return self.rng.choice([[b"not"], []]) + [self.constraint(depth - 1, has_levels)]
        if depth == 0 or often(self.rng, 0.3):
            return self.comparison(has_levels)
        if often(self.rng, 0.15):
            return self.operands(1, lambda: self.constraint(depth - 1, has_levels))
        operator = self.rng.choice(list(expressions.CONSTRAINT_OPERANDS))
        if self.is_wrong():
            operator = self.rng.choice(OPERATORS)
        count = expressions.CONSTRAINT_OPERANDS.get(operator, 2)
        return [operator, *self.operands(count, lambda: self.constraint(depth - 1, has_levels))]

    def comparison(self, has_levels):
        if often(self.rng, 0.05):
            return [self.rng.choice(expressions.LEFT_OUT_ON_ROLES), b"r1", b"r2"]
        operator = self.rng.choice([b"eq", b"neq"])
        if self.is_wrong() or (has_levels and often(self.rng, 0.5)):
            operator = self.rng.choice([b"eq", b"neq", b"dom", b"domby", b"incomp"])
        form = self.rng.randrange(4)
        if form == 0 or self.is_wrong():
            operands = list(self.rng.choice(PAIRS))
        elif self.is_wrong():
            operands = self.rng.choices(VARIABLES, k=2)
        else:
            operands = [self.rng.choice(VARIABLES if self.is_wrong() else list(expressions.VARIABLES))]
            operands.append(self.word() if form == 1 else [self.word() for _ in range(self.rng.randrange(4))])
        if self.is_wrong() and often(self.rng, 0.3):
            operands = self.rng.choice([operands[:1], [*operands, self.word()], operands[::-1]])
        return [operator, *operands]

    # ---- statements in statements

    def statements(self, rows):
        """Statements that may stand somewhere, mostly."""
        if self.depth == 4:
            return []
        self.depth += 1
        keywords = [each for each in KEYWORDS if each[0].encode() in rows]
        made = []
        for _ in range(self.rng.choice([0, 1, 1, 2])):
            some = KEYWORDS if often(self.rng, 0.4) else keywords
            made.append(self.word() if self.is_wrong() and often(self.rng, 0.2) else self.statement(some))
            if often(self.rng, 0.05):
                made.append([self.rng.choice(sorted(table.SET_ASIDE)), self.word()])
        self.depth -= 1
        return made

    def branches(self):
        heads = self.rng.choice([[b"true"], [b"false"], [b"true", b"false"], [b"false", b"true"]])
        if self.is_wrong():
            heads = self.rng.choices([b"true", b"false", b"maybe", Quoted(b"true")], k=self.rng.randrange(4))
        return [[head, *self.statements(table.BRANCH_ROWS)] for head in heads]


def any_form(rng):
    """A statement of any kind, with some of its parts changed or not."""
    made = Writer(rng).statement()
    if often(rng, 0.15):
        made = around(rng, made)
    bend = rng.choice([0, 0, 0, 0.3, 0.6])
    while often(rng, bend):
        made = bent(rng, made, [*LATER, *UNKNOWN, *sorted(table.ROWS), *sorted(table.SET_ASIDE)])
    return made


def around(rng, statement):
    """A statement in another."""
    name = rng.choice([b"a", b"b", b"1x"])
    return rng.choice([
        [b"block", name, statement],
        [b"optional", name, statement],
        [b"macro", name, [[b"type", b"a"], [b"name", b"b"]], statement],
        [b"booleanif", name, [rng.choice([b"true", b"false"]), statement]],
    ])


def forms(rng):
    """Statements of all kinds in every form, accepted or not, right and wrong: modules of one or two."""
    texts = [module_of(rng, [any_form(rng) for _ in range(rng.choice([1, 1, 1, 2]))]) for _ in range(MODULES)]
    return [install(b"(nothing)"), *map(install, texts), b"LOAD\n"]
