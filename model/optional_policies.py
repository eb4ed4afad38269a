"""Random policies with optionals, in texts, blocks, macros and other optionals."""
from block_policies import (
    BASE_TYPES, MACROS, MARKS, NOWHERE, RULES, SHARED, VARIABLES, Draft, Spot, odd_contents, statements_of
)
from pieces import Quoted, often
from table import ACCEPTED, BLOCK_ROWS, SET_ASIDE

# Statements that may be put into optionals.
MOVABLE = ACCEPTED.statements - SET_ASIDE - BLOCK_ROWS.keys()

LABELS = [b"o", b"o", b"p", b"a", b"m"]

# Names that nothing outside optionals declares on purpose.
LINKS = {
    b"type": [b"d", b"e", b"f", b"g"],
    b"role": [b"s", b"w"],
    b"user": [b"y", b"z"],
}
MOST_LINKS = 5

# Names that are there in most policies.
BASE_NAMES = {b"type": BASE_TYPES, b"role": [b"r"], b"user": [b"u"]}
BASE_WORDS = {b"type": b".a", b"role": b".r", b"user": b".u"}


class OptionalSpot(Spot):
    """The body of an optional. It has the parameters of the body round it, and no place for more than a macro has."""

    def __init__(self, around, body):
        super().__init__(around.space, body, around.parameters)
        self.own = around.own


class OptionalDraft(Draft):
    """A policy with optionals that is being made up."""

    def spot(self, may_be_macro=False, deepest=4):
        """A body in a module that is open. Where it may be a macro it may be an optional, and often is."""
        if may_be_macro and often(self.rng, 0.5):
            fitting = [each for each in self.open_spots() if isinstance(each, OptionalSpot)]
            if fitting:
                return self.rng.choice(fitting)
        return super().spot(may_be_macro, deepest)

    def optional_in(self, around):
        """A new optional in a body."""
        label = self.rng.choice(LABELS)
        if self.goes_wrong("shapes", 0.05):
            label = self.odd_word()
        made = OptionalSpot(around, [b"optional", label])
        around.body.insert(self.rng.randrange(first_of(around.body), len(around.body) + 1), made.body)
        self.spots.append(made)
        return made

    def add_optional(self):
        around = self.spot(may_be_macro=often(self.rng, 0.6))
        made = self.optional_in(around)
        if often(self.rng, 0.3):
            self.turn_out(made)

    def word(self, spot, kind):
        """In optionals words are wrong at times without a fault."""
        if isinstance(spot, OptionalSpot) and often(self.rng, 0.12):
            return self.rng.choice([*NOWHERE, *LINKS.get(kind, [])])
        return super().word(spot, kind)

    def turn_out(self, spot):
        """A statement with a word that names nothing."""
        spot.body.append(self.rng.choice([
            [b"roletype", b"r", b"nobody"],
            [b"userrole", b".nobody", b"r"],
            [b"allow", b"a", b"self", [b".file", [b"read", b"nope"]]],
            [b"allow", b"a", b"b", [b"nobody", [b"read"]]],
            [b"allow", b"k.nobody", b"b", [b"file", []]],
            [b"call", b"nobody", [b"nobody"]],
            [b"call", b"k.nobody"],
        ]))

    def wish(self, spot, kind, path):
        """A statement that needs a name."""
        self.need(spot, kind, self.path(spot.space, path))

    def need(self, spot, kind, word):
        """A statement with a word."""
        if kind == b"type" and often(self.rng, 0.6):
            self.mark(spot, word)
        elif kind == b"role" and often(self.rng, 0.2):
            spot.body.append([b"roleallow", *self.rng.sample([word, b".r"], 2)])
        elif often(self.rng, 0.2):
            asked = [self.rng.choice([b"eq", b"neq"]), VARIABLES[kind] + self.rng.choice([b"1", b"2"]), word]
            spot.body.append([b"constrain", [b".file", [self.rng.choice(MARKS)]], asked])
        elif kind == b"user" or (kind == b"role" and often(self.rng, 0.5)):
            spot.body.append([b"userrole", *((word, b".r") if kind == b"user" else (b".u", word))])
        else:
            spot.body.append([b"roletype", *((b".r", word) if kind == b"type" else (word, b".a"))])

    def strange_permissions(self, spot):
        if isinstance(spot, OptionalSpot) and often(self.rng, 0.25):
            return [self.rng.choice([b"nope", *SHARED])]
        return super().strange_permissions(spot)

    def ask_shared(self, spot, class_word):
        """In an optional of its own such a rule is right without a common too."""
        super().ask_shared(self.optional_in(spot) if often(self.rng, 0.7) else spot, class_word)

    # ---- optionals that hang together

    def link(self):
        """A new optional, and where its names come: in a body, or in a macro that is called from one or more."""
        if often(self.rng, 0.65):
            made = self.optional_in(self.spot(may_be_macro=often(self.rng, 0.4)))
            return made, made.space
        macro = self.macro_in(self.spot(), [])
        if not macro:
            return self.link()
        path = self.macros[-1][0]
        callers = [self.spot(may_be_macro=often(self.rng, 0.5)) for _ in range(self.rng.choice([1, 1, 2]))]
        for each in callers:
            each.body.append([b"call", self.path(each.space, path)])
        return self.optional_in(macro), callers[0].space

    def add_chain(self):
        """Optionals each of which wants a name of the next; the last wants a name of the first, or nothing, or none."""
        links = [self.link() for _ in range(self.rng.randrange(2, MOST_LINKS + 1))]
        kinds = self.rng.choices([b"type", b"type", b"role", b"user"], k=len(links))
        paths = []
        for (spot, space), kind in zip(links, kinds):
            name = self.rng.choice(LINKS[kind])
            self.declare(spot, kind, name)
            paths.append((*space, name))
        for at, (spot, _) in enumerate(links[:-1]):
            self.wish(spot, kinds[at + 1], paths[at + 1])
        end = self.rng.randrange(4)
        if end < 2:
            self.wish(links[-1][0], kinds[0], paths[0])
        elif end == 2:
            self.turn_out(links[-1][0])
        if often(self.rng, 0.4):
            at = self.rng.randrange(len(links))
            self.wish(self.spot(may_be_macro=True), kinds[at], paths[at])

    def add_shared(self):
        """A name that several optionals declare, some of them in vain, and that is wanted elsewhere."""
        kind = self.rng.choice([b"type", b"type", b"role", b"user"])
        name = self.rng.choice(LINKS[kind])
        around = self.spot()
        for _ in range(self.rng.choice([2, 2, 3])):
            made = self.optional_in(around if often(self.rng, 0.7) else self.spot(may_be_macro=True))
            self.declare(made, kind, name)
            if often(self.rng, 0.5):
                self.turn_out(made)
        if often(self.rng, 0.2):
            self.declare(around, kind, name)
        wanting = around if often(self.rng, 0.4) else self.optional_in(self.spot(may_be_macro=True))
        self.wish(wanting, kind, (*around.space, name))

    def add_nearer(self):
        """An optional that declares a name which is declared farther out too, and rules that tell which is meant."""
        around = self.below(self.spot(deepest=1))
        kind = self.rng.choice([b"type", b"type", b"role", b"user"])
        name = self.rng.choice(BASE_NAMES[kind])
        made = self.optional_in(around)
        self.declare(made, kind, name)
        if often(self.rng, 0.5):
            self.turn_out(made)
        for each in (around, self.optional_in(around), self.below(around) if often(self.rng, 0.5) else made):
            self.need(each, kind, name)

    def add_home(self):
        """A macro whose names are declared in an optional of its body, called where there are such names too."""
        home, caller = (self.below(self.spot(deepest=1)) for _ in range(2))
        macro = self.macro_in(home, [])
        if not macro:
            return
        path = self.macros[-1][0]
        for each, chance in ((home, 0.6), (caller, 0.3)):
            self.declare_some(each, chance)
        made = self.optional_in(macro)
        inner = self.optional_in(made) if often(self.rng, 0.4) else made
        self.declare_some(inner, 0.6)
        if often(self.rng, 0.4):
            self.turn_out(self.rng.choice([made, inner]))
        for name in BASE_TYPES:
            for each in (macro, self.optional_in(macro), made):
                if often(self.rng, 0.7):
                    self.mark(each, name)
        calling = caller if often(self.rng, 0.6) else self.optional_in(caller)
        calling.body.append([b"call", self.path(caller.space, path)])

    def add_copies(self):
        """An optional in a macro that is called several times in one namespace, from blocks with other names."""
        macro = self.macro_in(self.spot(deepest=0), [])
        if not macro:
            return
        path = self.macros[-1][0]
        made = self.optional_in(macro)
        wanted = self.rng.sample(LINKS[b"type"], self.rng.choice([1, 2, 2]))
        for name in wanted:
            self.need(made, b"type", name)
        if often(self.rng, 0.4):
            self.declare(made, b"type", self.rng.choice(LINKS[b"type"]))
        meeting = self.below(self.spot(deepest=0))
        for _ in range(self.rng.choice([2, 2, 3])):
            around = self.below(self.spot(deepest=0))
            for name in LINKS[b"type"]:
                if often(self.rng, 0.4):
                    self.declare(around if often(self.rng, 0.7) else self.optional_in(around), b"type", name)
            template = self.below(around)
            calling = template if often(self.rng, 0.6) else self.optional_in(template)
            calling.body.append([b"call", b"." + path[-1]])
            if template.space[:1] != meeting.space[:1]:
                meeting.body.append([b"blockinherit", b"." + b".".join(template.space)])

    def add_argument(self):
        """A macro with an optional that uses its parameter, called with a name that may be declared nowhere."""
        kind = self.rng.choice([b"type", b"type", b"role", b"user", b"class"])
        macro = self.macro_in(self.spot(), [(kind, b"x")])
        if not macro:
            return
        path = self.macros[-1][0]
        made = self.optional_in(macro)
        if kind == b"class":
            permission = self.rng.choice([b"read", *MARKS[:3], b"nope", *SHARED])
            made.body.append([b"allow", b".a", b"self", [b"x", [permission]]])
        else:
            keyword = self.rng.choice([each for each, kinds in RULES.items() if kind in kinds])
            words = [b"x" if of == kind else BASE_WORDS[of] for of in RULES[keyword]]
            if keyword == b"roleallow":
                words[self.rng.randrange(2)] = BASE_WORDS[kind]
            made.body.append([keyword, *words])
        for _ in range(self.rng.choice([1, 2])):
            spot = self.spot(may_be_macro=often(self.rng, 0.6))
            spot.body.append([b"call", self.path(spot.space, path), [self.word(spot, kind)]])

    # ---- whole policies

    def add_all(self, size, wrong):
        self.wrong = wrong
        for add, most in ((self.add_block, 3), (self.add_macro, 3), (self.add_optional, 5)):
            self.add_several(add, int(most * size))
        for add, chance in (
            (self.add_chain, 0.5), (self.add_shared, 0.3), (self.add_nearer, 0.3), (self.add_home, 0.25),
            (self.add_copies, 0.2), (self.add_argument, 0.35), (self.add_diamond, 0.1), (self.add_nest, 0.15),
            (self.add_family, 0.3),
        ):
            if often(self.rng, chance * size):
                add()
        for add, most in ((self.add_declaration, 10), (self.add_inherit, 3), (self.add_share, 3)):
            self.add_several(add, int(most * size))
        if often(self.rng, 0.3):
            self.add_process()
        self.learn()
        self.add_several(self.add_call, int(6 * size))
        self.learn()
        self.add_several(self.add_rule, int(12 * size))
        if often(self.rng, 0.3):
            self.add_changes()
        if often(self.rng, 0.4):
            self.add_constraints()
        if self.goes_wrong("calls", 0.4):
            self.add_ring()
        self.wrap()
        self.add_last()

    def wrap(self):
        """Puts some statements into optionals of their own."""
        found = [
            (body, each)
            for module in self.modules if module.is_open
            for body, each in statements_of(module.statements) if self.is_movable(body, each)
        ]
        for body, chosen in self.rng.sample(found, min(len(found), self.rng.randrange(5))):
            label = self.rng.choice(LABELS)
            body[:] = [[b"optional", label, each] if each is chosen else each for each in body]

    @staticmethod
    def is_movable(_, statement):
        return statement[0] in MOVABLE

    def add_odd_statement(self):
        if often(self.rng, 0.5):
            super().add_odd_statement()
            return
        spot = self.spot(may_be_macro=often(self.rng, 0.5))
        name = self.rng.choice([*spot.space, b"k"])
        spot.body.append(self.rng.choice([odd_optional, macro_with_optional])(self.rng, name))


def first_of(body):
    """Where the statements of a body begin. A body whose keyword was changed has statements from its first word on."""
    return {b"block": 2, b"optional": 2, b"macro": 3}.get(body[0], 0) if body[:1] and isinstance(body[0], bytes) else 0


def odd_optional(rng, name):
    """An optional whose shape, place or words are wrong, or nearly so."""
    heads = [[], [[]], [b"all"], [b"1o"], [b".o"], [b"o.o"], [Quoted(b"o")], [b"o"], [b"o"], [b"o"]]
    contents = [*odd_contents(rng, name), *rng.sample([
        [b"blockinherit", b"k"], [b"blockabstract", name], [b"macro", b"1m"], [b"class", b"all"], [b"sid"],
        [b"optional"], [b"optional", b"all", [b"type", b"1p"]], [b"block"], [b"call", b"nobody"], [b"type", b"p"],
    ], rng.randrange(3))]
    return [b"optional", *rng.choice(heads), *contents]


def macro_with_optional(rng, name):
    """A macro whose optionals may declare a name of a parameter."""
    inner = rng.choice([odd_optional(rng, name), [b"optional", b"p", *odd_contents(rng, name)], [b"type", b"q"]])
    outer = [b"optional", rng.choice([b"p", b"q"]), inner, *odd_contents(rng, name)]
    return [b"macro", rng.choice([b"w", b"j", *MACROS]), [[b"type", b"p"], [b"role", b"q"]], outer]
