"""Random policies with levels: orders, aliases, permitted categories, levels and ranges by name and by list, arguments of these
kinds, ranges of users, and constraints that compare levels.
"""
import copy

from block_policies import MARKS, statements_of
from optional_policies import OptionalDraft
from pieces import often, set_of
from stage_policies import NAMES, NEEDED, StageDraft
from table import BLOCK_ROWS, SPACE_OF_KIND

LEVEL_NAMES = {
    b"sensitivity": [b"s0", b"s1", b"s2", b"s", b"s-a", b"lo"],
    b"sensitivityalias": [b"sa", b"s", b"lo"],
    b"category": [b"c0", b"c1", b"c2", b"c3", b"c", b"c-a", b"a", b"k"],
    b"categoryalias": [b"ca", b"c", b"cb"],
    b"categoryset": [b"cs", b"ct", b"cb"],
    b"level": [b"lo", b"hi", b"mid"],
    b"levelrange": [b"rg", b"lo"],
}
LEVEL_KINDS = [b"sensitivity", b"category", b"categoryset", b"categoryset", b"level", b"level", b"levelrange", b"levelrange"]
LISTED = {b"categoryset", b"level", b"levelrange"}

# Of what has an order: the statement that gives it, and those of its aliases.
ORDERING = {b"sensitivity": b"sensitivityorder", b"category": b"categoryorder"}
ALIASED = {b"sensitivityalias": b"sensitivity", b"categoryalias": b"category"}

# What a policy of levels begins with.
BASE = {b"sensitivity": [b"s0", b"s1", b"s2"], b"category": [b"c0", b"c1", b"c2", b"c3"]}

# Arguments that are nearly levels, or sets of categories.
WRONG_LISTS = [
    [], [b"s", b"c", b"c"], [[b"s"]], [b"range", b"c"], [b"range", b"c", [b"c"]], [b"not"], [b"and", b"c"], b"all", [b"all"],
    [b"s", b"all"], [[b"s"], [b"s"]], [b"lo", b"lo", b"lo"], [b"1x"], b"self", [b"c", b"or", b"c"],
]
LEVELS_COMPARED = [b"eq", b"neq", b"dom", b"domby", b"incomp"]
PAIRS_OF_LEVELS = [(b"l1", b"l2"), (b"l1", b"h2"), (b"h1", b"l2"), (b"h1", b"h2"), (b"l1", b"h1"), (b"l2", b"h2")]

# What can be wrong on purpose beside what stages have. Aliases and sets are wrong with those of types.
WRONG = {"orders": {57, 58, 59}, "permitted": {61}, "turned": {62}, "users": {63}, "ranges": {64}}


class LevelDraft(StageDraft):
    """A policy with levels that is being made up."""

    NAMES, MENDINGS = {**NAMES, **LEVEL_NAMES}, 40

    def __init__(self, rng, language):
        super().__init__(rng, language)
        self.WRONG = {**self.WRONG, **WRONG}
        self.KINDS = [*self.KINDS, *LEVEL_KINDS]
        self.declaring = [*self.declaring, *LEVEL_NAMES]
        self.orders = {kind: [] for kind in ORDERING}
        self.switch = rng.choice([b"true", b"true", b"true", b"true", b"false", b""])

    def wrong_ones(self):
        return [told for told in self.WRONG for _ in range(5 if told in WRONG else 3 if told in NEEDED else 1)]

    # ---- words

    def category(self, spot):
        kind = b"categoryalias" if often(self.rng, 0.15) else b"category"
        return self.word(spot, kind)

    def ends(self, spot):
        """Two categories, most often in their order."""
        known = [path for path in self.orders[b"category"] if path in self.declared[b"category"]]
        if not known or often(self.rng, 0.15):
            return [self.category(spot), self.category(spot)]
        first, last = sorted(self.rng.choices(range(len(known)), k=2))
        if self.goes_wrong("turned", 0.5):
            first, last = last, first
        return [self.full(known[each]) for each in (first, last)]

    @staticmethod
    def full(path):
        return b"." + b".".join(path)

    def category_set(self, spot, sets=0.3):
        """A set of categories, of which so many words are names of sets."""
        made = self.rng.random()
        if made < 0.2:
            return [b"range", *self.ends(spot)]
        words = [
            self.word(spot, b"categoryset") if often(self.rng, sets) else self.category(spot)
            for _ in range(self.rng.choice([1, 1, 2, 3]))
        ]
        if made < 0.35:
            return set_of(self.rng, words, 3)
        if made < 0.4:
            return [words[0], [b"range", *self.ends(spot)]]
        return words[0] if len(words) == 1 and often(self.rng, 0.5) else words

    def own_set(self, spot):
        """What a set is declared with: rarely other sets, since they may name it."""
        return self.category_set(spot, 0.5 if self.goes_wrong("sets", 0.5) else 0.08)

    def sensitivity(self, spot):
        """A sensitivity: most often one of those that most policies have."""
        if often(self.rng, 0.6):
            return b"." + self.rng.choice(BASE[b"sensitivity"])
        return self.word(spot, b"sensitivityalias" if often(self.rng, 0.2) else b"sensitivity")

    def level_list(self, spot):
        made = [self.sensitivity(spot)]
        return made if often(self.rng, 0.35) else [*made, self.category_set(spot)]

    def level(self, spot):
        return self.word(spot, b"level") if often(self.rng, 0.35) else self.level_list(spot)

    def range_list(self, spot):
        """A low and a high level: most often with a sensitivity and categories that are in order."""
        made = self.rng.random()
        if self.goes_wrong("turned", 0.4) or made < 0.15:
            return [self.level(spot), self.level(spot)]
        if made < 0.3:
            level = self.level(spot)
            return [level, copy.deepcopy(level)]
        first, last = sorted(self.rng.choices(BASE[b"sensitivity"], k=2))
        low = self.rng.choice([[], [], [[]], [self.category_set(spot)]])
        high = [b"all"] if not low or often(self.rng, 0.4) else [[*copy.deepcopy(low), self.category_set(spot)]]
        return [[b"." + first, *low], [b"." + last, *high]]

    def level_range(self, spot):
        return self.word(spot, b"levelrange") if often(self.rng, 0.3) else self.range_list(spot)

    def argument(self, spot, kind):
        if kind not in LISTED:
            return super().argument(spot, kind)
        if self.goes_wrong("calls", 0.2) or self.goes_wrong("lists", 0.15):
            return copy.deepcopy(self.rng.choice(WRONG_LISTS))
        return {b"categoryset": self.category_set, b"level": self.level, b"levelrange": self.level_range}[kind](spot)

    # ---- what is declared

    def declare(self, spot, kind, name):
        if kind not in LEVEL_NAMES:
            super().declare(spot, kind, name)
            return
        if spot.is_macro and (kind in BLOCK_ROWS and not self.goes_wrong("shapes", 0.1)
                              or name in [of for _, of in spot.parameters]):
            return
        name_space, path, made = SPACE_OF_KIND[kind], (*spot.space, name), []
        if self.kinds_at.setdefault((name_space, path), kind) != kind and not self.goes_wrong("classes", 0.3):
            return
        if kind in LISTED:
            makers = {b"categoryset": self.own_set, b"level": self.level_list, b"levelrange": self.range_list}
            made = [makers[kind](spot)]
            if (kind, path) in self.values and not self.goes_wrong("classes", 0.3):
                made = self.values[kind, path]
            self.values[kind, path] = made
        spot.body.append([kind, name, *copy.deepcopy(made)])
        spot.own.append((kind, name))
        self.declared[kind].append(path)
        if kind in ALIASED and (kind, path) not in self.values and not self.goes_wrong("sets", 0.2):
            self.values[kind, path] = []
            self.add_target(spot, kind, name)

    def add_target(self, spot, kind, word):
        of = self.rng.choice([kind, ALIASED[kind], ALIASED[kind]])
        target = self.rng.choice([b"." + BASE[ALIASED[kind]][0], b"." + BASE[ALIASED[kind]][1], *[self.word(spot, of)] * 2])
        spot.body.append([kind + b"actual", word, target])

    def add_base(self):
        super().add_base()
        spot = self.spots[-1]
        for kind, names in BASE.items():
            for name in names:
                self.declare(spot, kind, name)
        if self.switch:
            spot.body.append([b"mls", self.switch])
        for name in BASE[b"sensitivity"]:
            permitted = self.rng.choice([b"all", b"all", [b"all"], [b"c0", b"c1", b"c2"], self.category_set(spot)])
            if not self.goes_wrong("permitted", 0.3):
                spot.body.append([b"sensitivitycategory", name, permitted])

    # ---- orders

    def add_orders(self, is_mended=False):
        """Statements that give all items one order, in which the items of modules before keep their places."""
        self.learn()
        for kind, order in self.orders.items():
            if all(path in order for path in self.declared[kind]) and not is_mended and often(self.rng, 0.95):
                continue
            order[:] = [path for path in order if path in self.declared[kind]]
            for path in self.declared[kind]:
                if path not in order:
                    order.insert(self.place_in(order, path, BASE[kind]), path)
            for row in self.rows_over(order):
                spot = self.spot(deepest=2)
                words = [self.path(spot.space, path) if often(self.rng, 0.05) and not is_mended else self.full(path)
                         for path in row]
                spot.body.append([ORDERING[kind], words])

    def place_in(self, order, path, base):
        """Anywhere; what most policies have is in its own order."""
        known = [(name,) for name in base]
        lower = upper = []
        if path in known:
            at = known.index(path)
            lower, upper = ([order.index(each) for each in some if each in order] for some in (known[:at], known[at + 1:]))
        return self.rng.randrange(max([0, *(each + 1 for each in lower)]), min([len(order), *upper]) + 1)

    def rows_over(self, order):
        """Rows whose neighbours are those of an order, and some that say less."""
        cuts = sorted(self.rng.sample(range(1, len(order)), min(len(order) - 1, self.rng.choice([0, 0, 1, 2])))) if order else []
        rows = [order[first:last + 1] for first, last in zip([0, *cuts], [*cuts, len(order)])]
        for _ in range(self.rng.choice([0, 0, 1])):
            some = sorted(self.rng.sample(range(len(order)), min(len(order), self.rng.choice([1, 2, 2, 3]))))
            rows.append([order[at] for at in some])
        self.rng.shuffle(rows)
        return [row for row in rows if row]

    def spoil_orders(self):
        """A pair the other way round, an item of which nothing is said, a word twice, or both values of `mls`."""
        kind, spot = self.rng.choice(list(ORDERING)), self.spot(deepest=1)
        form, order = self.rng.randrange(4), self.orders[kind]
        if often(self.rng, 0.5):
            spot.body.append(self.rng.choice([[b"categoryset", b"loop", [b"c0", b"loop"]], [b"categoryalias", b"loose"]]))
        if form == 0 and order:
            first, last = sorted(self.rng.choices(range(len(order)), k=2))
            spot.body.append([ORDERING[kind], [self.full(order[last]), self.full(order[first])]])
        elif form == 1:
            spot.body.append([kind, b"free"])
        elif form == 2:
            spot.body.append([b"mls", b"false" if self.switch == b"true" else b"true"])
        else:
            found = [
                (body, each) for module in self.modules if module.is_open
                for body, each in statements_of(module.statements) if each[:1] == [ORDERING[kind]]
            ]
            if found:
                body, chosen = self.rng.choice(found)
                body[:] = [each for each in body if each is not chosen]

    # ---- statements

    def comparison_of_levels(self, spot):
        """A comparison of an mlsconstrain."""
        if often(self.rng, 0.65):
            return [self.rng.choice(LEVELS_COMPARED), *self.rng.choice(PAIRS_OF_LEVELS)]
        return self.comparison(spot)

    def add_mlsconstrain(self):
        """A constraint of levels on what rules give."""
        spot = self.spot(may_be_macro=often(self.rng, 0.4))
        given = self.constrained(spot)
        if often(self.rng, 0.5):
            given = [b".file", self.rng.sample(MARKS, self.rng.choice([4, 8, 12]))]
        spot.body.append([b"mlsconstrain", given, self.constraint(spot, 2, self.comparison_of_levels)])

    def add_level_statement(self):
        keyword = self.rng.choice([
            b"userlevel", b"userrange", b"rangetransition", b"sensitivitycategory", b"sensitivitycategory", b"sensitivityorder",
            b"categoryorder", b"sensitivityaliasactual", b"categoryaliasactual", b"mls",
        ])
        rare = {b"sensitivityorder": 0.15, b"categoryorder": 0.15, b"mls": 0.3, b"userrange": 0.3}
        if keyword.endswith(b"aliasactual"):
            rare[keyword] = 0.6 if self.wrong == "sets" else 0.1
        if often(self.rng, 1 - rare.get(keyword, 1)):
            return
        spot = self.spot(may_be_macro=keyword not in BLOCK_ROWS and often(self.rng, 0.7))
        said = {
            b"userlevel": lambda: [OptionalDraft.word(self, spot, b"user"), self.level(spot)],
            b"userrange": lambda: [OptionalDraft.word(self, spot, b"user"), self.level_range(spot)],
            b"rangetransition": lambda: [
                self.word(spot, b"type"), self.word(spot, b"type"), self.class_or_map(spot)[1], self.level_range(spot),
            ],
            b"sensitivitycategory": lambda: [
                self.word(spot, self.rng.choice([b"sensitivity", b"sensitivityalias"])), self.category_set(spot),
            ],
            b"sensitivityorder": lambda: [[self.word(spot, b"sensitivity") for _ in range(self.rng.choice([1, 2, 3]))]],
            b"categoryorder": lambda: [[self.category(spot) for _ in range(self.rng.choice([1, 2, 3]))]],
            b"sensitivityaliasactual": lambda: [self.word(spot, b"sensitivityalias"), self.word(spot, b"sensitivity")],
            b"categoryaliasactual": lambda: [self.word(spot, b"categoryalias"), self.category(spot)],
            b"mls": lambda: [self.switch or b"false"],
        }[keyword]()
        spot.body.append([keyword, *said])

    def add_uses(self, spot, word, kind):
        """Statements of a body in which a parameter stands where its list may stand."""
        if kind == b"categoryset":
            made = self.rng.choice([word, [word], [b"not", word], [b"and", [word], b"all"], [word, word]])
            spot.body.append([b"level", self.rng.choice(LEVEL_NAMES[b"level"]), [self.sensitivity(spot), made]])
        elif kind == b"level":
            spot.body.append([b"userlevel", OptionalDraft.word(self, spot, b"user"), word])
            spot.body.append([b"levelrange", self.rng.choice(LEVEL_NAMES[b"levelrange"]), [word, word]])
        else:
            spot.body.append([b"rangetransition", self.word(spot, b"type"), b".a", b".file", word])

    def add_range_by_call(self):
        """A user and a macro that gives the range by arguments, which another macro may hand on; and a call."""
        kinds = self.rng.choice([
            [b"levelrange"], [b"level", b"level"], [b"sensitivity", b"categoryset"], [b"sensitivity", b"category"],
        ])
        names = [b"x", b"y"][:len(kinds)]
        macro = self.macro_in(self.spot(), [*zip(kinds, names), (b"user", b"z")])
        if not macro:
            return
        path = self.macros[-1][0]
        ranges = {
            b"levelrange": b"x", b"level": [b"x", self.rng.choice([b"x", b"y"])],
            b"sensitivity": [[b"x"], [b"x", self.rng.choice([b"y", [b"y"], [b"y", b".c0"]])]],
        }
        macro.body.append([b"userrange", b"z", ranges[kinds[0]]])
        home = self.spot(deepest=2)
        self.declare(home, b"user", b"w")
        given = [self.argument(home, kind) for kind in kinds]
        if kinds == [b"level", b"level"]:
            given = self.range_list(home)
        if kinds[0] == b"sensitivity":
            given[0] = b"." + self.rng.choice(BASE[b"sensitivity"])
        if often(self.rng, 0.4):
            outer = self.macro_in(self.spot(), [*zip(kinds, names), (b"user", b"v")])
            if outer:
                outer.body.append([b"call", self.full(path), [*names, b"v"]])
                path = self.macros[-1][0]
        home.body.append([b"call", self.full(path), [*given, b"w"]])

    def add_ranges(self, paths, is_mended=False):
        """A range for each of these users, most of them wide."""
        for path in paths:
            spot = self.spot(deepest=0) if often(self.rng, 0.7) else self.spot()
            wide, plain = [[b".s0"], [b".s2", b"all"]], [[b".s0"], [b".s2"]]
            other = self.rng.choice([wide, plain] if is_mended else [wide, wide, self.range_list(spot), self.level_range(spot)])
            spot.body.append([b"userrange", self.full(path), other])

    def add_second_range(self):
        """Other ranges of a user who has one, and two of one that differ in their low or their high levels alone."""
        if self.declared[b"user"] and often(self.rng, 0.6):
            path = self.rng.choice(self.declared[b"user"])
            for _ in range(self.rng.choice([1, 2])):
                spot = self.spot(may_be_macro=often(self.rng, 0.2))
                spot.body.append([b"userrange", self.full(path), self.level_range(spot)])
            return
        levels = [[b".s0"], [b".s0", [b".c0"]], [b".s1", [b".c0"]], [b".s1", [b".c0", b".c1"]], [b".s2", [b".c1", b".c0"]]]
        home = self.spot(deepest=2)
        self.declare(home, b"user", b"w")
        ranges = self.rng.choice([
            [[levels[0], levels[3]], [levels[1], levels[3]]], [[levels[0], levels[2]], [levels[0], levels[3]]],
            [[levels[2], levels[4]], [levels[1], levels[4]]], [[levels[0], levels[1]], [levels[0], levels[2]]],
        ])
        home.body += [[b"userrange", self.rng.choice([b"w", self.full((*home.space, b"w"))]), each] for each in ranges]

    # ---- what is wrong with levels

    def add_wrong_level(self, wrong):
        """A level that is not permitted, or what is turned, in some statement, in a call or in the body of a macro."""
        top = self.spot(deepest=0)
        if wrong == "permitted":
            self.declare(top, b"sensitivity", b"bare")
            made = [[b".bare", self.rng.choice([[b".c0"], [b"not", [b".c0"]], b"all", [b"range", b".c0", b".c1"]])]]
        else:
            turned = [b"range", b".c3", self.rng.choice([b".c0", b".c2"])]
            turned = self.rng.choice([turned, [turned], [b"not", turned], [b".c0", [b"not", [b"xor", turned, b"all"]]]])
            made = [[[b".s0", turned]], [[b".s2"], [b".s0"]], [[b".s0", [b".c0"]], [b".s1", [b".c1"]]]]
            made = self.rng.choice(made)
        spot = self.spot(deepest=3)
        given = made if len(made) == 2 else [made[0], copy.deepcopy(made[0])]
        forms = [
            (b"levelrange", [b"levelrange", b"strange", given]), (b"levelrange", [b"userrange", self.word(spot, b"user"), given]),
            (b"levelrange", [b"rangetransition", b".a", b".b", b".file", given]), (b"level", [b"userlevel", b".u", made[0]]),
            (b"level", [b"level", b"strange", made[0]]),
        ]
        forms += [(b"categoryset", [b"sensitivitycategory", b".s0", made[0][1]])] if len(made[0]) > 1 else []
        kind, statement = self.rng.choice(forms[2 if len(made) == 1 else 0:3 if len(made) == 2 else None])
        if often(self.rng, 0.6):
            macro = self.macro_in(self.spot(), [(kind, b"x")])
            if macro:
                if kind != b"categoryset" and often(self.rng, 0.6):
                    statement[-1] = b"x" if kind != b"level" or statement[0] != b"level" else [b".s0"]
                    macro.body.append(statement)
                spot.body.append([b"call", self.full(self.macros[-1][0]), [given if kind == b"levelrange" else made[0] if
                                                                           kind == b"level" else made[0][1]]])
                return
        if spot.is_macro or often(self.rng, 0.3):
            spot = self.optional_in(spot) if statement[0] not in BLOCK_ROWS else spot
        spot.body.append(statement)

    def add_equal_range(self):
        """A range that says in other words what another says."""
        sensitivity = b"." + self.rng.choice(BASE[b"sensitivity"])
        forms = [
            [[sensitivity], [sensitivity, [b".c0", b".c1"]]], [[sensitivity, []], [sensitivity, [b".c1", b".c0", b".c0"]]],
            [[sensitivity, [b"not", b"all"]], [sensitivity, [b"or", b".c1", [b".c0"]]]],
        ]
        home = self.spot(deepest=1)
        self.declare(home, b"user", b"w")
        for form in self.rng.sample(forms, 2):
            home.body.append([b"userrange", b"w", form])

    # ---- whole policies

    def wrap(self):
        self.learn()
        self.add_several(self.add_level_statement, 8)
        self.add_several(self.add_mlsconstrain, 4)
        for _ in range(self.rng.choice([0, 1, 1, 2])):
            kind = self.rng.choice(sorted(LISTED))
            found = [(spot, name) for spot in self.open_spots() for of, name in spot.parameters if of == kind]
            if found:
                self.add_uses(*self.rng.choice(found), kind)
        for add, chance in ((self.add_range_by_call, 0.35), (self.add_equal_range, 0.1)):
            if often(self.rng, chance):
                add()
        self.add_orders()
        known = getattr(self, "with_ranges", set())
        paths = [path for path in self.declared[b"user"] if path not in known]
        self.with_ranges = known.union(paths)
        self.add_ranges([path for path in paths if path[-1] != b"w" and not self.goes_wrong("users", 0.4)])
        if self.goes_wrong("ranges", 0.9):
            self.add_second_range()
        for wrong in ("permitted", "turned"):
            if self.goes_wrong(wrong, 0.8):
                self.add_wrong_level(wrong)
                self.add_orders()
        if self.goes_wrong("orders", 0.9):
            self.spoil_orders()
        super().wrap()

    # ---- what is taken out

    def take_out(self, faults):
        codes = {code for code, *_ in faults}
        if codes == {41} and self.redeclare({word for _, _, _, _, word in faults}):
            return True
        if codes & {57, 58} and not codes & {51, 52, 53, 54}:
            self.reorder()
            faults = [each for each in faults if each[0] not in (57, 58)]
            if not faults:
                return True
        if 59 in codes:
            self.unswitch()
            return True
        if 63 in codes:
            users = {(space, word) for code, _, _, space, word in faults if code == 63}
            paths = [(*(() if space == b"." else space.split(b".")), word) for space, word in sorted(users)]
            self.add_ranges(paths, is_mended=True)
            faults = [each for each in faults if each[0] != 63]
            if not faults:
                return True
        if faults[0][0] == 61 and often(self.rng, 0.4):
            return self.permit(faults)
        if faults[0][0] == 64 and len(faults) > 1:
            faults = faults[1:]
        return super().take_out(faults)

    def mend_sets(self, faults):
        is_changed = False
        for code, number, at, _, name in faults:
            module = self.modules[number]
            found = [
                (body, each) for body, each in statements_of(module.statements)
                if each[:1] and isinstance(each[0], bytes) and each[0] in ALIASED and each[1:] == [name] and module.is_open
            ]
            if code == 51:
                for body, each in found:
                    body.append([each[0] + b"actual", name, b"." + BASE[ALIASED[each[0]]][0]])
                    is_changed = True
        return is_changed or super().mend_sets(faults)

    def redeclare(self, words):
        """Declares again what most policies have, where it has been taken out; and whether something was."""
        spot, found = self.spot(deepest=0), False
        for kind, names in BASE.items():
            for name in names:
                if b"." + name in words:
                    spot.body.append([kind, name])
                    found = True
        return found

    def permit(self, faults):
        spot = self.spot(deepest=0)
        for _, _, _, _, word in faults:
            spot.body.append([b"sensitivitycategory", b"." + word.split(b".")[-1], b"all"])
        return True

    def reorder(self):
        """New orders in place of those of the modules that are open."""
        for module in self.modules:
            if module.is_open:
                for body, each in list(statements_of(module.statements)):
                    if each[0] in ORDERING.values():
                        body[:] = [other for other in body if other is not each]
        self.add_orders(is_mended=True)

    def unswitch(self):
        for module in self.modules:
            if module.is_open:
                for body, each in list(statements_of(module.statements)):
                    if each[0] == b"mls" and each[1:] != [self.switch]:
                        body[:] = [other for other in body if other is not each]
