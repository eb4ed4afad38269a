"""Random policies with what stages add: sets, class maps, audit rules, booleans, changes of role, constraints."""
import copy

import block_policies
from block_policies import BASE_TYPES, KNOWN, MARKS, RULES, SHARED, VARIABLES, Spot, statements_of
from optional_policies import OptionalDraft, OptionalSpot
from pieces import Quoted, often, set_of
from policy import PROCESS
from table import BLOCK_ROWS, SET_ASIDE, SIGNS, SPACE_OF_KIND

NAMES = {
    **block_policies.NAMES,
    b"typealias": [b"c", b"t", b"x", b"y", b"w"],
    b"typeattribute": [b"t", b"k", b"g", b"h", b"z"],
    b"roleattribute": [b"q", b"g", b"a"],
    b"userattribute": [b"v", b"g", b"a"],
    b"classmap": [PROCESS, b"file", b"dir", b"m", b"map"],
    b"classpermission": [b"n", b"file", b"s", b"k"],
    b"boolean": [b"p", b"q", b"a", b"f"],
}

# What a word of a kind may be, where more is wanted.
GROUPS = {
    b"type": SIGNS["T"], b"role": SIGNS["R"], b"user": SIGNS["U"],
}

# Of an attribute: the statement that gives members, and of what kind these are.
SETTING = {
    b"typeattribute": (b"typeattributeset", b"type"),
    b"roleattribute": (b"roleattributeset", b"role"),
    b"userattribute": (b"userattributeset", b"user"),
}

MAPPED = [b"w0", b"w1", b"w2", b"w3", b"read", b"p0", b"p1", b"transition"]
CONDITIONS = [b"and", b"or", b"xor", b"eq", b"neq"]

# Arguments that are nearly class permissions.
WRONG_LISTS = [
    [], [b"file"], [b"file", [b"read"], [b"open"]], [b"not", [b"read"]], [b"all", [b"read"]], [[b"file"], [b"read"]],
    [b"1x", [b"read"]], [Quoted(b"file"), [b"read"]], [b"file", Quoted(b"read")], [b"file", [b"not"]],
    [b"file", [b"and", b"read"]], [b"file", [b"read", b"or"]], [b"file", [b"a.b"]], [b"file", b"self"], [b"all"],
    b"all", b"self", b"1x", Quoted(b"file"),
]
WRONG = {
    **block_policies.WRONG,
    "sets": {51, 52, 53, 54},
    "lists": {35},
    "branches": {37},
    "neverallows": {65},
}


# What these need: a statement, or a kind of parameters.
NEEDED = {
    "sets": ("statements", b"typealias"), "lists": ("kinds", b"classpermission"),
    "branches": ("statements", b"booleanif"), "neverallows": ("statements", b"neverallow"),
}


class BranchSpot(Spot):
    """A branch of a booleanif. It has the parameters of the body round it, and places for few statements."""

    def __init__(self, around, value):
        super().__init__(around.space, [value], around.parameters)
        self.own = around.own


class StageDraft(OptionalDraft):
    """A policy that is being made up, of what a language accepts."""

    NAMES, MENDINGS = NAMES, 25

    def __init__(self, rng, language):
        super().__init__(rng, language)
        self.WRONG = {told: codes for told, codes in WRONG.items() if told not in NEEDED or self.is_there(*NEEDED[told])}
        self.KINDS = [*block_policies.KINDS, *(each for each in sorted(
            {b"typealias", b"classmap", b"classpermission", b"boolean", b"bool"} & language.kinds
        ) for _ in range(2))]
        self.CONSTRAINT_KINDS = [
            *block_policies.Draft.CONSTRAINT_KINDS, *sorted({b"classpermission"} & language.kinds) * 2
        ]
        self.declaring = [each for each in NAMES if self.has(each) and each not in block_policies.NAMES]
        self.kinds_at, self.values = {}, {}
        self.branches, self.quiet_macros, self.ordered = [], [], []

    def wrong_ones(self):
        return [told for told in self.WRONG for _ in range(3 if told in NEEDED else 1)]

    def has(self, keyword):
        return keyword in self.language.statements

    def is_there(self, what, word):
        return word in getattr(self.language, what)

    def is_movable(self, body, statement):
        is_accepted = self.has(statement[0]) and statement[0] not in SET_ASIDE and statement[0] not in BLOCK_ROWS
        return is_accepted and body[:1] not in ([b"true"], [b"false"])

    # ---- words

    def word(self, spot, kind):
        """A word for a rule; where attributes and aliases are wanted too it is one of these at times."""
        group = [each for each in GROUPS.get(kind, ()) if self.has(each)]
        if len(group) > 1 and often(self.rng, 0.45):
            kind = self.rng.choice(group[1:])
        return super().word(spot, kind)

    def class_or_map(self, spot):
        if self.has(b"classmap") and often(self.rng, 0.4):
            return b"classmap", self.word(spot, b"classmap")
        return b"class", self.word(spot, b"class")

    def argument(self, spot, kind):
        if kind == b"classpermission":
            if self.goes_wrong("calls", 0.2) or self.goes_wrong("lists", 0.15):
                return copy.deepcopy(self.rng.choice(WRONG_LISTS))
            return self.class_permission(spot)
        if kind == b"typealias":
            kind = b"type"
        if kind == b"bool":
            kind = b"boolean"
        return super().argument(spot, kind)

    # ---- what is declared

    def declare(self, spot, kind, name):
        name_space, path = SPACE_OF_KIND[kind], (*spot.space, name)
        if self.kinds_at.setdefault((name_space, path), kind) != kind and not self.goes_wrong("classes", 0.3):
            return
        if kind == b"typealias":
            if name in [of for _, of in spot.parameters]:
                return
            super().declare(spot, kind, name)
            if not self.goes_wrong("sets", 0.15) and spot.own[-1:] == [(kind, name)]:
                kind_of_target = self.rng.choice([b"type", b"typealias"])
                target = self.rng.choice([b".a", b".b", *[OptionalDraft.word(self, spot, kind_of_target)] * 3])
                word = name if often(self.rng, 0.9) else self.path(spot.space, path)
                spot.body.append([b"typealiasactual", word, target])
        elif kind in (b"classmap", b"boolean"):
            self.declare_valued(spot, kind, name, path)
        else:
            super().declare(spot, kind, name)

    def declare_valued(self, spot, kind, name, path):
        if spot.is_macro and name in [of for _, of in spot.parameters]:
            return
        made = self.rng.choice([b"true", b"false"])
        if kind == b"classmap":
            made = self.rng.sample(MAPPED, self.rng.randrange(1, 5))
        if (kind, path) in self.values and not self.goes_wrong("classes", 0.5):
            made = self.values[kind, path]
        self.values[kind, path] = made
        if kind == b"classmap":
            self.maps[path] = made
            made = list(made)
        spot.body.append([kind, name, made])
        spot.own.append((kind, name))
        self.declared[kind].append(path)

    def add_declaration(self):
        if not self.declaring or often(self.rng, 0.4):
            super().add_declaration()
            return
        kind = self.rng.choice(self.declaring)
        spot = self.spot(may_be_macro=kind not in BLOCK_ROWS or self.goes_wrong("shapes", 0.1))
        self.declare(spot, kind, self.rng.choice(self.NAMES[kind]))

    def add_base(self):
        super().add_base()
        spot = self.spots[-1]
        self.declare(spot, b"user", b"u")
        for kind in self.declaring:
            for name in self.NAMES[kind][-2:]:
                if often(self.rng, 0.6):
                    self.declare(spot, kind, name)

    def declare_some(self, spot, chance):
        """Declares names that types have, as types or as attributes and aliases."""
        kinds = [each for each in (b"type", b"type", b"typealias", b"typeattribute") if self.has(each)]
        for name in BASE_TYPES:
            if often(self.rng, chance):
                kind = self.rng.choice(kinds)
                self.declare(spot, kind, name)
                if kind == b"typeattribute" and often(self.rng, 0.6):
                    spot.body.append([b"typeattributeset", name, self.rng.choice([b".a", b".b", [b"not", b".a"]])])

    # ---- sets

    def add_members(self):
        attributes = [each for each in SETTING if self.has(each)]
        if not attributes:
            return
        kind = self.rng.choice([*attributes, *attributes[:1] * 2])
        keyword, of = SETTING[kind]
        spot = self.spot(may_be_macro=often(self.rng, 0.55))
        attribute = super().word(spot, kind)
        last = attribute.split(b".")[-1]
        words = []
        for _ in range(self.rng.choice([1, 1, 2, 2, 3, 4])):
            item = self.word(spot, of)
            may_circle = item.split(b".")[-1] <= last and item.split(b".")[-1] in NAMES[kind]
            words.append(self.rng.choice([b".a", item.split(b".")[-1]] if of == b"type" else [item, item])
                         if may_circle and not self.goes_wrong("sets", 0.5) and often(self.rng, 0.9) else item)
        if often(self.rng, 0.5):
            made = words if len(words) > 1 or often(self.rng, 0.5) else words[0]
        else:
            made = set_of(self.rng, words, 4)
        spot.body.append([keyword, attribute, made])

    def add_links(self):
        """Roles and types, and users and roles, linked by attributes of several."""
        spot = self.spot(deepest=1)
        for kind, name in ((b"role", b"q"), (b"roleattribute", b"g"), (b"userattribute", b"g"), (b"typeattribute", b"h")):
            self.declare(spot, kind, name)
        roles, types = [b".r", b"q", b"object_r"], [b".a", b".b", b"t"]
        spot.body += [
            [b"roleattributeset", b"g", self.rng.sample(roles, 2)], [b"userattributeset", b"g", [b".u"]],
            [b"typeattributeset", b"h", self.rng.choice([types[:2], [b"not", b".a"], b".b"])],
            [b"userrole", self.rng.choice([b"g", b".u"]), b"g"],
            [b"roletype", self.rng.choice([b"g", b"g", b"q"]), self.rng.choice([b"h", b".b"])],
        ]

    def add_expansion(self):
        spot = self.spot(may_be_macro=True)
        words = [super(StageDraft, self).word(spot, b"typeattribute") for _ in range(self.rng.choice([1, 1, 2]))]
        spot.body.append([
            b"expandtypeattribute", words[0] if len(words) == 1 and often(self.rng, 0.5) else words,
            self.rng.choice([b"true", b"false"]),
        ])

    def add_actual(self):
        """A target for an alias that may have one already."""
        spot = self.spot(may_be_macro=often(self.rng, 0.5))
        spot.body.append([b"typealiasactual", super().word(spot, b"typealias"), self.word(spot, b"type")])

    def add_circle(self):
        """Attributes or aliases each of which has the next, and the last the first."""
        kind = self.rng.choice([b"typeattribute", b"typealias", b"roleattribute", b"userattribute"])
        declared = self.declared[kind]
        if not declared:
            return
        ring = self.rng.sample(declared, min(len(declared), self.rng.choice([1, 2, 2, 3, 4])))
        links = list(zip(ring, [*ring[1:], *ring[:1]]))
        if often(self.rng, 0.5):
            links.append((self.rng.choice(declared), ring[0]))
        for path, following in links:
            is_sure = often(self.rng, 0.7)
            spot = self.spot(deepest=0) if is_sure else self.spot(may_be_macro=often(self.rng, 0.2))
            words = [b"." + b".".join(each) if is_sure else self.path(spot.space, each) for each in (path, following)]
            if kind == b"typealias":
                spot.body.append([b"typealiasactual", *words])
            else:
                forms = [words[1], [words[1]], [b"not", words[1]], [b"and", b"all", [b"xor", words[1], []]]]
                item = self.rng.choice(forms)
                spot.body.append([SETTING[kind][0], words[0], item])

    # ---- class permissions

    def permissions_of_map(self, spot, word):
        """The permissions of a class map that a word may mean: a parameter may mean each."""
        is_parameter = (b"classmap", word) in spot.parameters
        found = [path for path in self.maps if is_parameter or path[-1] == word.split(b".")[-1]]
        return list(self.maps[self.rng.choice(found)]) if found else [b"w0"]

    def list_on(self, spot, kind, class_word):
        if kind == b"class":
            return [class_word, self.permissions_on(spot, class_word)]
        listed = self.permissions_of_map(spot, class_word)
        chosen = self.rng.sample(listed, self.rng.randrange(1, len(listed) + 1))
        if self.goes_wrong("words", 0.1) or (isinstance(spot, OptionalSpot) and often(self.rng, 0.1)):
            chosen.append(self.rng.choice([b"nope", *SHARED]))
        return [class_word, set_of(self.rng, chosen, 3) if often(self.rng, 0.35) else chosen]

    def class_permission(self, spot, has_maps=True):
        if self.has(b"classpermission") and often(self.rng, 0.35):
            return self.word(spot, b"classpermission")
        kind, class_word = self.class_or_map(spot) if has_maps else (b"class", self.word(spot, b"class"))
        return self.list_on(spot, kind, class_word)

    def add_permission_set(self):
        spot = self.spot(may_be_macro=often(self.rng, 0.5))
        name = self.word(spot, b"classpermission")
        spot.body.append([b"classpermissionset", name, self.list_on(spot, *self.class_or_map(spot))])

    def add_mapping(self):
        spot = self.spot(may_be_macro=often(self.rng, 0.5))
        class_map = self.word(spot, b"classmap")
        listed = self.permissions_of_map(spot, class_map)
        permission = b"nope" if self.goes_wrong("words", 0.1) else self.rng.choice(listed)
        given = self.class_permission(spot, has_maps=self.goes_wrong("words", 0.2) or often(self.rng, 0.03))
        spot.body.append([b"classmapping", class_map, permission, given])

    def add_permission_circle(self):
        """Class permissions and map permissions that give one another, and one that gives something."""
        if not self.maps or not self.declared[b"classpermission"]:
            return
        names = self.rng.sample(self.declared[b"classpermission"], min(len(self.declared[b"classpermission"]), 3))
        maps = self.rng.choices(list(self.maps), k=len(names))
        mapped = [(path, self.rng.choice(list(self.maps[path]))) for path in maps]
        for at, (name, (path, permission)) in enumerate(zip(names, mapped)):
            following, following_permission = mapped[(at + 1) % len(mapped)]
            spot = self.spot(may_be_macro=often(self.rng, 0.15))
            spot.body.append([
                b"classmapping", self.path(spot.space, path), permission, self.path(spot.space, name),
            ])
            spot = self.spot(may_be_macro=often(self.rng, 0.15))
            spot.body.append([
                b"classpermissionset", self.path(spot.space, name),
                [self.path(spot.space, following), [following_permission]],
            ])
        spot = self.spot()
        spot.body.append([
            b"classpermissionset", self.path(spot.space, names[0]),
            [b".file", [self.rng.choice(MARKS)]],
        ])
        for path, permission in mapped:
            spot.body.append([
                b"allow", self.word(spot, b"type"), b"self", [self.path(spot.space, path), [permission]],
            ])

    def add_order(self):
        spot = self.spot(may_be_macro=True)
        first = [b"unordered"] if often(self.rng, 0.3) else []
        spot.body.append([b"classorder", [*first, *(self.word(spot, b"class") for _ in range(self.rng.randrange(3)))]])

    # ---- rules

    def rule_spot(self):
        """A body for a rule: often a branch."""
        fitting = self.open_branches() if often(self.rng, 0.4) else []
        return self.rng.choice(fitting) if fitting else self.spot(may_be_macro=often(self.rng, 0.55))

    def open_branches(self):
        bodies = {
            id(body) for module in self.modules if module.is_open for _, each in statements_of(module.statements)
            if each[:1] == [b"booleanif"] for body in each[2:]
        }
        return [each for each in self.branches if id(each.body) in bodies]

    def add_rule(self):
        spot = self.rule_spot()
        is_branch = isinstance(spot, BranchSpot)
        keywords = [b"allow"] * 6
        if not is_branch:
            keywords += RULES
        keywords += [each for each in (b"auditallow", b"dontaudit") if self.has(each)] * 2
        keyword = self.rng.choice(keywords)
        if keyword in RULES:
            spot.body.append([keyword, *(self.word(spot, kind) for kind in RULES[keyword])])
        elif keyword == b"allow" or often(self.rng, 0.4) or not self.double_rule(keyword):
            self.add_rule_to(spot, keyword)

    def double_rule(self, keyword):
        """An audit rule beside an allow rule that covers the same; and whether there is one."""
        found = [
            (body, each) for module in self.modules if module.is_open
            for body, each in statements_of(module.statements) if each[:1] == [b"allow"]
        ]
        if found:
            body, chosen = self.rng.choice(found)
            body.append([keyword, *copy.deepcopy(chosen[1:])])
        return bool(found)

    def add_rule_to(self, spot, keyword):
        target = b"self" if often(self.rng, 0.2) else self.word(spot, b"type")
        spot.body.append([keyword, self.word(spot, b"type"), target, self.class_permission(spot)])

    # ---- changes of role

    def add_changes(self):
        super().add_changes()
        if self.has(b"roleattribute") and often(self.rng, 0.6):
            self.add_several(self.add_change_of_many, 2)
        if self.has(b"classmap") and often(self.rng, 0.4):
            self.add_mapped_change()

    def add_change_of_many(self):
        """A roleallow from or to an attribute of some roles, or of all but some."""
        spot = self.spot(may_be_macro=often(self.rng, 0.2), deepest=2)
        name = self.rng.choice(NAMES[b"roleattribute"])
        self.declare(spot, b"roleattribute", name)
        roles = [self.rng.choice([b".r", OptionalDraft.word(self, spot, b"role")]) for _ in range(self.rng.choice([1, 2, 2]))]
        made = self.rng.choice([roles, [b"not", roles], b"all", set_of(self.rng, roles, 3)])
        spot.body.append([b"roleattributeset", name, made])
        spot.body.append([b"roleallow", *self.rng.sample([name, self.rng.choice([name, self.word(spot, b"role")])], 2)])

    def add_mapped_change(self):
        """A class map or the name of a class permission that has permissions of a class called process, and a rule of it."""
        spot = self.spot(deepest=2)
        class_word = self.rng.choice([PROCESS, b"." + PROCESS])
        given = [class_word, self.permissions_on(spot, class_word)]
        if often(self.rng, 0.5):
            self.declare(spot, b"classpermission", b"s")
            spot.body += [[b"classpermissionset", b"s", given], [b"allow", b".a", b".b", b"s"]]
            return
        self.declare(spot, b"classmap", b"m")
        permission = self.rng.choice(list(self.maps.get((*spot.space, b"m")) or [b"w0"]))
        spot.body += [[b"classmapping", b"m", permission, given], [b"allow", b".a", b".b", [b"m", [permission]]]]

    # ---- constraints

    def add_constraints(self):
        super().add_constraints()
        if self.has(b"typeattribute"):
            self.add_several(self.add_constraint_of_many, 2)

    def add_constraint_of_many(self):
        """A constraint that asks for an attribute of types, roles or users that most policies have."""
        spot = self.spot(deepest=1)
        attribute = self.rng.choice(list(SETTING))
        setting, kind = SETTING[attribute]
        name, first = self.rng.choice(NAMES[attribute]), VARIABLES[kind] + self.rng.choice([b"1", b"2"])
        self.declare(spot, attribute, name)
        words = [self.rng.choice([*KNOWN[kind], OptionalDraft.word(self, spot, kind)]) for _ in range(2)]
        spot.body.append([setting, name, self.rng.choice([words, words[:1], [b"not", words], [b"not", words[0]]])])
        asked = [self.rng.choice([b"eq", b"neq"]), first, self.rng.choice([name, [name], [name, words[0]]])]
        spot.body.append([b"constrain", [b".file", self.rng.choice([b"all", self.rng.sample(MARKS, 6)])], asked])

    def constrained(self, spot):
        return self.class_permission(spot) if often(self.rng, 0.5) else super().constrained(spot)

    def add_forbidden(self):
        """A neverallow that is like an allow rule, or nearly."""
        found = [
            (body, each) for module in self.modules if module.is_open
            for body, each in statements_of(module.statements) if each[:1] == [b"allow"] and len(each) == 4
        ]
        if not found:
            return
        body, chosen = self.rng.choice(found)
        _, source, target, given = copy.deepcopy(chosen)
        spot = self.spot()
        if self.has(b"typeattribute") and often(self.rng, 0.5):
            self.add_wide_pair(spot)
        if often(self.rng, 0.25):
            source = self.word(spot, b"type")
        if often(self.rng, 0.25):
            target = self.rng.choice([b"self", self.word(spot, b"type")])
        if isinstance(given, list) and often(self.rng, 0.4):
            given = [given[0], b"all"]
        if body[:1] in ([b"true"], [b"false"]):
            body = spot.body
        body.append([b"neverallow", source, target, given])

    def add_wide_pair(self, spot):
        """An allow and a neverallow of attributes, which meet in more than one way."""
        words = [OptionalDraft.word(self, spot, b"typeattribute") for _ in range(3)]
        classes = [OptionalDraft.word(self, spot, b"class"), b".file"]
        for keyword in (b"allow", b"neverallow"):
            source, target = self.rng.choice(words), self.rng.choice([b"self", *words])
            given = [self.rng.choice(classes), b"all"]
            if self.has(b"classpermission") and often(self.rng, 0.4):
                given = OptionalDraft.word(self, spot, b"classpermission")
            spot.body.append([keyword, source, target, given])
        for word in words:
            spot.body.append([b"typeattributeset", word, self.rng.sample([b".a", b".b", b"a", b"t", b"c"], 2)])

    def add_meeting(self):
        """An allow and a neverallow over sets of types and classes, which meet in several ways, or in none."""
        top, space = self.spot(deepest=0), self.spot()
        types = [b"." + b".".join(path) for path in self.declared[b"type"]]
        if not self.ordered:
            # Their names are in another order with the block in front than without it.
            self.ordered = [b".z.t", b".z-t", b".zt", b".Z"]
            top.body += [[b"block", b"z", [b"type", b"t"]], *([b"type", name[1:]] for name in self.ordered[1:])]
        for name in (b"g", b"h"):
            self.declare(top, b"typeattribute", name)
            some = self.rng.choice([types, self.ordered, types + self.ordered])
            some = self.rng.sample(some, min(len(some), self.rng.choice([2, 3, 4])))
            top.body.append([b"typeattributeset", name, some])
        self.declare(top, b"classpermission", b"s")
        for path in self.rng.sample(sorted(self.permissions), min(len(self.permissions), 2)):
            given = self.rng.sample(self.permissions[path], min(len(self.permissions[path]), self.rng.choice([1, 2, 3])))
            top.body.append([b"classpermissionset", b"s", [b"." + b".".join(path), given]])
        body = top.body
        if often(self.rng, 0.4):
            self.declare(top, b"boolean", b"p")
            body = [self.rng.choice([b"true", b"false"])]
            top.body.append([b"booleanif", b"p", body])
        for keyword, at in ((b"allow", body), (b"neverallow", space.body)):
            target = self.rng.choice([b".g", b".h", b"self"])
            at.append([keyword, self.rng.choice([b".g", b".h"]), target, b".s"])

    def add_neverallow(self):
        """A neverallow. Those that meet an allow are taken out again where that is not to be."""
        spot = self.spot(may_be_macro=often(self.rng, 0.3))
        if self.goes_wrong("neverallows", 0.8):
            self.add_forbidden()
            return
        if often(self.rng, 0.5):
            self.add_rule_to(spot, b"neverallow")
            return
        made = [self.word(spot, b"type"), self.rng.choice([b"self", self.word(spot, b"type")])]
        spot.body.append([b"neverallow", *made, [self.word(spot, b"class"), [self.rng.choice(MARKS)]]])

    def add_transition(self):
        spot = self.rule_spot()
        keyword = self.rng.choice([b"typetransition", b"typechange", b"typemember", b"roletransition"])
        _, class_word = self.class_or_map(spot)
        if keyword == b"roletransition":
            if not isinstance(spot, BranchSpot):
                spot.body.append([keyword, self.word(spot, b"role"), self.word(spot, b"type"), class_word, b".r"])
            return
        named = []
        if keyword == b"typetransition" and often(self.rng, 0.4):
            named = [self.rng.choice([
                Quoted(b"x y"), Quoted(b""), Quoted(b"all"), b"all", b"self", b"1x", b".n..x", b"nobody", b"a", b"x",
            ])]
        target = b"self" if often(self.rng, 0.2) else self.word(spot, b"type")
        last = OptionalDraft.word(self, spot, b"type")
        spot.body.append([keyword, self.word(spot, b"type"), target, class_word, *named, last])

    # ---- branches

    def condition(self, spot, depth=3):
        if depth == 0 or often(self.rng, 0.55):
            made = self.word(spot, b"boolean")
            return [made] if often(self.rng, 0.1) else made
        if often(self.rng, 0.3):
            return [b"not", self.condition(spot, depth - 1)]
        return [self.rng.choice(CONDITIONS), *(self.condition(spot, depth - 1) for _ in range(2))]

    def add_booleanif(self):
        around = self.spot(may_be_macro=often(self.rng, 0.5))
        if isinstance(around, BranchSpot):
            return
        values = self.rng.choice([[b"true"], [b"false"], [b"true", b"false"], [b"false", b"true"]])
        made = [BranchSpot(around, value) for value in values]
        around.body.append([b"booleanif", self.condition(around), *(each.body for each in made)])
        self.branches += made

    def add_switches(self):
        """Booleans, and booleanifs over them whose conditions have operators; each rule has a permission of its own."""
        spot = self.spot(may_be_macro=often(self.rng, 0.3))
        names = self.rng.sample(NAMES[b"boolean"], 2)
        for name in names:
            self.declare(spot, b"boolean", name)
        for _ in range(self.rng.choice([2, 3, 4])):
            made = [BranchSpot(spot, each) for each in self.rng.sample([b"true", b"false"], self.rng.choice([1, 1, 2]))]
            for branch in made:
                self.mark(branch, self.rng.choice([b".a", b".b"]))
                if self.has(b"auditallow") and often(self.rng, 0.3):
                    branch.body[-1][0] = self.rng.choice([b"auditallow", b"dontaudit"])
            spot.body.append([b"booleanif", self.condition_over(names), *(each.body for each in made)])
            self.branches += made

    def condition_over(self, names, depth=2):
        """A condition over some booleans, that has an operator."""
        inner = [
            self.condition_over(names, depth - 1) if depth and often(self.rng, 0.3) else self.rng.choice(names)
            for _ in range(2)
        ]
        return [b"not", inner[0]] if often(self.rng, 0.2) else [self.rng.choice(CONDITIONS), *inner]

    def add_quiet_macro(self):
        """A macro that has rules alone, or calls of such macros, and calls of it in branches."""
        kinds = self.rng.choices([each for each in self.KINDS if each != b"boolean"], k=self.rng.choice([0, 1, 2]))
        macro = self.macro_in(self.spot(), [(kind, name) for kind, name in zip(kinds, [b"x", b"y"])])
        if not macro:
            return
        path = self.macros[-1][0]
        for _ in range(self.rng.choice([1, 1, 2])):
            self.add_rule_to(macro, b"allow")
        known = [each for each in self.quiet_macros if each[1] is not macro]
        if known and often(self.rng, 0.4):
            macro.body.append(self.call_of(macro, *self.rng.choice(known)))
        self.quiet_macros.append((path, macro))
        macro.is_quiet = True

    def add_call_in_branch(self):
        branches = self.open_branches()
        known = self.macros if self.goes_wrong("branches", 0.8) else self.quiet_macros
        if branches and known:
            spot = self.rng.choice(branches)
            spot.body.append(self.call_of(spot, *self.rng.choice(known)))

    def add_conditional(self):
        """A call in a branch of a macro with rules that tell what it gave, or of one that calls that one."""
        kind = self.rng.choice([b"type", b"class", b"boolean"])
        macro = self.macro_in(self.spot(), [(kind, b"x")])
        if not macro:
            return
        path = self.macros[-1][0]
        macro.is_quiet = True
        self.mark(macro, b"x" if kind == b"type" else self.rng.choice([b"a", b".a", b".b"]))
        if kind == b"class":
            macro.body.append([b"allow", b".b", b"self", [b"x", [self.rng.choice(MARKS)]]])
        around = self.spot()
        if often(self.rng, 0.4):
            outer = self.macro_in(self.spot(), [(kind, b"y")])
            if outer:
                outer.is_quiet = True
                outer.body.append([b"call", b"." + b".".join(path), [b"y"]])
                path = self.macros[-1][0]
        name = self.rng.choice(NAMES[b"boolean"])
        self.declare(around, b"boolean", name)
        given = {b"type": [b"a", b".a", b".b"], b"class": [b".file"], b"boolean": [name]}[kind]
        branch = BranchSpot(around, self.rng.choice([b"true", b"false"]))
        branch.body.append([b"call", self.path(around.space, path), [self.rng.choice(given)]])
        around.body.append([b"booleanif", self.rng.choice([name, [b"not", name]]), branch.body])
        self.branches.append(branch)

    def spot(self, may_be_macro=False, deepest=4):
        """Bodies of macros with rules alone stay as they are, most of the time."""
        found = super().spot(may_be_macro, deepest)
        while getattr(found, "is_quiet", False) and often(self.rng, 0.9):
            found = super().spot(may_be_macro, deepest)
        return found

    # ---- lists

    def listed_body(self, macro):
        """The body of a macro, or of a new optional in it."""
        return self.optional_in(macro).body if often(self.rng, 0.25) else macro.body

    def add_listed_rule(self, macro, name):
        """A rule over a class permission in the body of a macro: by itself, in an optional or a branch."""
        keywords = [b"allow"] * 4 + [each for each in (b"auditallow", b"dontaudit", b"neverallow") if self.has(each)]
        made = [self.rng.choice(keywords), b"y", self.rng.choice([b"self", b".a"]), name]
        if self.has(b"booleanif") and made[0] != b"neverallow" and often(self.rng, 0.15):
            made = [b"booleanif", self.condition(macro), [self.rng.choice([b"true", b"false"]), made]]
        self.listed_body(macro).append(made)

    def add_list_on_parameter(self, path):
        """A macro that calls one with a list on a class that is an argument itself, and calls of it."""
        outer = self.macro_in(self.spot(), [(b"class", b"v"), (b"type", b"y")])
        if not outer:
            return
        outer_path = self.macros[-1][0]
        outer.body.append([b"call", self.path(outer.space, path), [[b"v", [self.rng.choice(MARKS)]], b"y"]])
        for spot in (self.spot(), self.spot(may_be_macro=often(self.rng, 0.5))):
            spot.body.append([b"call", self.path(spot.space, outer_path), [b".file", self.rng.choice([b".a", b".b"])]])

    def add_listed(self):
        """A macro with a class permission in some places, that hands it on or not, and calls with names and lists."""
        name = self.rng.choice([b"x", b"n", b"file"])
        home = self.spot()
        macro = self.macro_in(home, [(b"classpermission", name), (b"type", b"y")])
        if not macro:
            return
        path = self.macros[-1][0]
        is_wrong = self.goes_wrong("lists", 0.8)
        for _ in range(self.rng.choice([0, 1, 1, 2]) + is_wrong):
            form = 1 if is_wrong and often(self.rng, 0.6) else self.rng.randrange(3)
            if form == 0 and self.declared[b"classmap"]:
                class_map = self.rng.choice(self.declared[b"classmap"])
                permission = self.rng.choice(list(self.maps.get(class_map) or [b"w0"]))
                macro.body.append([b"classmapping", self.path(macro.space, class_map), permission, name])
            elif form == 1 and is_wrong:
                self.listed_body(macro).append([b"classpermissionset", name, [b".file", [self.rng.choice(MARKS)]]])
            else:
                self.add_listed_rule(macro, name)
        callers = [(self.spot(may_be_macro=often(self.rng, 0.3)), path, macro) for _ in range(self.rng.choice([1, 2]))]
        if often(self.rng, 0.5):
            outer = self.macro_in(self.spot(), [(b"classpermission", self.rng.choice([name, b"z"])), (b"type", b"y")])
            if outer:
                outer.body.append([b"call", self.path(outer.space, path), [outer.parameters[0][1], b"y"]])
                outer_path = self.macros[-1][0]
                callers.append((self.spot(may_be_macro=often(self.rng, 0.3)), outer_path, outer))
        if often(self.rng, 0.3):
            self.add_list_on_parameter(path)
        for spot, called, of in callers:
            made = self.call_of(spot, called, of)
            if often(self.rng, 0.3):
                for each in (home, spot):
                    if not each.is_macro and often(self.rng, 0.6):
                        self.declare(each, b"class", b"dir")
                made[2][0] = [b"dir", [self.rng.choice(MARKS)]]
            elif often(self.rng, 0.2):
                spot = self.optional_in(spot)
                made[2][0] = self.rng.choice([
                    [b".file", [b"nope"]], [b"nobody", [b"read"]], [b".m", [b"and", b"all", b"w9"]],
                ])
                if self.declared[b"classmap"] and often(self.rng, 0.5):
                    class_map = self.rng.choice(self.declared[b"classmap"])
                    permission = self.rng.choice(list(self.maps.get(class_map) or [b"w0"]))
                    made[2][0] = [b"." + b".".join(class_map), [permission]]
            spot.body.append(made)

    # ---- whole policies

    def add_all(self, size, wrong):
        self.wrong = wrong
        rng = self.rng
        for add, most in ((self.add_block, 3), (self.add_macro, 2), (self.add_optional, 3)):
            self.add_several(add, int(most * size))
        for add, chance in (
            (self.add_chain, 0.15), (self.add_shared, 0.15), (self.add_nearer, 0.15), (self.add_home, 0.15),
            (self.add_copies, 0.1), (self.add_argument, 0.2), (self.add_diamond, 0.08), (self.add_nest, 0.1),
            (self.add_family, 0.15),
        ):
            if often(rng, chance * size):
                add()
        for add, most in ((self.add_declaration, 22), (self.add_inherit, 3), (self.add_share, 2)):
            self.add_several(add, int(most * size))
        if self.has(b"roleallow") and often(rng, 0.6):
            self.add_process()
        self.learn()
        if self.has(b"booleanif"):
            self.add_several(self.add_booleanif, int(6 * size))
            self.add_several(self.add_quiet_macro, int(3 * size))
            if often(rng, 0.5 * size):
                self.add_conditional()
            if often(rng, 0.4):
                self.add_switches()
        self.learn()
        if self.has(b"typealias"):
            self.add_several(self.add_members, int(12 * size))
            if often(rng, 0.4):
                self.add_expansion()
            if often(rng, 0.25):
                self.add_links()
            if self.goes_wrong("sets", 0.5) or often(rng, 0.05):
                self.add_several(self.add_actual, 2)
            if self.goes_wrong("sets", 0.7) or often(rng, 0.02):
                self.add_circle()
        if self.has(b"classmap"):
            self.add_several(self.add_permission_set, int(6 * size))
            self.add_several(self.add_mapping, int(6 * size))
            if often(rng, 0.3):
                self.add_permission_circle()
            if self.is_there("kinds", b"classpermission") and (often(rng, 0.4) or self.wrong == "lists"):
                self.add_listed()
            if often(rng, 0.2):
                self.add_order()
        self.add_several(self.add_call, int(5 * size))
        if self.has(b"booleanif"):
            self.add_several(self.add_call_in_branch, int(4 * size))
        self.add_several(self.add_rule, int(18 * size))
        if self.has(b"roleallow") and often(rng, 0.8):
            self.add_changes()
        if self.has(b"constrain") and often(rng, 0.6):
            self.add_constraints()
        if self.has(b"typetransition"):
            self.add_several(self.add_transition, 3)
        if self.has(b"neverallow") and (often(rng, 0.5) or self.wrong == "neverallows"):
            self.add_several(self.add_neverallow, 4)
            if self.wrong == "neverallows":
                self.add_forbidden()
                if self.has(b"typeattribute") and self.has(b"classpermission"):
                    self.add_meeting()
        if self.goes_wrong("calls", 0.4):
            self.add_ring()
        self.wrap()
        self.add_last()

    # ---- what is taken out

    def take_out(self, faults):
        code = faults[0][0]
        if code in (51, 52, 53, 54) and often(self.rng, 0.85) and self.mend_sets(faults):
            return True
        return super().take_out(faults[1:] if code == 52 and len(faults) > 1 else faults)

    def mend_sets(self, faults):
        """Gives an alias its target, or takes out one of the statements of what is on a circle."""
        is_changed = False
        for code, number, at, _, name in faults:
            module = self.modules[number]
            if not module.is_open:
                continue
            found = [
                (body, each) for body, each in statements_of(module.statements)
                if len(each) > 1 and isinstance(each[1], bytes) and each[1].split(b".")[-1] == name.split(b".")[-1]
            ]
            if code == 51:
                found = [(body, each) for body, each in found if each[0] == b"typealias"]
                for body, _ in found[:1]:
                    body.append([b"typealiasactual", name, b".a"])
                    is_changed = True
            elif code in (53, 54):
                found = [
                    (body, each) for body, each in found
                    if each[0] == b"typealiasactual" or each[0] in [keyword for keyword, _ in SETTING.values()]
                ]
                if found:
                    body, chosen = self.rng.choice(found)
                    body[:] = [each for each in body if each is not chosen]
                    return True
        return is_changed
