"""Random policies with blocks, inheritance, macros and calls, which can be mended until they are accepted."""
import copy
import itertools

import shapes
import table
from contents import Contents
from faults import Refused
from instances import Instances
from names import names_of_all
from pieces import FLAT, LATER, ODD, UNKNOWN, Quoted, bent, module_of, often, set_of
from classes import MOST_PERMISSIONS
from policy import CHANGES, PROCESS, Policy
from texts import RESERVED, Node

BLOCKS = [b"k", b"l", b"n", b"a", b"k-a"]
MACROS = [b"m", b"o", b"n", b"b"]
NAMES = {
    b"type": [b"a", b"b", b"c", b"t", b"k"],
    b"role": [b"r", b"q", b"a", b"object_r"],
    b"user": [b"u", b"v", b"a"],
    b"class": [b"file", b"dir", b"a", PROCESS],
    b"common": [b"file", b"dir", b"k", b"c", PROCESS],
}
PERMISSIONS = [b"read", b"open", b"write", b"a", b"transition"]

# What commons list, and most classes do not.
SHARED = [b"ioctl", b"lock", b"map", b"a-", b"write", b"read"]

# Types that are there in most policies.
BASE_TYPES = [b"a", b"b"]

# Each rule has one of these permissions, so that an answer tells which rules led to it.
MARKS = [b"p%d" % i for i in range(20)]
KINDS = [b"type", b"type", b"type", b"role", b"user", b"class", b"class", b"name", b"string"]
WRONG_ARGUMENTS = [Quoted(b"a"), Quoted(b""), b"all", b"self", b"1x", b"a..b", b".", [], [b"a"], [[b"a"], Quoted(b"b")]]
NOWHERE = [b"nobody", b"k.a", b".k", b"l.l.a", b"a.k"]
RULES = {b"roletype": (b"role", b"type"), b"userrole": (b"user", b"role"), b"roleallow": (b"role", b"role")}

# The variables of constraints by the kinds of what they stand for, a word of each kind that most policies have, and
# comparisons that are nearly right.
VARIABLES = {b"user": b"u", b"role": b"r", b"type": b"t"}
KNOWN = {b"user": [b".u"], b"role": [b".r", b"object_r"], b"type": [b".a", b".b"]}
WRONG_COMPARISONS = [
    [b"eq", b"u2", b"u1"], [b"eq", b"t1", b"t1"], [b"eq", b"t1", []], [b"eq", b"t1", [[b"a"]]], [b"eq", b"a", b"t1"],
    [b"dom", b"r1", b"r2"], [b"incomp", b"r1", b"a"], [b"dom", b"l1", b"l2"], [b"eq", b"l1", b"l2"], [b"eq", b"t1", b"1x"],
    [b"eq", b"r1", b"t2"], [b"eq", b"t1"], [b"eq", b"t1", [b"not", b"a"]], [b"eq", b"t1", b"t2", b"t2"],
    [b"xor", [b"eq", b"u1", b"u2"], [b"eq", b"r1", b"r2"]], [], b"t1", [b"not"], [b"eq", b"u1", Quoted(b"a")], [b"eq", b"t1", b"all"],
]

WORDS = [*FLAT, *sorted(table.ACCEPTED.statements & table.BLOCK_ROWS.keys()), b"call", b"optional", b"filecon", *LATER, *UNKNOWN]

MOST_MENDINGS = 12

# What can be wrong on purpose, with the codes of the step that tells it.
WRONG = {
    "shapes": {21, 22, 23, 24, 25, 26, 27},
    "blocks": {31, 32, 33, 38},
    "calls": {34, 35, 38},
    "classes": {36},
    "words": {41},
    "widths": {55, 56},
    "commons": {55, 56},
}


class Spot:
    """A body where statements may be put: its namespace, its list, and of a macro the parameters as kinds and names."""

    def __init__(self, space, body, parameters=None):
        self.space, self.body, self.parameters = space, body, parameters or []
        self.is_macro = parameters is not None
        self.own = []


class Module:
    """The statements of a module, and the nodes that they would be read as. A place is the number of a node here."""

    def __init__(self):
        self.statements, self.is_open = [], True
        self.nodes, self.starts = [], {}

    def number(self):
        self.starts, numbers = {}, itertools.count()
        self.nodes = [self.node(each, numbers) for each in self.statements]

    def node(self, item, numbers):
        at = next(numbers)
        if isinstance(item, list):
            self.starts[id(item)] = at
            return Node("list", at, [self.node(inner, numbers) for inner in item])
        return Node("string" if isinstance(item, Quoted) else "word", at, item)


def statements_of(body, first=0):
    """The statements in a body and in the bodies of its blocks and macros, each with the list that it is in."""
    for each in body[first:]:
        if isinstance(each, list):
            yield body, each
            if each[:1] in ([b"block"], [b"macro"], [b"optional"]):
                yield from statements_of(each, 3 if each[0] == b"macro" else 2)
            elif each[:1] == [b"booleanif"]:
                for branch in each[2:]:
                    if isinstance(branch, list) and branch[:1] in ([b"true"], [b"false"]):
                        yield from statements_of(branch, 1)


class Draft:
    """A policy that is being made up. What is wrong is one of WRONG, or nothing."""

    NAMES, KINDS, WRONG, WORDS, MENDINGS = NAMES, KINDS, WRONG, WORDS, MOST_MENDINGS
    CONSTRAINT_KINDS = [b"type", b"role", b"user", b"class"]

    def __init__(self, rng, language=table.ACCEPTED):
        self.rng, self.language, self.wrong = rng, language, None
        self.modules, self.spots, self.macros = [], [], []
        self.standing, self.shares = [], set()
        self.lists, self.permissions, self.maps, self.rules = {}, {}, {}, 0
        self.declared = {kind: [] for kind in self.NAMES}

    def wrong_ones(self):
        """What can be wrong on purpose, what is to be so more often several times."""
        return list(self.WRONG)

    def goes_wrong(self, what, chance=0.25):
        """Whether the next thing is to be wrong in this way."""
        return self.wrong == what and often(self.rng, chance)

    def open_module(self):
        """Begins a module. Those that are there stay as they are."""
        for each in self.modules:
            each.is_open = False
        self.add_module()

    def add_module(self):
        self.modules.append(Module())
        self.spots.append(Spot((), self.modules[-1].statements))

    def spot(self, may_be_macro=False, deepest=4):
        """A body in a module that is open."""
        fitting = [
            each for each in self.open_spots() if (may_be_macro or not each.is_macro) and len(each.space) <= deepest
        ]
        return self.rng.choice(fitting)

    def open_spots(self):
        bodies = {id(module.statements) for module in self.modules if module.is_open}
        for module in self.modules:
            if module.is_open:
                bodies |= {id(each) for _, each in statements_of(module.statements)}
        return [each for each in self.spots if id(each.body) in bodies]

    # ---- words

    def path(self, space, path):
        """A word that may lead from a namespace to a full name."""
        form = self.rng.randrange(4)
        if form == 0:
            return b"." + b".".join(path)
        common = 0
        while common < min(len(space), len(path) - 1) and space[common] == path[common]:
            common += 1
        if form == 1:
            common = 0
        return b".".join(path[common:])

    def odd_word(self):
        return self.rng.choice(self.rng.choice([ODD, ODD, sorted(RESERVED), NOWHERE]))

    def word(self, spot, kind):
        """A word of a kind for a body: a parameter, a name of the body, a full name, or any name."""
        if self.goes_wrong("words", 0.1) or self.goes_wrong("shapes", 0.03):
            return self.odd_word()
        fitting = [name for of, name in spot.parameters if of == kind]
        if fitting and often(self.rng, 0.7):
            return self.rng.choice(fitting)
        own = [name for of, name in spot.own if of == kind]
        if own and often(self.rng, 0.5):
            return self.rng.choice(own)
        if self.declared[kind] and often(self.rng, 0.75):
            return self.path(spot.space, self.rng.choice(self.declared[kind]))
        return self.rng.choice(self.NAMES[kind])

    # ---- what is declared

    def add_block(self):
        around = self.spot(deepest=2)
        name = self.odd_word() if self.goes_wrong("shapes", 0.05) else self.rng.choice(BLOCKS)
        space = (*around.space, name)
        if self.is_taken(space):
            return
        body = [b"block", name]
        if often(self.rng, 0.3):
            body.append([b"blockabstract", self.rng.choice(BLOCKS) if self.goes_wrong("shapes", 0.1) else name])
        around.body.append(body)
        self.spots.append(Spot(space, body))

    def add_macro(self):
        around = self.spot(may_be_macro=self.goes_wrong("shapes", 0.1))
        path = (*around.space, self.rng.choice(MACROS))
        if self.is_taken(path):
            return
        parameters = []
        for _ in range(self.rng.choice([0, 1, 1, 2, 2, 3])):
            kind = self.rng.choice(self.KINDS)
            name = self.rng.choice([b"x", b"y", b"z", *self.NAMES.get(kind, [b"a"])])
            if name not in [of for _, of in parameters] or self.goes_wrong("shapes"):
                wrong = self.goes_wrong("shapes", 0.05)
                parameters.append((self.rng.choice([b"bool", b"level", b"1x", b"self"]) if wrong else kind, name))
        self.place_macro(around, path[-1], parameters)

    def place_macro(self, around, name, parameters):
        spot = Spot(around.space, [b"macro", name, [[kind, of] for kind, of in parameters]], parameters)
        around.body.append(spot.body)
        self.spots.append(spot)
        self.macros.append(((*around.space, name), spot))
        return spot

    def is_taken(self, path):
        taken = [each.space for each in self.spots] + [of for of, _ in self.macros]
        return path in taken and not self.goes_wrong("blocks", 0.5)

    def add_declaration(self):
        kind = self.rng.choice([b"type", b"type", b"type", b"role", b"user", b"class", b"common"])
        is_list = kind in (b"class", b"common")
        spot = self.spot(may_be_macro=not is_list or self.goes_wrong("shapes", 0.1))
        self.declare(spot, kind, self.rng.choice(self.NAMES[kind]))

    def declare(self, spot, kind, name):
        if spot.is_macro and name in [of for _, of in spot.parameters] and not self.goes_wrong("shapes"):
            return
        path = (*spot.space, name)
        if kind in (b"class", b"common"):
            listed = self.lists.get((kind, path))
            if listed is None or self.goes_wrong("classes", 0.5):
                listed = self.listed(name) if kind == b"class" else self.listed_in_common()
            self.lists[kind, path] = listed
            if kind == b"class":
                self.permissions[path] = listed
            spot.body.append([kind, name, list(listed)])
        else:
            spot.body.append([kind, name])
        spot.own.append((kind, name))
        self.declared[kind].append(path)

    def listed(self, name):
        if often(self.rng, 0.01) or self.goes_wrong("widths", 0.5):
            many = [b"p%d" % i for i in range(33 if self.wrong == "widths" else 32)]
            self.rng.shuffle(many)
            return many + self.rng.sample(many, self.rng.randrange(3))
        changes = self.rng.sample(CHANGES, self.rng.choice([0, 1, 2, 2]) if name == PROCESS else 0)
        return [*MARKS, b"read", *self.rng.sample(PERMISSIONS, self.rng.randrange(0, 4)), *changes]

    def listed_in_common(self):
        changes = self.rng.sample(CHANGES, self.rng.choice([0, 0, 1, 2]))
        return self.rng.sample(SHARED, self.rng.randrange(1, 5)) + changes

    # ---- what goes by words

    def add_share(self):
        """A classcommon, for a class that has none yet where that is to be right."""
        spot = self.spot(may_be_macro=self.goes_wrong("shapes", 0.1))
        class_word, common = self.word(spot, b"class"), self.word(spot, b"common")
        if (spot.space, class_word) in self.shares and not self.goes_wrong("commons", 0.7):
            return
        self.shares.add((spot.space, class_word))
        spot.body.append([b"classcommon", class_word, common])

    def add_second_common(self):
        """Two commons for one class, named in one body or in two."""
        if not self.permissions or len(self.declared[b"common"]) < 2:
            return
        path = self.rng.choice(list(self.permissions))
        for common in self.rng.sample(self.declared[b"common"], 2):
            spot = self.spot()
            spot.body.append([b"classcommon", b"." + b".".join(path), self.path(spot.space, common)])

    def add_full_class(self):
        """A class that its common makes as wide as it may be, or too wide."""
        spot = self.spot()
        own = [b"p%d" % i for i in range(self.rng.choice([0, 1, 20, 31, 32]))]
        most = MOST_PERMISSIONS + (self.wrong == "widths")
        added = [b"c%d" % i for i in range(most - len(own))] + self.rng.sample(own, min(len(own), 2))
        if added:
            spot.body += [[b"class", b"full", own], [b"common", b"full", added], [b"classcommon", b"full", b"full"]]

    def add_family(self):
        """A block with a class that has a common, which is inherited where there are such names too."""
        home = self.below(self.spot(deepest=1))
        family = self.below(home)
        self.declare(home, b"common", b"k")
        if often(self.rng, 0.7):
            self.declare(self.rng.choice([family, family, home]), b"class", b"dir")
        if often(self.rng, 0.2):
            self.declare(family, b"common", b"k")
        family.body.append([b"classcommon", b"dir", b"k"])
        heirs = [self.below(self.spot(deepest=1)) for _ in range(self.rng.choice([1, 2, 2]))]
        for each in heirs:
            if often(self.rng, 0.4):
                self.declare(each, b"common", b"k")
            if often(self.rng, 0.2):
                self.declare(each, b"class", b"dir")
            if family.space != each.space[:len(family.space)]:
                inherit = [b"blockinherit", b"." + b".".join(family.space)]
                each.body += [inherit, list(inherit)] if often(self.rng, 0.3) else [inherit]
        for each in (family, *heirs):
            self.ask_shared(each, b"dir")

    def ask_shared(self, spot, class_word):
        """A rule with a permission that only a common gives."""
        spot.body.append([b"allow", b".a", b"self", [class_word, [self.rng.choice(SHARED[:3])]]])

    def add_inherit(self):
        around = self.spot(may_be_macro=self.goes_wrong("shapes", 0.1))
        targets = [each.space for each in self.spots if each.space and not each.is_macro]
        if not targets:
            return
        target = self.rng.choice(targets)
        if target == around.space[:len(target)] and not self.goes_wrong("blocks", 0.5):
            return
        is_odd = self.goes_wrong("blocks", 0.1) or self.goes_wrong("shapes", 0.05)
        around.body.append([b"blockinherit", self.odd_word() if is_odd else self.path(around.space, target)])

    def add_call(self):
        spot = self.spot(may_be_macro=often(self.rng, 0.5))
        known = self.standing if self.standing and often(self.rng, 0.9) else self.macros
        if not known:
            return
        path, macro = self.rng.choice(known)
        if spot is macro and not self.goes_wrong("calls", 0.5):
            return
        given = [self.argument(spot, kind) for kind, _ in macro.parameters]
        if self.goes_wrong("calls", 0.1):
            given = given[1:] if often(self.rng, 0.5) else [*given, b"a"]
        is_odd = self.goes_wrong("words", 0.1) or self.goes_wrong("shapes", 0.05)
        called = self.odd_word() if is_odd else self.path(spot.space, path)
        spot.body.append([b"call", called, given] if given or often(self.rng, 0.5) else [b"call", called])

    def argument(self, spot, kind):
        if self.goes_wrong("calls", 0.12):
            return copy.deepcopy(self.rng.choice(WRONG_ARGUMENTS))
        if kind in self.NAMES:
            return self.word(spot, kind)
        names = [name for _, name in spot.parameters]
        return self.rng.choice([b"a", b"all", b"1x", b".", Quoted(b"a b"), *names, *names])

    def rule_spot(self):
        """A body for a rule."""
        return self.spot(may_be_macro=often(self.rng, 0.55))

    def add_rule(self):
        spot = self.rule_spot()
        keyword = self.rng.choice([*RULES, *[b"allow"] * 5])
        if keyword != b"allow":
            spot.body.append([keyword, *(self.word(spot, kind) for kind in RULES[keyword])])
            return
        target = b"self" if often(self.rng, 0.15) else self.word(spot, b"type")
        class_word = self.word(spot, b"class")
        permissions = self.permissions_on(spot, class_word)
        spot.body.append([b"allow", self.word(spot, b"type"), target, [class_word, permissions]])

    def permissions_on(self, spot, class_word):
        """A set of permissions for the class of a word, one of which tells which rule it is."""
        listed = self.listed_on(spot, class_word)
        permissions = [self.rng.choice(listed) for _ in range(self.rng.choice([0, 0, 0, 0, 1, 2]))] if listed else []
        if b"p0" in listed and often(self.rng, 0.95):
            self.rules += 1
            permissions.append(MARKS[self.rules % len(MARKS)])
        if class_word.split(b".")[-1] == PROCESS and often(self.rng, 0.6):
            permissions += [each for each in CHANGES if each in listed and often(self.rng, 0.8)]
        if self.goes_wrong("words", 0.1):
            permissions.append(self.rng.choice([b"nope", b"write", [b"open", [b"a"]]]))
        if listed and often(self.rng, 0.3):
            made = self.set_on(listed, self.strange_permissions(spot))
            permissions = made if often(self.rng, 0.3) else [made, *permissions]
        return permissions

    def listed_on(self, spot, class_word):
        """The permissions of a class that a word may mean: a parameter may mean each."""
        is_parameter = (b"class", class_word) in spot.parameters
        full_names = [path for path in self.permissions if is_parameter or path[-1] == class_word.split(b".")[-1]]
        return list(self.permissions[self.rng.choice(full_names)]) if full_names else [b"read"]

    def strange_permissions(self, _):
        """A permission for a body that its class may not have, or none."""
        return [self.rng.choice([b"nope", *SHARED])] if self.goes_wrong("words", 0.3) else []

    def set_on(self, listed, strange):
        """A set of some permissions of a class. Most of such sets have few in them, so that other rules show too."""
        some = self.rng.sample(listed, min(len(listed), 6)) + strange
        self.rng.shuffle(some)
        made = set_of(self.rng, some)
        return made if often(self.rng, 0.2) else [self.rng.choice([b"and", b"and", b"xor"]), some[:4], made]

    # ---- changes of role

    def add_process(self):
        """A class from whose permissions a decision may take some, with a common that has such ones too at times."""
        spot = self.spot(deepest=2)
        self.declare(spot, b"class", PROCESS)
        if often(self.rng, 0.4) and (spot.space, PROCESS) not in self.shares and (b"class", PROCESS) in spot.own:
            common = self.rng.choice(self.NAMES[b"common"])
            self.declare(spot, b"common", common)
            self.shares.add((spot.space, PROCESS))
            spot.body.append([b"classcommon", PROCESS, common])
        if often(self.rng, 0.6):
            spot.body.append([b"allow", b".a", b".b", [PROCESS, self.permissions_on(spot, PROCESS)]])

    def add_changes(self):
        """Some roles of one user and of types, of the same names in places; rules on classes called process; roleallows."""
        top, near = self.spot(deepest=0), self.spot(deepest=2)
        if often(self.rng, 0.4):
            self.declare(near, b"role", self.rng.choice([b"r", b"q"]))
            near.body.append([b"roleallow", *self.rng.sample([b"r", b"q", b".r", b".q"], 2)])
        roles = [b"." + b".".join(path) for path in self.declared[b"role"]]
        roles = self.rng.sample(roles, min(len(roles), self.rng.choice([2, 3, 3, 4]))) or [b".r"]
        for role in roles:
            top.body.append([b"userrole", b".u", role])
            for name in self.rng.choice([[b".a", b".b"], [b".a"], [b".b"]]):
                top.body.append([b"roletype", role, name])
        for spot in [top, *(self.rule_spot() for _ in range(self.rng.choice([1, 2, 3])))]:
            ends = [self.rng.choice([b".a", b".b", self.word(spot, b"type")]) for _ in range(2)]
            class_word = self.rng.choice([b"." + PROCESS, b"." + PROCESS, PROCESS, self.word(spot, b"class")])
            spot.body.append([b"allow", *ends, [class_word, self.permissions_on(spot, class_word)]])
        for _ in range(self.rng.choice([0, 1, 2, 3])):
            spot = self.spot(may_be_macro=often(self.rng, 0.5))
            ends = [self.rng.choice([*roles, self.word(spot, b"role")]) for _ in range(2)]
            spot.body.append([b"roleallow", *ends])
        if often(self.rng, 0.35):
            self.add_change_by_call()

    def add_change_by_call(self):
        """A macro that lets a role change, one that it gets or one of its own words, and calls of it."""
        names = self.rng.sample([b"x", b"y", b"r", b"q"], self.rng.choice([1, 2]))
        macro = self.macro_in(self.spot(), [(b"role", name) for name in names])
        if not macro:
            return
        path = self.macros[-1][0]
        ends = [*names, self.rng.choice([b"r", b".r", b"q", self.word(macro, b"role")])]
        self.rng.shuffle(ends)
        macro.body.append([b"roleallow", *ends[:2]])
        for _ in range(self.rng.choice([1, 2])):
            spot = self.spot(may_be_macro=often(self.rng, 0.3))
            spot.body.append(self.call_of(spot, path, macro))

    # ---- constraints

    def add_constraints(self):
        """Constraints on what rules give, and some users and roles for them to tell apart."""
        top = self.spot(deepest=0)
        for user in (b"u", b"v"):
            self.declare(top, b"user", user)
        roles = [b"." + b".".join(path) for path in self.declared[b"role"]] or [b".r"]
        for role in self.rng.sample(roles, min(len(roles), 2)):
            top.body += [[b"userrole", user, role] for user in (b".u", b".v") if often(self.rng, 0.7)]
            top.body += [[b"roletype", role, name] for name in KNOWN[b"type"] if often(self.rng, 0.7)]
        for _ in range(self.rng.choice([1, 2])):
            ends = self.rng.choices(KNOWN[b"type"], k=2)
            top.body.append([b"allow", *ends, [b".file", self.rng.sample(MARKS, self.rng.choice([1, 3, 8]))]])
        for _ in range(self.rng.choice([1, 1, 2, 3, 4])):
            spot = self.spot(may_be_macro=often(self.rng, 0.5))
            made = [b"constrain", self.constrained(spot), self.constraint(spot)]
            spot.body += [made, copy.deepcopy(made)] if often(self.rng, 0.05) else [made]
        self.add_several(self.add_constraint_on_rule, 2)
        if often(self.rng, 0.4):
            self.add_constraint_by_call()

    def add_constraint_on_rule(self):
        """A constraint beside a rule, on what the rule gives, that asks for its source or its target."""
        found = [
            (body, each) for module in self.modules if module.is_open
            for body, each in statements_of(module.statements)
            if each[:1] == [b"allow"] and len(each) == 4 and body[:1] not in ([b"true"], [b"false"])
        ]
        if found:
            body, (_, source, target, given) = self.rng.choice(found)
            first, word = self.rng.choice([(b"t1", source), (b"t2", source if target == b"self" else target)])
            asked = [self.rng.choice([b"eq", b"eq", b"neq"]), first, self.rng.choice([word, [word, b".a"]])]
            body.append([b"constrain", copy.deepcopy(given), asked])

    def constrained(self, spot):
        """A class permission for a constraint."""
        class_word = b".file" if often(self.rng, 0.4) else self.word(spot, b"class")
        listed = self.listed_on(spot, class_word)
        some = self.rng.sample(listed, min(len(listed), self.rng.choice([1, 2, 4, 8]))) + self.strange_permissions(spot)
        return [class_word, self.rng.choice([some, some, some, [b"not", some], b"all", [b"all"]])]

    def constraint(self, spot, depth=3, compare=None):
        """What a constraint asks. Its comparisons may be made by another function than usual."""
        if depth == 0 or often(self.rng, 0.45):
            made = (compare or self.comparison)(spot)
            return [made] if often(self.rng, 0.1) else made
        operator = self.rng.choice([b"and", b"and", b"or", b"or", b"not"])
        return [operator, *(self.constraint(spot, depth - 1, compare) for _ in range(1 if operator == b"not" else 2))]

    def comparison(self, spot):
        if self.goes_wrong("shapes", 0.1):
            return copy.deepcopy(self.rng.choice(WRONG_COMPARISONS))
        operator, kind = self.rng.choice([b"eq", b"neq"]), self.rng.choice([b"user", b"role", b"type", b"type"])
        first, second = (VARIABLES[kind] + number for number in (b"1", b"2"))
        if often(self.rng, 0.25):
            return [operator, first, second]
        words = [
            self.rng.choice(KNOWN[kind]) if often(self.rng, 0.3) else self.word(spot, kind)
            for _ in range(self.rng.choice([1, 1, 1, 2, 3]))
        ]
        named = words[0] if len(words) == 1 and often(self.rng, 0.6) else words
        return [operator, self.rng.choice([first, second]), named]

    def add_constraint_by_call(self):
        """A macro with a constraint that has its parameters, and calls of it."""
        kinds = self.rng.sample(self.CONSTRAINT_KINDS, self.rng.choice([1, 2, 2]))
        parameters = [(kind, self.rng.choice([b"x", *self.NAMES[kind][:2]]) + b"_" * at) for at, kind in enumerate(kinds)]
        macro = self.macro_in(self.spot(), parameters)
        if not macro:
            return
        path = self.macros[-1][0]
        names = dict(parameters)
        some = self.rng.choice([b"all", self.rng.sample(MARKS, 4)])
        given = names.get(b"classpermission") or [names.get(b"class", b".file"), some]
        asked = [
            [self.rng.choice([b"eq", b"neq"]), VARIABLES[kind] + self.rng.choice([b"1", b"2"]), self.rng.choice([name, [name]])]
            for kind, name in parameters if kind in VARIABLES
        ] or [self.constraint(macro, 1)]
        macro.body.append([b"constrain", given, asked[0] if len(asked) == 1 else [b"or", *asked]])
        for _ in range(self.rng.choice([1, 2])):
            spot = self.spot(may_be_macro=often(self.rng, 0.3))
            spot.body.append(self.call_of(spot, path, macro))

    def add_diamond(self):
        """A block with a macro, two blocks that inherit it, and a body that inherits these and calls the macro."""
        home, *outer = (self.below(self.spot(deepest=1)) for _ in range(3))
        inner = [self.below(each) if often(self.rng, 0.85) else each for each in outer]
        macro = self.macro_in(home, [])
        if not macro:
            return
        path = self.macros[-1][0]
        is_global = often(self.rng, 0.4)
        last = self.spot(deepest=0) if is_global else self.below(self.spot(deepest=1))
        ways = [(each, home) for each in inner] + [(last, each) for each in inner]
        for around, target in ways + [(last, home)] * often(self.rng, 0.3):
            around = self.spot(deepest=0) if is_global and around is last else around
            if target.space != around.space[:len(target.space)]:
                around.body.append([b"blockinherit", b"." + b".".join(target.space)])
        for each, chance in ((outer[0], 0.75), (outer[1], 0.75), (home, 0.3), (last, 0.15)):
            self.declare_some(each, chance)
        for name in BASE_TYPES:
            self.mark(macro, name)
        last.body.append([b"call", path[-1]])

    def add_nest(self):
        """A macro that calls a macro elsewhere, and a call of it; the same names everywhere."""
        places = [self.below(self.spot(deepest=1)) for _ in range(3)]
        places = [self.below(each) if often(self.rng, 0.3) else each for each in places]
        names = self.rng.choices([None, b"x", b"a", b"b"], k=2)
        parameters = [[(b"type", name)] if name else [] for name in names]
        macros = [self.macro_in(each, given) for each, given in zip(places, parameters)]
        if not all(macros):
            return
        for each, chance in ((places[0], 0.3), (places[1], 0.5), (places[2], 0.3), (macros[0], 0.4), (macros[1], 0.4)):
            self.declare_some(each, chance)
        for each in macros:
            for name in [*BASE_TYPES, *(name for _, name in each.parameters)]:
                self.mark(each, name)
        (inner, outer), caller = macros, places[2]
        outer.body.append(self.call_of(outer, self.macros[-2][0], inner))
        caller.body.append(self.call_of(caller, self.macros[-1][0], outer))

    def macro_in(self, around, parameters):
        """A new macro in a body, or nothing."""
        path = (*around.space, self.rng.choice(MACROS))
        return None if self.is_taken(path) else self.place_macro(around, path[-1], parameters)

    def declare_some(self, spot, chance):
        for name in BASE_TYPES:
            if often(self.rng, chance):
                self.declare(spot, b"type", name)

    def below(self, around):
        """A block in a body: one that is there, or a new one."""
        space = (*around.space, self.rng.choice(BLOCKS))
        found = next((each for each in self.spots if each.space == space and not each.is_macro), None)
        if not found:
            found = Spot(space, [b"block", space[-1]])
            around.body.append(found.body)
            self.spots.append(found)
        return found

    def mark(self, spot, source):
        """A rule that tells what a type word means."""
        self.rules += 1
        spot.body.append([b"allow", source, b"self", [b".file", [MARKS[self.rules % len(MARKS)]]]])

    def add_ring(self):
        """Macros each of which calls the next, and the last the first; and a call of one of them."""
        ring = self.rng.sample(self.macros, min(len(self.macros), self.rng.choice([1, 2, 2, 3])))
        bodies = {id(each.body) for each in self.open_spots()}
        for (_, macro), (path, called) in zip(ring, [*ring[1:], *ring[:1]]):
            if id(macro.body) in bodies:
                macro.body.append(self.call_of(macro, path, called))
        if ring:
            spot = self.spot()
            spot.body.append(self.call_of(spot, *self.rng.choice(ring)))

    def call_of(self, spot, path, macro):
        return [b"call", self.path(spot.space, path), [self.argument(spot, kind) for kind, _ in macro.parameters]]

    def add_set_aside(self):
        spot = self.spot(may_be_macro=self.goes_wrong("shapes"))
        items = [b"a", b"self", b"1x", Quoted(b"/x(.*)?"), [], [b"type", b"a"], [[b"block"]]]
        keyword = self.rng.choice(sorted(table.SET_ASIDE))
        spot.body.append([keyword, *self.rng.sample(items, self.rng.randrange(3))])

    # ---- whole policies

    def add_base(self):
        spot = self.spots[-1]
        types = [(b"type", name) for name in BASE_TYPES]
        for kind, name in (*types, (b"role", b"r"), (b"user", b"u"), (b"class", b"file")):
            if often(self.rng, 0.95):
                self.declare(spot, kind, name)
        for kind, name in ((b"role", b"q"), (b"class", PROCESS)):
            if often(self.rng, 0.85):
                self.declare(spot, kind, name)

    def add_several(self, add, most):
        for _ in range(self.rng.randrange(most + 1)):
            add()

    def add_all(self, size, wrong):
        """What a policy has, in an order in which words have something to name."""
        self.wrong = wrong
        for add, chance in ((self.add_diamond, 0.2), (self.add_nest, 0.25), (self.add_family, 0.25)):
            if often(self.rng, chance):
                add()
        for add, most in (
            (self.add_block, 5), (self.add_macro, 4), (self.add_declaration, 14), (self.add_inherit, 3),
            (self.add_share, 4),
        ):
            self.add_several(add, int(most * size))
        if often(self.rng, 0.03) or self.goes_wrong("widths"):
            self.add_full_class()
        if often(self.rng, 0.3):
            self.add_process()
        self.learn()
        self.add_several(self.add_call, int(7 * size))
        self.learn()
        self.add_several(self.add_rule, int(16 * size))
        if often(self.rng, 0.5):
            self.add_changes()
        if often(self.rng, 0.5):
            self.add_constraints()
        self.add_last()

    def add_last(self):
        """What goes by all that is there; and mixes the statements."""
        self.add_several(self.add_set_aside, 2)
        if often(self.rng, 0.1):
            self.double()
        if self.goes_wrong("calls", 0.7):
            self.add_ring()
        if self.goes_wrong("commons", 0.9):
            self.add_second_common()
        while self.goes_wrong("shapes", 0.7):
            self.rng.choice([self.bend, self.add_odd_statement])()
        for module in self.modules:
            if module.is_open:
                self.rng.shuffle(module.statements)

    def double(self):
        """Writes a statement once more, in the same body or another."""
        some = [each for module in self.modules if module.is_open for _, each in statements_of(module.statements)]
        if some:
            self.spot().body.append(copy.deepcopy(self.rng.choice(some)))

    def add_odd_statement(self):
        spot = self.spot(may_be_macro=often(self.rng, 0.3))
        names = [*spot.space, b"k"]
        spot.body.append(odd_statement(self.rng, self.rng.choice(names[-3:])))

    def bend(self):
        some = [each for module in self.modules if module.is_open for _, each in statements_of(module.statements)]
        if some:
            bent(self.rng, self.rng.choice(some), self.WORDS)

    def open_texts(self):
        return [module_of(self.rng, module.statements) for module in self.modules if module.is_open]

    def trees(self):
        for module in self.modules:
            if module.is_open:
                module.number()
        return [module.nodes for module in self.modules]

    def policy(self):
        """The policy as it is now, or nothing where it has faults."""
        try:
            return Policy(self.trees(), self.language)
        except Refused:
            return None

    def learn(self):
        """Enters all names that are declared, by inheritance and calls too, where the model sees them."""
        try:
            names = names_of_all(Instances(Contents(shapes.written(self.trees(), self.language))))
        except Refused:
            return
        starts = [module.starts for module in self.modules]
        self.standing = [
            (path, spot)
            for path, macro in sorted(names.instances.macros.items(), key=lambda each: each[0])
            for _, spot in self.macros
            if starts[macro.statement.module].get(id(spot.body)) == macro.statement.at
        ]
        for kind in self.declared:
            self.declared[kind] = sorted(names.declared[kind])
        self.permissions.update(
            (entry.path, sorted(held)) for entry, held in names.permissions.items() if entry.kind == b"class"
        )
        self.maps.update(
            (entry.path, sorted(held)) for entry, held in names.permissions.items() if entry.kind == b"classmap"
        )

    def mend(self, but=frozenset()):
        """Takes out statements with faults until there are none but these, or none that can be taken out."""
        for _ in range(self.MENDINGS):
            try:
                return Policy(self.trees(), self.language)
            except Refused as refused:
                if refused.faults[0][0] in but or not self.take_out(refused.faults):
                    return None
        return None

    def take_out(self, faults):
        """Takes out what has faults; of things that share a name, one stays."""
        if faults[0][0] in (31, 36, 56):
            faults = faults[1:] or faults
        is_changed = False
        for _, number, at, _, _ in faults:
            module = self.modules[number]
            if module.is_open:
                is_changed |= take_out_at(module, at)
        return is_changed


def take_out_at(module, at):
    """Takes out the innermost statement round a place."""
    before = [
        (module.starts[id(each)], body, each)
        for body, each in statements_of(module.statements)
        if module.starts.get(id(each), at + 1) <= at
    ]
    if not before:
        return False
    _, body, chosen = max(before, key=lambda found: found[0])
    body[:] = [each for each in body if each is not chosen]
    return True


def odd_statement(rng, name):
    """A statement whose shape, place or words are wrong, or nearly so. The name of a block round it may be of use."""
    return rng.choice([odd_inherit, odd_call, odd_block, odd_macro, odd_macro, odd_common])(rng, name)


def odd_inherit(rng, name):
    keyword = rng.choice([b"blockabstract", b"blockabstract", b"blockinherit"])
    forms = [[], [name], [name], [b"." + name], [Quoted(name)], [[name]], [name, name], [b"1x"], [b"all"]]
    return [keyword, *rng.choice(forms)]


def odd_call(rng, _):
    forms = [[], [Quoted(b"m")], [b"m", b"x"], [b"m", [], []], [[b"m"]], [b"all"], [b"1m"], [b"m", Quoted(b"")]]
    return [b"call", *rng.choice(forms)]


def odd_block(rng, name):
    heads = [[], [[]], [b"all"], [b"1k"], [b".k"], [b"k.k"], [Quoted(b"k")], [b"j"]]
    return [b"block", *rng.choice(heads), *odd_contents(rng, name)]


def odd_macro(rng, name):
    heads = [[b"p"], [b"w"], [b"w"], [b"all"], [Quoted(b"w")], []]
    same = rng.choice([b"p", b"p", b"q", b"1p", b"all"])
    kinds = rng.choices([b"type", b"role", b"string", b"name", b"class", b"bool", b"self"], k=rng.randrange(4))
    odd_parameters = [
        b"x", Quoted(b"x"), [b"type", b"p"], [[b"type"]], [[b"type", b"p", b"p"]], [[Quoted(b"type"), b"p"]],
        [[b"type", Quoted(b"p")]], [[[b"type"], b"p"]], [[]],
    ]
    parameters = rng.choice(odd_parameters) if often(rng, 0.6) else [[kind, same] for kind in kinds]
    return [b"macro", *rng.choice(heads), parameters, *odd_contents(rng, name)]


def odd_common(rng, name):
    if often(rng, 0.5):
        return [b"classcommon", *rng.choice([[], [name], [name, [b"k"]], [name, b"all"], [b"1x", b"k"], [name] * 3])]
    listed = rng.choice([[], [b"all"], [[b"x"]], [b"a.b"], [Quoted(b"x")], [b"x", b"x"], b"x"])
    return [b"common", *rng.choice([[], [b"all"], [b"k.k"], [b"j"], [b"j"]]), listed]


def odd_contents(rng, name):
    """Up to two items of a body."""
    items = [
        b"x", Quoted(b"x"), [], [Quoted(b"x")], [[b"type"]],
        [b"type", b"p"], [b"role", b"p"], [b"user", b"p"], [b"user", b"q"], [b"type", b"1p"], [b"type", b"all"],
        [b"foo", b"p"], [b"optional", b"p"], [b"class", b"p", []], [b"sid", b"1x"],
        [b"common", b"p", [b"q"]], [b"classcommon", b"p", b"q"],
        [b"macro", b"o", []], [b"block", b"p"],
        [b"blockabstract", name], [b"blockabstract", b"all"], [b"blockabstract", b"1k"],
    ]
    return rng.sample(items, rng.choice([0, 1, 1, 2]))
