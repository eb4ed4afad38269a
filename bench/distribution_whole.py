"""The form of distribution.py with all of these at once: the policy with attributes and booleans, most of it in optionals,
with commons, audit rules, transitions and contexts of files. It lacks levels and constraints.

The optionals are made first, each in or out, and then each statement comes to some place in a module. What is in an
optional that is out has no effect, so it is known what follows from the rest. An optional is out where it names what
nothing declares, or only optionals that are out, or where it is inside one that is out. Types may be declared in
optionals that are in; what else is declared is outside.
"""
import collections

import distribution_attributes
import distribution_booleans
from distribution_attributes import NEEDED, WIDE
from distribution_booleans import BETWEEN, BOOLEANS, CONDITIONALS, IN_BRANCHES, NEVERALLOWS
from distribution_draft import LONG, Place
from distribution_optionals import ABSENT, ABSENT_CLASSES, LACKING
from distribution_words import DOMAINS, NAMES, ROLES, allow, base_with_commons

OPTIONALS, OUT, DEEPEST = 10_122, 1522, 10
RULES = {"allow": distribution_attributes.RULES, "dontaudit": 21_861, "auditallow": 330}
TRANSITIONS, CHANGES, CONTEXTS, EXPANDED = 15_000, 300, 6000, 40
# For each neverallow there are so many rules with what it forbids, for types that it does not name.
EXCEPTED = 40

# Of ten statements so many are in optionals, if the module has any; one type in so many is declared in one.
INSIDE, DECLARED = 7, 40
# Of so many optionals that are out for a reason of their own, some follow one another in a chain: each names a type that
# only the one before declares.
ROUND, CHAIN = 64, 8

# Folders of files, with the ends of the names of types that files in them have.
FOLDERS = (("/usr/sbin", "_exec_t"), ("/etc", "_etc_t"), ("/var/log", "_log_t"), ("/var/lib", "_var_lib_t"),
           ("/run", "_var_run_t"), ("/var/cache", "_cache_t"), ("/var/spool", "_spool_t"),
           ("/usr/lib/systemd/system", "_unit_file_t"))


def rule(keyword, *what):
    return allow(*what).replace("(allow", "(" + keyword, 1)


class Policy(distribution_booleans.Policy):
    """The policy, or an N-th of it for a scale of N."""

    def __init__(self, scale=1):
        super().__init__(scale)
        assert not set(ABSENT) & set(self.modules) and not {name for name, _ in ABSENT_CLASSES} & set(self.lists)
        assert not any(set(list_.split()) <= set(self.lists[name].split()) for name, list_ in LACKING)
        self.add_transitions()
        self.add_contexts()
        for place, lines in self.spoils:
            # Any place between two statements.
            starts = [at for at, line in enumerate(place.texts) if line.startswith("(")] + [len(place.texts)]
            at = self.numbers.one_of(starts)
            place.texts[at:at] = lines

    def start(self):
        """Makes the modules, their optionals, the types, and why optionals are out."""
        self.used += [each for each in LONG for _ in range(len(self.used) // 100)]
        self.keyword, self.branch = "allow", None
        # How many statements of a kind are made elsewhere than where the others of the kind are.
        self.counts = collections.Counter({"list": NEVERALLOWS, "typeattribute": NEVERALLOWS})
        names = NAMES[:max(len(NAMES) // self.scale, 8)]
        self.tops = {module: Place(module) for module in ["base", *names]}
        self.lines = {module: top.texts for module, top in self.tops.items()}
        self.places = {module: [] for module in names}
        self.depths, self.told, roots = {}, [], []
        self.add_optionals(OPTIONALS // self.scale - OUT // self.scale, "in", roots)
        self.add_optionals(OUT // self.scale, "out", roots)
        # Types that only optionals declare that are out; sources, targets and classes of rules that are without effect.
        self.lost, self.vain, self.spoils = [], [], []
        chained = [0 < number % ROUND <= CHAIN for number in range(len(roots))]
        count = distribution_attributes.TYPES // self.scale
        self.modules, self.types = self.some_types(len(names), max(count, len(names) * 10) - sum(chained))
        self.lines["base"] += base_with_commons(self.lists)
        for module, own in self.modules.items():
            within = [place for place in self.places[module] if place.state == "in"]
            for number, type_ in enumerate(own):
                is_within = within and self.numbers.below(DECLARED) == 0
                (self.numbers.one_of(within) if is_within else self.tops[module]).texts.append(f"(type {type_})")
        for root, before, is_chained in zip(roots, [None, *roots], chained):
            self.spoil(root, before if is_chained else None)

    # ---- optionals

    def add_optionals(self, count, state, roots):
        """Makes so many optionals, alone or in chains, some in others that are in. The first of a chain is a root if it
        is out, and so is one in three of the others.
        """
        while count:
            module, kind = self.numbers.one_of(list(self.places)), self.numbers.below(48)
            within = [place for place in self.places[module] if place.state == "in"]
            place = self.numbers.one_of(within) if within and kind < 12 else self.tops[module]
            length = 1 if kind < 36 else 2 + self.numbers.below(3) if kind < 47 else DEEPEST
            for _ in range(min(length, count, DEEPEST - self.depths.get(place, 0))):
                is_root = state == "out" and (place.state != "out" or self.numbers.below(3) == 0)
                place = self.optional(place, state)
                roots += [place] * is_root
                count -= 1

    def optional(self, parent, state):
        """An optional without statements."""
        label = f"{parent.module}_optional_{len(self.places[parent.module]) + 1}"
        made = Place(parent.module, state=state, head=f"optional {label}")
        self.depths[made] = self.depths.get(parent, 0) + 1
        self.places[parent.module].append(made)
        parent.inner.append(made)
        self.told.append(f". {label} {state}")
        return made

    def spoil(self, place, before):
        """Makes a statement for an optional with a word that names nothing, or a type that only another one declares."""
        own, absent = self.numbers.one_of(self.modules[place.module][:len(DOMAINS)]), self.numbers.one_of(ABSENT)
        choice = [
            (12, f"(typeattributeset {NEEDED} {absent}_t)"),
            (3, f"(typeattributeset {NEEDED} {absent}_var_run_t)"),
            (2, f"(typeattributeset {absent}_domain {own})"),
            (2, f"(roleattributeset {NEEDED} {absent}_r)"),
            (2, f"(roletype {absent}_r {own})"),
            (6, allow(own, f"{absent}_log_t", "file", "append getattr open")),
            (3, allow(f"{absent}_t", own, "process", "sigchld")),
            (3, rule("dontaudit", own, f"{absent}_home_t", "dir", "getattr open search")),
            (3, allow(own, own, *self.numbers.one_of(LACKING))),
            (2, allow(own, "self", *self.numbers.one_of(ABSENT_CLASSES))),
            (2, f"(typetransition {own} {absent}_exec_t process {own})"),
            (2, f"(booleanif {absent}_can_network\n    (true\n        {allow(own, own, 'fd', 'use')}\n    )\n)"),
        ]
        text = self.numbers.one_of([text for weight, text in choice for _ in range(weight)])
        if before:
            self.lost.append(f"{before.module}_plugin{len(self.lost)}_t")
            before.texts.append(f"(type {self.lost[-1]})")
            text = f"(typeattributeset {NEEDED} {self.lost[-1]})"
        lines = text.split("\n")
        self.spoils.append((place, lines))
        for line in lines:
            keyword = line.split()[0][1:]
            self.counts["single" if keyword == "typeattributeset" else keyword] += 1
        self.counts["in branches"] += len(lines) > 1

    # ---- statements

    def so_many(self, what, total):
        """How many statements of a kind are still to be made, without those that were made elsewhere."""
        return max(0, total // self.scale - self.counts[what])

    def write(self, *lines, module=None):
        """Adds a statement to the top of a module, or to an optional. One that is out leaves it without effect."""
        if self.branch:
            return super().write(*lines, module=module)
        module = module or self.numbers.one_of(list(self.modules))
        is_inside = self.places[module] and self.numbers.below(10) < INSIDE
        place = self.numbers.one_of(self.places[module]) if is_inside else self.tops[module]
        place.texts += lines
        return place.state != "out"

    def declare(self, text):
        """Adds a statement that has to be in force to the top of some module."""
        self.tops[self.numbers.one_of(list(self.modules))].texts.append(text)

    def add_rules(self, _):
        """Adds booleans, neverallows, and rules of each kind. Of ten rules in branches one is a dontaudit."""
        self.booleans, self.kept = {}, {}
        self.add_booleans(max(self.so_many("boolean", BOOLEANS), 6))
        self.add_conditionals(max(self.so_many("booleanif", CONDITIONALS), 4), self.so_many("in branches", IN_BRANCHES))
        self.add_neverallows()
        self.add_excepted()
        for self.keyword, total in RULES.items():
            self.add_some(self.so_many(self.keyword, total))
            self.keep()

    def add_excepted(self):
        """Adds rules with what neverallows forbid, for the types that these do not name."""
        for types, name, permission in self.excepted:
            lists = [list_ for used, list_ in self.used if used == name]
            for number in range(max(EXCEPTED // self.scale, 1)):
                target = "self" if number % 4 == 0 else self.numbers.one_of(self.types)
                self.add_rule(None, self.numbers.one_of(types), target, name, f"{self.numbers.one_of(lists)} {permission}")

    def add_rule(self, module, source, target, name, list_):
        """Adds a rule of the kind of now to a module, and keeps what it gives, or that it is without effect."""
        keyword = "dontaudit" if self.branch and self.numbers.below(10) == 0 else self.keyword
        self.counts[keyword] += 1
        key = source, self.targets.get(target, target), f"{keyword} {name}"
        if self.write(rule(keyword, source, target, name, list_), module=module):
            self.allowed.setdefault(key, set()).update(list_.split())
        else:
            self.vain.append(key)

    def add_transitions(self):
        """Adds statements without effect on decisions: which types new objects and processes get, and the like."""
        for number in range(self.so_many("typetransition", TRANSITIONS)):
            module = self.numbers.one_of(list(self.modules))
            own, other = self.modules[module], self.numbers.one_of(self.types)
            source, made = own[self.numbers.below(len(DOMAINS))], self.numbers.one_of(own)
            if number % 3 == 0:
                text = f"(typetransition {other} {made} process {source})"
            else:
                name = f'"{module}.{number % 100}" ' * (number % 5 == 0)
                text = f"(typetransition {source} {other} {'dir' if number % 3 == 1 else 'file'} {name}{made})"
            self.write(text, module=module)
        for number in range(CHANGES // self.scale):
            own, other = self.numbers.one_of(list(self.modules.values())), self.numbers.one_of(self.types)
            self.write(f"({'typechange' if number % 3 else 'typemember'} {own[0]} {other} dir {self.numbers.one_of(own)})")
            if number % 10 == 0:
                self.write(f"(roletransition {self.numbers.one_of(ROLES)} {other} process {ROLES[0]})")
        for attribute in self.some(self.attributes, EXPANDED):
            self.write(f"(expandtypeattribute {attribute} {'true' if attribute in WIDE else 'false'})")

    def some(self, items, count):
        """So many of these in the whole policy, with repeats."""
        return [self.numbers.one_of(items) for _ in range(count // self.scale)]

    def add_contexts(self):
        """Adds contexts of files, which are outside optionals."""
        for number, module in enumerate(self.some(list(self.modules), CONTEXTS)):
            folder, end = FOLDERS[number % len(FOLDERS)]
            context = f"(system_u object_r {module}{end} ((s0) (s0)))"
            self.tops[module].texts.append(f'(filecon "{folder}/{module}{number // 100}(/.*)?" any {context})')

    # ---- what there is to write

    def texts(self):
        """The lines of each module."""
        return {module: top.lines() for module, top in self.tops.items()}

    def counted(self):
        """How many statements there are of each kind."""
        words = (line.split()[0] for lines in self.texts().values() for text in lines for line in text.split("\n"))
        return collections.Counter(word[1:] for word in words if word not in ("(true", "(false", ")"))

    # ---- queries

    def queries(self):
        """Queries with their replies, and between them requests that turn booleans. One in five each is on
        what a rule in a branch, a dontaudit, an auditallow, or a rule without effect says. Two in seven ask for one
        permission.
        """
        on = dict(self.booleans)
        everyone, held = set(self.types), self.has_type
        others = sorted(everyone - held)
        groups = [
            [key for key, rules in self.kept.items() if any(branch for _, branch in rules)],
            *([key for key in self.kept if key[2].startswith(keyword)] for keyword in ("dontaudit", "auditallow")),
            self.vain, list(self.kept),
        ]
        for number in range(distribution_attributes.QUERIES):
            if number % BETWEEN == 0:
                yield from self.turned(on)
            one, other, name = self.numbers.one_of(groups[number % len(groups)])
            source = self.some_of(one, held)
            target = source if other == "self" else self.some_of(other, everyone)
            name = name.split()[1]
            # Another role has no transitions without a statement roleallow, so none is asked for.
            name = name if name != "process" or target in held else "file"
            reply = self.reply(source, target, name, on)
            if number % 40 == 13:
                source, reply = self.numbers.one_of(others), "ERR 72 1"
            elif number % 40 == 33 and self.lost:
                target, name, reply = self.numbers.one_of(self.lost), "file", "ERR 72 2"
            role = ROLES[0] if name == "process" else "object_r"
            asked = f"system_u:system_r:{self.spelled(source)} system_u:{role}:{self.spelled(target)} {name}"
            if number % 7 < 5 or reply.startswith("ERR"):
                yield f"AV {asked}", reply
            else:
                allowed = reply.split()[1].split(",")
                either = allowed if number % 7 == 5 and allowed != ["-"] else self.lists[name].split()
                permission = self.numbers.one_of(either)
                yield f"CHECK {asked} {permission}", "OK yes" if permission in allowed else "OK no"

    def some_of(self, word, among):
        """A type of these that a word stands for, or any of them if it stands for none."""
        meant = {word} | self.members.get(word, set())
        return self.numbers.one_of(sorted(meant & among) or sorted(among))

    def spelled(self, type_):
        """A type by its name, or by an alias."""
        names = [alias for alias, target in self.targets.items() if target == type_]
        return self.numbers.one_of([type_, *names])

    def reply(self, source, target, name, on):
        """The reply to AV for two types and a class, while booleans have these values."""
        allowed, audited, quiet = (self.permissions(source, target, f"{keyword} {name}", on)
                                   for keyword in ("allow", "auditallow", "dontaudit"))
        shown = set(self.lists[name].split()) - quiet
        return "OK " + " ".join(",".join(sorted(each)) or "-" for each in (allowed, audited, shown))
