"""The form of distribution.py with attributes: types, aliases, attributes, and rules over them, as many as in a whole
distribution's policy. There are no blocks and no optionals, so what each word stands for is known here, and with it what
is allowed.

Modules of distributions say of each name that they need, in a statement of its own, that it is in an attribute which
nothing else names. Most statements that give an attribute a member are of this kind.
"""
from distribution_words import DOMAINS, NAMES, OBJECTS, ROLES, USED, Numbers, allow, base, classes

TYPES, ALIASES, ATTRIBUTES, RULES, ROLETYPES = 4098, 284, 338, 175_718, 6799
SINGLE, LISTS, OPERATORS, NEEDED_ROLES = 51_427, 8245, 27, 2435
LONGEST, QUERIES = 457, 2000

# The attribute of what modules need, and attributes that very many types have.
NEEDED = "cil_gen_require"
WIDE = ("domain file_type non_security_file_type exec_type pidfile logfile lockfile tmpfile tmpfsfile configfile port_type "
        "client_packet_type server_packet_type daemon corenet_unlabeled_type mountpoint polymember home_type spoolfile").split()


class Policy:
    """The policy, or an N-th of it for a scale of N."""

    def __init__(self, scale=1):
        self.numbers, self.scale, self.lists = Numbers(3), scale, classes()
        self.used = [(name, list_) for weight, name, lists in USED for list_ in lists
                     for _ in range(weight * 6 // len(lists))]
        self.start()
        # The members of each attribute. Those that operators make are made last, of others that are whole by then.
        self.members = {NEEDED: set()}
        self.add_attributes(max(self.so_many("typeattribute", ATTRIBUTES), len(WIDE) + 40))
        self.targets = {}
        self.add_aliases(self.so_many("typealias", ALIASES))
        self.add_roles()
        self.allowed = {}
        self.add_rules(RULES // scale)

    def start(self):
        """Makes the modules, with their types."""
        self.modules, self.types = self.some_types(max(len(NAMES) // self.scale, 8), TYPES // self.scale)
        self.lines = {"base": base(self.lists), **{module: [] for module in self.modules}}
        for module, own in self.modules.items():
            self.lines[module] += [f"(type {type_})" for type_ in own]

    def some_types(self, modules, count):
        """The types of each module, its domains first, and all types."""
        suffixes, types = DOMAINS + OBJECTS, {}
        for number, name in enumerate(NAMES[:modules]):
            own = count // modules + (number < count % modules)
            types[name] = [name + suffix for suffix in suffixes][:own]
            types[name] += [f"{name}_file{extra}_t" for extra in range(own - len(suffixes))]
        return types, [type_ for own in types.values() for type_ in own]

    def write(self, *lines, module=None):
        """Adds a statement to a module, else to some module. Returns whether it is in force."""
        self.lines[module or self.numbers.one_of(list(self.modules))] += lines
        return True

    def declare(self, text):
        """Adds a statement that has to be in force to some module."""
        self.write(text)

    def so_many(self, what, total):
        """How many statements of a kind are still to be made, of so many in the whole policy."""
        return total // self.scale

    # ---- sets

    def add_attributes(self, count):
        """Declares attributes, and gives them their members: single ones, lists, and by operators."""
        narrow = [f"{NAMES[number % len(NAMES)]}_attribute{number // len(NAMES) or ''}" for number in range(count - len(WIDE) - 1)]
        derived = narrow[:OPERATORS]
        plain = WIDE + narrow[OPERATORS:]
        for name in [NEEDED] + WIDE + narrow:
            self.lines["base"].append(f"(typeattribute {name})")
            self.members[name] = set()
        for _ in range(self.so_many("single", SINGLE)):
            kind = self.numbers.below(10)
            attribute = NEEDED if kind < 8 else self.numbers.one_of(WIDE if kind == 8 else plain)
            type_ = self.numbers.one_of(self.types)
            if self.write(f"(typeattributeset {attribute} {'(' * (kind % 2)}{type_}{')' * (kind % 2)})"):
                self.members[attribute].add(type_)
        for number in range(self.so_many("list", LISTS)):
            attribute = NEEDED if number % 2 else self.numbers.one_of(plain)
            length = LONGEST if number == 0 else 2 + self.numbers.below(14)
            types = [self.numbers.one_of(self.types) for _ in range(length)]
            if self.write(f"(typeattributeset {attribute} ({' '.join(types)}))"):
                self.members[attribute].update(types)
        for number, attribute in enumerate(derived):
            first, second = self.numbers.one_of(WIDE), self.numbers.one_of(plain)
            both = [("and {0} (not ({1}))", self.members[first] - self.members[second]),
                    ("and ({0}) ({1})", self.members[first] & self.members[second]),
                    ("xor ({0}) {1}", self.members[first] ^ self.members[second]),
                    ("not ({0})", set(self.types) - self.members[first])][number % 4]
            if self.write(f"(typeattributeset {attribute} ({both[0].format(first, second)}))"):
                self.members[attribute] = set(both[1])
        self.attributes = WIDE + narrow

    def add_aliases(self, count):
        """Declares aliases of types. Each eighth is one of another alias."""
        for number in range(count):
            alias, type_ = f"{NAMES[number % len(NAMES)]}_old{number // len(NAMES) or ''}_t", self.numbers.one_of(self.types)
            target = type_
            if number % 8 == 7:
                target = self.numbers.one_of(list(self.targets))
                type_ = self.targets[target]
            self.targets[alias] = type_
            self.declare(f"(typealias {alias})")
            self.declare(f"(typealiasactual {alias} {target})")

    def add_roles(self):
        """Gives each role its types, one by one and by attributes."""
        self.lines["base"] += [f"(roleattribute {NEEDED})", "(roleattribute plain_roles)"]
        self.lines["base"].append(f"(roleattributeset plain_roles ({' '.join(ROLES[1:4])}))")
        for _ in range(self.so_many("roleattributeset", NEEDED_ROLES)):
            self.write(f"(roleattributeset {NEEDED} {self.numbers.one_of(ROLES)})")
        self.lines["base"].append("(roletype system_r domain)")
        self.has_type = set(self.members["domain"])
        domains = [own[number] for own in self.modules.values() for number in range(len(DOMAINS))]
        for number in range(self.so_many("roletype", ROLETYPES) - 1):
            role = "plain_roles" if number % 5 == 0 else ROLES[number // len(domains) % len(ROLES)]
            type_ = domains[number % len(domains)]
            if self.write(f"(roletype {role} {type_})") and role == "system_r":
                self.has_type.add(type_)

    # ---- rules

    def add_rules(self, count):
        self.add_some(count)

    def add_some(self, count):
        """Adds rules: of seven sources one is an attribute, and of five targets one, or an alias, or the source itself."""
        while count:
            module = self.numbers.one_of(list(self.modules))
            own = self.modules[module]
            source = self.numbers.one_of(self.attributes) if self.numbers.below(7) == 0 else own[self.numbers.below(len(DOMAINS))]
            kind = self.numbers.below(50)
            if kind < 9:
                target = self.numbers.one_of(self.attributes)
            elif kind < 14:
                target = "self"
            elif kind < 15:
                target = self.numbers.one_of(list(self.targets))
            else:
                target = self.numbers.one_of(own if kind < 30 else self.types)
            name, list_ = self.numbers.one_of(self.used)
            self.add_rule(module, source, target, name, list_)
            count -= 1

    def add_rule(self, module, source, target, name, list_):
        """Adds a rule to a module, and keeps what it allows."""
        if self.write(allow(source, target, name, list_), module=module):
            key = source, self.targets.get(target, target), name
            self.allowed.setdefault(key, set()).update(list_.split())

    # ---- what there is to write

    def texts(self):
        """The lines of each module."""
        return self.lines

    def names_of(self, type_):
        """What stands for a type: itself, and the attributes that have it."""
        return [type_] + [name for name in self.attributes if type_ in self.members[name]]

    def queries(self):
        """Queries with their replies. The source is a domain of system_r, half of the targets are written by an alias."""
        sources = sorted(self.has_type)
        aliases = list(self.targets)
        for number in range(QUERIES):
            source = self.numbers.one_of(sources)
            written = self.numbers.one_of(aliases if number % 2 else self.types)
            target, (name, _) = self.targets.get(written, written), self.numbers.one_of(self.used)
            if number % 4 == 0:
                written = target = source
            first, second = self.names_of(source), self.names_of(target)
            allowed = set()
            for one in first:
                for other in second + ["self"] * (source == target):
                    allowed |= self.allowed.get((one, other, name), set())
            reply = f"OK {','.join(sorted(allowed)) or '-'} - {','.join(sorted(self.lists[name].split()))}"
            yield f"AV system_u:system_r:{source} system_u:object_r:{written} {name}", reply
