"""The form of distribution.py with booleans: the policy with attributes, with some of its rules in branches of booleanifs,
and with neverallows that nothing violates. What a rule allows is known here for any values of the booleans.
"""
import distribution_attributes
from distribution_words import DOMAINS, NAMES, allow

BOOLEANS, CONDITIONALS, IN_BRANCHES, NEVERALLOWS = 312, 1429, 20_000, 30
SWITCHES = "can_network use_nfs read_home exec_content send_mail anon_write".split()

# So many queries are asked between two times that booleans are turned, and so many are turned each time.
BETWEEN, TURNED = 20, 8


class Policy(distribution_attributes.Policy):
    """The policy, or an N-th of it for a scale of N."""

    def add_rules(self, count):
        """Adds rules, some of them in branches. Each rule is kept with its branch: a condition and a value, or nothing."""
        self.booleans, self.branch, self.kept = {}, None, {}
        inside = IN_BRANCHES // self.scale
        self.add_some(count - inside)
        self.keep()
        self.add_booleans(max(BOOLEANS // self.scale, 6))
        self.add_conditionals(max(CONDITIONALS // self.scale, 4), inside)
        self.add_neverallows()

    def keep(self):
        """Takes what the rules allow that were made last, as rules of the branch."""
        for key, permissions in self.allowed.items():
            self.kept.setdefault(key, []).append((permissions, self.branch))
        self.allowed = {}

    # ---- booleans

    def add_booleans(self, count):
        for number in range(count):
            name = f"{NAMES[number % len(NAMES)]}_{SWITCHES[number // len(NAMES) % len(SWITCHES)]}"
            self.booleans[name] = self.numbers.below(3) == 0
            self.declare(f"(boolean {name} {str(self.booleans[name]).lower()})")

    def condition(self):
        """A condition as it is written, and its value for the values of booleans. Of seven six are one boolean."""
        first, second = (self.numbers.one_of(list(self.booleans)) for _ in range(2))
        kind = self.numbers.below(42)
        if kind < 36:
            return first, lambda on: on[first]
        return [
            (f"(not {first})", lambda on: not on[first]),
            (f"(and {first} {second})", lambda on: on[first] and on[second]),
            (f"(or {first} (not {second}))", lambda on: on[first] or not on[second]),
            (f"(xor {first} {second})", lambda on: on[first] != on[second]),
            (f"(eq ({first}) {second})", lambda on: on[first] == on[second]),
            (f"(neq (not {first}) {second})", lambda on: on[first] == on[second]),
        ][kind - 36]

    def add_conditionals(self, count, rules):
        """Adds booleanifs. One in four has both branches, and one in eight only that of false."""
        modules = self.lines
        for number in range(count):
            written, value_of = self.condition()
            kind, made = number % 8, rules // count + (number < rules % count)
            values = [True, False] if kind < 2 else [kind < 7]
            branches, kept, self.kept = [], self.kept, {}
            for value in values:
                self.branch, self.lines = (value_of, value), {module: [] for module in modules}
                self.add_some(made // len(values) + (value == values[0]) * (made % len(values)))
                self.keep()
                inside = [line for lines in self.lines.values() for line in lines]
                branches += [f"    ({str(value).lower()}", *(f"        {line}" for line in inside), "    )"]
            self.branch, self.lines, rules_here, self.kept = None, modules, self.kept, kept
            if self.write(f"(booleanif {written}", *branches, ")"):
                for key, more in rules_here.items():
                    self.kept.setdefault(key, []).extend(more)

    # ---- neverallows

    def add_neverallows(self):
        """Adds neverallows over nearly all types, of permissions that no rule has though it is on their class."""
        # For each of them the types that it does not name, its class and its permission.
        self.excepted, given = [], {}
        for name, list_ in self.used:
            given.setdefault(name, set()).update(list_.split())
        unused = [(name, permission) for name, permissions in given.items()
                  for permission in sorted(set(self.lists[name].split()) - permissions)]
        for number in range(NEVERALLOWS):
            excepted = [self.numbers.one_of(self.types) for _ in range(1 + self.numbers.below(12))]
            own = list(self.modules.values())[number % len(self.modules)]
            self.declare(f"(typeattribute never_{number})")
            self.declare(f"(typeattributeset never_{number} (not ({' '.join(excepted)} {own[number % len(DOMAINS)]})))")
            name, permission = unused[number * len(unused) // NEVERALLOWS]
            self.excepted.append((excepted + [own[number % len(DOMAINS)]], name, permission))
            target = "self" if number % 10 == 9 else f"never_{self.numbers.below(number + 1)}"
            self.declare(allow(f"never_{number}", target, name, permission).replace("(allow", "(neverallow"))

    # ---- queries

    def queries(self):
        """Queries with their replies, and between them requests that turn booleans."""
        on = dict(self.booleans)
        sources, aliases = sorted(self.has_type), list(self.targets)
        keys = [key for key, rules in self.kept.items() if any(branch for _, branch in rules)]
        for number in range(distribution_attributes.QUERIES):
            if number % BETWEEN == 0:
                yield from self.turned(on)
            source = self.numbers.one_of(sources)
            written = self.numbers.one_of(aliases if number % 2 else self.types)
            target, (name, _) = self.targets.get(written, written), self.numbers.one_of(self.used)
            if number % 4 == 0:
                written = target = source
            elif number % 4 > 1:
                # A rule in some branch is about these.
                one, other, name = self.numbers.one_of(keys)
                source = one if one in self.has_type else source
                written = target = source if other == "self" else other if other in self.types else target
            yield f"AV system_u:system_r:{source} system_u:object_r:{written} {name}", self.reply(source, target, name, on)

    def turned(self, on):
        """Requests that turn booleans, whose values these are."""
        for _ in range(TURNED):
            name = self.numbers.one_of(list(on))
            on[name] = self.numbers.below(2) == 0
            yield f"SET {name} {str(on[name]).lower()}", "OK"

    def permissions(self, source, target, name, on):
        """What the rules in force give one type on another."""
        given = set()
        for one in self.names_of(source):
            for other in self.names_of(target) + ["self"] * (source == target):
                for permissions, branch in self.kept.get((one, other, name), ()):
                    if not branch or branch[0](on) == branch[1]:
                        given |= permissions
        return given

    def reply(self, source, target, name, on):
        allowed = self.permissions(source, target, name, on)
        return f"OK {','.join(sorted(allowed)) or '-'} - {','.join(sorted(self.lists[name].split()))}"
