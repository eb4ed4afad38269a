#!/usr/bin/env python3
"""Asks SELinux itself of random policies with levels: which contexts are valid, and what constraints on levels leave.

usage: model/sepol_levels.py [COUNT [FIRST]]      COUNT policies (200), beginning with that of a number (0)

Each policy has orders in pieces, aliases, sets of categories, levels and ranges by name and by list, blocks, macros with arguments
of these kinds, optionals that are in and out, and constraints; and nothing of what secilc and the rules are known to read
otherwise. The model has to accept what secilc accepts. A query that is no context for one has to be none for the other. What
differs is printed. Then a fault is put into each policy: secilc has to refuse it, and the model to have that fault. In the end it
is printed how many replies and faults were compared. Status: 0, or 1 if one differs.

It wants Debian's packages secilc, libsepol-dev and gcc.
"""
import pathlib
import random
import sys
import tempfile

sys.dont_write_bytecode = True

import model
import sepol
from level_texts import range_text
from texts import read

PAIRS = ["l1 l2", "l1 h2", "h1 l2", "h1 h2", "l1 h1", "l2 h2"]
PERMISSIONS = [f"p{i}" for i in range(12)]


class Made:
    """A policy that is being made up."""

    def __init__(self, rng):
        self.rng = rng
        self.sensitivities = [f"s{i}" for i in range(rng.choice([1, 2, 3, 3, 4]))]
        self.categories = [f"c{i}" for i in range(rng.choice([1, 2, 4, 5, 8]))]
        self.statements, self.sets, self.levels, self.ranges, self.macros = [], [], [], [], 0
        self.aliases = {}
        self.permitted = {each: set() for each in self.sensitivities}
        self.add_orders("sensitivity", self.sensitivities)
        self.add_orders("category", self.categories)
        self.add_permitted()
        self.add_sets()
        self.add_levels()
        self.add_users()
        self.add_constraints()

    def say(self, statement):
        """A statement in the open, in a block or, where nothing rests on it there, in an optional."""
        self.statements.append(statement)

    def often(self, chance):
        return self.rng.random() < chance

    # ---- orders

    def add_orders(self, kind, names):
        for each in names:
            self.say(f"({kind} {each})")
        self.aliases[kind] = {}
        for at in range(self.rng.choice([0, 1, 2])):
            alias, target = f"{kind[0]}a{at}", self.rng.choice([*names, *self.aliases[kind]])
            self.aliases[kind][alias] = target
            self.say(f"({kind}alias {alias})")
            self.say(f"({kind}aliasactual {alias} {target})")
        self.rng.shuffle(names)
        cuts = sorted(self.rng.sample(range(1, len(names)), min(len(names) - 1, self.rng.choice([0, 0, 1, 2]))))
        for first, last in zip([0, *cuts], [*cuts, len(names)]):
            row = names[first:last + 1]
            self.say(f"({kind}order ({' '.join(self.named(kind, each) for each in row)}))")

    def named(self, kind, name):
        """The name, or an alias of it."""
        alike = [alias for alias in self.aliases[kind] if self.meant(kind, alias) == name]
        return self.rng.choice(alike) if alike and self.often(0.3) else name

    def meant(self, kind, word):
        while word in self.aliases[kind]:
            word = self.aliases[kind][word]
        return word

    # ---- sets of categories: an expression, and what it has

    def expression(self, of, depth=2):
        """An expression over some categories, and what it has."""
        form = self.rng.randrange(7) if depth and of else 0
        if form == 1:
            (one, first), (other, second) = self.expression(of, depth - 1), self.expression(of, depth - 1)
            operator = self.rng.choice(["and", "or", "xor"])
            return f"({operator} {one} {other})", {"and": first & second, "or": first | second, "xor": first ^ second}[operator]
        if form == 2 and len(of) == len(self.categories):
            inner, held = self.expression(of, depth - 1)
            return f"(not {inner})", set(self.categories) - held
        if form == 3:
            places = sorted(self.categories.index(each) for each in of)
            first = self.rng.choice(places)
            last = first
            while last + 1 in places and self.often(0.7):
                last += 1
            names = [self.named("category", self.categories[each]) for each in (first, last)]
            return f"((range {' '.join(names)}))", set(self.categories[first:last + 1])
        if form == 4 and len(of) == len(self.categories):
            return "(all)", set(self.categories)
        known = [(name, held) for name, held in self.sets if held <= of]
        if form == 5 and known:
            name, held = self.rng.choice(known)
            return f"({name})", held
        some = self.rng.sample(sorted(of), self.rng.randrange(1, len(of) + 1)) if of else []
        if not some:
            return self.nothing(), set()
        return f"({' '.join(self.named('category', each) for each in some)})", set(some)

    def nothing(self):
        name = self.categories[0]
        return f"(and ({name}) (not ({name})))"

    def add_sets(self):
        for at in range(self.rng.choice([0, 1, 2])):
            text, held = self.expression(set(self.categories))
            self.say(f"(categoryset cs{at} {text})")
            self.sets.append((f"cs{at}", held))

    def add_permitted(self):
        for each in self.sensitivities:
            for _ in range(self.rng.choice([1, 1, 2])):
                text, held = self.expression(set(self.categories))
                self.permitted[each] |= held
                self.say(f"(sensitivitycategory {self.named('sensitivity', each)} {text})")

    # ---- levels and ranges: a text, and what it means

    def level(self, sensitivity, least, most):
        """A list of a sensitivity with categories between two sets."""
        held = set(least) | {each for each in sorted(most) if self.often(self.rng.choice([0.2, 0.6]))}
        if self.often(0.25):
            held = set(most)
        name = self.named("sensitivity", sensitivity)
        return (f"({name} {self.set_of(held)})" if held else f"({name})"), (sensitivity, held)

    def set_of(self, held):
        """An expression that has these categories, of which there are some."""
        for _ in range(6):
            text, found = self.expression(held)
            if found == held:
                return text
        return f"({' '.join(sorted(held))})"

    def range(self):
        """A range: by its name, or as a list."""
        return self.rng.choice(self.ranges) if self.ranges and self.often(0.25) else self.range_list()

    def range_list(self):
        """Two levels of which the second dominates the first."""
        places = sorted(self.rng.choices(range(len(self.sensitivities)), k=2))
        low_name, high_name = (self.sensitivities[each] for each in places)
        low_text, low = self.level(low_name, (), self.permitted[low_name] & self.permitted[high_name])
        high_text, high = self.level(high_name, low[1], self.permitted[high_name])
        fitting = [each for each in self.levels if each[1] == low]
        if self.levels and self.often(0.3):
            low_text, low = self.rng.choice(fitting or self.levels)
            if not self.dominates(high, low):
                high_text, high = low_text, low
        return f"({low_text} {high_text})", (low, high)

    def dominates(self, one, other):
        return self.sensitivities.index(one[0]) >= self.sensitivities.index(other[0]) and one[1] >= other[1]

    def add_levels(self):
        for at in range(self.rng.choice([0, 1, 2, 3])):
            sensitivity = self.rng.choice(self.sensitivities)
            text, meant = self.level(sensitivity, (), self.permitted[sensitivity])
            name = f"lv{at}"
            if self.often(0.3):
                self.say(f"(block b{at} (level {name} {text}))")
                name = f"b{at}.{name}"
            else:
                self.say(f"(level {name} {text})")
            self.levels.append((name, meant))
        for at in range(self.rng.choice([0, 1, 2])):
            text, meant = self.range_list()
            self.say(f"(levelrange lr{at} {text})")
            self.ranges.append((f"lr{at}", meant))

    # ---- users

    def add_users(self):
        for user in ["u", "v", "w"]:
            self.say(f"(user {user})(userrole {user} r)")
            text, (low, high) = self.range()
            self.give_range(user, text)
            level_text, _ = self.level(low[0], low[1], low[1])
            if self.often(0.5):
                self.say(f"(userlevel {user} {level_text})")
            if self.often(0.2):
                self.say(f"(optional out (userrange {user} {self.range_list()[0]})(roletype nobody a))")

    def give_range(self, user, text):
        """By itself, in an optional, or by a call that has the range, its levels, or a sensitivity and categories."""
        form = self.rng.randrange(6)
        self.macros += 1
        name = f"m{self.macros}"
        if form == 0:
            self.say(f"(optional in{self.macros} (userrange {user} {text}))")
        elif form == 1:
            self.say(f"(macro {name} ((user x)(levelrange y)) (userrange x y))(call {name} ({user} {text}))")
        elif form == 2 and text.startswith("(("):
            self.say(f"(macro {name} ((levelrange y)) (userrange {user} y))(block k{name} (call {name} ({text})))")
        elif form == 3:
            sensitivity = self.rng.choice(self.sensitivities)
            categories, _ = self.expression(self.permitted[sensitivity])
            self.say(f"(macro {name} ((sensitivity s)(categoryset c)) (userrange {user} ((s) (s c))))")
            self.say(f"(call {name} ({self.named('sensitivity', sensitivity)} {categories}))")
        elif form == 4:
            sensitivity = self.rng.choice(self.sensitivities)
            level, _ = self.level(sensitivity, (), self.permitted[sensitivity])
            self.say(f"(macro {name} ((level l)) (userrange {user} (l l)))(call {name} ({level}))")
        else:
            self.say(f"(userrange {user} {text})")

    # ---- constraints

    def asked(self, depth=2):
        form = self.rng.randrange(5) if depth else 4
        if form == 0:
            return f"(not {self.asked(depth - 1)})"
        if form == 1:
            return f"({self.rng.choice(['and', 'or'])} {self.asked(depth - 1)} {self.asked(depth - 1)})"
        if self.often(0.25):
            return self.rng.choice(["(eq t1 a)", "(neq t2 (a b))", "(eq u1 u2)", "(eq r2 object_r)", "(neq t1 t2)", "(eq u1 v)"])
        return f"({self.rng.choice(['eq', 'neq', 'dom', 'domby', 'incomp'])} {self.rng.choice(PAIRS)})"

    def add_constraints(self):
        for _ in range(self.rng.choice([2, 4, 6, 8])):
            some = self.rng.sample(PERMISSIONS, self.rng.choice([1, 2, 4]))
            made = f"(mlsconstrain (file ({' '.join(some)})) {self.asked()})"
            if self.often(0.15):
                made = f"(optional out {made}(roletype nobody a))"
            elif self.often(0.15):
                made = f"(optional in {made})"
            self.say(made)

    # ---- what is wrong

    def wrong(self):
        """Statements that neither accepts, each with the code that the model has for it."""
        low, high, first, last = self.sensitivities[0], self.sensitivities[-1], self.categories[0], self.categories[-1]
        found = [
            (57, "(sensitivity free)"), (58, "(category free)"), (51, "(sensitivityalias free)"), (51, "(categoryalias free)"),
            (54, "(categoryset bad bad)"), (54, f"(categoryset bad (not (worse)))(categoryset worse (or bad {first}))"),
            (53, "(categoryalias free)(categoryaliasactual free free)"), (41, f"(level bad ({low} (nobody)))"),
            (24, "(macro bad () (sensitivity free))"), (41, f"(userrange u (nobody ({low})))"), (59, "(mls false)"),
        ]
        if low != high:
            found += [
                (62, f"(levelrange bad (({high}) ({low})))"), (57, f"(sensitivityorder ({high} {low}))"),
                (62, f"(user bad)(userrole bad r)(userrange bad (({high}) ({low})))"),
                (52, f"(sensitivityalias bad)(sensitivityaliasactual bad {low})(sensitivityaliasactual bad {high})"),
            ]
        if first != last:
            found += [(62, f"(categoryset bad (range {last} {first}))"), (58, f"(categoryorder ({last} {first}))")]
        for sensitivity in self.sensitivities:
            for category in sorted(set(self.categories) - self.permitted[sensitivity])[:1]:
                found += [
                    (61, f"(user bad)(userrole bad r)(userrange bad (({sensitivity}) ({sensitivity} ({category}))))"),
                    (61, f"(levelrange bad (({sensitivity}) ({sensitivity} ({category}))))"),
                ]
            for category in sorted(self.permitted[sensitivity])[:1]:
                found.append((62, f"(levelrange bad (({sensitivity} ({category})) ({sensitivity})))"))
        return found

    def texts(self):
        """The policy as one module or two."""
        base = (
            f"(mls true)(class file ({' '.join(PERMISSIONS)}))(role r)(type a)(type b)(roletype r a)(roletype r b)"
            f"(allow a b (file (all)))(allow b a (file (all)))(allow a a (file (all)))"
        )
        self.rng.shuffle(self.statements)
        cut = self.rng.choice([0, 0, len(self.statements) // 2])
        parts = [[base, *self.statements[:cut]], self.statements[cut:]]
        return [" ".join(part).encode() for part in parts]


def queries_of(rng, policy, count=30):
    """Queries of contexts with levels, most of them valid, as the words of AV and nothing yet."""
    made = []
    for _ in range(count):
        contexts = []
        for _ in range(2):
            user, role = rng.choice([b"u", b"v", b"w"]), rng.choice([b"r", b"r", b"object_r"])
            text = range_text(rng, policy, user, role)
            contexts.append(b":".join([user, role, rng.choice([b"a", b"b"]), text]))
        if not any(is_read_otherwise(policy, each) for each in contexts):
            made.append([b"AV", *contexts, b"file"])
    return made


def is_read_otherwise(policy, context):
    """Whether a context has a range of categories from one to itself, by whatever names, which libsepol refuses; or a second
    hyphen, which it may pass over with what is behind it.
    """
    named = policy.levels.written_categories
    if context.count(b"-") > 1:
        return True
    items = [item for level in context.split(b":", 3)[3].split(b"-") for item in level.partition(b":")[2].split(b",")]
    return any(named.get(item.partition(b".")[0]) == named.get(item.partition(b".")[2]) for item in items if b"." in item)


def main():
    count, first = (int(word) for word in [*sys.argv[1:], *["200", "0"][len(sys.argv) - 1:]])
    compared = wrong = refused = faulty = 0
    with tempfile.TemporaryDirectory() as name:
        folder = pathlib.Path(name)
        program = sepol.built(folder)
        for number in range(first, first + count):
            rng = random.Random(f"levels for libsepol {number}")
            draft = Made(rng)
            texts = draft.texts()
            host = model.Host()
            host.modules = {text: read(text) for text in texts}
            loaded, policy = host.load(), host.policy
            if not policy:
                wrong += 1
                print(f"policy {number}: the model refuses it: {b' '.join(loaded.split()).decode()}")
                continue
            made, said = sepol.compiled(folder, texts, policy)
            queries = [(words, b"") for words in queries_of(rng, policy)]
            answered = made and sepol.replies(program, made, queries)
            if not answered:
                refused += 1
                print(f"policy {number}: secilc: {' '.join(said.split()) or 'libsepol refuses it'}")
                continue
            for (words, _), got in zip(queries, answered):
                want = policy.query(*words[1:], {})
                compared += 1
                if got != (b"none" if want.startswith(b"ERR") else want):
                    wrong += 1
                    print(f"policy {number}: {b' '.join(words).decode()}: the model has {want.decode()}, libsepol {got.decode()}")
            code, statement = rng.choice(draft.wrong())
            more = [*texts, statement.encode()]
            host.modules[more[-1]] = read(more[-1])
            loaded, (made, _) = host.load().split(), sepol.compiled(folder, more, policy)
            faulty += 1
            if made or b"%d" % code not in loaded[2::5]:
                wrong += 1
                print(f"policy {number}: {statement}: the model has {b' '.join(loaded).decode()}, secilc {'OK' if made else 'refuses'}")
    print(f"{compared} replies compared, and {faulty} policies with a fault; {wrong} differ; {refused} policies are refused by secilc"
          " or libsepol")
    return min(wrong, 1)


if __name__ == "__main__":
    sys.exit(main())
