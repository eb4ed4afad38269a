"""The form of distribution.py with optionals: a policy of the shape of a whole distribution's.

Each optional is made so that it is in or so that it is out. One is out where it has a name that nothing declares, or
that only optionals declare which are out, or where it is inside one that is out. What an optional declares that is in
may be named anywhere. So it is known which are out, and what is allowed.
"""
from distribution_draft import HIDDEN, Draft, Place, Type
from distribution_words import allow

MODULES, STATEMENTS, OPTIONALS, OUT = 330, 300_000, 10_000, 1500

# Chains of optionals in one another: how deep, how many, and from which depth on the last of every so many is out.
CHAINS = ((60, 2, 41, 2), (10, 40, 6, 4))

# What no module declares: names like those of modules; for each class that is here, a permission of the list; classes.
ABSENT = ("amtu apache chronyd dnssec dovecot fail2ban ganesha hadoop inn jenkins kerberos munin nagios openvpn puppet "
          "rabbitmq samba sendmail squid tomcat varnish zoneminder").split()
LACKING = (("file", "getattr name_connect open"), ("dir", "entrypoint search"), ("fd", "inherit use"),
           ("io_uring", "allowed cmd"), ("process", "getattr setpriority signal"), ("capability2", "bpf sys_time"))
ABSENT_CLASSES = (("memfd_file", "execute getattr map read"), ("user_keyring", "search view"))

# Classes with and without the permission open.
OPENED, CLOSED = "file dir chr_file fifo_file sock_file".split(), "fd process dbus tcp_socket".split()

# How often a statement that spoils an optional is of a kind, and how often optionals are made in a way.
SPOILS = ((12, "target"), (4, "source"), (8, "permission"), (4, "argument"), (3, "class"), (3, "macro"), (2, "role"),
          (1, "user"))
WAYS = {
    "out": ((90, "one"), (24, "family"), (8, "nested"), (12, "names"), (8, "shared"), (4, "logs"), (8, "opens"),
            (6, "own_file"), (6, "inherit"), (5, "private"), (5, "hide")),
    "in": ((240, "one"), (30, "family"), (8, "nested"), (12, "names"), (8, "shared"), (12, "logs"), (10, "opens"),
           (6, "own_file"), (4, "inherit"), (3, "private"), (3, "hide")),
}


def bag(weighted):
    return [each for weight, each in weighted for _ in range(weight)]


class Policy(Draft):
    """The policy, or an N-th of it for a scale of N."""

    def __init__(self, scale=1):
        super().__init__(max(3, MODULES // scale))
        assert not set(ABSENT) & set(self.tops) and not {name for name, _ in ABSENT_CLASSES} & set(self.lists)
        assert not any(set(list_.split()) <= set(self.lists[name].split()) for name, list_ in LACKING)
        assert all("open" in self.lists[name].split() for name in OPENED)
        assert not any("open" in self.lists[name].split() for name in CLOSED)
        # The lines of OPTIONALS, without the numbers of modules and places.
        self.told, self.numbered, self.once = [], {}, set()
        self.scale, self.spoils = scale, bag(SPOILS)
        for depth, count, last, every in CHAINS:
            for number in range(max(1, count // scale)):
                self.chain(depth, last if number % every == every - 1 else depth + 1)
        self.add_optionals("out", OUT // scale)
        self.add_optionals("in", (OPTIONALS - OUT) // scale)
        self.add_rules(STATEMENTS // scale)

    def add_optionals(self, state, count):
        """Makes optionals until so many are in or out. A way makes one at least, and no more than it may."""
        ways = bag(WAYS[state])
        while self.counts[state] < count:
            getattr(self, self.numbers.one_of(ways))(state, count - self.counts[state])
        assert self.counts[state] == count

    def add_rules(self, count):
        """Adds rules outside optionals, until there are so many statements."""
        while self.counts["statements"] < count:
            for module in self.domains:
                if self.counts["statements"] < count:
                    place = self.numbers.one_of(self.places[module])
                    self.fill(place, 1, may_call=self.counts["statements"] < count - 1)
        assert self.counts["statements"] == count

    # ---- optionals

    def tell(self, place, label, state):
        """Keeps that an optional is in or out. That it is a statement is counted elsewhere."""
        self.told.append(f"{place.space or '.'} {label} {state}")
        self.counts[state] += 1

    def optional(self, parent, state):
        """An optional without statements. It is out where its parent is."""
        number = self.numbered[parent.module] = self.numbered.get(parent.module, 0) + 1
        label = f"{parent.module}_optional_{number}"
        state = "out" if parent.state == "out" else state
        made = Place(parent.module, parent.space, state, f"optional {label}")
        parent.inner.append(made)
        self.counts["statements"] += 1
        self.tell(made, label, state)
        return made

    def spoil(self, place):
        """Adds, among the statements of an optional, one with a word that names nothing."""
        source, absent = self.domain(place).spelled(place.space), self.numbers.one_of(ABSENT)
        kind, words, statements = self.numbers.one_of(self.spoils), 3, 1
        if kind == "target":
            target = absent + self.numbers.one_of(("_t", "_log_t", "_var_run_t"))
            text = allow(source, target, "file", "getattr open read")
        elif kind == "source":
            text = allow(absent + "_t", source, "process", "sigchld")
        elif kind == "permission":
            text = allow(source, source, *self.numbers.one_of(LACKING))
        elif kind == "argument":
            # The rule that the macro makes has a permission that the class lacks.
            text = f"(call lib.{self.library.of_list['search']} ({source} {source} {self.numbers.one_of(CLOSED)}))"
            words, statements = 7, 2
        elif kind == "class":
            text = allow(source, source, *self.numbers.one_of(ABSENT_CLASSES))
        elif kind == "macro":
            text, words = f"(call {absent}.read_log ({source}))", 1
        elif kind == "role":
            text, words = f"(roletype {absent}_r {source})", 2
        else:
            text, words = f"(userrole {absent}_u system_r)", 2
        self.write(place, text, words, statements)
        place.texts.insert(self.numbers.below(len(place.texts)), place.texts.pop())

    def filled(self, parent, state, most=6):
        """An optional with rules, spoiled where it is out and its parent is not."""
        made = self.optional(parent, state)
        self.fill(made, 2 + self.numbers.below(most - 1))
        if made.state == "out" and parent.state != "out":
            self.spoil(made)
        return made

    def declare(self, place, type_):
        """Adds a type to an optional, with what a domain has. One in five has a role of its own."""
        self.write(place, f"(type {type_.name})")
        self.write(place, f"(roletype system_r {type_.name})", words=2)
        if self.numbers.below(5) == 0:
            role = type_.name[:-1] + "r"
            self.write(place, f"(role {role})")
            self.write(place, f"(userrole root {role})", words=2)
            self.write(place, f"(roletype {role} {type_.name})", words=2)
        self.add_rule(place, type_, self.domain(place), *self.numbers.one_of(self.used))
        self.keep_type(type_, place.state)

    def plugin(self, module, space):
        """A type with a name that no other has."""
        self.counts["plugins"] += 1
        return Type(space, f"{module}_plugin{self.counts['plugins']}_t")

    def use(self, place, type_):
        """Adds a rule for a type to a place."""
        self.add_rule(place, self.domain(place), type_, *self.numbers.one_of(self.used))

    # ---- ways to make optionals, in or out, at most so many. Some that are out come with others that are in.

    def one(self, state, _):
        self.filled(self.somewhere(), state, 26)

    def family(self, state, most):
        """An optional with others in it. Where they are out that may be for the parent, or each has a reason."""
        is_apart = state == "out" and (most < 2 or self.numbers.below(3) == 0)
        parent = self.filled(self.somewhere(), "in" if is_apart else state)
        for _ in range(min(most - (not is_apart), 1 + self.numbers.below(3))):
            self.filled(parent, state)

    def nested(self, state, most):
        """A short chain of optionals in one another, of which the last are out."""
        if state == "in":
            depth = min(most, 3 + self.numbers.below(3))
            self.chain(depth, depth + 1)
        else:
            self.chain(1 + min(most, 2 + self.numbers.below(3)), 2)

    def chain(self, depth, last):
        """A chain of optionals in one another that are out from a depth on."""
        place = self.somewhere()
        for level in range(1, depth + 1):
            place = self.filled(place, "out" if level >= last else "in")

    def names(self, state, most):
        """Optionals of which each has a name that the next declares; in a ring the last has that of the first.

        They are all out where one has another name that is missing: the last, or any of a ring.
        """
        places = [self.optional(self.somewhere(), state) for _ in range(min(most, 2 + self.numbers.below(9)))]
        types = [self.plugin(place.module, place.space) for place in places]
        is_ring = self.numbers.below(3) == 0
        for place, type_, next_ in zip(places, types, types[1:] + types[:1]):
            self.declare(place, type_)
            self.fill(place, 2 + self.numbers.below(4))
            if is_ring or next_ != types[0]:
                self.use(place, next_)
        if state == "out":
            self.spoil(self.numbers.one_of(places) if is_ring else places[-1])
        else:
            self.use(self.somewhere(), types[0])

    def shared(self, state, most):
        """Two optionals declare one type, the first is in. A rule outside optionals has the type too."""
        tops = [self.tops[module] for module in self.domains]
        first, second = self.numbers.one_of(tops), self.numbers.one_of(tops)
        type_ = self.plugin(first.module, "")
        self.declare(self.filled(first, "in"), type_)
        if state == "out" or most > 1:
            self.declare(self.filled(second, state), type_)
        self.use(self.somewhere(), type_)

    def logs(self, state, most):
        """The call of a macro with an optional in it. It is in an optional itself where both are out."""
        place = self.somewhere()
        if most > 1 and (state == "out" or self.numbers.below(2)):
            place = self.filled(place, state)
        elif state == "out":
            return self.one(state, most)
        source = self.domain(place)
        # The call; the optional, its rule, its call, and the rule that this makes.
        self.write(place, f"(call lib.logs ({source.spelled(place.space)}))", words=2 + 3 + 3 + 3, statements=5)
        self.tell(place, "logs", state)
        self.record(place.state, source, Type("", "log_t"), "file", "append getattr open")
        self.record(place.state, source, Type("", "log_t"), "dir", "getattr open search")

    def opens(self, state, most):
        """The call of a macro with an optional that is in where the class has a permission."""
        place = self.somewhere()
        if state == "in" and most > 1 and self.numbers.below(2):
            place = self.filled(place, "in")
        source, target = self.domain(place), self.numbers.one_of(self.types)
        name = self.numbers.one_of(OPENED if state == "in" else CLOSED)
        words = source.spelled(place.space), target.spelled(place.space), name
        self.write(place, f"(call lib.opens ({' '.join(words)}))", words=4 + 3, statements=3)
        self.tell(place, "opens", state)
        self.record(state, source, target, name, "open")

    def own_file(self, state, most):
        """The call of a macro with two optionals that are in where the block has a type o1."""
        place = self.somewhere()
        file = Type(place.space, "o1")
        if most < 2 or (file in self.own[place.module]) != (state == "in"):
            return self.one(state, most)
        source = self.domain(place)
        self.write(place, f"(call lib.own ({source.spelled(place.space)}))", words=2 + 3 + 3, statements=5)
        self.tell(place, "own", state)
        self.tell(place, "own_dir", state)
        if state == "in":
            self.record(state, source, file, "file", "open read")
            self.record(state, source, file, "dir", "search")

    def inherit(self, state, most):
        """A block inherits an optional, which is in where the block has a domain."""
        block = self.numbers.one_of(self.blocks)
        source = Type(block.space, "t")
        if (source in self.domains[block.module]) != (state == "in") or not self.is_first(block.space, "logged"):
            return self.one(state, most)
        # The inheritance; the mark of the template, the optional and its rule.
        self.write(block, "(blockinherit lib.logged)", words=3, statements=4)
        self.tell(block, "logged", state)
        if state == "in":
            self.record(state, source, Type("", "log_t"), "file", "append getattr open")

    def private(self, state, most):
        """A call in an optional declares a type in the block round it."""
        block = self.numbers.one_of(self.blocks)
        type_ = Type(block.space, "private_t")
        if not self.is_first(*type_):
            return self.one(state, most)
        place = self.filled(block, state)
        source = self.domain(place)
        self.write(place, f"(call lib.private ({source.spelled(place.space)}))", words=2 + 3, statements=3)
        self.record(state, source, type_, "file", "read write")
        self.keep_type(type_, state)
        if state == "in":
            self.use(block, type_)

    def hide(self, state, most):
        """An optional in a block declares a type that is there outside the block too. Where the optional is out, a rule
        of the block means that other one.
        """
        block = self.numbers.one_of(self.blocks)
        near = Type(block.space, self.numbers.one_of(HIDDEN))
        far = Type("", near.name)
        if not self.is_first(*near):
            return self.one(state, most)
        self.write(self.filled(block, state), f"(type {near.name})")
        self.keep_type(near, state)
        meant, other = (near, far) if state == "in" else (far, near)
        source = self.domain(block)
        self.write(block, allow(source.spelled(block.space), near.name, "file", "getattr open"), words=3)
        self.record("base", source, meant, "file", "getattr open")
        self.record("out", source, other, "file", "getattr open")

    def is_first(self, *what):
        """Whether this is asked for the first time. What an optional adds to a block it adds there once."""
        is_first = what not in self.once
        self.once.add(what)
        return is_first
