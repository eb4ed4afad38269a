"""A policy with optionals while it is written: its statements by where they are, and what follows from them.

`Draft` makes the modules with their types and blocks, adds rules to them, and keeps what these allow, so it has queries
and the replies to them. distribution_optionals.py makes the optionals, and says which are in.
"""
import collections

from distribution_library import Library
from distribution_words import DOMAINS, NAMES, OBJECTS, ROLES, USED, Numbers, allow, base, classes

QUERIES = 3000

# How many types a module has besides those of domains. Of every third module the types are in so many blocks.
FILES, BLOCKS = 11, 6
# One rule of so many is made by the call of a macro, if there is one for its class and permissions.
CALLED = 10

# Classes with lists of permissions that are longer than those of USED. No macro has them.
LONG = (
    ("file", "append create getattr ioctl link lock map open read rename setattr unlink watch watch_reads write"),
    ("dir", "add_name create getattr ioctl link lock open read remove_name rename reparent rmdir search setattr unlink "
            "watch watch_reads write"),
    ("lnk_file", "append create getattr ioctl link lock read rename setattr unlink watch watch_reads write"),
    ("fifo_file", "append create getattr ioctl link lock open read rename setattr unlink write"),
    ("unix_stream_socket", "accept append bind connect connectto create getattr getopt ioctl listen lock read setattr "
                           "setopt shutdown write"),
)

# Types of the module base. Those of the second list are the ones that optionals in blocks declare too.
COMMON = "bin_t device_t etc_t lib_t log_t proc_t sysfs_t tmp_t usr_t var_t".split()
HIDDEN = "default_t security_t unlabeled_t".split()


class Type(collections.namedtuple("Type", "space name")):
    """A type by its block, "" outside blocks, and its name there."""

    def __str__(self):
        return f"{self.space}.{self.name}" if self.space else self.name

    def spelled(self, space):
        """As it is written in a block."""
        return self.name if space == self.space else str(self)


class Place:
    """Where statements are written: the top of a module, a block, or an optional. Its state is base, in or out."""

    def __init__(self, module, space="", state="base", head=None):
        self.module, self.space, self.state, self.head = module, space, state, head
        self.texts, self.inner = [], []

    def lines(self, indent=""):
        inside = indent + "    " if self.head else indent
        if self.head:
            yield f"{indent}({self.head}"
        for text in self.texts:
            yield inside + text
        for place in self.inner:
            yield from place.lines(inside)
        if self.head:
            yield indent + ")"


class LibraryWithOptionals(Library):
    """The block lib, with macros and a template that have optionals, and a macro that declares a type."""

    def lines(self):
        *lines, end = super().lines()
        yield from lines
        log = allow("source", "log_t", "file", "append getattr open")
        search = self.of_class["dir", "getattr open search"]
        yield f"(macro logs ((type source)) (optional logs {log} (call {search} (source log_t))))"
        opens = allow("source", "target", "on", "open")
        yield f"(macro opens ((type source)(type target)(class on)) (optional opens {opens}))"
        read, whole = allow("source", "o1", "file", "open read"), allow("source", "o1", "dir", "search")
        yield f"(macro own ((type source)) (optional own {read} (optional own_dir {whole})))"
        yield f"(macro private ((type source)) (type private_t) {allow('source', 'private_t', 'file', 'read write')})"
        logged = allow("t", "log_t", "file", "append getattr open")
        yield f"(block logged (blockabstract logged)(optional logged {logged}))"
        yield end


class Draft:
    """The texts of the modules by their tops, and what follows from them."""

    def __init__(self, modules):
        self.numbers, self.counts = Numbers(2), collections.Counter()
        self.lists, self.library = classes(), LibraryWithOptionals(ROLES[:4])
        weighted = [(weight * 6 // len(lists), name, list_) for weight, name, lists in USED for list_ in lists]
        used = [(name, list_) for count, name, list_ in weighted for _ in range(count)]
        self.used = used + [each for each in LONG for _ in range(len(used) // 24)]
        assert all(set(list_.split()) <= set(self.lists[name].split()) for name, list_ in self.used)
        # The types that are declared outside optionals; in optionals that are in; only in some that are out.
        self.types, self.declared, self.lost = [], [], set()
        self.tops, self.places, self.domains, self.own, self.blocks = {}, {}, {}, {}, []
        # What is allowed, by source, target and class; and what can be asked for, by the state of the place.
        self.allowed, self.asked = collections.defaultdict(set), {"base": [], "in": [], "out": []}
        self.given = set()
        self.add_base()
        names = [module for name in NAMES for module in (name, name + "_client")]
        for number, module in enumerate(names[:modules - 1]):
            self.add_module(number, module)
        assert len(set(self.types)) == len(self.types)

    # ---- statements and what follows from them

    def write(self, place, text, words=0, statements=1):
        """Adds a statement, with the numbers of looked-up words and of statements that it brings."""
        place.texts.append(text)
        self.counts["words"] += words
        self.counts["statements"] += statements

    def record(self, state, source, target, name, list_):
        """Keeps what a rule allows, unless it is in an optional that is out, and that it can be asked for."""
        key = str(source), str(target), name
        self.asked[state].append(key)
        if state != "out":
            self.allowed[key].update(list_.split())

    def add_rule(self, place, source, target, name, list_, may_call=True):
        """Adds a rule, or a call that makes it. Without a target it is on the source itself."""
        words = source.spelled(place.space), target.spelled(place.space) if target else "self"
        self.counts["rules"] += 1
        if may_call and target and self.counts["rules"] % CALLED == 0 and (name, list_) in self.library.of_class:
            call = self.library.call(*words, name, list_)
            # The words of the call are the macro and the arguments; the rule in the macro has three.
            self.write(place, call, words=call.count(" ") + 3, statements=2)
        else:
            self.write(place, allow(*words, name, list_), words=3 if target else 2)
        self.record(place.state, source, target or source, name, list_)

    def fill(self, place, count, may_call=True):
        """Adds rules on domains of the module: some on its own types, most on others, a few on a domain itself."""
        for _ in range(count):
            rule = self.some_rule(place)
            while rule in self.given:
                rule = self.some_rule(place)
            self.given.add(rule)
            self.add_rule(place, *rule, may_call)

    def some_rule(self, place):
        kind = self.numbers.below(10)
        if kind < 3:
            targets = self.own[place.module]
        else:
            targets = self.declared if kind == 3 and self.declared else self.types
        target = None if kind == 0 else self.numbers.one_of(targets)
        return (self.domain(place), target, *self.numbers.one_of(self.used))

    def keep_type(self, type_, state):
        """Keeps that an optional that is in or out declares a type."""
        if state == "out":
            self.lost.add(str(type_))
        else:
            self.declared.append(type_)

    def domain(self, place):
        """A domain of the module of a place."""
        return self.numbers.one_of(self.domains[place.module])

    def somewhere(self):
        """The top of a module, or a block."""
        return self.numbers.one_of(self.places[self.numbers.one_of(list(self.places))])

    # ---- what there is to write

    def texts(self):
        """The lines of each module."""
        return {module: top.lines() for module, top in self.tops.items()}

    def queries(self):
        """Queries with their replies, a quarter of them from rules outside optionals, half from those in optionals that
        are in, the rest from optionals that are out.
        """
        lost = self.lost - {str(type_) for type_ in self.declared}
        for state, part in (("base", 4), ("in", 2), ("out", 4)):
            asked = list(dict.fromkeys(self.asked[state]))
            count = QUERIES // part
            for source, target, name in asked[::max(1, len(asked) // count)][:count]:
                if source in lost or target in lost:
                    reply = "ERR 72 1" if source in lost else "ERR 72 2"
                else:
                    allowed = sorted(self.allowed.get((source, target, name), ()))
                    reply = f"OK {','.join(allowed) or '-'} - {','.join(sorted(self.lists[name].split()))}"
                yield f"AV system_u:system_r:{source} system_u:object_r:{target} {name}", reply

    # ---- modules and blocks

    def add_base(self):
        """The module of classes, roles, users, the block lib and common types."""
        top = self.tops["base"] = Place("base")
        for text in base(self.lists):
            self.write(top, text, words=2 if text.startswith("(userrole ") else 0)
        # What is inside macros and abstract blocks counts where these are called and inherited.
        for text in self.library.lines():
            self.write(top, text, statements=text != ")")
        for name in COMMON + HIDDEN:
            self.write(top, f"(type {name})")
        self.types += [Type("", name) for name in COMMON]

    def add_module(self, number, module):
        top = self.tops[module] = Place(module)
        domains, files = self.in_blocks(top) if number % 3 == 0 else self.flat(top)
        self.domains[module], self.own[module] = domains, domains + files
        self.types += domains + files

    def flat(self, top):
        """The domains and other types of a module without blocks."""
        domains, files = ([Type("", top.module + suffix) for suffix in part] for part in (DOMAINS, OBJECTS[:FILES]))
        for type_ in domains + files:
            self.write(top, f"(type {type_})")
        for role in self.library.roles:
            for domain in domains:
                self.write(top, f"(roletype {role} {domain})", words=2)
        self.places[top.module] = [top]
        return domains, files

    def in_blocks(self, top):
        """The domains and other types of a module that are in blocks, which inherit them from templates."""
        domains, files, roles = [], [], len(self.library.roles)
        blocks = [Place(top.module, f"{top.module}_{number}") for number in range(BLOCKS)]
        for number, block in enumerate(blocks):
            block.head = f"block {block.space}"
            self.counts["statements"] += 1
            # What an inheritance brings: itself, the mark of the template, and what else the template has.
            if number < len(DOMAINS):
                self.write(block, "(blockinherit lib.domain)", words=2 * roles, statements=3 + roles)
                domains.append(Type(block.space, "t"))
            if number < FILES - BLOCKS:
                self.write(block, "(blockinherit lib.two)", statements=6)
                files += [Type(block.space, "o0"), Type(block.space, "o1")]
            else:
                self.write(block, "(blockinherit lib.one)", statements=3)
                files.append(Type(block.space, "o0"))
        top.inner += blocks
        self.blocks += blocks
        self.places[top.module] = [*blocks, top]
        return domains, files
