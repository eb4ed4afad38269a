"""Random sessions without blocks and macros, as parts that can be left out."""
import itertools

import model
from pieces import (
    PERMISSIONS, SMALL, PIECES, NAMES, RULES, bundle_of, import_bundle, install, module_of, often, set_of,
    statements_of_any_kind
)
from classes import MOST_PERMISSIONS
from policy import CHANGES, PROCESS

# ---- policies that load


class Names:
    def __init__(self, rng):
        def some(most):
            return rng.sample(NAMES, rng.randrange(1, most + 1))

        self.types, self.users, self.roles = some(4), some(3), [*some(3), b"object_r"]
        self.commons = {name: shared_list(rng) for name in some(2)} if often(rng, 0.6) else {}
        self.classes, self.shares = {}, {}
        chosen = some(3)
        chosen = [*chosen[1:], PROCESS] if PROCESS not in chosen and often(rng, 0.4) else chosen
        for name in chosen:
            many = [b"p%d" % i for i in range(rng.choice([31, 32]))]
            few = rng.sample(PERMISSIONS, rng.randrange(0, 5)) + rng.sample(CHANGES, 2 * (name == PROCESS))
            self.classes[name] = many if often(rng, 0.15) else few + few[:1] * often(rng, 0.2)
            if self.commons and often(rng, 0.6):
                self.share(name, rng.choice(list(self.commons)))

    def share(self, name, common):
        """Lets a class have a common, where it does not get too wide."""
        if len({*self.classes[name], *self.commons[common]}) <= MOST_PERMISSIONS:
            self.shares[name] = common

    def permissions(self, name):
        """The permissions of a class, its own and those of its common."""
        return [*self.classes[name], *self.commons.get(self.shares.get(name), [])]


def shared_list(rng):
    """The permissions of a common: some that classes have too, or so many that a class gets just too wide, or not."""
    if often(rng, 0.2):
        return [b"c%d" % i for i in range(rng.randrange(28, 33))]
    return rng.sample([*PERMISSIONS, b"p1", b"p31", b"ioctl", b"lock"], rng.randrange(1, 5))


def dotted(rng, name):
    return b"." + name if often(rng, 0.15) else name


def nested(rng, items):
    if len(items) < 2 or often(rng, 0.6):
        return items
    at = rng.randrange(len(items) + 1)
    return [nested(rng, items[:at]), nested(rng, items[at:])]


def rule(rng, names):
    name = rng.choice(list(names.classes))
    listed = names.permissions(name)
    permissions = [rng.choice(listed) for _ in range(rng.randrange(4))] if listed else []
    permissions = set_of(rng, listed) if often(rng, 0.4) else nested(rng, permissions)
    for _ in range(rng.randrange(90, 125) if often(rng, 0.01) else 0):
        permissions = [b"not", permissions]
    target = b"self" if often(rng, 0.25) else dotted(rng, rng.choice(names.types))
    keyword = rng.choice([b"allow", *RULES])
    return [keyword, dotted(rng, rng.choice(names.types)), target, [dotted(rng, name), permissions]]


def constraint(rng, names, depth=2):
    """What a constraint asks."""
    if depth and often(rng, 0.5):
        operator, count = rng.choice([(b"not", 1), (b"and", 2), (b"or", 2)])
        return [operator, *(constraint(rng, names, depth - 1) for _ in range(count))]
    known = {b"u": names.users, b"r": names.roles, b"t": names.types}
    letter = rng.choice(list(known))
    words = [dotted(rng, rng.choice(known[letter])) for _ in range(rng.choice([1, 1, 2, 3]))]
    operands = rng.choice([[letter + b"1", letter + b"2"], [letter + rng.choice([b"1", b"2"]), words]])
    return [rng.choice([b"eq", b"neq"]), *operands]


def constrained(rng, names):
    """A constraint on some permissions of a class."""
    name = rng.choice(list(names.classes))
    listed = names.permissions(name)
    some = rng.sample(listed, min(len(listed), rng.choice([1, 2, 4])))
    return [b"constrain", [dotted(rng, name), rng.choice([some, [b"not", some], b"all"])], constraint(rng, names)]


def pairs(rng, keyword, first, second, chance=0.6):
    return [[keyword, dotted(rng, one), dotted(rng, other)] for one in first for other in second if often(rng, chance)]


def policy(rng, names):
    made = [[b"type", name] for name in names.types] + [[b"user", name] for name in names.users]
    made += [[b"role", name] for name in names.roles if name != b"object_r" or often(rng, 0.2)]
    made += [[b"class", name, listed] for name, listed in names.classes.items()]
    made += [[b"common", name, listed] for name, listed in names.commons.items()]
    made += [[b"classcommon", *(dotted(rng, each) for each in shared)] for shared in names.shares.items()]
    made += pairs(rng, b"userrole", names.users, names.roles) + pairs(rng, b"roletype", names.roles, names.types)
    made += pairs(rng, b"roleallow", names.roles, names.roles, 0.3)
    made += [constrained(rng, names) for _ in range(rng.choice([0, 0, 1, 2, 4]))]
    return made + [rule(rng, names) for _ in range(rng.choice([0, 1, 3, 8, 14]))]


def fault(rng, names):
    """A statement that is refused at a later step than that of shapes, or may be."""
    known = [rng.choice(names.users), rng.choice(list(names.classes))]
    name = rng.choice([b"nobody", b".nobody", b"a.b", b".all", *known])
    class_name = rng.choice(list(names.classes))
    if names.commons and often(rng, 0.4):
        return fault_of_commons(rng, names, name, class_name)
    keyword = rng.choice(RULES)
    return rng.choice([
        [keyword, name, rng.choice(names.types), [class_name, []]],
        [keyword, rng.choice(names.types), name, [class_name, [b"nope", [b"nope", b"read"]]]],
        [keyword, rng.choice(names.types), b"self", [name, [b"read"]]],
        [b"roletype", name, name],
        [b"userrole", name, rng.choice(names.roles)],
        [b"constrain", [class_name, []], [b"eq", rng.choice([b"u1", b"r2", b"t1"]), [name, rng.choice(names.types)]]],
        [b"constrain", [name, [b"nope", b"read"]], constraint(rng, names)],
        [b"class", class_name, rng.sample(names.classes[class_name], len(names.classes[class_name]))],
        [b"class", class_name, [*names.classes[class_name], b"more"]],
        [b"class", b"wide", [b"p%d" % i for i in range(rng.choice([32, 33, 40]))]],
    ])


def fault_of_commons(rng, names, name, class_name):
    common = rng.choice(list(names.commons))
    listed = names.commons[common]
    if often(rng, 0.4):
        shared = rng.choice([*names.shares, class_name])
        return [b"classcommon", dotted(rng, shared), dotted(rng, common)]
    return rng.choice([
        [b"common", common, rng.sample(listed, len(listed))],
        [b"common", common, [*listed, b"more"]],
        [b"classcommon", name, common],
        [b"classcommon", class_name, name],
        [rng.choice(RULES), rng.choice(names.types), b"self", [class_name, set_of(rng, [*listed, b"ioctl", b"nope"])]],
    ])


def context(rng, names, odd):
    parts = [rng.choice(names.users), rng.choice(names.roles), rng.choice(names.types)]
    if often(rng, odd):
        at = rng.randrange(3)
        part = parts[at]
        parts[at] = rng.choice([b"", b"nobody", b"." + part, part + b".a", part + b"\r", b"\xff", part.upper()])
        if often(rng, 0.4):
            parts = rng.choice([parts[:2], [*parts, b"s0"], [*parts, b""], [b"", *parts], parts[::-1]])
    return b":".join(parts)


def queries(rng, names, odd):
    if often(rng, 0.2):
        some = [b":".join(parts) for parts in itertools.product(names.users, names.roles, names.types)][:8]
        classes = list(names.classes)
        return [av(source, target, rng.choice(classes)) for source in some for target in some]
    made = []
    for _ in range(rng.randrange(1, 10)):
        is_odd = often(rng, odd / 2)
        class_name = rng.choice([b"nobody", b".file", b"\0"] if is_odd else list(names.classes))
        asked = context(rng, names, odd), context(rng, names, odd), class_name
        is_check = often(rng, 0.3)
        made.append(b"CHECK %s %s %s %s\n" % (*asked, permission(rng, names, class_name)) if is_check else av(*asked))
    return made


def av(source, target, class_name):
    return b"AV %s %s %s\n" % (source, target, class_name)


def permission(rng, names, class_name):
    """A permission for a check: mostly of the class."""
    if class_name in names.classes and often(rng, 0.8):
        listed = names.permissions(class_name)
    else:
        listed = [each for listed in (*names.classes.values(), *names.commons.values()) for each in listed]
    is_odd = not listed or often(rng, 0.1)
    return rng.choice([b"nope", b".read", b"all", b"-", b"\0", b"read\r"] if is_odd else listed)


def modules_of(rng, statements):
    """Statements spread over a few modules, some of them twice."""
    modules = [[] for _ in range(rng.choice([1, 1, 2, 3, 5]))]
    for each in statements:
        for _ in range(1 + often(rng, 0.05)):
            rng.choice(modules).append(each)
    for each in modules:
        rng.shuffle(each)
    return [module_of(rng, each) for each in modules]



# ---- sessions


def policies(rng):
    """Policies that load, and queries of every kind; some later ones do not load."""
    parts, names = [], Names(rng)
    for turn in range(rng.choice([1, 1, 2, 3])):
        made = policy(rng, names) if turn == 0 else [rule(rng, names) for _ in range(3)]
        made += [fault(rng, names) for _ in range(rng.choice([0, 0, 0, 0, 0, 0, 0, 1, 2]))]
        texts = modules_of(rng, made)
        is_bundle = often(rng, 0.2)
        placed = [import_bundle(bundle_of(sorted(set(texts))))] if is_bundle else [install(text) for text in texts]
        rng.shuffle(placed)
        parts += [*placed, *placed[:1], b"LOAD\n", *queries(rng, names, 0.2)]
    return parts


def faults(rng):
    """Policies with faults of several steps, in several modules."""
    names = Names(rng)
    made = policy(rng, names) + [fault(rng, names) for _ in range(rng.randrange(1, 5))]
    if often(rng, 0.3):
        made += statements_of_any_kind(rng)
    return [install(text) for text in modules_of(rng, made)] + [b"LOAD\n"]


def shapes(rng):
    """Statements of every shape, right and wrong."""
    return [install(module_of(rng, statements_of_any_kind(rng))) for _ in range(rng.randrange(1, 4))] + [b"LOAD\n"]


def random_text(rng):
    form = rng.randrange(5)
    if form == 0:
        return b"".join(rng.choice(PIECES) for _ in range(rng.randrange(40)))
    if form == 1:
        depth = rng.randrange(126, 131)
        inside = rng.choice([b"", b"a", b'"x"', b";c\n", b"()", b"\x01", b'"', b"(a)(b)"])
        closing = b")" * (depth + rng.choice([0, 0, 0, -1, 1]))
        return b"(" * depth + inside + closing + rng.choice([b"", b";z", b")", b"a"])
    if form == 2:
        some = bytes(rng.randrange(256) for _ in range(rng.randrange(12)))
        begin, end = rng.choice([b"", b"(a ", b"("]), rng.choice([b"", b"\n)", b'")', b'"a)', b"\r)"])
        return begin + rng.choice([b";", b'"']) + some + end
    if form == 3:
        return rng.choice([b"%s", b"(%s)", b"(a%sb)", b'("%s")', b";%s", b"()%s"]) % bytes([rng.randrange(256)])
    text = bytearray(module_of(rng, statements_of_any_kind(rng)))
    if text:
        text[rng.randrange(len(text))] = rng.randrange(256)
    return bytes(text)


def texts(rng):
    """Texts of random bytes, brackets, strings and comments."""
    return [install(random_text(rng)) for _ in range(rng.randrange(1, 40))] + [b"LIST\n", b"LOAD\n"]


def random_bundle(rng):
    listed = [rng.choice(SMALL) for _ in range(rng.randrange(5))]
    listed = sorted(set(listed)) if often(rng, 0.8) else listed
    bundle = bytearray(bundle_of(listed))
    form = rng.randrange(6)
    if form == 0:
        del bundle[rng.randrange(len(bundle)):]
    elif form == 1:
        bundle += rng.choice([b"\0", b"x", bytes(bundle)])
    elif form == 2:
        bundle[rng.randrange(min(len(bundle), 21))] = rng.choice([0, 1, 2, 127, 128, 255])
    elif form == 3:
        return bundle_of(listed + listed[-1:])
    return bytes(bundle)


def bundles(rng):
    """Bundles, good and cut, changed or out of order; and what is exported, brought back."""
    parts = []
    for _ in range(rng.randrange(1, 12)):
        placed = [import_bundle(random_bundle(rng)), install(rng.choice(SMALL))]
        parts.append(rng.choice([*placed, b"LIST\n", b"EXPORT\n"]))
    host = model.Host()
    model.run(b"".join(parts), host)
    return [*parts, import_bundle(host.export()), import_bundle(host.export()[:-1]), b"LIST\n", b"EXPORT\n"]


REQUESTS = [
    b"LOAD", b"LIST", b"EXPORT", b"QUIT", b"AV u:r:a u:r:b file", b"INSTALL 0", b"IMPORT 0",
    b"SET b true", b"CHECK u:r:a u:r:b file read", b"CHECK a b c d", b"OPTIONALS", b"WHY",
]


def random_line(rng):
    request = rng.choice(REQUESTS)
    form = rng.randrange(8)
    if form == 0:
        return rng.choice([b" ", b"\t", b"\r", b"\0"]) + request
    if form == 1:
        return request + rng.choice([b" ", b"\r", b"\0", b" x", b"  "])
    if form == 2:
        near = [request.lower(), request.replace(b" ", b"  ", 1), request[:-1]]
        return rng.choice([*near, b"AV  a b", b"AV a b ", b"CHECK a b  d", b"CHECK a b c", b"", b" ", b"\xff"])
    if form == 3:
        numbers = [b"00", b"01", b"+0", b"-1", b"0x0", b"1e1", b"", b"0 0", b"067108865", b"1_0", b"\xd9\xa0"]
        number = rng.choice(numbers)
        return rng.choice([b"INSTALL ", b"IMPORT "]) + number
    if form == 4:
        size = rng.choice([4094, 4095, 4096])
        return rng.choice([
            b"AV a b " + b"c" * (size - 7), b"CHECK a b c " + b"d" * (size - 12), b" " * size,
            b"INSTALL " + b"0" * (size - 8),
        ])
    return request


ENDS = [
    b"", b"QUIT\nLIST\n", b"LOAD", b"L", b"x" * 4096, b"x" * 4097, b"x" * 4096 + b"\nLIST\n", b"x" * 4097 + b"\nLIST\n",
    b"INSTALL 5\nLOAD", b"IMPORT 67108864\nx", b"INSTALL 67108865\nLIST\n", b"INSTALL 18446744073709551621\n",
    b"IMPORT " + b"9" * 4089 + b"\nLIST\n", b"IMPORT " + b"9" * 4090 + b"\nLIST\n", b"INSTALL 01\nLIST\n",
]


def lines(rng):
    """Lines of every kind, and every way in which a session ends."""
    first = (
        b"(class file (open read))(user u)(role r)(type a)(type b)"
        b"(userrole u r)(roletype r a)(roletype r b)(allow a b (file (read)))"
    )
    parts = [install(first), b"LOAD\n"] if often(rng, 0.5) else []
    return parts + [random_line(rng) + b"\n" for _ in range(rng.randrange(16))] + [rng.choice(ENDS)]


def long_texts(rng):
    """Texts at the limit of their length, and over it."""
    size = model.LONGEST_TEXT + rng.choice([-1, 0, 1, 2])
    text = rng.choice([
        rng.choice([b" ", b"a", b"(", b")", b";", b'"', b"\xff"]) * size,
        b"(" + b"a" * (size - 2) + b")",
        b"()" * (size // 2) + b" " * (size % 2),
        b" " * (size - 8) + b"(type a)",
        b'("' + b"x" * (size - 4) + rng.choice([b'")', b"x)", b"\n)"]),
    ])
    return [install(text), import_bundle(bundle_of(sorted([b"(type a)", text]))), b"LIST\n", b"LOAD\n"]
