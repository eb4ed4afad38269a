"""Random pieces of texts and of requests. A statement is a list of words, of strings and of lists."""
import table
from texts import RESERVED

BLANK = [b" ", b"\t", b"\n", b"\r"]
NAMES = [b"a", b"b", b"c", b"_", b"a-b", b"A", b"file", b"process", b"type", b"in", b"object_r"]
PERMISSIONS = [b"read", b"open", b"write", b"Read", b"_x", b"a-", b"aa", b"transition", b"dyntransition"]
LATER = sorted(table.LEFT_OUT | table.WHOLE.statements - table.ACCEPTED.statements)
RULES = [b"allow", b"auditallow", b"dontaudit"]
FLAT = [
    *RULES, b"class", b"classcommon", b"common", b"constrain", b"role", b"roleallow", b"roletype", b"type", b"user",
    b"userrole",
]
UNKNOWN = [b"foo", b"Type", b"types", b"allows", b"typ", b"inn", b"1type", b".type", b"-", b"attribute"]
ODD = [
    b".a", b"a.b", b"..a", b"a.", b".", b"a..b", b".a.b", b"1a", b"-a", b"-", b"_", b"a'", b"a/b", b"a:b", b"a,b", b"*",
    b"\\",
    b"self.a", b".self", b".all", b"ALL", b"t3", b".object_r", b"a.-", b".1", b"nobody", b"file.read",
    b"n" * 1024, b"n" * 1025, b"." + b"n" * 1024, b"." + b"n" * 1025, b"a." * 600 + b"a",
]
PIECES = [b"(", b")", b'"', b";", b"a", b"type", b"(type a)", b"()", b'"x"', b".", b"!", b"~", *BLANK] + [
    bytes([byte]) for byte in (0, 11, 12, 31, 127, 128, 255)
]
SMALL = [
    b"", b" ", b"()", b"(type a)", b"(type b)", b"(type a) ", b"(user u)", b"(class w (p))",
    b"(type", b"a", b")", b'("', b";", b"\xff",
]


class Quoted(bytes):
    """A string, where a word is plain bytes and a list is a list."""


def often(rng, chance):
    return rng.random() < chance


def blanks(rng):
    if often(rng, 0.8):
        return b""
    comment = b";" + rng.choice([b"", b"(", b")", b'"', b"\xff\0"]) + b"\n"
    return b"".join(rng.choice([*BLANK, comment]) for _ in range(rng.randrange(1, 4)))


def written(rng, node):
    if isinstance(node, Quoted):
        return b'"' + node + b'"'
    if isinstance(node, bytes):
        return node
    return b"(" + blanks(rng) + b" ".join(written(rng, inner) + blanks(rng) for inner in node) + b")"


def module_of(rng, statements):
    return blanks(rng) + b"".join(written(rng, each) + blanks(rng) for each in statements)


def word(rng, odd):
    if not often(rng, odd):
        return rng.choice([b"a", b"b", b"c", b"u", b"r", b"file", b"read"])
    return rng.choice(rng.choice([ODD, sorted(RESERVED), LATER, FLAT]))


def expression(rng, depth, odd):
    if depth == 0 or often(rng, 0.4):
        return Quoted(b"read") if often(rng, odd / 2) else word(rng, odd)
    head = [rng.choice([b"and", b"or", b"not", b"xor", b"all", b"eq", b"range"])] if often(rng, 0.25) else []
    return head + [expression(rng, depth - 1, odd) for _ in range(rng.choice([0, 1, 1, 2, 2, 3]))]


def set_of(rng, words, depth=5):
    """A set of some of these words, which may nest so deep."""
    if depth == 0 or often(rng, 0.3):
        return rng.choice(words) if words and often(rng, 0.85) else b"all"
    operator = rng.choice([b"", b"", b"not", b"and", b"or", b"xor"])
    count = {b"": rng.randrange(4), b"not": 1}.get(operator, 2)
    return [operator] * bool(operator) + [set_of(rng, words, depth - 1) for _ in range(count)]


def constraint(rng, depth, odd):
    """What a constraint asks, often right."""
    if depth == 0 or often(rng, 0.5):
        operator = rng.choice([b"dom", b"xor", word(rng, odd)]) if often(rng, odd) else rng.choice([b"eq", b"neq"])
        first, second = rng.choice([(b"u1", b"u2"), (b"r1", b"r2"), (b"t1", b"t2"), (b"t2", b"t1")])
        words = [word(rng, odd) for _ in range(rng.choice([1, 2, 0 if often(rng, odd) else 3]))]
        return [operator, first, rng.choice([words, words[0] if words else second, second if first < second else words])]
    operator, count = rng.choice([(b"not", 1), (b"and", 2), (b"or", 2)])
    return [operator, *(constraint(rng, depth - 1, odd) for _ in range(count + often(rng, odd / 2)))]


def any_statement(rng, odd):
    keyword = rng.choice(FLAT)
    if keyword in (b"type", b"role", b"user"):
        return [keyword, word(rng, odd)]
    if keyword in (b"class", b"common"):
        count = rng.choice([0, 1, 2, 3, 3, 32, 33])
        return [keyword, word(rng, odd), [word(rng, odd) if count < 4 else b"p%d" % i for i in range(count)]]
    if keyword not in (*RULES, b"constrain"):
        return [keyword, word(rng, odd), word(rng, odd)]
    if keyword == b"constrain":
        return [keyword, [word(rng, odd), expression(rng, 3, odd)], constraint(rng, 3, odd)]
    target = rng.choice([b"self", b"notself", b"other", word(rng, odd), word(rng, odd), word(rng, odd)])
    permissions = [word(rng, odd), expression(rng, 3, odd)] if often(rng, 0.9) else word(rng, odd)
    return [keyword, word(rng, odd), target, permissions]


def lists_of(node):
    return [node] + [deep for inner in node if isinstance(inner, list) for deep in lists_of(inner)]


def bent(rng, statement, keywords=(*LATER, *UNKNOWN, *FLAT, b"optional")):
    """The statement with one of its parts changed, taken out, doubled, wrapped, quoted or added."""
    chosen = rng.choice(lists_of(statement))
    at = rng.randrange(len(chosen) + 1)
    change = rng.randrange(6)
    if at == len(chosen):
        chosen.append(rng.choice([Quoted(b"z"), [], [b"a", b"b"], word(rng, 0.6)]))
    elif change == 0:
        chosen[at] = word(rng, 0.8)
    elif change == 1:
        chosen[at] = Quoted(rng.choice([b"", b"a", b"self", b"("]))
    elif change == 2:
        chosen[at] = [chosen[at]]
    elif change == 3:
        del chosen[at]
    elif change == 4:
        chosen.insert(at, chosen[at])
    else:
        statement[:1] = [rng.choice(keywords)]
    return statement


def statements_of_any_kind(rng):
    odd, bend = rng.choice([0.0, 0.02, 0.1, 0.3]), rng.choice([0.0, 0.1, 0.3])
    made = []
    for _ in range(rng.choice([0, 1, 1, 2, 3, 6])):
        each = any_statement(rng, odd)
        while often(rng, bend):
            each = bent(rng, each)
        made.append(rng.choice([[], [[]], [Quoted(b"a")], [[b"type", b"a"]]]) if often(rng, 0.03) else each)
    return made


def install(text):
    return b"INSTALL %d\n%s" % (len(text), text)


def import_bundle(bundle):
    return b"IMPORT %d\n%s" % (len(bundle), bundle)


def bundle_of(texts):
    return b"CILB\x01" + len(texts).to_bytes(8, "big") + b"".join(len(text).to_bytes(8, "big") + text for text in texts)


