"""The words of a statement, and what is written with them: sets, class permissions, conditions and constraints.

What is read of a statement are its parts: words that are looked up, words for permissions, and forms, which have parts
themselves.
"""
import collections

from table import FORMS, SIGNS
from texts import RESERVED, is_name, is_path

# A word that is looked up, by its sign; and whether a list may come to stand there, where the word is a parameter.
Looked = collections.namedtuple("Looked", "sign node takes_list")

# A permission. In a list of a class permission it is one of the class in front of the list.
Permission = collections.namedtuple("Permission", "node")

# What is written with parts: a set, a condition or a constraint by its operator, `all`, `true`, `false` or `self`; a
# comparison of a constraint by what it compares; else a list. Of lists, and of ranges of categories, it is known where
# they open, and in an instance also in which module.
Form = collections.namedtuple("Form", "head parts at module", defaults=((), None, None))

# Of a constraint: `eq`, `neq` or one of levels, and two variables; or one, where it is compared with the words beside it.
Comparison = collections.namedtuple("Comparison", "operator first second", defaults=(None,))

OPERANDS = {b"not": 1, b"and": 2, b"or": 2, b"xor": 2}
CONDITION_OPERANDS = {**OPERANDS, b"eq": 2, b"neq": 2}
CONSTRAINT_OPERANDS = {b"not": 1, b"and": 2, b"or": 2}

# The variables of constraints, those that may be compared with each other, and what stands for them.
VARIABLES = {b"u1": "U", b"u2": "U", b"r1": "R", b"r2": "R", b"t1": "T", b"t2": "T"}
VARIABLE_PAIRS = {(b"u1", b"u2"), (b"r1", b"r2"), (b"t1", b"t2")}
LEVEL_PAIRS = {
    (b"l1", b"l2"), (b"l1", b"h2"), (b"h1", b"l2"), (b"h1", b"h2"), (b"l1", b"h1"), (b"l2", b"h2"),
}
COMPARED_SETS = (b"eq", b"neq")
COMPARED_LEVELS = (b"eq", b"neq", b"dom", b"domby", b"incomp")
LEFT_OUT_ON_ROLES = (b"dom", b"domby", b"incomp")


class BadShape(Exception):
    """The statement has not the shape that its first word asks for."""


def words_of(nodes):
    """The bytes of nodes, where all are words; else nothing."""
    return tuple(node.value for node in nodes) if all(node.kind == "word" for node in nodes) else ()


def head_of(nodes):
    return nodes[0].value if nodes and nodes[0].kind == "word" else None


class Expressions:
    """Reads items of rows. What a word stands for is the method of that name. The faults of words are kept."""

    def __init__(self, language):
        self.language, self.faults = language, []

    # ---- rows

    def read_items(self, items, nodes):
        """The parts that the nodes of a list are by the items of a row."""
        spare = len(nodes) - sum(item.least == item.most for item in items)
        parts, at = [], 0
        for item in items:
            count = 1 if item.least == item.most else spare
            if count < item.least or (item.most is not None and count > item.most):
                raise BadShape
            parts += [self.read_item(item, node) for node in nodes[at:at + count]]
            at += count
        if at != len(nodes):
            raise BadShape
        return [part for part in parts if part is not None]

    def read_item(self, item, node):
        """The part that a node is by an item, or nothing where it is none."""
        if item.either:
            return self.read_item(self.meant(item.either, node), node)
        if item.items is not None:
            return self.read_list(item.items, node)
        return self.read_named(item.name, node)

    def read_named(self, name, node):
        if name in SIGNS and name != "m":
            return self.look_up(name, node)
        if name.startswith("E("):
            return self.expression(name[2:-1], node)
        if name in ("true", "false"):
            return self.literal(name.encode(), node)
        return getattr(self, "read_" + name)(node)

    def read_list(self, items, node):
        if node.kind != "list":
            raise BadShape
        return Form("list", tuple(self.read_items(items, node.value)), node.at)

    def meant(self, either, node):
        """Which of two items a node is: a list by that for lists, `true` and `false` by themselves."""
        for item in either:
            if item.name in ("true", "false"):
                if node.kind == "word" and node.value == item.name.encode():
                    return item
            elif (node.kind == "list") == (item.items is not None):
                return item
        raise BadShape

    # ---- words

    def word(self, node, is_spelled):
        if node.kind != "word":
            raise BadShape
        if node.value in RESERVED:
            self.faults.append((26, node.at, node.value))
        elif not is_spelled(node.value):
            self.faults.append((25, node.at, node.value))
        return node

    def declared(self, node):
        return self.word(node, is_name)

    def path(self, node):
        return self.word(node, is_path)

    def refuse(self, node):
        self.faults.append((22, node.at, node.value))

    def look_up(self, sign, node, takes_list=False):
        return Looked(sign, self.path(node), takes_list)

    def literal(self, word, node):
        if node.kind != "word" or node.value != word:
            raise BadShape
        return Form(word)

    # ---- items that may be words or lists

    def read_p(self, node):
        return Permission(self.declared(node))

    def read_tg(self, node):
        if node.kind == "word" and node.value in (b"notself", b"other"):
            return self.refuse(node)
        if node.kind == "word" and node.value == b"self":
            return Form(b"self")
        return self.look_up("T", node)

    def read_cp(self, node):
        if node.kind == "word" and not self.language.has_permission_names:
            return self.refuse(node)
        return self.word_or_list("P", FORMS["cp"], node)

    def read_mapped(self, node):
        """The class permission of a classmapping."""
        return self.word_or_list("P", FORMS["mapped"], node)

    def read_lev(self, node):
        return self.word_or_list("L", FORMS["lev"], node)

    def read_rng(self, node):
        return self.word_or_list("LR", FORMS["rng"], node)

    def word_or_list(self, sign, items, node):
        return self.read_list(items, node) if node.kind == "list" else self.look_up(sign, node, True)

    # ---- sets

    def expression(self, sign, node):
        """A set of what a sign stands for: a word, or what is made of sets."""
        if node.kind == "list":
            return self.expression_list(sign, node.value, node.at)
        if node.kind == "word" and node.value == b"all":
            if not self.language.has_sets:
                self.refuse(node)
            return Form(b"all")
        return self.read_p(node) if sign == "p" else self.look_up(sign, node, sign == "GS")

    def expression_list(self, sign, nodes, at):
        head = head_of(nodes)
        if head in OPERANDS:
            if not self.language.has_sets:
                self.refuse(nodes[0])
            return Form(head, tuple(self.expression(sign, each) for each in counted(nodes, OPERANDS[head])))
        if sign == "GS" and head == b"range":
            return Form(head, tuple(self.look_up("G", each) for each in counted(nodes, 2)), at)
        return Form("list", tuple(self.expression(sign, each) for each in nodes), at)

    # ---- conditions and constraints

    def read_be(self, node):
        """A condition. A list of one leaves no trace."""
        if node.kind != "list":
            return self.look_up("B", node)
        head = head_of(node.value)
        if head not in CONDITION_OPERANDS:
            return self.read_be(*only(node.value))
        return Form(head, tuple(map(self.read_be, counted(node.value, CONDITION_OPERANDS[head]))))

    def read_ce(self, node):
        return self.constraint(node, ())

    def read_me(self, node):
        return self.constraint(node, COMPARED_LEVELS)

    def constraint(self, node, on_levels):
        """A constraint, where levels may be compared in these ways."""
        if node.kind != "list":
            raise BadShape
        nodes = node.value
        head = head_of(nodes)
        if head in CONSTRAINT_OPERANDS:
            inner = counted(nodes, CONSTRAINT_OPERANDS[head])
            return Form(head, tuple(self.constraint(each, on_levels) for each in inner))
        if len(nodes) == 3:
            return self.comparison(nodes, on_levels)
        return self.constraint(*only(nodes), on_levels)

    def comparison(self, nodes, on_levels):
        """A comparison, with the words beside a variable as its parts."""
        operator, first, second = nodes
        both = words_of([first, second])
        if operator.kind != "word" or first.kind != "word":
            raise BadShape
        if operator.value in on_levels and both in LEVEL_PAIRS:
            return Form(Comparison(operator.value, *both))
        if operator.value in LEFT_OUT_ON_ROLES and both == (b"r1", b"r2"):
            return self.refuse(operator)
        if operator.value not in COMPARED_SETS or first.value not in VARIABLES:
            raise BadShape
        if both in VARIABLE_PAIRS:
            return Form(Comparison(operator.value, *both))
        words = self.one_or_more(VARIABLES[first.value], second)
        return Form(Comparison(operator.value, first.value), tuple(words))

    def one_or_more(self, sign, node):
        """A word, or a list of words that is not empty."""
        if node.kind == "list" and not node.value:
            raise BadShape
        return [self.look_up(sign, each) for each in (node.value if node.kind == "list" else [node])]


def counted(nodes, count):
    """The nodes behind the first, which must be so many."""
    if len(nodes) != 1 + count:
        raise BadShape
    return nodes[1:]


def only(nodes):
    if len(nodes) != 1:
        raise BadShape
    return nodes


def members(written, everything, of_item, between=None):
    """What is in a set as it is written, where `all` is so much and an item has what is told of it; and so has what is
    between two items, where there are ranges.
    """
    if not isinstance(written, Form):
        return of_item(written)
    if written.head == b"all":
        return everything
    if written.head == b"range":
        return between(*written.parts)
    inner = [members(each, everything, of_item, between) for each in written.parts]
    if written.head == b"not":
        return everything - inner[0]
    if written.head == b"and":
        return inner[0] & inner[1]
    if written.head == b"xor":
        return inner[0] ^ inner[1]
    return frozenset().union(*inner)
