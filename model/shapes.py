"""Written statements: their shapes, the places where they may stand, and the spelling of their words."""
import collections

from expressions import BadShape, Expressions, Form, head_of
from faults import fault, stop_at
from table import ACCEPTED, BLOCK_ROWS, BRANCH_ROWS, LEFT_OUT, ROWS, SET_ASIDE


class Place(collections.namedtuple("Place", "blocks macro optional branch", defaults=((), None, None, None))):
    """Where a statement is written: the block statements round it, the outermost first; its macro; its optional; the
    branch of a booleanif that it is in, as the word in front of the branch.
    """

    @property
    def space(self):
        return tuple(block.name.value for block in self.blocks)


class Statement(Expressions):
    """A written statement with its parts, and the faults of its words as numbers, places and words."""

    def __init__(self, module, node, place, language):
        super().__init__(language)
        self.module, self.at, self.place = module, node.at, place
        self.keyword, self.items = node.value[0].value, node.value[1:]
        self.names, self.kinds, self.parts = [], [], []
        self.inner, self.arguments, self.branches = [], [], []
        self.body, self.is_abstract = [], False
        if self.keyword not in SET_ASIDE:
            self.parts = self.read_items(ROWS[self.keyword], self.items)
        first = self.names[0] if self.names else None
        self.name, self.label = (None, first) if self.keyword == b"optional" else (first, None)
        self.parameters = list(zip(self.kinds, self.names[1:]))
        self.judge_parameters()

    # ---- items

    def read_n(self, node):
        self.names.append(self.declared(node))

    def read_s(self, node, branch=None):
        """A statement inside, and the branch in which it is."""
        if node.kind != "list":
            raise BadShape
        self.inner.append((node, branch))

    def read_bl(self, node):
        self.target_block = self.path(node)

    def read_m(self, node):
        self.macro_word = self.path(node)

    def read_arg(self, node):
        self.arguments.append(node)

    def read_kind(self, node):
        if node.kind != "word":
            raise BadShape
        if node.value not in self.language.kinds:
            self.refuse(node)
        self.kinds.append(node.value)

    def read_NAME(self, node):
        if node.kind == "list":
            raise BadShape

    def read_order(self, node):
        """A list of classes, `unordered` in front of them or not."""
        if node.kind != "list":
            raise BadShape
        is_unordered = node.value and node.value[0].kind == "word" and node.value[0].value == b"unordered"
        return Form("list", tuple(self.look_up("c", each) for each in node.value[1 if is_unordered else 0:]))

    def read_branch(self, node):
        """A branch that is not there already."""
        head = head_of(node.value) if node.kind == "list" else None
        if head not in (b"true", b"false") or head in self.branches:
            raise BadShape
        self.branches.append(head)
        for each in node.value[1:]:
            self.read_s(each, head)

    # ---- parameters

    def judge_parameters(self):
        """A name that an earlier parameter has."""
        names = [name.value for _, name in self.parameters]
        for at, (_, name) in enumerate(self.parameters):
            if name.value in names[:at]:
                self.faults.append((27, name.at, name.value))


def is_out_of_place(keyword, items, place):
    if place.branch:
        return keyword not in BRANCH_ROWS
    if place.macro or place.optional:
        return keyword in BLOCK_ROWS or keyword in SET_ASIDE
    if keyword != b"blockabstract":
        return False
    if not place.blocks:
        return True
    has_shape = len(items) == 1 and items[0].kind == "word"
    return has_shape and items[0].value != place.blocks[-1].name.value


def refusal(node, place, language):
    """The number and word of a statement's fault that is seen from outside, or nothing."""
    items = node.value
    if not items or items[0].kind != "word":
        return 23, b"-"
    keyword = items[0].value
    if keyword not in language.statements:
        return 22 if keyword in ROWS or keyword in SET_ASIDE or keyword in LEFT_OUT else 21, keyword
    return (24, keyword) if is_out_of_place(keyword, items[1:], place) else None


class Reader:
    """Reads statements, and keeps the faults of all."""

    def __init__(self, language):
        self.language, self.faults = language, []

    def statements(self, module, nodes, place):
        read = [self.statement(module, node, place) for node in nodes]
        return [each for each in read if each]

    def statement(self, module, node, place):
        refused, made = refusal(node, place, self.language), None
        if not refused:
            try:
                made = Statement(module, node, place, self.language)
            except BadShape:
                refused = 23, node.value[0].value
        if refused:
            self.faults.append(fault(refused[0], module, node.at, place.space, refused[1]))
            return None
        inside = self.place_inside(made)
        read = [self.statement(module, each, inside._replace(branch=branch)) for each, branch in made.inner]
        made.body = [each for each in read if each]
        made.is_abstract = any(each.keyword == b"blockabstract" for each in made.body)
        if made.keyword == b"macro":
            made.faults += clashes_with_parameters(made)
        self.faults += [fault(code, module, at, place.space, word) for code, at, word in made.faults]
        return made

    @staticmethod
    def place_inside(made):
        place = made.place
        if made.keyword == b"block":
            return Place((*place.blocks, made))
        if made.keyword == b"macro":
            return Place(place.blocks, made)
        if made.keyword == b"optional":
            return place._replace(optional=made)
        return place


def declaring(body):
    """The statements in a body, those in its optionals too, that declare a name."""
    for each in body:
        if each.keyword == b"optional":
            yield from declaring(each.body)
        elif each.name:
            yield each


def clashes_with_parameters(macro):
    names = {name.value for _, name in macro.parameters}
    return [(27, each.name.at, each.name.value) for each in declaring(macro.body) if each.name.value in names]


def written(trees, language=ACCEPTED):
    """The statements at the top of modules, or the faults of all."""
    reader = Reader(language)
    top = [each for module, tree in enumerate(trees) for each in reader.statements(module, tree, Place())]
    stop_at(reader.faults)
    return top
