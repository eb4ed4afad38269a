"""Instances: the statements that stand, and those that calls of macros bring, with the scopes of their words."""
import collections

from contents import MOST_INSTANCES, joined_scope, paths
from expressions import BadShape, Expressions, Form, Permission
from faults import TOO_MANY, Refused, fault, stop_at
from shapes import declaring
from table import ARGUMENTS, BRANCH_ROWS, PLAIN_KINDS, SIGNS, SPACE_OF_SIGN, WHOLE

# A word that is looked up: what it wants, where it is written, its bytes, and its scope.
Word = collections.namedtuple("Word", "kinds module at text scope")

# A permission where it is written.
PermissionWord = collections.namedtuple("PermissionWord", "module at text")

# What a parameter stands for: a word or a form; the name space that its kind belongs to; and the macro word of the call,
# with the namespace of the call.
Argument = collections.namedtuple("Argument", "given name_space macro_word space")

# Where a statement of a branch stands: the condition, and the word in front of the branch.
Branch = collections.namedtuple("Branch", "condition value")

# The first words of lists that a class permission may be. In a classmapping a list is one of a class alone.
CLASS_SIGNS = {"C", "c"}


class Instance:
    """A statement in a namespace, with its parts, the optionals round it, the outermost first, and its branch.

    The optionals are instances too. `words` are the words that are looked up, without the permissions; `permissions` are
    these, each with the word of its class or map.
    """

    def __init__(self, statement, space, optionals, branch):
        self.statement, self.space, self.optionals, self.branch = statement, space, optionals, branch
        self.take(())

    def take(self, parts):
        self.parts = parts
        self.words = [word for part in parts for word in words_in(part)]
        self.permissions = [pair for part in parts for pair in permissions_in(part)]
        if parts and self.statement.keyword == b"classmapping":
            self.permissions.insert(0, parts[:2])


def words_in(part):
    if isinstance(part, Word):
        yield part
    elif isinstance(part, Form):
        for each in part.parts:
            yield from words_in(each)


def is_class_permission(part):
    """Whether a part is the list of a class permission: the word of a class or map, and a set of its permissions."""
    if not isinstance(part, Form) or part.head != "list" or len(part.parts) != 2:
        return False
    first = part.parts[0]
    return isinstance(first, Word) and b"class" in first.kinds


def permissions_in(part):
    """The permissions of the lists of class permissions in a part, each with the word of its class or map."""
    if is_class_permission(part):
        class_word, listed = part.parts
        for each in permissions_of(listed):
            yield class_word, each


def permissions_of(listed):
    if isinstance(listed, PermissionWord):
        yield listed
    elif isinstance(listed, Form):
        for each in listed.parts:
            yield from permissions_of(each)


class Frame:
    """How the words of a body are read. Outside macros nothing is declared in the body, and there are no arguments.

    `misplaced` takes the arguments that are lists, or `all`, and come to stand where only a name may stand.
    """

    def __init__(self, scope, home, misplaced, macros=(), declared=frozenset(), arguments=None):
        self.scope, self.home, self.misplaced = scope, home, misplaced
        self.macros, self.declared, self.arguments = macros, declared, arguments or {}

    def put_in(self, module, part):
        """A part of a statement with scopes, and with what the parameters stand for."""
        if isinstance(part, Form):
            return Form(part.head, tuple(self.put_in(module, each) for each in part.parts), part.at, module)
        if isinstance(part, Permission):
            return PermissionWord(module, part.node.at, part.node.value)
        given = self.arguments.get(part.node.value)
        if given and given.name_space == SPACE_OF_SIGN[part.sign]:
            return self.given_at(given, part)
        return self.word(module, part.node, SIGNS[part.sign])

    def given_at(self, argument, place):
        """An argument as it stands at a place."""
        given = argument.given
        if isinstance(given, Word):
            return given._replace(kinds=SIGNS[place.sign])
        if not place.takes_list:
            self.misplaced.append(argument)
        return given

    def word(self, module, node, kinds):
        is_home = any((kind, node.value) in self.declared for kind in kinds)
        return Word(kinds, module, node.at, node.value, self.home if is_home else self.scope)

    def within(self, macro, arguments):
        """The frame of the body of a macro that stands somewhere, called from this one."""
        statement = macro.statement
        declared = {(each.keyword, each.name.value) for each in declaring(statement.body)}
        scope = joined_scope(macro.scope, self.scope)
        return Frame(scope, self.home, self.misplaced, (*self.macros, statement), declared, arguments)


def of_class_alone(part):
    """The list of a class permission as it is read in a classmapping."""
    if not is_class_permission(part):
        return part
    class_word, listed = part.parts
    return Form("list", (class_word._replace(kinds=SIGNS["c"]), listed))


def argument_of(kind, node):
    """The part that an argument is by the kind of its parameter, or nothing where it has not that form."""
    reader = Expressions(WHOLE)
    item, _ = ARGUMENTS[kind]
    try:
        part = reader.look_up(item, node) if item in SIGNS else reader.read_named(item, node)
    except BadShape:
        return None
    return None if reader.faults else part


def fits(kind, node):
    """Whether an argument has the form that the kind of its parameter asks for."""
    return node.kind != "list" if kind in PLAIN_KINDS else argument_of(kind, node) is not None


class Instances:
    """All instances of a policy; or the faults of its calls."""

    def __init__(self, contents):
        self.all, self.faults, self.macros, self.sizes = [], [], {}, {}
        self.misplaced = []
        standing = contents.standing()
        for each in standing:
            if each.statement.keyword == b"macro":
                self.enter_macro(each)
        if sum(self.size(each.statement, self.frame_of(each)) for each in standing) > MOST_INSTANCES:
            raise Refused([TOO_MANY])
        for each in standing:
            self.unfold(each.statement, each.space, self.frame_of(each), (), None)
        for each in self.misplaced:
            word = each.macro_word
            self.faults.append(fault(35, word.module, word.at, each.space, word.text))
        stop_at(self.faults)
        self.optionals = {each for each in self.all if each.statement.keyword == b"optional"}

    def frame_of(self, standing):
        return Frame(standing.scope, standing.scope, self.misplaced)

    def enter_macro(self, standing):
        """A macro that stands in a namespace through several chains is called through the least."""
        path = (*standing.space, standing.statement.name.value)
        known = self.macros.get(path)
        if not known or (len(standing.chain), standing.chain) < (len(known.chain), known.chain):
            self.macros[path] = standing

    def macro(self, word):
        found = (self.macros.get(path) for path in paths(word.text, word.scope))
        return next((each for each in found if each), None)

    def macro_word(self, statement, frame):
        return frame.word(statement.module, statement.macro_word, SIGNS["m"])

    def called(self, statement, frame):
        """The macro of a call where there is one, and the codes of the faults that keep the call folded."""
        macro = self.macro(self.macro_word(statement, frame))
        if not macro:
            return None, []
        given, parameters = statement.arguments, macro.statement.parameters
        codes = [34] if macro.statement in frame.macros else []
        if len(given) != len(parameters) or not all(fits(kind, node) for (kind, _), node in zip(parameters, given)):
            codes.append(35)
        return macro, codes

    def size(self, statement, frame):
        """How many instances a statement brings, its calls unfolded. Which arguments it has does not matter."""
        if statement.keyword in (b"optional", b"booleanif"):
            return 1 + sum(self.size(each, frame) for each in statement.body)
        if statement.keyword != b"call":
            return 1
        macro, codes = self.called(statement, frame)
        if not macro or codes:
            return 1
        inside = frame.within(macro, {})
        key = macro.statement, inside.scope, inside.macros
        if key not in self.sizes:
            self.sizes[key] = sum(self.size(each, inside) for each in macro.statement.body)
        return 1 + self.sizes[key]

    def unfold(self, statement, space, frame, optionals, branch):
        """Enters an instance of a statement, and all that is in it or that it calls.

        The answer is whether something is among it that may not stand in a branch.
        """
        entered = Instance(statement, space, optionals, branch)
        self.all.append(entered)
        if statement.keyword == b"call":
            return self.call(entered, frame)
        parts = tuple(frame.put_in(statement.module, part) for part in statement.parts)
        entered.take(tuple(map(of_class_alone, parts)) if statement.keyword == b"classmapping" else parts)
        if statement.keyword == b"optional":
            for each in statement.body:
                self.unfold(each, space, frame, (*optionals, entered), branch)
        elif statement.keyword == b"booleanif":
            for each in statement.body:
                self.unfold(each, space, frame, optionals, Branch(entered.parts[0], each.place.branch))
        return statement.keyword not in BRANCH_ROWS

    def call(self, instance, frame):
        statement, space = instance.statement, instance.space
        word = self.macro_word(statement, frame)
        instance.take((word,))
        macro, codes = self.called(statement, frame)
        self.faults += [fault(code, word.module, word.at, space, word.text) for code in codes]
        if not macro or codes:
            return False
        arguments = {}
        for (kind, name), node in zip(macro.statement.parameters, statement.arguments):
            if kind not in PLAIN_KINDS:
                given = frame.put_in(statement.module, argument_of(kind, node))
                arguments[name.value] = Argument(given, ARGUMENTS[kind][1], word, space)
        instance.take((word, *(each.given for each in arguments.values())))
        inside = frame.within(macro, arguments)
        brought = [
            self.unfold(each, space, inside, instance.optionals, instance.branch) for each in macro.statement.body
        ]
        if statement.place.branch and any(brought):
            self.faults.append(fault(37, word.module, word.at, space, word.text))
        return any(brought)
