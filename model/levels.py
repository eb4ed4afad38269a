"""Sensitivities and categories in their orders, levels and ranges: what they stand for, and what is wrong with them.

A sensitivity is its place in the order here, and a set of categories a set of full names.
"""
import collections

from expressions import Form, members
from faults import fault
from instances import Word
from names import Entry, declared_fault, full_name
from sets import Sets, Space
from table import SIGNS

SENSITIVITIES = Space(
    b"sensitivity", b"sensitivityalias", None, b"sensitivityaliasactual", None, 256, b"sensitivities"
)
CATEGORIES = Space(
    b"category", b"categoryalias", b"categoryset", b"categoryaliasactual", b"categoryset", 1024, b"categories"
)

Level = collections.namedtuple("Level", "sensitivity categories")
Range = collections.namedtuple("Range", "low high")

# The statements that have a place for a level, a range of levels or a set of categories.
LEVELED = set(b"categoryset sensitivitycategory level levelrange userlevel userrange rangetransition call".split())


def dominates(one, other):
    return one.sensitivity >= other.sensitivity and one.categories >= other.categories


# How constraints compare levels.
COMPARED = {
    b"eq": lambda one, other: one == other,
    b"neq": lambda one, other: one != other,
    b"dom": dominates,
    b"domby": lambda one, other: dominates(other, one),
    b"incomp": lambda one, other: not dominates(one, other) and not dominates(other, one),
}


def one_order(items, pairs):
    """The one order of items in which the first of each pair comes before the second; nothing where there is none, or where
    there are several.
    """
    above, below = collections.defaultdict(set), {each: set() for each in items}
    for first, second in pairs:
        above[first].add(second)
        below[second].add(first)
    order, free = [], [each for each in items if not below[each]]
    while len(free) == 1:
        (least,) = free
        order.append(least)
        for each in above[least]:
            below[each].discard(least)
        free = [each for each in above[least] if not below[each]]
    return order if len(order) == len(below) else None


class Ordered(Sets):
    """A name space whose items have an order, which the statements of a keyword give, and the code where they do not."""

    def __init__(self, space, names, enabled, keyword, code):
        super().__init__(space, names, enabled)
        self.rows = [each.words for each in enabled if each.statement.keyword == keyword]
        self.code = code

    def faults(self):
        """The order is judged where aliases stand for what they should."""
        found = super().faults()
        if not {code for code, *_ in found}.intersection((51, 52, 53)) and self.order() is None:
            found.append(fault(self.code, 0, 0, (), b"-"))
        return found

    def order(self):
        rows = [[self.item_of(self.names.named(word)) for word in row] for row in self.rows]
        return one_order(self.names.declared[self.space.item], [pair for row in rows for pair in zip(row, row[1:])])

    def make(self):
        self.places = {path: place for place, path in enumerate(self.order())}
        super().make()

    def place(self, word):
        return self.places[self.item_of(self.names.named(word))]

    def written(self):
        """The items by what a context has for them: names and aliases without a dot and a hyphen."""
        named = {path: path for path in self.names.declared[self.space.item]}
        named.update({path: self.item_of(Entry(self.space.alias, path)) for path in self.names.declared[self.space.alias]})
        return {path[0]: item for path, item in named.items() if len(path) == 1 and b"-" not in path[0]}


class Categories(Ordered):
    """Categories, and their sets, each of which is declared with what it has."""

    def given(self, setting):
        (expression,) = setting.parts
        return self.entry(setting), expression

    def value(self, expression):
        return members(expression, self.items, self.stands_for, self.between)

    def between(self, first, last):
        """Nothing where the last comes before the first."""
        return frozenset(
            path for path, place in self.places.items() if self.place(first) <= place <= self.place(last)
        )


def is_level(part):
    return wants(part, "L") or is_list(part) and wants(part.parts[0], "S")


def is_range(part):
    return is_list(part) and len(part.parts) == 2 and all(map(is_level, part.parts))


def wants(part, sign):
    return isinstance(part, Word) and part.kinds == SIGNS[sign]


def is_list(part):
    return isinstance(part, Form) and part.head == "list" and part.parts != ()


class Levels:
    """The levels and ranges of a policy, and whether contexts have levels."""

    def __init__(self, names, enabled):
        self.names, self.enabled = names, enabled
        self.sensitivities = Ordered(SENSITIVITIES, names, enabled, b"sensitivityorder", 57)
        self.categories = Categories(CATEGORIES, names, enabled, b"categoryorder", 58)
        self.switches = {each.parts[0].head for each in self.of(b"mls")}
        self.is_on = b"true" in self.switches

    def of(self, keyword):
        return [each for each in self.enabled if each.statement.keyword == keyword]

    def faults_of_sets(self):
        twice = [fault(59, 0, 0, (), b"-")] if len(self.switches) > 1 else []
        return self.sensitivities.faults() + self.categories.faults() + twice

    def make(self):
        """Gives levels and ranges their meaning, where there are no faults of sets."""
        self.sensitivities.make()
        self.categories.make()
        self.written_sensitivities, self.written_categories = self.sensitivities.written(), self.categories.written()
        self.permitted = collections.defaultdict(frozenset)
        for each in self.of(b"sensitivitycategory"):
            sensitivity, expression = each.parts
            self.permitted[self.sensitivities.place(sensitivity)] |= self.categories.value(expression)
        self.declared = {
            Entry(keyword, full_name(each)): each.parts[0]
            for keyword in (b"level", b"levelrange") for each in self.of(keyword)
        }
        self.user_ranges = collections.defaultdict(set)
        for each in self.of(b"userrange"):
            user, given = each.parts
            self.user_ranges[self.names.named(user)].add(self.range(given))

    def level(self, part):
        """The level that a word names, or that a list is."""
        if isinstance(part, Word):
            return self.level(self.declared[self.names.named(part)])
        sensitivity, *expression = part.parts
        categories = [self.categories.value(each) for each in expression]
        return Level(self.sensitivities.place(sensitivity), frozenset().union(*categories))

    def range(self, part):
        if isinstance(part, Word):
            return self.range(self.declared[self.names.named(part)])
        return Range(*map(self.level, part.parts))

    def is_permitted(self, level):
        return level.categories <= self.permitted[level.sensitivity]

    # ---- faults of levels

    def faults(self):
        return [
            *(each for instance in self.enabled if instance.statement.keyword in LEVELED
              for part in instance.parts for each in self.faults_in(instance, part)),
            *(each for instance in self.of(b"user") for each in self.faults_of_user(instance)),
            *(each for instance in self.of(b"userrange") for each in self.faults_of_range(instance)),
        ]

    def faults_in(self, instance, part):
        """Levels with categories that are not permitted, and what is turned, in a part of an instance."""
        if not isinstance(part, Form):
            return
        if is_level(part) and not self.is_permitted(self.level(part)):
            word = part.parts[0]
            yield fault(61, word.module, word.at, instance.space, word.text)
        if is_range(part) and not dominates(*map(self.level, reversed(part.parts))):
            yield fault(62, part.module, part.at, instance.space, b"-")
        if part.head == b"range" and self.categories.place(part.parts[1]) < self.categories.place(part.parts[0]):
            yield fault(62, part.module, part.at, instance.space, b"-")
        for each in part.parts:
            yield from self.faults_in(instance, each)

    def faults_of_user(self, instance):
        has_range = Entry(b"user", full_name(instance)) in self.user_ranges
        return [declared_fault(63, instance)] if self.is_on and not has_range else []

    def faults_of_range(self, instance):
        word = instance.parts[0]
        is_one = len(self.user_ranges[self.names.named(word)]) == 1
        return [] if is_one else [fault(64, word.module, word.at, instance.space, word.text)]

    # ---- levels as contexts have them

    def read_range(self, text):
        """The range that a text is, or nothing: a low and a high level, or one that is both."""
        low, hyphen, high = text.partition(b"-")
        levels = [self.read_level(low), self.read_level(high if hyphen else low)]
        if None in levels or not all(map(self.is_permitted, levels)) or not dominates(*reversed(levels)):
            return None
        return Range(*levels)

    def read_level(self, text):
        name, colon, listed = text.partition(b":")
        sensitivity = self.written_sensitivities.get(name)
        items = [self.read_item(each) for each in listed.split(b",")] if colon else []
        if sensitivity is None or None in items:
            return None
        return Level(self.sensitivities.places[sensitivity], frozenset().union(*items))

    def read_item(self, text):
        """The categories of an item: of a name or of two with a dot between; or nothing."""
        first, dot, last = text.partition(b".")
        ends = [self.written_categories.get(each) for each in ((first, last) if dot else (first,))]
        if None in ends:
            return None
        lowest, highest = (self.categories.places[each] for each in (ends[0], ends[-1]))
        between = frozenset(path for path, place in self.categories.places.items() if lowest <= place <= highest)
        return between if lowest <= highest else None

    def admits(self, user, given):
        """Whether a range is within that of a user, who is told by the printed name."""
        (own,) = self.user_ranges[Entry(b"user", tuple(user.split(b".")))]
        return dominates(given.low, own.low) and dominates(own.high, given.high)
