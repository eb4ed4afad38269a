"""What aliases and attributes of a name space stand for, as sets of full names; or what is wrong with them."""
import collections

from contents import reached
from expressions import members
from faults import fault, printed
from instances import words_in
from names import Entry, declared_fault, full_name

# Of a name space: its items, its aliases, its attributes, the statements that give these their targets and members, and
# the most items, with the word that tells that there are more.
Space = collections.namedtuple("Space", "item alias attribute aliasing setting most told")
SPACES = (
    Space(b"type", b"typealias", b"typeattribute", b"typealiasactual", b"typeattributeset", 65_535, b"types"),
    Space(b"role", None, b"roleattribute", None, b"roleattributeset", 4096, b"roles"),
    Space(b"user", None, b"userattribute", None, b"userattributeset", 4096, b"users"),
)


class Sets:
    """The aliases and attributes of a name space, of the instances that are enabled."""

    def __init__(self, space, names, enabled):
        self.space, self.names = space, names
        self.enabled = [each for each in enabled if each.statement.keyword in space]
        self.targets = collections.defaultdict(set)
        for each in self.of(space.aliasing):
            alias, target = map(names.named, each.words)
            self.targets[alias].add(target)
        self.needed = collections.defaultdict(set)
        for each in self.of(space.setting):
            attribute, expression = self.given(each)
            self.needed[attribute].update(map(names.named, words_in(expression)))

    def of(self, keyword):
        return [each for each in self.enabled if keyword and each.statement.keyword == keyword]

    def given(self, setting):
        """The attribute to which a statement gives members, and what it gives."""
        word, expression = setting.parts
        return self.names.named(word), expression

    def faults(self):
        found = []
        for each in self.of(self.space.alias):
            entry = self.entry(each)
            if not self.targets[entry]:
                found.append(declared_fault(51, each))
            if entry in reached(self.targets[entry], self.targets):
                found.append(declared_fault(53, each))
        for each in self.of(self.space.aliasing):
            word = each.words[0]
            if len(self.targets[self.names.named(word)]) > 1:
                found.append(fault(52, word.module, word.at, each.space, word.text))
        for each in self.of(self.space.attribute):
            entry = self.entry(each)
            if entry in reached(self.needed[entry], self.needed):
                found.append(declared_fault(54, each))
        if len(self.names.declared[self.space.item]) > self.space.most:
            found.append(fault(60, 0, 0, (), self.space.told))
        return found

    @staticmethod
    def entry(instance):
        return Entry(instance.statement.keyword, full_name(instance))

    def make(self):
        """Makes the sets in rounds, each attribute from those of the round before, until a round changes none."""
        self.items = frozenset(self.names.declared[self.space.item])
        self.members = {path: frozenset() for path in self.names.declared.get(self.space.attribute, ())}
        while True:
            made = {path: set() for path in self.members}
            for each in self.of(self.space.setting):
                attribute, expression = self.given(each)
                made[attribute.path] |= self.value(expression)
            made = {path: frozenset(held) for path, held in made.items()}
            if made == self.members:
                return
            self.members = made

    def value(self, expression):
        """What is in a set as it is written."""
        return members(expression, self.items, self.stands_for)

    def item_of(self, entry):
        """The item that an alias stands for in the end, or an item itself."""
        while entry.kind == self.space.alias:
            (entry,) = self.targets[entry]
        return entry.path

    def stands_for(self, word):
        """The items that a word stands for."""
        entry = self.names.named(word)
        return self.members[entry.path] if entry.kind == self.space.attribute else frozenset([self.item_of(entry)])

    def aliases(self):
        """The items that aliases stand for, by the printed names of the aliases."""
        declared = self.names.declared[self.space.alias] if self.space.alias else ()
        return {printed(path): printed(self.item_of(Entry(self.space.alias, path))) for path in declared}
