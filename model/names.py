"""What is declared, what words name and what classes permit, while some of the optionals are in."""
import collections

from contents import paths
from expressions import Form
from faults import fault, stop_at
from instances import Word
from table import NAME_SPACES, SIGNS, SPACE_OF_KIND

# The statements that declare a name. Blocks and macros are apart.
DECLARING = tuple(kind for name, kinds in NAME_SPACES.items() if name != "macros" for kind in kinds)
OBJECT_ROLE = (b"object_r",)

# What a word names.
Entry = collections.namedtuple("Entry", "kind path")

# A word that names nothing, and whether fault 41 names it.
Missing = collections.namedtuple("Missing", "word is_told")


class Names:
    """What is declared outside optionals and in some: by kinds and full names, with what is declared beside the name.

    `commons` are those of each class by their full names, and `permissions` all that a class has, its own and theirs, or
    that a class map lists, by what a word names.
    """

    def __init__(self, instances, optionals):
        self.instances = instances
        self.declared = {kind: {} for kind in DECLARING}
        self.declared[b"role"][OBJECT_ROLE] = ()
        for each in instances.all:
            if each.statement.keyword in self.declared and optionals.issuperset(each.optionals):
                self.declared[each.statement.keyword][full_name(each)] = content(each)
        self.commons = {path: set() for path in self.declared[b"class"]}
        for each in instances.all:
            if each.statement.keyword == b"classcommon":
                self.share(*map(self.named, each.words))
        self.permissions = {
            Entry(b"class", path): listed_in(listed).union(
                *(listed_in(self.declared[b"common"][common]) for common in self.commons[path])
            )
            for path, listed in self.declared[b"class"].items()
        }
        for path, listed in self.declared[b"classmap"].items():
            self.permissions[Entry(b"classmap", path)] = listed_in(listed)

    def share(self, of_class, common):
        if of_class and common:
            self.commons[of_class.path].add(common.path)

    def named(self, word):
        """What a word names, or nothing: in the first namespace that has a name of a wanted kind."""
        if word.kinds == SIGNS["m"]:
            macro = self.instances.macro(word)
            return macro and Entry(b"macro", (*macro.space, macro.statement.name.value))
        for path in paths(word.text, word.scope):
            for kind in word.kinds:
                if path in self.declared[kind]:
                    return Entry(kind, path)
        return None

    def missing(self, instance):
        """The words of an instance that name nothing. A permission of a class that is missing is missing too, but fault
        41 does not name it.
        """
        missing = [Missing(word, True) for word in instance.words if not self.named(word)]
        for class_word, permission in instance.permissions:
            entry = self.named(class_word)
            if permission.text not in self.permissions.get(entry, ()):
                missing.append(Missing(permission, entry is not None))
        return missing

    def unresolved(self, instance):
        """Faults for the words that name nothing."""
        return [
            fault(41, word.module, word.at, instance.space, word.text)
            for word, is_told in self.missing(instance)
            if is_told
        ]


def names_of_all(instances):
    """What is declared while all optionals are in; or the faults of what differs."""
    given = collections.defaultdict(list)
    for each in instances.all:
        if each.statement.keyword in SPACE_OF_KIND and each.statement.keyword in DECLARING:
            given[SPACE_OF_KIND[each.statement.keyword], full_name(each)].append(each)
    faults = []
    for (name_space, path), alike in given.items():
        different = {(each.statement.keyword, content(each)) for each in alike}
        if name_space == "roles" and path == OBJECT_ROLE:
            different.add((b"role", ()))
        if len(different) > 1:
            faults += [declared_fault(36, each) for each in alike]
    stop_at(faults)
    return Names(instances, instances.optionals)


def full_name(instance):
    return (*instance.space, instance.statement.name.value)


def content(instance):
    """What a declaration has beside its name, word for word, the words that are looked up with their scopes."""
    return tuple(map(spelled, instance.parts))


def spelled(part):
    if isinstance(part, Form):
        return (part.head, *map(spelled, part.parts))
    return (part.text, part.scope) if isinstance(part, Word) else part.text


def listed_in(spelled_parts):
    """The permissions of the list that is declared beside a class, a common or a class map."""
    ((_, *listed),) = spelled_parts
    return frozenset(listed)


def declared_fault(code, instance):
    statement = instance.statement
    return fault(code, statement.module, statement.name.at, instance.space, statement.name.value)
