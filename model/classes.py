"""Class permissions: the pairs of a class and a permission that they give; and the faults of classes."""
from expressions import members
from faults import fault
from instances import Word
from names import Entry, declared_fault, full_name

MOST_PERMISSIONS = 32


class Permissions:
    """The pairs that the names of class permissions and the permissions of class maps give: the least that satisfies all
    classpermissionsets and classmappings that are enabled. It is found in rounds, from nothing.
    """

    def __init__(self, names, enabled):
        self.names = names
        self.of_name, self.of_mapped = {}, {}
        is_changed = True
        while is_changed:
            is_changed = False
            for each in enabled:
                if each.statement.keyword == b"classpermissionset":
                    name, listed = each.parts
                    is_changed |= enter(self.of_name, names.named(name).path, self.pairs(listed))
                elif each.statement.keyword == b"classmapping":
                    class_map, permission, given = each.parts
                    key = names.named(class_map).path, permission.text
                    is_changed |= enter(self.of_mapped, key, self.pairs(given))

    def pairs(self, part):
        """The pairs of a class permission, as the full name of the class and the permission."""
        if isinstance(part, Word):
            return self.of_name.get(self.names.named(part).path, frozenset())
        class_word, listed = part.parts
        entry = self.names.named(class_word)
        chosen = members(listed, self.names.permissions[entry], lambda permission: frozenset([permission.text]))
        if entry.kind == b"class":
            return frozenset((entry.path, permission) for permission in chosen)
        return frozenset().union(*(self.of_mapped.get((entry.path, each), ()) for each in chosen))


def enter(given, key, pairs):
    """Adds pairs to those of a key, and tells whether some are new."""
    before = given.get(key, frozenset())
    given[key] = before | pairs
    return given[key] != before


def faults_of_classes(instance, names):
    """A class with too many permissions, and a classcommon of a class that has two commons."""
    statement = instance.statement
    if statement.keyword == b"class":
        if len(names.permissions[Entry(b"class", full_name(instance))]) > MOST_PERMISSIONS:
            return [declared_fault(55, instance)]
    if statement.keyword == b"classcommon":
        word = instance.words[0]
        if len(names.commons[names.named(word).path]) > 1:
            return [fault(56, word.module, word.at, instance.space, word.text)]
    return []
