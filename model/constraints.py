"""Constraints: what they ask of a source and a target, and on which permissions they are."""
import collections

from faults import printed
from levels import COMPARED

# A constraint: its pairs of the printed name of a class and a permission, and what it asks.
Constraint = collections.namedtuple("Constraint", "pairs asked")

# What the variables stand for, by their first letters, in the order in which a context has it: name spaces, and levels.
PARTS = (b"u", b"r", b"t")
LEVELS = (b"l", b"h")


def constraint_of(instance, permissions):
    class_permission, asked = instance.parts
    pairs = frozenset((printed(path), permission) for path, permission in permissions.pairs(class_permission))
    return Constraint(pairs, asked)


def ends(source, target):
    """What the variables stand for, of two contexts as their users, roles, types and levels."""
    return {
        part + number: value
        for number, context in ((b"1", source), (b"2", target)) for part, value in zip(PARTS + LEVELS, context)
    }


def holds(asked, values, sets):
    """Whether what is asked is true, where variables have these values and words stand for what is in these sets."""
    if asked.head == b"not":
        return not holds(asked.parts[0], values, sets)
    if asked.head == b"and":
        return all(holds(each, values, sets) for each in asked.parts)
    if asked.head == b"or":
        return any(holds(each, values, sets) for each in asked.parts)
    operator, first, second = asked.head
    if first[:1] in LEVELS:
        return COMPARED[operator](values[first], values[second])
    named = {values[second]} if second else {
        printed(path) for word in asked.parts for path in sets[first[:1]].stands_for(word)
    }
    return (values[first] in named) == (operator == b"eq")
