"""Rules and what they cover; conditions; and neverallow."""
import collections

from expressions import Form
from faults import fault, printed

RULES = (b"allow", b"auditallow", b"dontaudit", b"neverallow")

# A rule: its instance; the printed names of the types that are its sources and its targets, or no targets where each
# source is the target itself; and its pairs of the printed name of a class and a permission.
Rule = collections.namedtuple("Rule", "instance sources targets pairs")


def rule_of(instance, types, permissions):
    source, target, class_permission = instance.parts
    pairs = frozenset((printed(path), permission) for path, permission in permissions.pairs(class_permission))
    targets = None if isinstance(target, Form) else named_types(types, target)
    return Rule(instance, named_types(types, source), targets, pairs)


def named_types(types, word):
    return frozenset(map(printed, types.stands_for(word)))


def targets_of(rule, source):
    return frozenset([source]) if rule.targets is None else rule.targets


def covers(rule, source, target):
    return source in rule.sources and target in targets_of(rule, source)


def is_active(rule, names, settings):
    """Whether a rule is in no branch, or its condition has the value of its branch."""
    branch = rule.instance.branch
    return not branch or holds(branch.condition, names, settings) == (branch.value == b"true")


def holds(condition, names, settings):
    """The value of a condition while booleans have these values."""
    if not isinstance(condition, Form):
        return settings[printed(names.named(condition).path)]
    values = [holds(each, names, settings) for each in condition.parts]
    if condition.head == b"not":
        return not values[0]
    if condition.head == b"and":
        return values[0] and values[1]
    if condition.head == b"or":
        return values[0] or values[1]
    return (values[0] == values[1]) == (condition.head == b"eq")


def neverallowed(rules):
    """Faults for each neverallow and each allow that cover the same."""
    return [
        violation(never, rule, least)
        for never in rules if never.instance.statement.keyword == b"neverallow"
        for rule in rules if rule.instance.statement.keyword == b"allow"
        for least in [least_of_both(never, rule)] if least
    ]


def least_of_both(one, other):
    """The least source, target, class and permission that two rules cover, or nothing."""
    pairs = one.pairs & other.pairs
    for source in sorted(one.sources & other.sources):
        targets = targets_of(one, source) & targets_of(other, source)
        if targets and pairs:
            return source, min(targets), *min(pairs)
    return None


def violation(never, rule, least):
    statement, allowing = never.instance.statement, rule.instance.statement
    word = b"%d:%d:%s:%s:%s:%s" % (allowing.module, allowing.at, *least)
    return fault(65, statement.module, statement.at, never.instance.space, word)
