"""What a policy declares and allows."""
import constraints
from classes import Permissions, faults_of_classes
from contents import Contents
from faults import fault, printed, stop_at
from instances import Instances
from levels import Levels
from names import OBJECT_ROLE, Names, names_of_all
from optionals import Optionals
from rules import RULES, covers, is_active, neverallowed, rule_of
from sets import SPACES, Sets
from shapes import written
from table import ACCEPTED

MOST_BOOLEANS = 4096
MOST_CLASSES = 1024

# The permissions of the global class of this name that a decision has only where the role stays, or may change so.
PROCESS = b"process"
CHANGES = b"transition", b"dyntransition"


class Policy:
    """What trees of modules say, by printed names; or the faults of the first step that has some."""

    def __init__(self, trees, language=ACCEPTED):
        instances = Instances(Contents(written(trees, language)))
        names_of_all(instances)
        self.optionals = Optionals(instances)
        self.all_names = names = Names(instances, self.optionals.enabled)
        self.names = {kind: set(map(printed, declared)) for kind, declared in names.declared.items()}
        self.permissions = {
            printed(entry.path): held for entry, held in names.permissions.items() if entry.kind == b"class"
        }
        stop_at([each for instance in instances.all if not instance.optionals for each in names.unresolved(instance)])
        self.enabled = [each for each in instances.all if self.optionals.enabled.issuperset(each.optionals)]
        types, roles, users = (Sets(space, names, self.enabled) for space in SPACES)
        self.levels = Levels(names, self.enabled)
        stop_at([
            *types.faults(), *roles.faults(), *users.faults(), *self.levels.faults_of_sets(),
            *(each for instance in self.enabled for each in faults_of_classes(instance, names)),
            *too_many(names, b"class", MOST_CLASSES, b"classes"),
            *too_many(names, b"boolean", MOST_BOOLEANS, b"booleans"),
        ])
        for each in (types, roles, users, self.levels):
            each.make()
        stop_at(self.levels.faults())
        self.pairs = {
            b"roletype": self.linked(b"roletype", roles, types),
            b"userrole": self.linked(b"userrole", users, roles),
            b"roleallow": self.linked(b"roleallow", roles, roles),
        }
        self.aliases = types.aliases()
        permissions = Permissions(names, self.enabled)
        self.rules = [rule_of(each, types, permissions) for each in self.enabled if each.statement.keyword in RULES]
        self.sets = dict(zip(constraints.PARTS, (users, roles, types)))
        self.constraints = [
            constraints.constraint_of(each, permissions)
            for each in self.enabled if each.statement.keyword in self.constraining()
        ]
        stop_at(neverallowed(self.rules))
        self.defaults = {
            printed(path): ((b"true",),) == value for path, value in names.declared[b"boolean"].items()
        }

    def constraining(self):
        """The statements that are constraints."""
        return (b"constrain", b"mlsconstrain") if self.levels.is_on else (b"constrain",)

    def linked(self, keyword, firsts, seconds):
        """The pairs that statements link: each of what the first word stands for with each of the second."""
        found = set()
        for each in self.enabled:
            if each.statement.keyword == keyword:
                first, second = each.words
                for one in firsts.stands_for(first):
                    found |= {(printed(one), printed(other)) for other in seconds.stands_for(second)}
        return found

    def type_of(self, context):
        """The type of a valid context, else nothing."""
        parts = self.parts_of(context)
        return parts and parts[2]

    def parts_of(self, context):
        """The user, the role and the type of a valid context, with its low and its high level where it has levels; else
        nothing. An alias is the type for which it stands.
        """
        parts = context.split(b":", 3)
        if len(parts) != 3 + self.levels.is_on:
            return None
        user, role, type_ = parts[:3]
        type_ = self.aliases.get(type_, type_)
        if user not in self.names[b"user"] or role not in self.names[b"role"] or type_ not in self.names[b"type"]:
            return None
        levels = ()
        if self.levels.is_on:
            levels = self.levels.read_range(parts[3])
            if levels is None:
                return None
        is_valid = (user, role) in self.pairs[b"userrole"] and (role, type_) in self.pairs[b"roletype"]
        if self.levels.is_on:
            is_valid = is_valid and self.levels.admits(user, levels)
        return (user, role, type_, *levels) if is_valid or role == printed(OBJECT_ROLE) else None

    def refusal(self, source, target, class_name):
        """Why a query is not answered, or nothing."""
        if self.type_of(source) is None:
            return b"ERR 72 1"
        if self.type_of(target) is None:
            return b"ERR 72 2"
        return None if class_name in self.names[b"class"] else b"ERR 73"

    def covered(self, keyword, source, target, class_name, settings):
        """The permissions of a class that active rules of a kind cover for two contexts."""
        ends = self.type_of(source), self.type_of(target)
        return {
            permission
            for rule in self.rules if rule.instance.statement.keyword == keyword and covers(rule, *ends)
            for of_class, permission in rule.pairs if of_class == class_name
            if is_active(rule, self.all_names, settings)
        }

    def allowed(self, source, target, class_name, settings):
        """The permissions that allow rules give for two contexts, without those on which a constraint is false, and without
        the changes of role that no roleallow has.
        """
        allowed = self.covered(b"allow", source, target, class_name, settings)
        allowed -= self.constrained(source, target, class_name)
        source_role, target_role = (context.split(b":")[1] for context in (source, target))
        may_change = source_role == target_role or (source_role, target_role) in self.pairs[b"roleallow"]
        return allowed if may_change or class_name != PROCESS else allowed.difference(CHANGES)

    def constrained(self, source, target, class_name):
        """The permissions of a class on which some constraint is false for two contexts."""
        values = constraints.ends(self.parts_of(source), self.parts_of(target))
        return {
            permission
            for each in self.constraints if not constraints.holds(each.asked, values, self.sets)
            for of_class, permission in each.pairs if of_class == class_name
        }

    def query(self, source, target, class_name, settings):
        refusal = self.refusal(source, target, class_name)
        if refusal:
            return refusal
        allowed = self.allowed(source, target, class_name, settings)
        audited, quiet = (
            self.covered(keyword, source, target, class_name, settings) for keyword in (b"auditallow", b"dontaudit")
        )
        return b"OK %s %s %s" % (joined(allowed), joined(audited), joined(self.permissions[class_name] - quiet))

    def check(self, source, target, class_name, permission, settings):
        refusal = self.refusal(source, target, class_name)
        if refusal:
            return refusal
        if permission not in self.permissions[class_name]:
            return b"ERR 74"
        is_allowed = permission in self.allowed(source, target, class_name, settings)
        return b"OK yes" if is_allowed else b"OK no"


def too_many(names, kind, most, word):
    return [fault(60, 0, 0, (), word)] if len(names.declared[kind]) > most else []


def joined(names):
    return b",".join(sorted(names)) or b"-"
