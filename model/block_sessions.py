"""Random sessions over policies with blocks and macros, as parts that can be left out."""
import constraints
from block_policies import NAMES, Draft
from faults import printed
from level_texts import range_text
from pieces import bundle_of, import_bundle, install, often
from policy import CHANGES, PROCESS
from rules import targets_of

OBJECT_ROLE = b"object_r"
MOST_ASKED = 12

# So many queries are asked for changes of role, and so many are made for one rule.
MOST_CHANGES = 6
MOST_OF_A_RULE = 3

# So many constraints of a policy are asked for, and so many pairs of contexts are tried for one of them.
MOST_CONSTRAINTS = 5
MOST_TRIED = 6


def blocks(rng):
    """Policies with blocks, inheritance, macros and calls, right and wrong, and queries with qualified names."""
    if often(rng, 0.01):
        return too_many(rng)
    return loads(rng, Draft(rng), queries)


def loads(rng, draft, queries, wrong_ones=0.4):
    """Two loads of a policy that grows, some with something wrong on purpose, and what is asked after each."""
    for _ in range(rng.choice([1, 1, 2, 2, 3])):
        draft.add_module()
    draft.add_base()
    parts, policy = [], None
    for size in (rng.choice([0.5, 1, 1, 1.5]), 0.4):
        wrong = rng.choice(draft.wrong_ones()) if often(rng, wrong_ones) else None
        if parts:
            draft.open_module()
        draft.add_all(size, wrong)
        loaded = draft.mend(but=draft.WRONG.get(wrong, frozenset())) if often(rng, 0.9) else draft.policy()
        policy = loaded or policy
        parts += [*placing(rng, draft.open_texts()), b"LOAD\n", *queries(rng, policy)]
    return parts


def placing(rng, texts):
    rng.shuffle(texts)
    if often(rng, 0.1):
        return [import_bundle(bundle_of(sorted(set(texts))))]
    return [install(text) for text in texts]


def queries(rng, policy):
    if not policy:
        return [b"AV u:r:a u:r:b file\n"] if often(rng, 0.1) else []
    asked = asked_of(policy)
    if len(asked) > MOST_ASKED:
        asked = rng.sample(asked, MOST_ASKED)
    of_rules = [b"AV %s %s %s\n" % (*(any_context(rng, policy, each) for each in ends), name) for *ends, name in asked]
    of_changes = changes(rng, policy)
    of_changes = rng.sample(of_changes, min(len(of_changes), MOST_CHANGES))
    taken = of_constraints(rng, policy)
    taken = rng.sample(taken, min(len(taken), MOST_CHANGES))
    return of_rules + [query(rng, policy, asked) for _ in range(rng.randrange(2, 6))] + of_changes + taken


def asked_of(policy):
    """The types and classes that rules name, each with each."""
    return sorted({
        (source, target, printed(policy.all_names.named(class_word).path))
        for rule in policy.rules
        for source in rule.sources
        for target in targets_of(rule, source)
        for class_word in rule.instance.words[-1:]
    })


def any_context(rng, policy, type_name):
    """A context of a type that is valid where there is a user."""
    return rng.choice(sorted(policy.names[b"user"]) or [b"u"]) + b":object_r:" + type_name


def query(rng, policy, asked):
    types = sorted(policy.names[b"type"]) or NAMES[b"type"]
    classes = sorted(policy.names[b"class"]) or NAMES[b"class"]
    source, target, class_name = rng.choice(types), rng.choice(types), rng.choice(classes)
    if asked and often(rng, 0.7):
        source, target, class_name = rng.choice(asked)
    if often(rng, 0.03):
        class_name = rng.choice([b"." + class_name, b"k.file", class_name.split(b".")[-1]])
    return b"AV %s %s %s\n" % (context(rng, policy, source), context(rng, policy, target), class_name)


def context(rng, policy, type_name):
    """A context of a type: often of a role that has it, or of the role that has all."""
    users = sorted(policy.names[b"user"]) or [b"u"]
    roles = sorted({role for role, held in policy.pairs[b"roletype"] if held == type_name})
    pairs = sorted(pair for pair in policy.pairs[b"userrole"] if pair[1] in roles)
    if often(rng, 0.05):
        type_name = rng.choice([b"." + type_name, type_name + b".a", type_name.split(b".")[-1], b""])
    if pairs and often(rng, 0.6):
        user, role = rng.choice(pairs)
    elif often(rng, 0.85):
        user, role = rng.choice(users), OBJECT_ROLE
    else:
        user, role = rng.choice(users), rng.choice([*sorted(policy.names[b"role"]), b"k.object_r"])
    return b":".join((user, role, type_name))


# ---- changes of role


def changes(rng, policy, wanted=()):
    """Queries of contexts whose roles differ, for what rules give of changes of role on classes called process. Roles that
    a roleallow has, or the other way round, and those that are wanted, are asked for more than others.
    """
    liked = {*policy.pairs[b"roleallow"], *wanted}
    liked |= {(target, source) for source, target in liked}
    made = []
    for rule in policy.rules:
        classes = sorted({
            of_class for of_class, permission in rule.pairs if is_process(of_class) and permission in CHANGES
        })
        for _ in range(MOST_OF_A_RULE if classes and rule.sources else 0):
            source = rng.choice(sorted(rule.sources))
            targets = sorted(targets_of(rule, source))
            ends = targets and changing(rng, policy, source, rng.choice(targets), liked)
            if ends:
                made.append(b"AV %s %s %s\n" % (*ends, rng.choice(classes)))
    return made


def is_process(class_name):
    return class_name.split(b".")[-1] == PROCESS


def changing(rng, policy, source, target, liked):
    """Contexts of two types whose roles differ, or nothing: half of the time of roles that are liked, if there are such."""
    found = [
        (one, other)
        for one in valid_contexts(policy, source) for other in valid_contexts(policy, target) if one[1] != other[1]
    ]
    known = [(one, other) for one, other in found if (one[1], other[1]) in liked]
    if not found:
        return None
    return [b":".join(each) for each in rng.choice(known if known and often(rng, 0.5) else found)]


def valid_contexts(policy, type_name):
    """The valid contexts of a type, those of the role that has all types for one user alone."""
    return contexts_by_pairs(policy, type_name) + contexts_of_object_role(policy, type_name)[:1]


def contexts_by_pairs(policy, type_name):
    return [
        (user, role, type_name) for user, role in sorted(policy.pairs[b"userrole"])
        if (role, type_name) in policy.pairs[b"roletype"] and role != OBJECT_ROLE
    ]


def contexts_of_object_role(policy, type_name):
    return [(user, OBJECT_ROLE, type_name) for user in sorted(policy.names[b"user"])]


# ---- constraints


def of_constraints(rng, policy):
    """Queries for what rules give and constraints are on: of each such pair one for which the constraint is true and one for
    which it is false, where these are found, of any users and roles that have the types.
    """
    made = []
    for each in rng.sample(policy.constraints, min(len(policy.constraints), MOST_CONSTRAINTS)):
        rules = [rule for rule in policy.rules if rule.pairs & each.pairs and rule.sources]
        for rule in rng.sample(rules, min(len(rules), MOST_OF_A_RULE)):
            class_name, _ = rng.choice(sorted(rule.pairs & each.pairs))
            found = {}
            for _ in range(MOST_TRIED):
                source = rng.choice(sorted(rule.sources))
                targets = sorted(targets_of(rule, source))
                ends = [some_context(rng, policy, of) for of in (source, rng.choice(targets))] if targets else [None]
                parts = [end and policy.parts_of(end) for end in ends]
                if all(parts):
                    is_true = constraints.holds(each.asked, constraints.ends(*parts), policy.sets)
                    found[is_true] = b"AV %s %s %s\n" % (*ends, class_name)
            made += found.values()
    return made


def some_context(rng, policy, type_name):
    """A context of a type, which is valid but for its levels, or nothing: more often of a role that has a few types."""
    found = contexts_by_pairs(policy, type_name) * 2 + contexts_of_object_role(policy, type_name)
    if not found:
        return None
    user, role, _ = made = rng.choice(found)
    return b":".join([*made, range_text(rng, policy, user, role)] if policy.levels.is_on else made)


# ---- over a million instances

MOST = 1_000_000
FAULTY = [
    b"", b"(macro loop () (call loop))(call loop)", b"(call m0 (a))",
    b"(type)", b"(blockinherit nobody)", b"(block b0)",
]


def too_many(rng, body=b"(type t)", size=1):
    """One instance too many, or some more, with faults of the same step or without."""
    over = rng.choice([1, 1, 2, 3, 1000])
    text = (doubling_blocks if often(rng, 0.5) else doubling_calls)(MOST + over, body, size)
    return [install(text), install(rng.choice(FAULTY)), b"LOAD\n"]


def doubling_blocks(count, body, size, most=16):
    """Blocks of so many instances together, from a body of a size.

    A block that inherits the block of a number i brings (2 + size) * 2^i.
    """
    made = [b"(block b0 %s)" % body]
    made += [b"(block b%d (blockinherit b%d)(blockinherit b%d))" % (i, i - 1, i - 1) for i in range(1, most + 1)]
    left = count - sum((2 + size) * 2 ** i - 1 for i in range(most + 1))
    for i in range(most, -1, -1):
        while left >= (2 + size) * 2 ** i:
            made.append(b"(block c%d (blockinherit b%d))" % (len(made), i))
            left -= (2 + size) * 2 ** i
    return b"".join(made) + b"(type a)" * left


def doubling_calls(count, body, size, most=16):
    """Calls of so many instances together. A call of the macro of a number i brings (2 + size) * 2^i - 1."""
    made = [b"(macro m0 () %s)" % body]
    made += [b"(macro m%d () (call m%d)(call m%d))" % (i, i - 1, i - 1) for i in range(1, most + 1)]
    left = count - len(made)
    for i in range(most, -1, -1):
        while left >= (2 + size) * 2 ** i - 1:
            made.append(b"(call m%d)" % i)
            left -= (2 + size) * 2 ** i - 1
    return b"".join(made) + b"(type a)" * left
