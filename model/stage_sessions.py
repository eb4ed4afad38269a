"""Random sessions over policies with what can be accepted beside today's language, as parts that can be left out."""
import block_sessions
from block_sessions import any_context, changes, is_process, of_constraints, valid_contexts
from faults import printed
from instances import words_in
from level_policies import LevelDraft
from level_texts import with_levels
from optional_sessions import LINES, left_out, names_out, pairs_in, pairs_out, rules_out, some
from pieces import install, often
from policy import CHANGES
from rules import targets_of
from stage_policies import StageDraft

MOST_ASKED = 14
MOST_OF_A_RULE = 3
MOST_CONDITIONS = 4
FULL_BODY, FULL_SIZE = b"(booleanif p (true (allow a a (file (read))))(false (allow a a (file (read)))))", 3
ODD_LINES = [
    b"SET a TRUE\n", b"SET a true\r\n", b"SET a\n", b"SET a true true\n", b"SET  true\n", b"set a true\n", b"CHECK a b c\n",
    b"CHECK a b c d e\n", b"CHECK u:r:a u:r:a file \n", b"SET a true \n", b"SET a 1\n",
]


def stages(rng, language):
    """Policies with what the stages of today and of --stages add, right and wrong, with queries, SET, CHECK, OPTIONALS and WHY."""
    if often(rng, 0.005):
        return too_many(rng)
    if often(rng, 0.002) and b"booleanif" in language.statements:
        return block_sessions.too_many(rng, FULL_BODY, FULL_SIZE)
    parts = block_sessions.loads(rng, StageDraft(rng, language), asked, 0.35)
    for _ in range(rng.choice([0, 0, 1, 2])):
        parts.insert(rng.randrange(len(parts) + 1), rng.choice([*LINES, *ODD_LINES]))
    return parts


def levels(rng, language):
    """The same with levels: orders, ranges of users, contexts with levels, constraints that compare them."""
    if often(rng, 0.02):
        return many_levels(rng)
    return block_sessions.loads(rng, LevelDraft(rng, language), asked_with_levels, 0.4)


def many_levels(rng):
    """As many sensitivities or categories as may be, or one more, and queries of sets of many categories."""
    counts = rng.choice([256, 257, 3]), rng.choice([1024, 1025, 1023, 700])
    parts = []
    for kind, count in zip((b"sensitivity", b"category"), counts):
        names = [b"%c%d" % (kind[0], i) for i in range(count)]
        rng.shuffle(names)
        cut = rng.randrange(count)
        rows = [names[:cut + 1], names[cut:]] if often(rng, 0.9) else [names[:cut], names[cut:]]
        parts.append(b"".join(b"(%s %s)" % (kind, name) for name in sorted(names)))
        parts.append(b"".join(b"(%sorder (%s))" % (kind, b" ".join(row)) for row in rows if row))
        highest, lowest = names[-1], names[0]
        parts.append(b"(%salias %ch)(%saliasactual %ch %s)(%salias %cl)(%saliasactual %cl %s)" % (
            kind, kind[0], kind, kind[0], highest, kind, kind[0], kind, kind[0], lowest,
        ))
    users = b"(class file (read))(user u)(role r)(type a)(userrole u r)(roletype r a)(allow a a (file (all)))"
    permitted = b"(sensitivitycategory sl (all))(sensitivitycategory sh (range cl ch))(userrange u ((sl) (sh all)))"
    asked_of_levels = b"(mls true)(mlsconstrain (file (read)) (%s %s))" % (
        rng.choice([b"dom", b"domby", b"eq", b"incomp"]), rng.choice([b"l1 l2", b"h1 h2", b"l1 h2"]),
    )
    texts = [b"sl", b"sh", b"sl-sh:cl.ch", b"sh:cl.ch", b"sl-sh:ch", b"sl:cl,ch", b"sh:ch.cl", b"sl-sh:c1.ch", b"sl:c0,c63,c64,c65", b"sl:cl.c9"]
    queries = [b"AV u:r:a:%s u:r:a:%s file\n" % tuple(rng.choices(texts, k=2)) for _ in range(12)]
    some = [b"c%d" % i for i in rng.sample(range(counts[1]), 300)]
    queries.append(b"AV u:r:a:sl:%s u:r:a:sl:%s file\n" % (b",".join(some), b",".join(sorted(some))))
    return [*map(install, [*parts, users + permitted + asked_of_levels]), b"LOAD\n", *queries]


def asked_with_levels(rng, policy):
    """The same with levels in the contexts."""
    queries = asked(rng, policy)
    if policy:
        queries = [with_levels(rng, policy, each) for each in queries]
        found = [each for each in queries if each.startswith(b"AV ")]
        queries += [check_of(rng, policy, each) for each in rng.sample(found, min(len(found), 4))]
    return queries


def asked(rng, policy):
    """What is asked after a load: of rules and what is near them, of contexts, while booleans are turned."""
    if not policy:
        return [b"SET a true\n", b"CHECK a b c d\n"] if often(rng, 0.1) else []
    queries = some(rng, of_rules(rng, policy))
    queries += [block_sessions.query(rng, policy, block_sessions.asked_of(policy)) for _ in range(rng.randrange(2, 5))]
    for made in (pairs_in(rng, policy), rules_out(rng, policy), pairs_out(rng, policy), names_out(policy)):
        queries += [each for each in some(rng, made) if is_near(policy, each)][:4]
    queries += by_aliases(rng, policy)
    changed = some(rng, changes(rng, policy, changes_out(policy)))
    taken = some(rng, of_constraints(rng, policy))
    queries += changed + taken
    turned = sorted(policy.defaults)
    conditional = of_rules(rng, policy, is_conditional=True)
    for _ in range(rng.choice([1, 2, 3]) if turned or often(rng, 0.1) else 0):
        name = rng.choice(turned) if turned and often(rng, 0.9) else rng.choice([b"a", b".p", b"k.q", b"k"])
        queries.append(b"SET %s %s\n" % (name, rng.choice([b"true", b"false"])))
        queries += rng.sample(conditional, min(len(conditional), 8))
    queries += by_conditions(rng, policy)
    checked = [queries, 5], [changed, 2], [taken, 2]
    for each in [query for made, most in checked for query in rng.sample(made, min(len(made), most))]:
        if each.startswith(b"AV "):
            queries.append(check_of(rng, policy, each))
    return queries + LINES


def of_rules(rng, policy, is_conditional=False):
    """Queries for some of the pairs of types and classes that rules cover, and for some that they nearly do."""
    made = []
    types = sorted(policy.names[b"type"])
    for rule in policy.rules:
        if is_conditional and not rule.instance.branch:
            continue
        classes = sorted({of_class for of_class, _ in rule.pairs})
        if not classes or not rule.sources:
            continue
        for _ in range(MOST_OF_A_RULE):
            source = rng.choice(sorted(rule.sources))
            targets = sorted(targets_of(rule, source))
            target = rng.choice(targets) if targets and often(rng, 0.8) else rng.choice(types)
            if often(rng, 0.15):
                source = rng.choice(types)
            made.append(av(rng, policy, source, target, rng.choice(classes)))
    return made


def by_conditions(rng, policy):
    """The booleans of some conditions turned, and after each time what a rule of that branch covers."""
    made = []
    rules = [each for each in policy.rules if each.instance.branch and each.sources and each.pairs]
    for rule in rng.sample(rules, min(len(rules), MOST_CONDITIONS)):
        words = words_in(rule.instance.branch.condition)
        names = sorted({printed(policy.all_names.named(word).path) for word in words})
        source = rng.choice(sorted(rule.sources))
        targets, (class_name, _) = sorted(targets_of(rule, source)), rng.choice(sorted(rule.pairs))
        for _ in range(rng.choice([1, 2, 2, 3]) if targets else 0):
            made += [b"SET %s %s\n" % (name, rng.choice([b"true", b"false"])) for name in names]
            made.append(av(rng, policy, source, rng.choice(targets), class_name))
    return made


def is_near(policy, query):
    """Whether a query could be answered by its types and class."""
    _, source, target, class_name = query.split()
    types = [each.split(b":")[-1] for each in (source, target)]
    return policy.names[b"type"].issuperset(types) and class_name in policy.names[b"class"]


def av(rng, policy, source, target, class_name):
    """A query of types. Where roles matter they are any that have the types, most of the time."""
    contexts = [any_context(rng, policy, each) for each in (source, target)]
    if is_process(class_name) and often(rng, 0.7):
        held = [valid_contexts(policy, each) for each in (source, target)]
        contexts = [b":".join(rng.choice(each)) for each in held] if all(held) else contexts
    return b"AV %s %s %s\n" % (*contexts, class_name)


def changes_out(policy):
    """Roles that a roleallow would have if its optional were in. Attributes are none."""
    return [tuple(named) for _, named in left_out(policy, [b"roleallow"])]


def by_aliases(rng, policy):
    """Queries with aliases and attributes in place of types."""
    names = sorted(policy.aliases) * 4 + sorted(policy.names[b"typeattribute"])
    classes = sorted(policy.names[b"class"]) or [b"file"]
    types = sorted(policy.names[b"type"]) or [b"a"]
    return [
        av(rng, policy, *rng.sample([rng.choice(names), rng.choice(types)], 2), rng.choice(classes))
        for _ in range(3) if names
    ]


def check_of(rng, policy, query):
    _, source, target, class_name = query.split()
    listed = sorted(policy.permissions.get(class_name, [])) or [b"read"]
    reply = policy.query(source, target, class_name, policy.defaults)
    allowed = reply.split(b" ")[1].split(b",") if reply.startswith(b"OK ") and reply[3:4] != b"-" else listed
    changing = [each for each in CHANGES if each in listed and is_process(class_name)] or allowed
    constrained = sorted(policy.constrained(source, target, class_name)) if reply.startswith(b"OK ") else []
    permission = rng.choice(rng.choice([allowed, changing, listed, changing, constrained or allowed, [b"nope", b"-"]]))
    return b"CHECK %s %s %s %s\n" % (source, target, class_name, permission)


def too_many(rng):
    """As many users, roles or booleans as may be, or one more, some of them in vain."""
    declared, suffix = rng.choice([(b"user", b""), (b"role", b""), (b"boolean", b" true")])
    count = rng.choice([4094, 4095, 4096, 4097])
    text = b"".join(b"(%s n%d%s)" % (declared, i, suffix) for i in range(count))
    wide = b"(class w (%s))" % b" ".join(b"p%d" % i for i in range(33))
    return [
        install(text), install(b"(optional o (%s m%s)(roletype r nobody))" % (declared, suffix)),
        install(rng.choice([b"", b"(typealias x)", b"(type a)", wide])), b"LOAD\n",
    ]
