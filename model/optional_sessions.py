"""Random sessions over policies with optionals, as parts that can be left out."""
import block_sessions
from block_sessions import OBJECT_ROLE, any_context
from faults import printed
from names import Names, full_name
from optional_policies import OptionalDraft
from pieces import often

MOST_ASKED = 8
LINES = [b"OPTIONALS\n", b"WHY\n"]
ODD_LINES = [b"OPTIONALS \n", b" WHY\n", b"WHY 1\n", b"optionals\n", b"OPTIONAL\n", b"WHY\r\n", b"WHY WHY\n"]
FULL_BODY, FULL_SIZE = b"(optional o (type t)(roletype r nobody))", 3


def optionals(rng):
    """Policies with optionals that are in or out, right and wrong, with queries, OPTIONALS and WHY."""
    if often(rng, 0.01):
        return block_sessions.too_many(rng, FULL_BODY, FULL_SIZE)
    parts = block_sessions.loads(rng, OptionalDraft(rng), asked, 0.3)
    for _ in range(rng.choice([0, 0, 1, 2])):
        line = rng.choice(LINES if often(rng, 0.8) else ODD_LINES)
        parts.insert(rng.randrange(len(parts) + 1), line)
    if often(rng, 0.2):
        last_load = max(at for at, part in enumerate(parts) if part == b"LOAD\n")
        parts[last_load:last_load] = LINES
    return parts


def asked(rng, policy):
    """What is asked after a load: of what is in, of what is out, and of the optionals."""
    queries = block_sessions.queries(rng, policy)
    if policy:
        for made in (pairs_in(rng, policy), rules_out(rng, policy), pairs_out(rng, policy), names_out(policy)):
            queries += some(rng, made)
    return queries + LINES


def some(rng, queries):
    queries = sorted(set(queries))
    return rng.sample(queries, MOST_ASKED) if len(queries) > MOST_ASKED else queries


def pairs_in(rng, policy):
    """Queries with contexts that pairs make valid, where the other pair is there too."""
    users, types = sorted(policy.pairs[b"userrole"]), sorted(policy.pairs[b"roletype"])
    return [
        query_of(policy, b"%s:%s:%s" % (user, role, type_name))
        for user, role in users for of, type_name in types if of == role or often(rng, 0.05)
    ]


def left_out(policy, keywords):
    """Instances in optionals that are out, and what their words would name: with all optionals, and with those in."""
    instances, enabled = policy.optionals.instances, policy.optionals.enabled
    for names in (Names(instances, instances.optionals), Names(instances, enabled)):
        for each in instances.all:
            if each.statement.keyword in keywords and not enabled.issuperset(each.optionals):
                named = [names.named(word) for word in each.words]
                if None not in named:
                    yield each, [printed(entry.path) for entry in named]


def rules_out(rng, policy):
    """Queries that a rule would answer if its optional were in."""
    made = []
    for _, (source, *target, name) in left_out(policy, [b"allow"]):
        contexts = [any_context(rng, policy, each) for each in (source, *target, source)[:2]]
        made.append(b"AV %s %s %s\n" % (*contexts, name))
    return made


def pairs_out(rng, policy):
    """Queries with contexts that would be valid if an optional were in."""
    users, types = sorted(policy.names[b"user"]) or [b"u"], sorted(policy.names[b"type"]) or [b"a"]
    of_roles = [b"%s:%s:%s" % (rng.choice(users), *named) for _, named in left_out(policy, [b"roletype"])]
    of_users = [b"%s:%s:%s" % (*named, rng.choice(types)) for _, named in left_out(policy, [b"userrole"])]
    return [query_of(policy, each) for each in of_roles + of_users]


def names_out(policy):
    """Queries of contexts with a name that would be declared if an optional were in."""
    users, types = sorted(policy.names[b"user"]) or [b"u"], sorted(policy.names[b"type"]) or [b"a"]
    made = []
    for each, _ in left_out(policy, [b"type", b"user"]):
        name = printed(full_name(each))
        user, type_name = (name, types[0]) if each.statement.keyword == b"user" else (users[0], name)
        made.append(query_of(policy, b":".join([user, OBJECT_ROLE, type_name])))
    return made


def query_of(policy, context):
    class_name = (sorted(policy.names[b"class"]) or [b"file"])[0]
    return b"AV %s %s %s\n" % (context, context, class_name)
