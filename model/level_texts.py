"""Random texts of levels and ranges for contexts, right and wrong."""
from faults import printed
from levels import Level
from names import Entry
from pieces import often

OBJECT_ROLE = b"object_r"
ODD_TEXTS = [
    b"", b"-", b":", b"s0:", b"s0-", b"-s0", b"s0:,c0", b"s0:c0,", b"s0:c0.", b"s0:.c0", b"s0:c0.c1.c2", b"s0:c0:c1", b"s0-s1-s2",
    b".s0", b"s9", b"s0:c9", b"s0:c0.c9", b"s0-s9", b"s0:all", b"S0", b"s0,s1", b"s0.s1", b"s0:c0-c1", b"s0:c0c1", b"s-a", b"s0-s-a",
    b"s0:c-a", b"k.s0", b"k.s", b"s0:k.c0", b"s0:k.a", b"s0:k.c,c0", b"lo", b"hi", b"s0:cs", b"s1-s0", b"s0:c0-s1:c1", b"s0:c1.c0",
    b"s0:c0.c0", b"s0--s1", b"s0-s0:", b"rg", b"s0:(c0)", b"s0:c0 ",
]


def range_text(rng, policy, user=None, role=OBJECT_ROLE):
    """The text of a range for a context of a user and a role: most often a valid one, where there is one."""
    levels = policy.levels
    if often(rng, 0.05):
        return rng.choice(ODD_TEXTS[:-1])
    own = [*levels.user_ranges.get(Entry(b"user", tuple(user.split(b"."))), ())] if user else []
    own = own[0] if own and (role != OBJECT_ROLE or often(rng, 0.4)) and often(rng, 0.8) else None
    places = sorted(set(levels.sensitivities.places[path] for path in levels.written_sensitivities.values()))
    if own:
        places = [each for each in places if own.low.sensitivity <= each <= own.high.sensitivity]
    if not places:
        return rng.choice(ODD_TEXTS[:-1])
    ends = sorted(rng.choices(places, k=2))
    writable = set(levels.written_categories.values())
    most = writable if own is None else writable & own.high.categories
    least = own.low.categories if own else frozenset()
    high_most, low_most = (most & levels.permitted[place] for place in reversed(ends))
    low = some_of(rng, high_most if often(rng, 0.06) else low_most & high_most) | least
    high = low | some_of(rng, high_most)
    made = [Level(ends[0], low), Level(ends[1], high)]
    if often(rng, 0.03):
        made.reverse()
    texts = [level_text(rng, levels, each) for each in made]
    is_one = made[0] == made[1] or often(rng, 0.25)
    text = texts[0] if is_one and often(rng, 0.8) else b"-".join(texts)
    return bent_text(rng, text) if often(rng, 0.04) else text


def some_of(rng, categories):
    return frozenset(each for each in sorted(categories) if often(rng, rng.choice([0, 0.4, 0.7, 1])))


def level_text(rng, levels, level):
    """A text that has a level, as far as there are names for it."""
    of_place = [name for name, path in sorted(levels.written_sensitivities.items())
                if levels.sensitivities.places[path] == level.sensitivity]
    items = category_items(rng, levels, level.categories)
    return (rng.choice(of_place) if of_place else b"s0") + (b":" + b",".join(items) if items else b"")


def category_items(rng, levels, categories):
    """Items that have these categories together: names, and ranges over neighbours."""
    names = {}
    for name, path in sorted(levels.written_categories.items()):
        names.setdefault(levels.categories.places[path], []).append(name)
    left = sorted(levels.categories.places[path] for path in categories)
    items, at = [], 0
    while at < len(left):
        last = at
        while last + 1 < len(left) and left[last + 1] == left[last] + 1 and often(rng, 0.7):
            last += 1
        while last > at and left[last] not in names:
            last -= 1
        if left[at] in names:
            first_name, last_name = rng.choice(names[left[at]]), rng.choice(names[left[last]])
            items.append(first_name + b"." + last_name if last > at or often(rng, 0.1) else first_name)
        at = last + 1
    if items and often(rng, 0.15):
        items.append(rng.choice(items))
    if often(rng, 0.4):
        rng.shuffle(items)
    return items


def bent_text(rng, text):
    """A text with one byte taken out, doubled or changed."""
    if not text:
        return b":"
    at = rng.randrange(len(text))
    return text[:at] + rng.choice([b"", text[at:at + 1] * 2, b",", b".", b"-", b":", b"c"]) + text[at + 1:]


def with_level(rng, policy, context):
    """A context of a query with levels where the policy has them, most of the time."""
    if context.count(b":") > 2:
        return context
    if not policy.levels.is_on:
        return context + b":s0" if often(rng, 0.03) else context
    if often(rng, 0.02):
        return context
    user, role = (context.split(b":") + [b"", b""])[:2]
    return context + b":" + range_text(rng, policy, user if user in policy.names[b"user"] else None, role)


def with_levels(rng, policy, line):
    """A request with levels in its contexts."""
    words = line.split(b" ")
    if words[0] not in (b"AV", b"CHECK") or len(words) < 4 or b":" not in words[1] or b":" not in words[2]:
        return line
    words[1:3] = [with_level(rng, policy, each) for each in words[1:3]]
    return b" ".join(words)
