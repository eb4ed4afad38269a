"""The statements of the language as the rules write them, and which of them are accepted.

In a row `x*` are any number, `x+` one or more and `[x]` one or none; `a|b` is either. Not more than one of the items of a
list stands for another number of nodes than one. What a word stands for is the method of that name in `shapes.py`.
"""
import collections
import re

# By their places: the global namespace and blocks; also optionals and macros; also branches.
IN_BLOCKS = """
    (block n s*) (blockabstract bl) (blockinherit bl) (macro n ((kind n)*) s*)
    (class n (p*)) (common n (p+)) (classcommon c K) (classmap n (p+))
    (sensitivity n) (sensitivityalias n) (sensitivityaliasactual SA S) (sensitivityorder (S+))
    (sensitivitycategory S E(GS)) (mls true|false)
    (category n) (categoryalias n) (categoryaliasactual GA G) (categoryorder (G+)) (categoryset n E(GS))
"""
ANYWHERE = """
    (optional n s*) (booleanif be branch+)
    (type n) (typealias n) (typealiasactual TA t) (typeattribute n) (typeattributeset A E(T))
    (expandtypeattribute A|(A+) true|false)
    (role n) (roleattribute n) (roleattributeset RA E(R)) (roletype R T) (roleallow R R) (roletransition R T C r)
    (user n) (userattribute n) (userattributeset UA E(U)) (userrole U R) (userlevel u lev) (userrange u rng)
    (classpermission n) (classpermissionset P (C E(p))) (classmapping CM p mapped) (classorder order)
    (boolean n true|false) (level n (S [E(GS)])) (levelrange n (lev lev)) (rangetransition T T C rng)
    (neverallow T tg cp) (constrain cp ce) (mlsconstrain cp me)
"""
IN_BRANCHES = """
    (allow T tg cp) (auditallow T tg cp) (dontaudit T tg cp)
    (typetransition T tg C [NAME] t) (typechange T tg C t) (typemember T tg C t) (call m [(arg*)])
"""

# Lists that stand in place of a word.
FORMS = {"cp": "(C E(p))", "mapped": "(c E(p))", "lev": "(S [E(GS)])", "rng": "(lev lev)"}

# Statements without effect, whose contents are not looked at. They may not stand in a macro or an optional.
SET_ASIDE = set(
    b"""
    filecon fsuse genfscon netifcon nodecon portcon ibpkeycon ibendportcon sid sidorder sidcontext context ipaddr
    iomemcon ioportcon pcidevicecon pirqcon devicetreecon policycap handleunknown
    defaultuser defaultrole defaulttype defaultrange selinuxuser selinuxuserdefault userprefix
    validatetrans mlsvalidatetrans
    """.split()
)

# The statements that will never be accepted, or by no stage yet.
LEFT_OUT = set(
    b"""
    in tunable tunableif deny allowx auditallowx dontauditx neverallowx permissionx typebounds rolebounds userbounds
    typepermissive
    """.split()
)

# An item of a row: a word by its name, the items of a list, or what it may be; and the least and most of it.
Item = collections.namedtuple("Item", "name items either least most", defaults=("", None, (), 1, 1))
TOKEN = re.compile(r"E\(\w+\)|\w+|\S")


def items_of(text):
    """The items of a row."""
    items, rest = items_until(TOKEN.findall(text), "")
    assert not rest
    return items


def items_until(tokens, closing):
    """The items up to a closing token, and the tokens behind it."""
    items = []
    while tokens and tokens[0] != closing:
        token, *tokens = tokens
        if token in "*+":
            items[-1] = items[-1]._replace(least="*+".index(token), most=None)
        elif token == "|":
            (second, *behind), tokens = items_until(tokens, closing)
            return [*items[:-1], Item(either=(items[-1], second)), *behind], tokens
        elif token == "[":
            (inner,), tokens = items_until(tokens, "]")
            items.append(inner._replace(least=0))
        elif token == "(":
            inner, tokens = items_until(tokens, ")")
            items.append(Item(items=inner))
        else:
            items.append(Item(token))
    return items, tokens[1:]


def rows_of(text):
    """The rows by their keywords."""
    return {row.items[0].name.encode(): row.items[1:] for row in items_of(text)}


BLOCK_ROWS, ROWS_ANYWHERE, BRANCH_ROWS = rows_of(IN_BLOCKS), rows_of(ANYWHERE), rows_of(IN_BRANCHES)
ROWS = {**BLOCK_ROWS, **ROWS_ANYWHERE, **BRANCH_ROWS}
FORMS = {name: items_of(text)[0].items for name, text in FORMS.items()}

# What a looked-up word of a sign may name. The kinds that are in one line here are of one name space.
NAME_SPACES = {
    name: tuple(kinds.encode().split())
    for name, kinds in {
        "types": "type typealias typeattribute",
        "roles": "role roleattribute",
        "users": "user userattribute",
        "classes": "class classmap",
        "commons": "common",
        "class permissions": "classpermission",
        "booleans": "boolean",
        "sensitivities": "sensitivity sensitivityalias",
        "categories": "category categoryalias categoryset",
        "levels": "level",
        "level ranges": "levelrange",
        "macros": "macro",
    }.items()
}
SIGNS = {
    sign: tuple(kinds.encode().split())
    for sign, kinds in {
        "T": "type typealias typeattribute", "t": "type typealias", "A": "typeattribute", "TA": "typealias",
        "R": "role roleattribute", "r": "role", "RA": "roleattribute",
        "U": "user userattribute", "u": "user", "UA": "userattribute",
        "C": "class classmap", "c": "class", "CM": "classmap", "K": "common",
        "P": "classpermission", "B": "boolean",
        "S": "sensitivity sensitivityalias", "SA": "sensitivityalias",
        "G": "category categoryalias", "GA": "categoryalias", "GS": "category categoryalias categoryset",
        "L": "level", "LR": "levelrange", "m": "macro",
    }.items()
}
SPACE_OF_KIND = {kind: name for name, kinds in NAME_SPACES.items() for kind in kinds}
SPACE_OF_SIGN = {sign: SPACE_OF_KIND[kinds[0]] for sign, kinds in SIGNS.items()}

# The kinds of parameters. Arguments of the first two are not looked up; of the others the item is told that an argument
# is, and the name space to which the kind belongs.
PLAIN_KINDS = set(b"name string".split())
ARGUMENTS = {
    b"type": ("T", "types"), b"typealias": ("T", "types"),
    b"role": ("R", "roles"), b"user": ("U", "users"),
    b"boolean": ("B", "booleans"), b"bool": ("B", "booleans"),
    b"class": ("c", "classes"), b"classmap": ("CM", "classes"), b"classpermission": ("cp", "class permissions"),
    b"sensitivity": ("S", "sensitivities"),
    b"category": ("G", "categories"), b"categoryset": ("E(GS)", "categories"),
    b"level": ("lev", "levels"), b"levelrange": ("rng", "level ranges"),
}
KINDS = PLAIN_KINDS.union(ARGUMENTS)

# What of it is accepted: the statements that have a meaning (the others are 22); kinds of parameters; `all` and operators in
# sets; names of class permissions; the requests CHECK and SET.
Language = collections.namedtuple("Language", "statements kinds has_sets has_permission_names has_checks has_settings")

WHOLE = Language(SET_ASIDE.union(ROWS), KINDS, True, True, True, True)

# The statements on which every stage builds.
FIRST = b"""
    type role user class common classcommon roletype userrole allow
    block blockabstract blockinherit macro call optional
    """.split()

# The statements to which stages give a meaning.
STAGES = {
    "sets": b"""
        typealias typealiasactual typeattribute typeattributeset expandtypeattribute
        roleattribute roleattributeset userattribute userattributeset
        """.split(),
    "maps": b"classmap classmapping classpermission classpermissionset classorder".split(),
    "audit": b"auditallow dontaudit".split(),
    "booleans": b"boolean booleanif neverallow".split(),
    "transitions": b"roletransition typetransition typechange typemember".split(),
    "roles": b"roleallow".split(),
    "constraints": b"constrain".split(),
    "levels": b"""
        sensitivity sensitivityalias sensitivityaliasactual sensitivityorder sensitivitycategory
        category categoryalias categoryaliasactual categoryorder categoryset
        mls level levelrange userlevel userrange rangetransition mlsconstrain
        """.split(),
}

# The stages that the program accepts today. Whoever brings one there enters it here.
TODAY = "sets", "transitions", "maps", "audit", "booleans", "roles", "constraints", "levels"


def accepting(stages):
    """What is accepted today, and what these stages add."""
    chosen = {*TODAY, *stages}
    statements = SET_ASIDE.union(FIRST, *(STAGES[stage] for stage in chosen))
    return Language(statements, KINDS, True, "maps" in chosen, "audit" in chosen, "booleans" in chosen)


ACCEPTED = accepting(())
