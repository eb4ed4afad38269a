"""Worked examples of what can be accepted beside today's language, by stages. The replies are those of the rules.

A fault is written with the word, or the piece of the text, at which it is, and how often that comes before.
"""
AB, BA = b"AV u:r:a u:r:b file", b"AV u:r:b u:r:a file"
AA = b"AV u:r:a u:r:a file"
FIRST = (
    b"(class file (open read))(user u)(role r)(type a)(type b)(userrole u r)(roletype r a)(roletype r b)"
    b"(allow a b (file (read)))"
)


class Fault:
    """A fault with a code and a word at a place of a module: at a word or a piece, behind so many of the same."""

    def __init__(self, code, word, piece=None, before=0, space=b".", module=0):
        self.code, self.word, self.piece, self.before = code, word, piece or word, before
        self.space, self.module = space, module

    def line(self, modules):
        text, at = modules[self.module], -1
        for _ in range(self.before + 1):
            at = text.index(self.piece, at + 1)
        return b"%d %d %d %s %s" % (self.code, self.module, at, self.space, self.word)


class Never(Fault):
    """A neverallow that meets an allow, each by the piece with which it begins, and what both cover."""

    def __init__(self, never, allow, least, space=b"."):
        super().__init__(65, None, never, space=space)
        self.allow, self.least = allow, least

    def line(self, modules):
        self.word = b"0:%d:%s" % (modules[0].index(self.allow), self.least)
        return super().line(modules)


class Exact(Fault):
    """A fault as a line."""

    def __init__(self, line):
        self.exact = line

    def line(self, _):
        return self.exact


def refused(*faults):
    return [(b"LOAD", list(faults))]


def accepted(*asked):
    return [(b"LOAD", b"OK"), *asked]


def lines(*told):
    return b"\n".join([b"OK %d" % len(told), *told])


QUALIFIED = (
    b"(typeattribute x)(block b (typeattributeset x (.a))(optional o (type x)))(roletype r b.x)"
    b"(allow x b.x (file (open)))"
)
SELF = b"(typeattribute z)(typeattributeset z (a b))(allow z self (file (open)))"
CONVERTED = [
    b"(typeattribute cil_gen_require)(roleattribute cil_gen_require)(class file (open read))(role system_r)"
    b"(user system_u)(userrole system_u system_r)(type foo_t)(roletype system_r foo_t)",
    b"""(typeattributeset cil_gen_require foo_t)
(optional foo_optional_2
    (typeattributeset cil_gen_require bar_t)
    (allow foo_t bar_t (file (read )))
)
(optional foo_optional_3
    (typeattributeset cil_gen_require foo_t)
    (allow foo_t self (file (open read )))
)
(filecon "/usr/bin/foo" file (system_u object_r foo_t ((s0) (s0))))
""",
]
OF_FOO = b"AV system_u:system_r:foo_t system_u:system_r:foo_t file"
RING = (
    b"(typeattribute xx)(typeattribute yy)(typeattribute zz)(typeattribute ww)"
    b"(typeattributeset xx (yy))(typeattributeset yy (not zz))(typeattributeset zz (xx a))(typeattributeset ww (xx))(type a)"
)
LINKED = (
    b"(class file (open read))(user u)(user v)(userattribute ua)(userattributeset ua (u v))"
    b"(role r)(role q)(roleattribute ra)(roleattributeset ra (r q))(type a)(type b)(typeattribute ta)"
    b"(typeattributeset ta (a b))(userrole ua ra)(roletype ra ta)(allow ta ta (file (read)))"
)
READ = b"OK read - open,read"
NONE = b"OK - - open,read"

# The stages; what is shown; the modules; the requests and replies.
SETS = [
    ("an alias without a target", [b"(typealias y)"], refused(Exact(b"51 0 11 . y"))),
    ("a nearer name of another kind", [FIRST + QUALIFIED], accepted(
        (b"AV u:r:a u:r:b.x file", b"OK open - open,read"),
    )),
    ("self and an attribute", [FIRST + SELF], accepted((AA, b"OK open - open,read"), (AB, READ))),
    ("an attribute in itself", [FIRST + SELF + b"(typeattributeset z (z))"], refused(Exact(b"54 0 138 . z"))),
    ("a converted module", CONVERTED, accepted(
        (b"OPTIONALS", lines(b"1 41 . foo_optional_2 out", b"1 152 . foo_optional_3 in")),
        (OF_FOO, b"OK open,read - open,read"),
    )),
    ("a type and an attribute of one name", [b"(type a)", b"(typeattribute a)"], refused(
        Exact(b"36 0 6 . a"), Exact(b"36 1 15 . a"),
    )),
    ("an alias of an alias", [
        FIRST + b"(typealias x)(typealias y)(typealiasactual y x)(typealiasactual x a)(allow y b (file (open)))",
    ], accepted(
        (AB, b"OK open,read - open,read"), (b"AV u:r:y u:r:b file", b"OK open,read - open,read"),
        (b"AV u:r:x u:r:y file", NONE), (b"AV u:r:y u:r:z file", b"ERR 72 2"),
    )),
    ("an alias in a block, and in contexts", [
        FIRST + b"(block k (typealias x)(typealiasactual x b)(allow x self (file (open))))",
    ], accepted(
        (b"AV u:r:k.x u:r:b file", b"OK open - open,read"), (b"AV u:r:x u:r:b file", b"ERR 72 1"),
        (b"AV u:r:.k.x u:r:b file", b"ERR 72 1"), (b"AV u:r:a u:object_r:k.x file", READ),
    )),
    ("an attribute is no type of a context", [FIRST + SELF], accepted((b"AV u:object_r:z u:r:b file", b"ERR 72 1"))),
    ("two targets", [b"(type a)(type b)(typealias x)(typealiasactual x a)(typealiasactual .x b)"], refused(
        Fault(52, b"x", b"x a"), Fault(52, b".x"),
    )),
    ("an alias and its target are two targets", [
        b"(type a)(typealias x)(typealias y)(typealiasactual x a)(typealiasactual y a)(typealiasactual y x)",
    ], refused(Fault(52, b"y", b"y a"), Fault(52, b"y", b"y x"))),
    ("one target by two words", [b"(type a)(typealias x)(typealiasactual x a)(typealiasactual x .a)"], accepted()),
    ("aliases of each other", [b"(typealias x)(typealias y)(typealiasactual x y)(typealiasactual y x)"], refused(
        Fault(53, b"x"), Fault(53, b"y", b"y)"),
    )),
    ("what leads to a circle of aliases", [
        b"(typealias x)(typealias y)(typealias w)(typealiasactual x y)(typealiasactual y x)(typealiasactual w x)",
    ], refused(Fault(53, b"x"), Fault(53, b"y", b"y)"))),
    ("two targets and a circle", [
        b"(type a)(typealias x)(typealias y)(typealiasactual x a)(typealiasactual x y)(typealiasactual y x)",
    ], refused(
        Fault(52, b"x", b"x a"), Fault(52, b"x", b"x y"), Fault(53, b"x"), Fault(53, b"y", b"y)"),
    )),
    ("an alias that is declared twice", [b"(typealias x)(optional o (typealias x))"], refused(
        Fault(51, b"x"), Fault(51, b"x", b"x", 1),
    )),
    ("a target in an optional that is out", [
        b"(type a)(typealias x)(optional o (typealiasactual x a)(roletype object_r nobody))",
    ], refused(Fault(51, b"x"))),
    ("two targets, one in an optional that is out", [
        FIRST + b"(typealias x)(typealiasactual x a)(optional o (typealiasactual x b)(roletype r nobody))",
    ], accepted((b"AV u:r:x u:r:b file", READ))),
    ("a ring of three attributes, and what leads to it", [RING], refused(
        Fault(54, b"xx"), Fault(54, b"yy"), Fault(54, b"zz"),
    )),
    ("an attribute in itself under each operator", [
        b"(typeattribute x)(typeattribute y)(roleattribute z)(userattribute w)(typeattributeset x (not x))"
        b"(typeattributeset y (and all (all y)))(roleattributeset z (xor z all))(userattributeset w (or () w))",
    ], refused(Fault(54, b"w", b"w)"), Fault(54, b"x"), Fault(54, b"y", b"y)"), Fault(54, b"z", b"z)"))),
    ("all depends on nothing", [b"(typeattribute x)(typeattributeset x (not all))(typeattributeset x all)"], accepted()),
    ("an alias in an optional that is out", [
        FIRST + b"(optional o (typealias x)(typealiasactual x a)(roletype r nobody))(roletype r x)",
    ], refused(Fault(41, b"x", b"x", 2))),
    ("an empty attribute", [FIRST + b"(typeattribute x)(allow x b (file (open)))(roletype r x)"], accepted((AB, READ))),
    ("each member with each", [LINKED], accepted(
        (b"AV u:r:a v:q:b file", READ), (b"AV u:q:b v:r:a file", READ), (b"AV v:q:a v:object_r:a file", READ),
    )),
    ("a role with a type by two attributes", [
        LINKED + b"(typeattribute tb)(typeattributeset tb (b))(roletype r tb)(roletype q tb)",
    ], accepted((b"AV u:r:b u:q:b file", READ))),
    ("a link of an optional that is out", [
        FIRST + b"(role q)(userrole u q)(typeattribute x)(optional o (roletype q x)(roletype r nobody))"
        b"(typeattributeset x a)",
    ], accepted((b"AV u:q:a u:r:b file", b"ERR 72 1"))),
    ("members of an optional that is out", [
        FIRST + b"(typeattribute x)(optional o (typeattributeset x b)(roletype r nobody))(typeattributeset x a)"
        b"(optional p (type c)(roletype r nobody))(typeattribute y)(typeattributeset y (not x))"
        b"(allow y self (file (open)))",
    ], accepted((AA, NONE), (b"AV u:r:b u:r:b file", b"OK open - open,read"))),
    ("several statements of an attribute are united", [
        FIRST + b"(typeattribute x)(typeattributeset x a)(typeattributeset x b)(allow x x (file (open)))",
    ], accepted((AA, b"OK open - open,read"), (BA, b"OK open - open,read"))),
    ("operators", [
        FIRST + b"(type c)(roletype r c)(typeattribute x)(typeattributeset x (xor (a b) (b c)))(typeattribute y)"
        b"(typeattributeset y (and (not x) (or b c)))(allow x y (file (open)))",
    ], accepted(
        (AB, b"OK open,read - open,read"), (b"AV u:r:c u:r:b file", b"OK open - open,read"),
        (b"AV u:r:b u:r:b file", NONE), (b"AV u:r:c u:r:a file", NONE),
    )),
    ("an attribute and an alias of a block that is inherited", [
        FIRST + b"(block k (type t)(typealias x)(typealiasactual x t)(typeattribute z)(typeattributeset z (x .a))"
        b"(allow z .b (file (open)))(roletype .r t))(block n (blockinherit k)(typeattributeset z .b))",
    ], accepted(
        (b"AV u:r:k.t u:r:b file", b"OK open - open,read"), (b"AV u:r:n.x u:r:b file", b"OK open - open,read"),
        (b"AV u:r:b u:r:b file", b"OK open - open,read"), (b"AV u:r:k.x u:r:n.t file", NONE),
    )),
    ("a name of a body that is declared as another kind is not at home", [
        FIRST + b"(block lib (type t)(macro m () (typeattribute t)(typeattributeset t (.a))(typealias x)"
        b"(typealiasactual x t)(roletype .r x)(allow t .b (file (open)))))(block n (call lib.m))"
        b"(allow n.x b (file (read)))(allow n.t a (file (open)))",
    ], accepted(
        (b"AV u:r:n.x u:r:b file", READ), (b"AV u:r:lib.t u:r:b file", READ), (AB, b"OK open,read - open,read"),
        (AA, b"OK open - open,read"),
    )),
    ("an attribute of an optional, and members in another", [
        FIRST + b"(optional o (typeattribute x)(allow x b (file (open))))(optional p (typeattributeset x a))"
        b"(optional q (typeattributeset x b)(typeattributeset y b))",
    ], accepted(
        (b"OPTIONALS", lines(b"0 123 . o in", b"0 178 . p in", b"0 213 . q out")),
        (AB, b"OK open,read - open,read"), (b"AV u:r:b u:r:b file", NONE),
    )),
    ("an attribute of an optional that is out, behind a farther one", [
        FIRST + b"(typeattribute x)(typeattributeset x a)(block k (optional o (typeattribute x)(roletype .r nobody))"
        b"(allow x .b (file (open)))(optional p (typeattributeset x .b)))",
    ], accepted(
        (AB, b"OK open,read - open,read"), (b"AV u:r:b u:r:b file", b"OK open - open,read"),
    )),
    ("an argument that is an attribute, in the scope of the call", [
        FIRST + b"(block lib (typeattribute x)(typeattributeset x .b)(macro m ((type p)(role q)) (allow p .b (file (open)))"
        b"(roletype q p)))(block n (typeattribute x)(typeattributeset x (not .b))(roleattribute s)(roleattributeset s .r)"
        b"(type t)(call lib.m (x s)))",
    ], accepted(
        (AB, b"OK open,read - open,read"), (b"AV u:r:n.t u:r:b file", b"OK open - open,read"),
        (b"AV u:r:b u:r:b file", NONE),
    )),
    ("an attribute for the role of all", [b"(roleattribute object_r)"], refused(Fault(36, b"object_r"))),
    ("a role again", [b"(role object_r)(block k (roleattribute object_r))"], accepted()),
    ("no such attribute", [b"(type a)(expandtypeattribute (a nobody) true)(typeattributeset a a)"], refused(
        Fault(41, b"a", b"a nobody"), Fault(41, b"nobody"), Fault(41, b"a", b"a a"),
    )),
    ("expandtypeattribute has no effect", [FIRST + SELF + b"(expandtypeattribute z true)"], accepted((AB, READ))),
    ("an attribute for a type that is used where an alias is wanted", [
        b"(type a)(typealias y)(typealiasactual y a)(typeattribute x)"
        b"(macro m ((type p)) (typealiasactual y p))(call m (x))",
    ], refused(Fault(41, b"x", b"x))"))),
    ("a type for a typealias", [FIRST + b"(macro m ((typealias p)) (allow p b (file (open))))(call m (a))"], accepted(
        (AB, b"OK open,read - open,read"),
    )),
    ("a parameter as the attribute of a set", [
        FIRST + b"(typeattribute x)(macro m ((type p)(type q)) (typeattributeset p (and q (not a))))"
        b"(typeattribute y)(typeattributeset y all)(call m (x y))(allow x b (file (open)))",
    ], accepted((b"AV u:r:b u:r:b file", b"OK open - open,read"), (AB, READ))),
    ("roles and 60", [b"".join(b"(role q%d)" % i for i in range(4096))], refused(Exact(b"60 0 0 . roles"))),
    ("as many roles as may be", [b"".join(b"(role q%d)" % i for i in range(4095))], accepted()),
    ("users and 60, with another fault", [
        b"".join(b"(user v%d)" % i for i in range(4097)) + b"(typealias x)",
    ], refused(Fault(51, b"x"), Exact(b"60 0 0 . users"))),
    ("users in an optional that is out, aliases and attributes do not count", [
        b"".join(b"(user v%d)" % i for i in range(4096)) + b"(userattribute x)(optional o (user w)(userrole w nobody))",
    ], accepted()),
    ("faults of sets and of classes", [
        b"(class c (p))(common k (x))(common j (x))(classcommon c k)(classcommon c j)(typealias y)",
    ], refused(Fault(51, b"y", b"y)"), Fault(56, b"c", b"c k"), Fault(56, b"c", b"c j"))),
]

MAP = b"(classmap m (rw))(classmapping m rw (file (all)))(allow b a (m (rw)))"
CIRCLE = (
    b"(classmap m (x y))(classpermission n)(classmapping m x n)(classpermissionset n (m (x y)))"
    b"(classmapping m y (file (open)))(allow b a (m (x)))"
)


def chain_of_permissions(count, is_circle):
    """Class permissions and map permissions, each of which gives what the next gives; the last the first, or `open`."""
    made = [b"(classmap m (%s))" % b" ".join(b"x%d" % i for i in range(count))]
    for i in range(count):
        made += [b"(classpermission n%d)" % i, b"(classmapping m x%d n%d)" % (i, i)]
        if i + 1 < count:
            made.append(b"(classpermissionset n%d (m (x%d)))" % (i, i + 1))
    if is_circle:
        made.append(b"(classpermissionset n%d (m (x0)))" % (count - 1))
    middle = count // 2
    return b"".join(made) + b"(classpermissionset n%d (file (open)))" % (middle if is_circle else count - 1)


MAPS = [
    ("a class map", [FIRST + MAP], accepted((BA, b"OK open,read - open,read"))),
    ("a class map is no class of a query", [FIRST + MAP], accepted((b"AV u:r:b u:r:a m", b"ERR 73"))),
    ("a circle of two", [FIRST + CIRCLE], accepted((BA, b"OK open - open,read"))),
    ("a circle of itself that gives nothing", [
        FIRST + b"(classmap m (x))(classpermission n)(classmapping m x n)(classpermissionset n (m (x)))(allow b a n)",
    ], accepted((BA, NONE))),
    ("a circle of thirty", [FIRST + chain_of_permissions(30, True) + b"(allow b a (m (x29)))(allow a a n3)"], accepted(
        (BA, b"OK open - open,read"), (AA, b"OK open - open,read"),
    )),
    ("a chain of thirty", [FIRST + chain_of_permissions(30, False) + b"(allow b a (m (x0)))"], accepted(
        (BA, b"OK open - open,read"),
    )),
    ("a name that gives nothing", [FIRST + b"(classpermission n)(allow b a n)"], accepted((BA, NONE))),
    ("the sets of a name are united, of several classes", [
        FIRST + b"(class dir (open search))(classpermission n)(classpermissionset n (file (read)))"
        b"(classpermissionset n (dir (not search)))(classpermissionset n (file (and all open)))(allow b a n)",
    ], accepted(
        (BA, b"OK open,read - open,read"), (b"AV u:r:b u:r:a dir", b"OK open - open,search"),
    )),
    ("a permission of a map that nobody maps", [
        FIRST + b"(classmap m (x y))(classmapping m y (file (open)))(allow b a (m (x)))",
    ], accepted((BA, NONE))),
    ("the mappings of a permission are united", [
        FIRST + b"(class dir (search))(classmap m (x))(classmapping m x (file (open)))(classmapping m x (dir (all)))"
        b"(allow b a (m (all)))",
    ], accepted((BA, b"OK open - open,read"), (b"AV u:r:b u:r:a dir", b"OK search - search"))),
    ("not, xor and all are over the permissions of the map", [
        FIRST + b"(classmap m (x y read))(classmapping m x (file (open)))(classmapping m y (file (read)))"
        b"(allow a a (m (not x)))(allow b a (m (xor all (y read))))(allow b b (m (not (x y))))",
    ], accepted(
        (AA, b"OK read - open,read"), (BA, b"OK open - open,read"), (b"AV u:r:b u:r:b file", NONE),
    )),
    ("a permission that a map has not", [FIRST + b"(classmap m (x))(allow b a (m (open)))"], refused(
        Fault(41, b"open", b"open", 1),
    )),
    ("a permission that a map has not, in an optional", [
        FIRST + b"(classmap m (x))(optional o (allow b a (m (open))))",
    ], accepted((b"OPTIONALS", lines(b"0 139 . o out")), (b"WHY", lines(b"0 139 . o missing open")))),
    ("a mapping whose map is missing", [FIRST + b"(classmapping nobody x (file (nope)))"], refused(
        Fault(41, b"nobody"), Fault(41, b"nope"),
    )),
    ("a mapping of a permission that its map has not", [FIRST + b"(classmap m (x))(classmapping m read (file (read)))"],
     refused(Fault(41, b"read", b"read (file"))),
    ("a class is no map", [FIRST + b"(classmapping file read (file (read)))"], refused(
        Fault(41, b"file", b"file read"),
    )),
    ("a mapping wants a class alone", [FIRST + b"(classmap m (rw))(classmapping m rw (m (rw nope)))"], refused(
        Fault(41, b"m", b"m (rw nope"),
    )),
    ("a mapping of an optional that is out", [
        FIRST + b"(classmap m (x))(optional o (classmapping m x (file (open)))(roletype r nobody))"
        b"(classmapping m x (file (read)))(allow b a (m (x)))",
    ], accepted((BA, b"OK read - open,read"))),
    ("a name of an optional that is out", [
        FIRST + b"(optional o (classpermission n)(roletype r nobody))(optional p (allow b a n))(allow b a n)",
    ], refused(Fault(41, b"n", b"n)", 2))),
    ("a set of an optional that is out", [
        FIRST + b"(classpermission n)(classpermissionset n (file (read)))(optional o (classpermissionset n (file (open)))"
        b"(roletype r nobody))(allow b a n)",
    ], accepted((BA, b"OK read - open,read"))),
    ("a class and a map of one name", [b"(class m (x))(classmap m (x))"], refused(
        Fault(36, b"m", b"m (x"), Fault(36, b"m", b"m (x", 1),
    )),
    ("maps with other lists", [b"(classmap m (x y))(classmap m (y x))(classmap m (x y))"], refused(
        Fault(36, b"m", b"m (x"), Fault(36, b"m", b"m (y"), Fault(36, b"m", b"m (x", 1),
    )),
    ("a name and a map, in name spaces of their own", [b"(classmap n (x))(classpermission n)(common n (x))"], accepted()),
    ("a wide map", [
        FIRST + b"(classmap m (%s))(classmapping m x99 (file (open)))(allow b a (m (and all (not x1))))"
        % b" ".join(b"x%d" % i for i in range(100)),
    ], accepted((BA, b"OK open - open,read"))),
    ("a map without permissions", [b"(classmap m ())"], refused(Exact(b"23 0 0 . classmap"))),
    ("no map in an optional, no map in a macro", [b"(optional o (classmap m (x)))(macro m () (classmap m (x)))"], refused(
        Fault(24, b"classmap", b"(classmap"), Fault(24, b"classmap", b"(classmap", 1),
    )),
    ("a nearer map in front of a class", [
        FIRST + b"(block k (classmap file (open))(classmapping file open (.file (read)))(allow .b .a (file (open))))",
    ], accepted((BA, b"OK read - open,read"))),
    ("classorder", [FIRST + b"(classmap m (x))(classorder (unordered file))(classorder (file m nobody))"], refused(
        Fault(41, b"m", b"m nobody"), Fault(41, b"nobody"),
    )),
    ("a class for the parameter of a map", [
        FIRST + b"(classmap m (x))(macro k ((classmap p)) (allow b a (p (x))))(call k (file))(call k (m))",
    ], refused(Fault(41, b"file", b"file))"), Fault(41, b"x", b"x))))"))),
]

ARGUMENTS = [
    ("an argument that is a list", [
        FIRST + b"(macro m ((classpermission p)) (allow b a p))(call m ((file (not (read)))))",
    ], accepted((BA, b"OK open - open,read"))),
    ("an argument that is a name", [
        FIRST + b"(classpermission n)(classpermissionset n (file (open)))(macro m ((classpermission p)) (allow b a p))"
        b"(call m (n))",
    ], accepted((BA, b"OK open - open,read"))),
    ("a list that is handed on by two macros", [
        FIRST + b"(class dir (search))(block k (class file (x))(macro in ((classpermission p)) (allow .b .a p))"
        b"(macro mid ((classpermission q)) (call in (q))))(macro out ((class c)) (call k.mid ((c (open)))))(call out (file))",
    ], accepted((BA, b"OK open - open,read"))),
    ("a list where only a name may stand", [
        FIRST + b"(macro m ((classpermission p)) (classpermissionset p (file (open))))(call m ((file (read))))",
    ], refused(Fault(35, b"m", b"m ((file"))),
    ("a list where only a name may stand, handed on", [
        FIRST + b"(macro in ((classpermission p)) (optional o (classpermissionset p (file (open)))))"
        b"(macro out ((classpermission q)) (call in (q)))(call out ((file (read))))",
    ], refused(Fault(35, b"in", b"in (q"))),
    ("a list with a form that is none", [
        FIRST + b"(macro m ((classpermission p)))(call m ((file)))(call m ((file (and read))))(call m ((file (all.b))))"
        b"(call m (self))(call m ((file read) file))(call m (()))(call m ((file range)))",
    ], refused(
        Fault(35, b"m", b"m ((file))"), Fault(35, b"m", b"m ((file (and"), Fault(35, b"m", b"m ((file (all"),
        Fault(35, b"m", b"m (self"), Fault(35, b"m", b"m ((file read) file"), Fault(35, b"m", b"m (())"),
        Fault(35, b"m", b"m ((file range"),
    )),
    ("the list of a map in a classmapping", [
        FIRST + b"(classmap m (x))(macro mm ((classpermission p)) (classmapping m x p))(call mm ((m (x))))",
    ], refused(Fault(41, b"m", b"m (x))))"))),
    ("a list of a class in a classmapping", [
        FIRST + b"(classmap m (x))(macro mm ((classpermission p)) (classmapping m x p))(call mm ((file (open))))"
        b"(allow b a (m (x)))",
    ], accepted((BA, b"OK open - open,read"))),
    ("a list in a classmapping passes over a nearer map", [
        FIRST + b"(block k (classmap file (open))(macro mm ((classpermission p)) (classmapping file open p))"
        b"(call mm ((file (open))))(allow .b .a (file (open))))",
    ], accepted((BA, b"OK open - open,read"))),
    ("the words of an argument that is a list", [
        FIRST + b"(macro m ((classpermission p)))(call m ((nobody (x))))(call m ((file (nope))))(call m (nobody))",
    ], refused(Fault(41, b"nobody"), Fault(41, b"nope"), Fault(41, b"nobody", b"nobody", 1))),
    ("a map for the parameter of a map", [
        FIRST + b"(classmap m (x))(macro k ((classmap p)(classpermission q)) (classmapping p x q)(allow b a (p (x))))"
        b"(call k (m (file (open))))",
    ], accepted((BA, b"OK open - open,read"))),
    ("a list on a map, with operators over its permissions", [
        FIRST + b"(classmap m (x y))(classmapping m x (file (open)))(classmapping m y (file (read)))"
        b"(macro k ((classpermission p)) (allow b a p))(call k ((m (and all (not (y))))))",
    ], accepted((BA, b"OK open - open,read"))),
    ("a list in audit rules", [
        FIRST + b"(macro m ((classpermission p)(classpermission q)) (auditallow b a p)(dontaudit b a q))"
        b"(call m ((file (open)) (file all)))",
    ], accepted((BA, b"OK - open -"))),
    ("a list in a branch", [
        FIRST + b"(boolean bo true)(macro m ((classpermission p)) (allow b a p))"
        b"(booleanif bo (true (call m ((file (open)))))(false (call m ((file (read))))))",
    ], accepted((BA, b"OK open - open,read"), (b"SET bo false", b"OK"), (BA, b"OK read - open,read"))),
    ("a list in a neverallow, and in the rule that it forbids", [
        FIRST + b"(macro m ((classpermission p)) (neverallow b a p)(allow b a p))(call m ((file (open read))))",
    ], refused(Never(b"(neverallow", b"(allow b", b"b:a:file:open"))),
    ("the permissions of a list, in the namespace of the call", [
        FIRST + b"(macro m ((classpermission p)) (allow b a p))(block n (call m ((file (nope)))))(call m ((file nope)))",
    ], refused(Fault(41, b"nope", b"nope)))))", space=b"n"), Fault(41, b"nope", b"nope)))", 1))),
    ("of a list on a map in a classmapping the class word alone", [
        FIRST + b"(classmap m (x))(macro k ((classpermission p)) (classmapping m x p))(call k ((m (x nope))))",
    ], refused(Fault(41, b"m", b"m (x nope"), Fault(41, b"nope"))),
    ("such a list puts the optional of the call out", [
        FIRST + b"(optional o (call k ((m ()))))(classmap m (x))(macro k ((classpermission p)) (classmapping m x p))",
    ], accepted((b"OPTIONALS", lines(b"0 123 . o out")), (b"WHY", lines(b"0 123 . o missing m")))),
    ("a permission of a list puts the optional of the call out", [
        FIRST + b"(optional o (call k ((file (open (not nope))))))(macro k ((classpermission p)) (allow b a p))",
    ], accepted((b"OPTIONALS", lines(b"0 123 . o out")), (b"WHY", lines(b"0 123 . o missing nope")), (BA, NONE))),
    ("a name that the body declares, from another body", [
        FIRST + b"(block lib (classpermission q)(classpermissionset q (.file (read)))(macro in ((classpermission p))"
        b" (allow .b .a p))(macro out () (classpermission q)(classpermissionset q (.file (open)))(call in (q))))"
        b"(block n (call lib.out))",
    ], accepted((BA, b"OK open - open,read"))),
    ("a parameter with the name of a class permission", [
        FIRST + b"(classpermission q)(classpermissionset q (file (read)))(macro k ((classpermission q)) (allow b a q)"
        b"(allow a a .q))(call k ((file (open))))",
    ], accepted((BA, b"OK open - open,read"), (AA, b"OK read - open,read"))),
    ("a parameter at places of other kinds", [
        FIRST + b"(macro k ((classpermission p)) (allow p a (p (open))))(call k ((file (open))))",
    ], refused(Fault(41, b"p", b"p a"), Fault(41, b"p", b"p (open)"))),
    ("a misplaced list in a branch, a call in the same body", [
        FIRST + b"(boolean bo true)(macro h ())(macro k ((classpermission p)) (classpermissionset p (file (open)))(call h (p))"
        b"(call k (p)))(booleanif bo (true (call k ((file (read))))))",
    ], refused(
        Fault(34, b"k", b"k (p))"), Fault(35, b"h", b"h (p)"), Fault(35, b"k", b"k ((file"), Fault(37, b"k", b"k ((file"),
    )),
]

AUDIT = [
    ("audit rules", [FIRST + b"(auditallow a b (file (read)))(dontaudit a b (file (open)))"], accepted(
        (AB, b"OK read read read"), (BA, NONE),
    )),
    ("audit rules allow nothing and take nothing away", [
        FIRST + b"(dontaudit a b (file (all)))(auditallow b a (file (all)))(auditallow a b (file (open)))",
    ], accepted((AB, b"OK read open -"), (BA, b"OK - open,read open,read"))),
    ("audit rules over two classes", [
        FIRST + b"(class dir (read))(classpermission p)(classpermissionset p (file (all)))(classpermissionset p (dir (all)))"
        b"(dontaudit a self p)(auditallow b b p)",
    ], accepted(
        (AA, b"OK - - -"), (b"AV u:r:a u:r:a dir", b"OK - - -"), (b"AV u:r:b u:r:b dir", b"OK - read read"), (AB, READ),
    )),
    ("a request before a load, and lines that are none", [FIRST], [
        (b"CHECK u:r:a u:r:b file open", b"ERR 71"), (b"CHECK a b c", b"ERR 81"), (b"CHECK a b c d e", b"ERR 81"),
        (b"CHECK a b  d", b"ERR 81"), (b"check a b c d", b"ERR 81"),
    ]),
    ("a first answer", [FIRST], accepted(
        (AB, READ), (b"CHECK u:r:a u:r:b file open", b"OK no"), (b"CHECK u:r:a u:r:b file write", b"ERR 74"),
        (b"AV u:r:a u:r:b dir", b"ERR 73"),
    )),
    ("checks", [FIRST + b"(common k (ioctl))(classcommon file k)(typeattribute z)(typeattributeset z (a b))"
                b"(allow z self (file (ioctl)))(auditallow a b (file (open)))"], accepted(
        (b"CHECK u:r:a u:r:b file open", b"OK no"), (b"CHECK u:r:a u:r:b file read", b"OK yes"),
        (b"CHECK u:r:b u:r:b file ioctl", b"OK yes"), (b"CHECK u:r:b u:r:a file ioctl", b"OK no"),
        (b"CHECK u:r:a u:r:b file write", b"ERR 74"), (b"CHECK u:r:a u:r:b dir open", b"ERR 73"),
        (b"CHECK u:r u:r:b dir open", b"ERR 72 1"), (b"CHECK u:r:a u:r:c dir open", b"ERR 72 2"),
    )),
]

BOOLEAN = b"(boolean bo false)(booleanif bo (true (allow b a (file (open)))))"
OPEN = b"OK open - open,read"
EQUAL = b"(boolean p true)(boolean q false)(booleanif %s (true (allow b a (file (open))))(false (allow b a (file (read)))))"


def by_setting(condition, *values):
    """What the two booleans give: for each value of both, whether the condition is true."""
    asked = []
    for (one, other), value in zip([(one, other) for one in (0, 1) for other in (0, 1)], values):
        asked += [
            (b"SET p " + (b"true" if one else b"false"), b"OK"), (b"SET q " + (b"true" if other else b"false"), b"OK"),
            (BA, OPEN if value else READ),
        ]
    return "the condition " + condition.decode(), [FIRST + EQUAL % condition], accepted(*asked)


BOOLEANS = [
    ("a neverallow and a branch", [
        FIRST + b"(boolean bo true)(booleanif bo (false (allow b a (file (open)))))(neverallow b a (file (open read)))",
    ], refused(Exact(b"65 0 188 . 0:161:b:a:file:open"))),
    ("a boolean that is turned", [FIRST + BOOLEAN], accepted(
        (BA, NONE), (b"SET bo true", b"OK"), (BA, OPEN), (AB, READ), (b"SET bo true", b"OK"), (BA, OPEN),
        (b"SET bo false", b"OK"), (BA, NONE), (b"SET no true", b"ERR 75"),
    )),
    ("defaults again after a load", [FIRST + BOOLEAN], accepted(
        (b"SET bo true", b"OK"), (BA, OPEN), (b"LOAD", b"OK"), (BA, NONE),
    )),
    ("settings are kept where a load is refused", [FIRST + BOOLEAN], accepted(
        (b"SET bo true", b"OK"), (b"INSTALL 9\n(typ a a)LOAD", b"OK new\nFAULTS 1\n21 1 0 . typ"), (BA, OPEN),
    )),
    ("requests before a load", [FIRST + BOOLEAN], [
        (b"SET bo true", b"ERR 71"), (b"CHECK u:r:a u:r:b file open", b"ERR 71"), (b"SET bo TRUE", b"ERR 81"),
    ]),
    ("lines that are no requests", [FIRST + BOOLEAN], accepted(
        *((line, b"ERR 81") for line in (
            b"SET bo TRUE", b"SET bo", b"SET bo true x", b"SET  true", b"SET bo 1", b"CHECK a b c", b"CHECK a b c d e",
        )),
    )),
    ("names that are no booleans", [FIRST + b"(block k" + BOOLEAN + b")"], accepted(
        *((b"SET %s true" % name, b"ERR 75") for name in (b"bo", b"k", b".k.bo", b"k.b", b"a", b"k.bo.")),
        (b"SET k.bo true", b"OK"),
    )),
    ("a boolean of an optional that is out", [FIRST + b"(optional o (boolean bo true)(roletype r nobody))"], accepted(
        (b"SET bo true", b"ERR 75"),
    )),
    ("a boolean of an optional", [
        FIRST + b"(optional o (boolean bo true))(booleanif bo (true (allow b a (file (open)))))",
    ], accepted((BA, OPEN), (b"SET bo false", b"OK"), (BA, NONE))),
    by_setting(b"(and p q)", 0, 0, 0, 1),
    by_setting(b"(or p (q))", 0, 1, 1, 1),
    by_setting(b"(xor p q)", 0, 1, 1, 0),
    by_setting(b"(eq (p) q)", 1, 0, 0, 1),
    by_setting(b"(neq p q)", 0, 1, 1, 0),
    by_setting(b"((not p))", 1, 1, 0, 0),
    by_setting(b"(and (not q) ((p)))", 0, 0, 1, 0),
    ("a call in a branch", [b"(boolean bo true)(macro m () (type t))(booleanif bo (true (call m)))"], refused(
        Exact(b"37 0 64 . m"),
    )),
    ("calls in branches, one in the other", [
        b"(boolean bo true)(macro in () (type t))(macro out () (booleanif bo (false (call in))))"
        b"(booleanif bo (true (call out)))",
    ], refused(Fault(37, b"in", b"in))"), Fault(37, b"out", b"out))"))),
    ("a call in a branch that brings a branch with rules alone", [
        b"(boolean bo true)(macro in () (allow a a (file (open))))(macro out () (booleanif bo (false (call in))))"
        b"(booleanif bo (true (call out)))",
    ], refused(Fault(37, b"out", b"out))"))),
    ("a call in a branch that brings by a further call", [
        b"(boolean bo true)(macro in () (optional o))(macro out () (call in))(block k (booleanif bo (true (call out))))",
    ], refused(Fault(37, b"out", b"out))", space=b"k"))),
    ("a call in a branch that brings rules", [
        FIRST + b"(boolean bo true)(macro in ((type p)) (allow p a (file (open))))(macro out ((type p)) (call in (p)))"
        b"(booleanif (not bo) (true (call out (b))))",
    ], accepted((BA, NONE), (b"SET bo false", b"OK"), (BA, OPEN))),
    ("a call in a branch that is not unfolded", [
        b"(boolean bo true)(macro m ((type p)) (type t))(booleanif bo (true (call m)))",
    ], refused(Fault(35, b"m", b"m)))"))),
    ("a call of no macro in a branch", [FIRST + b"(boolean bo true)(booleanif bo (true (call nobody (x))))"], refused(
        Fault(41, b"nobody"),
    )),
    ("two booleans of one name", [b"(boolean b true)(boolean b false)"], refused(
        Fault(36, b"b", b"b true"), Fault(36, b"b", b"b false"),
    )),
    ("a boolean twice alike", [b"(boolean b true)(boolean b true)(type b)"], accepted()),
    ("a parameter in a condition", [
        FIRST + b"(boolean q false)(block k (boolean p true)(macro m ((boolean p)) (booleanif (not p) (true (allow .b .a"
        b" (file (open)))))))(macro n ((bool p)) (call k.m (p)))(call n (q))",
    ], accepted((BA, OPEN), (b"SET k.p false", b"OK"), (BA, OPEN), (b"SET q true", b"OK"), (BA, NONE))),
    ("a condition in the scope of its booleanif", [
        FIRST + b"(boolean p false)(block k (boolean p true)(block l (booleanif p (true (allow b a (file (open)))))))"
        b"(block n (blockinherit k))",
    ], accepted((BA, OPEN), (b"SET k.p false", b"OK"), (BA, OPEN), (b"SET n.p false", b"OK"), (BA, NONE))),
    ("a word of a branch puts an optional out", [
        FIRST + b"(boolean p true)(optional o (booleanif p (true (allow b a (file (open)))"
        b"(call nobody))(false (dontaudit b a (file (open))))))",
    ], accepted((b"OPTIONALS", lines(b"0 139 . o out")), (BA, NONE))),
    ("a word of a branch", [FIRST + b"(boolean p true)(booleanif p (false (allow b nobody (file (open)))))"], refused(
        Fault(41, b"nobody"),
    )),
    ("a word of a condition", [FIRST + b"(booleanif (and nobody (not (xor nope a))) (true))"], refused(
        Fault(41, b"nobody"), Fault(41, b"nope"), Fault(41, b"a", b"a)))"),
    )),
    ("audit rules in branches", [
        FIRST + b"(boolean p true)(booleanif p (true (auditallow b a (file (read)))(dontaudit b a (file (open))))"
        b"(false (dontaudit b a (file (read)))))",
    ], accepted(
        (BA, b"OK - read read"), (b"SET p false", b"OK"), (BA, b"OK - - open"),
    )),
    ("self against a set", [
        FIRST + b"(typeattribute z)(typeattributeset z (a b))(allow z self (file (open)))(neverallow b z (file (open)))",
    ], refused(Never(b"(neverallow", b"(allow z", b"b:b:file:open"))),
    ("self against self", [
        FIRST + b"(typeattribute z)(typeattributeset z (a b))(allow z self (file (open)))(neverallow z self (file (all)))",
    ], refused(Never(b"(neverallow", b"(allow z", b"a:a:file:open"))),
    ("a set against self that does not meet", [
        FIRST + b"(allow a b (file (open)))(neverallow a self (file (all)))(neverallow b all-but (file (all)))"
        b"(typeattribute all-but)(typeattributeset all-but (not a))",
    ], accepted((AB, b"OK open,read - open,read"))),
    ("the least class, then the least permission", [
        FIRST + b"(class blk (read write))(classpermission n)(classpermissionset n (file (all)))"
        b"(classpermissionset n (blk (all)))(neverallow b a n)(allow b a n)(allow b a (file (read)))",
    ], refused(
        Never(b"(neverallow", b"(allow b a n", b"b:a:blk:read"),
        Never(b"(neverallow", b"(allow b a (file", b"b:a:file:read"),
    )),
    ("the least source first, then the least target with it", [
        FIRST + b"(type c)(typeattribute z)(typeattributeset z (b c))(typeattribute w)(typeattributeset w (a c))"
        b"(allow z w (file (open)))(neverallow z c (file (open)))(neverallow c w (file (open)))",
    ], refused(
        Never(b"(neverallow z", b"(allow z", b"b:c:file:open"), Never(b"(neverallow c", b"(allow z", b"c:a:file:open"),
    )),
    ("a neverallow in two namespaces", [
        FIRST + b"(allow b a (file (open)))(block k (neverallow b a (file (open))))(block n (blockinherit k))",
    ], refused(
        Never(b"(neverallow", b"(allow b", b"b:a:file:open", b"k"),
        Never(b"(neverallow", b"(allow b", b"b:a:file:open", b"n"),
    )),
    ("an allow in two namespaces", [
        FIRST + b"(block k (type t)(allow t .a (file (open))))(block n (blockinherit k))"
        b"(typeattribute z)(typeattributeset z all)(neverallow z a (file (open)))",
    ], refused(
        Never(b"(neverallow", b"(allow t", b"k.t:a:file:open"), Never(b"(neverallow", b"(allow t", b"n.t:a:file:open"),
    )),
    ("what is not enabled is not judged", [
        FIRST + b"(optional o (neverallow a b (file (read)))(roletype r nobody))(neverallow b a (file (read)))"
        b"(optional p (allow b a (file (read)))(roletype r nobody))(auditallow b a (file (read)))",
    ], accepted((AB, READ))),
    ("many that meet, and a line for each pair of statements", [
        FIRST + b"".join(b"(type v%d)" % i for i in range(500)) + b"(typeattribute z)(typeattributeset z all)"
        b"(allow z z (file (all)))(neverallow z z (file (all)))",
    ], refused(
        Never(b"(neverallow", b"(allow z", b"a:a:file:open"), Never(b"(neverallow", b"(allow a", b"a:b:file:read"),
    )),
    ("booleans and 60", [b"".join(b"(boolean b%d true)" % i for i in range(4097))], refused(Exact(b"60 0 0 . booleans"))),
    ("as many booleans as may be", [
        b"".join(b"(boolean b%d true)" % i for i in range(4096)) + b"(optional o (boolean c true)(roletype r nobody))",
    ], accepted()),
]

TRANSITIONS = [
    ("names of what has no effect", [
        FIRST + b'(typetransition a self file "x y" b)(typechange a nobody file b)(typemember a b nobody a)'
        b"(typeattribute z)(typetransition z z file z)(roletransition r a file r)(roletransition nobody z file object_r)",
    ], refused(
        Fault(41, b"nobody"), Fault(41, b"nobody", b"nobody", 1), Fault(41, b"z", b"z)", 1),
        Fault(41, b"nobody", b"nobody", 2),
    )),
    ("no effect", [
        FIRST + b"(typetransition a b file all b)(typechange b a file b)(typemember a b file a)(roletransition r a file r)",
    ], accepted((AB, READ), (BA, NONE))),
    ("a parameter of the name of a string, a map for a class", [
        FIRST + b"(classmap m (x))(macro k ((name n)(class c)) (typetransition a b c n b))(call k (\"\" file))"
        b"(typechange a b m b)",
    ], accepted((AB, READ))),
]

CHANGE = (
    b"(class process (signal transition))(class file (read))(user u)(role r)(role q)(userrole u r)(userrole u q)"
    b"(type a)(type b)(roletype r a)(roletype q b)(allow a b (process (signal transition)))(allow a b (file (read)))"
)
CHANGES = (
    b"(class process (fork transition dyntransition))(user u)(role r)(role q)(role s)(type a)"
    b"(roleattribute some)(roleattributeset some (r q s))(userrole u some)(roletype some a)(allow a self (process (all)))"
)
CHANGED, STAYED = b"OK signal,transition - signal,transition", b"OK signal - signal,transition"
FULL = b"OK dyntransition,fork,transition - dyntransition,fork,transition"
FORKED = b"OK fork - dyntransition,fork,transition"


def of_roles(source, target, reply, class_name=b"process"):
    return b"AV u:%s:a u:%s:a %s" % (source, target, class_name), reply


def change(reply, class_name=b"process"):
    return b"AV u:r:a u:q:b " + class_name, reply


ROLES = [
    ("a role does not change", [CHANGE], accepted(change(STAYED), change(b"OK read - read", b"file"))),
    ("a role may change", [CHANGE + b"(roleallow r q)"], accepted(change(CHANGED))),
    ("checks of a change", [CHANGE], accepted(
        (b"CHECK u:r:a u:q:b process transition", b"OK no"), (b"CHECK u:r:a u:q:b process signal", b"OK yes"),
        (b"CHECK u:r:a u:q:b process fork", b"ERR 74"),
    )),
    ("checks of a change that may be", [CHANGE + b"(roleallow r q)"], accepted(
        (b"CHECK u:r:a u:q:b process transition", b"OK yes"),
    )),
    ("both permissions, from one role to another and not back, and not by two steps", [
        CHANGES + b"(roleallow r q)(roleallow q s)",
    ], accepted(
        of_roles(b"r", b"q", FULL), of_roles(b"q", b"r", FORKED), of_roles(b"r", b"s", FORKED), of_roles(b"r", b"r", FULL),
    )),
    ("object_r is a role as others are", [CHANGES + b"(roleallow object_r r)"], accepted(
        of_roles(b"object_r", b"r", FULL), of_roles(b"r", b"object_r", FORKED), of_roles(b"object_r", b"q", FORKED),
        of_roles(b"object_r", b"object_r", FULL),
    )),
    ("attributes of roles, all has object_r", [
        CHANGES + b"(roleattribute k)(roleattributeset k (not (q s)))(roleattribute n)(roleallow k q)(roleallow s k)"
        b"(roleallow n s)(roleallow q n)",
    ], accepted(
        of_roles(b"r", b"q", FULL), of_roles(b"object_r", b"q", FULL), of_roles(b"s", b"object_r", FULL),
        of_roles(b"s", b"r", FULL), of_roles(b"s", b"q", FORKED), of_roles(b"q", b"r", FORKED),
        of_roles(b"r", b"s", FORKED), of_roles(b"q", b"s", FORKED),
    )),
    ("a class process in a block, and one that a block gives", [
        b"(block n (class process (transition)))(block k (blockinherit n)(class w (transition)))(blockinherit n)(user u)"
        b"(role r)(role q)(type a)(userrole u r)(userrole u q)(roletype r a)(roletype q a)"
        b"(allow a a (process (transition)))(allow a a (n.process (transition)))(allow a a (k.process (transition)))",
    ], accepted(
        of_roles(b"r", b"q", b"OK - - transition"), of_roles(b"r", b"q", b"OK transition - transition", b"n.process"),
        of_roles(b"r", b"q", b"OK transition - transition", b"k.process"), of_roles(b"r", b"q", b"OK - - transition", b"k.w"),
    )),
    ("a permission of a common", [
        b"(common c (transition fork))(class process ())(class w ())(classcommon process c)(classcommon w c)(user u)(role r)"
        b"(role q)(type a)(userrole u r)(userrole u q)(roletype r a)(roletype q a)(allow a a (process (all)))"
        b"(allow a a (w (all)))",
    ], accepted(
        of_roles(b"r", b"q", b"OK fork - fork,transition"),
        of_roles(b"r", b"q", b"OK fork,transition - fork,transition", b"w"),
    )),
    ("permissions of a class map, whatever their names", [
        CHANGE + b"(classmap m (transition x))(classmapping m transition (process (signal)))"
        b"(classmapping m x (process (transition)))(allow b a (m (transition x)))(roletype r b)(roletype q a)",
    ], accepted((b"AV u:r:b u:q:a process", STAYED), (b"AV u:r:b u:r:a process", CHANGED))),
    ("a class map called process is no class", [
        b"(class w (transition))(classmap process (transition))(classmapping process transition (w (transition)))(user u)"
        b"(role r)(role q)(type a)(userrole u r)(userrole u q)(roletype r a)(roletype q a)"
        b"(allow a a (process (transition)))",
    ], accepted(
        of_roles(b"r", b"q", b"OK transition - transition", b"w"), of_roles(b"r", b"q", b"ERR 73"),
    )),
    ("audit rules do not ask for roles", [
        CHANGES + b"(auditallow a a (process (transition)))(dontaudit a a (process (dyntransition)))",
    ], accepted(of_roles(b"r", b"q", b"OK fork transition fork,transition"))),
    ("neverallow does not ask for roles", [CHANGE + b"(neverallow a b (process (transition)))"], refused(
        Never(b"(neverallow", b"(allow", b"a:b:process:transition"),
    )),
    ("a rule in a branch", [
        CHANGE + b"(boolean p false)(booleanif p (true (allow b a (process (all)))))(roletype r b)(roletype q a)",
    ], accepted(
        (b"SET p true", b"OK"), (b"AV u:r:b u:q:a process", STAYED), (b"AV u:r:b u:r:a process", CHANGED),
    )),
    ("optionals that are in and out", [
        CHANGES + b"(optional o (roleallow r q))(optional p (roleallow q s)(optional i (roleallow s q))(roleallow q nobody))",
    ], accepted(
        of_roles(b"r", b"q", FULL), of_roles(b"q", b"s", FORKED), of_roles(b"s", b"q", FORKED),
    )),
    ("a nearer role of the name", [
        CHANGES + b"(block k (role q)(roleallow r q)(roleallow r .s))(userrole u k.q)(roletype k.q a)",
    ], accepted(
        of_roles(b"r", b"k.q", FULL), of_roles(b"r", b"q", FORKED), of_roles(b"r", b"s", FULL),
        of_roles(b"k.q", b"q", FORKED),
    )),
    ("roles as arguments, one of them of the name of a parameter", [
        CHANGES + b"(macro m ((role r)(role x)) (roleallow x r)(roleallow x s))(call m (q some))(call m (object_r r))",
    ], accepted(
        of_roles(b"r", b"q", FULL), of_roles(b"s", b"q", FULL), of_roles(b"q", b"r", FORKED),
        of_roles(b"q", b"s", FULL), of_roles(b"r", b"object_r", FULL), of_roles(b"s", b"object_r", FORKED),
    )),
    ("the words of a roleallow", [FIRST + b"(roleallow r a)(roleallow nobody r)(roleallow r .object_r)"], refused(
        Fault(41, b"a", b"a)(roleallow n"), Fault(41, b"nobody"),
    )),
    ("no list for a role", [FIRST + b"(macro m ((role x)) (roleallow x r))(call m ((r)))"], refused(
        Fault(35, b"m", b"m ((r)"),
    )),
    ("no roleallow in a branch", [FIRST + b"(boolean p true)(booleanif p (true (roleallow r r)))"], refused(
        Fault(24, b"roleallow", b"(roleallow"),
    )),
    ("no roleallow by a call in a branch", [
        FIRST + b"(boolean p true)(macro m () (roleallow r r))(booleanif p (true (call m)))",
    ], refused(Fault(37, b"m", b"m)"))),
]

TWO_USERS = (
    b"(class file (open read))(class dir (open))(user u)(user v)(role r)(type a)(type b)(userrole u r)(userrole v r)"
    b"(roletype r a)(roletype r b)(allow a b (file (open read)))(allow b a (file (open read)))(allow a b (dir (open)))"
)
ALL = b"OK open,read - open,read"


def of_users(source, target, reply, ends=b"ab"):
    return b"AV %s:r:%s %s:r:%s file" % (source, ends[:1], target, ends[1:]), reply


CONSTRAINTS = [
    ("one permission, one class", [TWO_USERS + b"(constrain (file (read)) (eq u1 u2))"], accepted(
        of_users(b"u", b"u", ALL), of_users(b"u", b"v", OPEN), of_users(b"v", b"u", OPEN, b"ba"),
        (b"AV u:r:a v:r:b dir", b"OK open - open"), (b"CHECK u:r:a v:r:b file read", b"OK no"),
        (b"CHECK u:r:a v:r:b file open", b"OK yes"),
    )),
    ("source and target", [TWO_USERS + b"(constrain (file (read)) (eq u1 u))(constrain (file (open)) (neq t2 a))"], accepted(
        of_users(b"u", b"v", ALL), of_users(b"v", b"u", OPEN), of_users(b"u", b"v", READ, b"ba"),
        of_users(b"v", b"u", NONE, b"ba"),
    )),
    ("two of three have to be true", [
        TWO_USERS + b"(constrain (file (read open)) (or (and (eq u1 u) (eq u2 u)) (or (and (eq u1 u) (eq t1 a)) "
        b"(and (eq t1 (a)) (eq u2 (u))))))",
    ], accepted(
        of_users(b"u", b"u", ALL), of_users(b"u", b"v", ALL), of_users(b"v", b"u", ALL), of_users(b"v", b"v", NONE),
        of_users(b"u", b"u", ALL, b"ba"), of_users(b"u", b"v", NONE, b"ba"), of_users(b"v", b"u", NONE, b"ba"),
    )),
    ("an alias of an alias, an attribute of an attribute", [
        TWO_USERS + b"(typealias x)(typealias y)(typealiasactual x y)(typealiasactual y b)(typeattribute g)"
        b"(typeattribute h)(typeattributeset g (not h))(typeattributeset h x)(constrain (file (read)) (eq t1 x))"
        b"(constrain (file (open)) (neq t2 (g y)))",
    ], accepted(
        of_users(b"u", b"u", NONE), of_users(b"u", b"u", READ, b"ba"),
    )),
    ("all roles, object_r among them, and all but it", [
        TWO_USERS + b"(roleattribute k)(roleattributeset k all)(roleattribute n)(roleattributeset n (not object_r))"
        b"(constrain (file (read)) (eq r1 k))(constrain (file (open)) (eq r2 n))",
    ], accepted(
        of_users(b"u", b"v", ALL), (b"AV u:object_r:a v:r:b file", ALL),
        (b"AV u:r:a v:object_r:b file", READ),
    )),
    ("an attribute of users, and one without members", [
        TWO_USERS + b"(userattribute g)(userattributeset g (xor (u v) u))(userattribute n)"
        b"(constrain (file (read)) (and (eq u1 g) (not (eq u1 n))))(constrain (file (open)) (neq u2 (n g)))",
    ], accepted(
        of_users(b"v", b"u", ALL), of_users(b"u", b"u", OPEN), of_users(b"u", b"v", NONE),
        of_users(b"v", b"v", READ),
    )),
    ("a circle of a class map and a class permission", [
        TWO_USERS + b"(classmap m (x y))(classpermission p)(classmapping m x p)(classpermissionset p (m (x)))"
        b"(classpermissionset p (file (read)))(classmapping m y (dir (open)))(constrain (m (x)) (eq u1 u2))"
        b"(constrain (m (y)) (neq u1 u2))",
    ], accepted(
        of_users(b"u", b"v", OPEN), of_users(b"u", b"u", ALL), (b"AV u:r:a v:r:b dir", b"OK open - open"),
        (b"AV u:r:a u:r:b dir", b"OK - - open"),
    )),
    ("what is audited", [
        TWO_USERS + b"(constrain (file (all)) (eq u1 u2))(auditallow a b (file (open)))(dontaudit a b (file (read)))",
    ], accepted(of_users(b"u", b"v", b"OK - open open"))),
    ("a rule in a branch", [
        TWO_USERS + b"(boolean p false)(booleanif p (true (allow a a (file (open read)))))(constrain (file (read)) (eq u1 u2))",
    ], accepted(
        of_users(b"u", b"v", NONE, b"aa"), (b"SET p true", b"OK"), of_users(b"u", b"v", OPEN, b"aa"),
        of_users(b"u", b"u", ALL, b"aa"),
    )),
    ("optionals that are in and out", [
        TWO_USERS + b"(optional o (constrain (file (read)) (eq u1 u2)))(optional p (constrain (file (open)) (eq u1 u2))"
        b"(optional i (constrain (file (open)) (eq t1 t2)))(constrain (file (open)) (eq t1 (a nobody))))",
    ], accepted(of_users(b"u", b"v", OPEN), of_users(b"u", b"u", ALL))),
    ("nearer names, and a class of the name in a block", [
        TWO_USERS + b"(block k (type a)(class dir (open))(constrain (file (read)) (neq t1 a))"
        b"(constrain (dir (open)) (neq t1 .a))(constrain (file (open)) (neq t1 .a)))",
    ], accepted(of_users(b"u", b"u", READ), (b"AV u:r:a u:r:b dir", b"OK open - open"))),
    ("arguments, one of them of the name of a parameter", [
        TWO_USERS + b"(macro m ((type a)(type x)(classpermission b)) (constrain b (eq t1 (a x))))(typeattribute none)"
        b"(call m (none b (file (read))))(call m (b a (file (open))))",
    ], accepted(of_users(b"u", b"u", OPEN), of_users(b"u", b"u", ALL, b"ba"))),
    ("each place of an inherited constraint", [
        TWO_USERS + b"(block t (blockabstract t)(user w)(constrain (file (read)) (neq u2 w)))(block k (blockinherit t))"
        b"(block n (blockinherit t))(userrole k.w r)(userrole n.w r)",
    ], accepted(
        of_users(b"u", b"k.w", OPEN), of_users(b"u", b"n.w", OPEN), of_users(b"k.w", b"u", ALL),
    )),
    ("with a change of role", [
        CHANGES + b"(roleallow r q)(constrain (process (fork)) (eq r1 r2))(constrain (process (transition)) (eq r1 r))",
    ], accepted(
        of_roles(b"r", b"q", b"OK dyntransition,transition - dyntransition,fork,transition"),
        of_roles(b"q", b"r", b"OK - - dyntransition,fork,transition"),
        of_roles(b"q", b"q", b"OK dyntransition,fork - dyntransition,fork,transition"),
    )),
    ("neverallow does not ask for constraints", [
        FIRST + b"(constrain (file (read)) (neq t1 a))(neverallow a b (file (read)))",
    ], refused(Never(b"(neverallow", b"(allow", b"a:b:file:read"))),
    ("the words of a constraint", [
        FIRST + b"(constrain (file (read)) (or (eq u1 r) (or (neq r2 (r a)) (eq t1 u))))(constrain (dir (write)) (eq t1 a))"
        b"(constrain (file (write)) (eq t1 a))(constrain nobody (eq r1 object_r))",
    ], refused(
        Fault(41, b"r", b"r) (or (neq"), Fault(41, b"a", b"a)) (eq"), Fault(41, b"u", b"u))))"), Fault(41, b"dir", b"dir"),
        Fault(41, b"write", b"write)) (eq t1 a))(constrain n"), Fault(41, b"nobody"),
    )),
    ("a place of no constraint", [FIRST + b"(boolean p true)(booleanif p (true (constrain (file (read)) (eq t1 a))))"], refused(
        Fault(24, b"constrain", b"(constrain"),
    )),
    ("no constraint by a call in a branch", [
        FIRST + b"(boolean p true)(macro m () (constrain (file (read)) (eq t1 a)))(booleanif p (false (call m)))",
    ], refused(Fault(37, b"m", b"m)))"))),
]

LEVELS = [
    ("a list and none", [b"(sensitivity s)(level l (s))(level l (s ()))"], refused(
        Fault(36, b"l", b"l (s)"), Fault(36, b"l", b"l (s ("),
    )),
    ("all where only a name may stand", [
        b"(category c)(sensitivity s)(macro m ((categoryset p)) (level l (s (range p c))))(call m (all))(call m (c))",
    ], refused(Fault(35, b"m", b"m (all"))),
    ("a list of categories where a set may stand", [
        b"(category c)(sensitivity s)(macro m ((categoryset p)(name n)) (level l (s (not (p c)))))(call m ((c (not c)) x))",
    ], accepted()),
    ("the words of a list of categories", [
        b"(category c)(sensitivity s)(macro m ((categoryset p)) (level l (s p)))(call m ((c nobody)))",
    ], refused(Fault(41, b"nobody"))),
    ("a level by two calls with other lists", [
        b"(category c)(sensitivity s)(macro m ((categoryset p)) (level l (s p)))(call m ((c)))(call m (c))(call m ((c)))",
    ], refused(Fault(36, b"l", b"l (s"))),
    ("a list for a level", [
        b"(sensitivity s)(user u)(macro m ((level l)(levelrange g)) (userlevel u l)(userrange u (l l))(userrange u g))"
        b"(call m ((s) ((s) k)))",
    ], refused(Fault(41, b"k", b"k)))"))),
]

STAGES = [
    (["sets"], SETS), (["maps"], MAPS), (["maps"], ARGUMENTS), (["maps", "audit"], AUDIT),
    (["sets", "maps", "booleans"], BOOLEANS), (["sets", "maps", "transitions"], TRANSITIONS),
    (["sets", "maps", "audit", "booleans", "roles"], ROLES),
    (["sets", "maps", "audit", "booleans", "roles", "constraints"], CONSTRAINTS), (["levels"], LEVELS),
]
LONG = [
    (["sets"], [
        ("as many types as may be", [b"".join(b"(type v%d)" % i for i in range(65_535))], accepted()),
        ("types and 60", [b"".join(b"(type v%d)" % i for i in range(65_536))], refused(Exact(b"60 0 0 . types"))),
    ]),
    (["maps"], [
        ("a circle of a thousand", [FIRST + chain_of_permissions(1000, True) + b"(allow b a (m (x999)))"], accepted(
            (BA, OPEN),
        )),
        ("a chain of a thousand", [FIRST + chain_of_permissions(1000, False) + b"(allow b a (m (x0)))"], accepted(
            (BA, OPEN),
        )),
    ]),
]
