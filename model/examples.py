#!/usr/bin/env python3
"""Runs the worked examples of the rules on the model. Status: 0 all are answered as the rules say, 1 one is not.

Each example is its modules, and the requests with the replies that the rules give for them. The forms of statements are
those of scripts/forms.txt, with their faults. The rows of ROWS are sessions of the program, as the examples of documents
and of the folder examples are, and those of rows/later, where that folder is, have statements that it does not accept yet.
With --long there are also examples of nearly a million instances, which take minutes.

A LOAD that is accepted replies with the length and the digest of the tables. Where an example has `OK` for it, or a row
`OK {tables}`, these are not compared; the examples of TABLES have tables that were written by hand.
"""
import hashlib
import pathlib
import re
import sys

import model
import shapes
import stage_examples
import table
import table_bytes
from faults import Refused
from pieces import bundle_of, import_bundle, install
from table_records import Records
from texts import read

FIRST = (
    b"(class file (open read))(user u)(role r)(type a)(type b)(userrole u r)(roletype r a)(roletype r b)"
    b"(allow a b (file (read)))"
)
AB, BA = b"AV u:r:a u:r:b file", b"AV u:r:b u:r:a file"


def faults(*lines):
    return [(b"LOAD", b"\n".join([b"FAULTS %d" % len(lines), *lines]))]


def accepted(*asked):
    return [(b"LOAD", b"OK"), *asked]


def asked_of(type_name, reply):
    return b"AV u:r:%s u:r:a file" % type_name, reply


def doubling(count):
    blocks = [b"(block b0 (type t))"]
    blocks += [b"(block b%d (blockinherit b%d)(blockinherit b%d))" % (i, i - 1, i - 1) for i in range(1, count)]
    return b"".join(blocks)


def doubling_calls(last):
    macros = [b"(macro m0 () (type t))"]
    macros += [b"(macro m%d () (call m%d)(call m%d))" % (i, i - 1, i - 1) for i in range(1, last + 1)]
    return b"".join([*macros, b"(call m%d)" % last])


def optionals(*lines):
    return b"OPTIONALS", b"\n".join([b"OK %d" % len(lines), *lines])


def why(*lines):
    return b"WHY", b"\n".join([b"OK %d" % len(lines), *lines])


def wide(own):
    """A class with so many permissions of its own, and a common of twelve."""
    listed = [b" ".join(b"%s%02d" % (first, i) for i in range(count)) for first, count in ((b"p", own), (b"c", 12))]
    return b"(class w (%s))(classcommon w k)(common k (%s))" % tuple(listed)


TOO_MANY = faults(b"38 0 0 . -")
NO_ARGUMENT = b"(macro m ((type p)) (type b)(allow p .a (file (open))))(block k (call m (b)))(roletype r k.b)"
NESTED_CALL = (
    b"(block lib (type p)(macro in () (type p)(allow p .b (file (open))))(macro out () (call in)))"
    b"(block n (call lib.out))(roletype r n.p)(roletype r lib.p)"
)
LIBRARY = (
    b"(block lib (type p)(macro m ((type arg)) (allow arg a (file (open)))))"
    b"(block tpl (blockabstract tpl)(type p)(call lib.m (p)))(block n (blockinherit tpl))"
    b"(roletype r n.p)(roletype r lib.p)"
)
CHAIN = b"(optional A (allow a x (file (read))))(optional B (type x)(allow x nobody (file (read))))"
CHAIN_REASONS = [b"0 161 . B missing nobody", b"0 123 . A missing x"]
MUTUAL = b"(optional A (type x)(allow x y (file (read))))(optional B (type y)(allow y x (file (read))))"
NESTED = b"(optional A (roletype r nobody)(optional B (type z)))"
ALIKE = (
    b"(macro m () (optional o (roletype r x)(roletype r z)))(block p (type z)(block t (blockabstract t)(call m)))"
    b"(block q (block t (blockabstract t)(call m)))(block n (blockinherit q.t)(blockinherit p.t))"
)
SHARED = b"(common k (x))(common j (y))(classcommon file k)(classcommon file j)"
TWICE = b"(macro m () (optional o (allow a nobody (file (open)))))(call m)(call m)"

# What it shows, the modules, the requests and replies.
EXAMPLES = [
    ("no module", [], accepted((AB, b"ERR 72 1"))),
    ("before a load", [], [(AB, b"ERR 71")]),
    ("a first answer", [FIRST], accepted((AB, b"OK read - open,read"), (b"AV u:r:a u:r:b dir", b"ERR 73"))),
    ("unresolved", [FIRST + b"(allow a nobody (file (read)))"], faults(b"41 0 132 . nobody")),
    ("two classes", [b"(class w (p))", b"(class w (q))"], faults(b"36 0 7 . w", b"36 1 7 . w")),
    ("no permissive types", [FIRST + b"(typepermissive a)"], faults(b"22 0 123 . typepermissive")),
    ("a block and a macro of one name", [b"(block b)(macro b ())"], faults(b"31 0 7 . b", b"31 0 16 . b")),
    ("no such block", [b"(blockinherit nob)"], faults(b"32 0 14 . nob")),
    ("a block inherits itself", [b"(block b (blockinherit b))"], faults(b"33 0 23 b b")),
    ("a parameter twice", [b"(macro m ((type p)(type p)))"], faults(b"27 0 24 . p")),
    ("a parameter three times", [b"(macro m ((type p)(type p)(role p)))"], faults(b"27 0 24 . p", b"27 0 32 . p")),
    ("too few arguments", [b"(macro m ((type p)))(call m ())"], faults(b"35 0 26 . m")),
    ("a macro calls itself", [b"(macro m () (call m))(call m)"], faults(b"34 0 18 . m")),
    ("two macros in a template", [b"(block t (blockabstract t)(macro m ())(macro m ()))"], faults(
        b"31 0 33 t m", b"31 0 45 t m",
    )),
    ("a name is fine elsewhere", [b"(block b (type b))(macro m ((type b)))"], accepted()),
    ("arguments keep their scope", [FIRST + LIBRARY], accepted(
        asked_of(b"n.p", b"OK open - open,read"), asked_of(b"lib.p", b"OK - - open,read"),
    )),
    ("declarations of the body are found by an argument", [FIRST + NO_ARGUMENT], accepted(
        asked_of(b"k.b", b"OK open - open,read"), asked_of(b"b", b"OK - - open,read"),
    )),
    ("the home scope of a nested call", [FIRST + NESTED_CALL], accepted(
        (b"AV u:r:n.p u:r:b file", b"OK open - open,read"), (b"AV u:r:lib.p u:r:b file", b"OK - - open,read"),
    )),
    ("a parameter of another macro", [
        FIRST + b"(macro in () (allow e .a (file (open))))(macro out ((type e)) (call in))(type c)(call out (c))"
    ], faults(b"41 0 143 . e")),
    ("doubling blocks, one too many", [doubling(18), b"(block b18 (blockinherit b17)(blockinherit b17))"], TOO_MANY),
    ("doubling calls, one too many", [doubling_calls(19)], TOO_MANY),
    ("before a load, no optionals", [FIRST + CHAIN], [(b"OPTIONALS", b"ERR 71"), (b"WHY", b"ERR 71")]),
    ("no optionals", [FIRST], accepted(optionals(), why())),
    ("a chain of optionals", [FIRST + CHAIN], accepted(
        optionals(b"0 123 . A out", b"0 161 . B out"), why(*CHAIN_REASONS),
    )),
    ("mutual optionals", [FIRST + MUTUAL], accepted(optionals(b"0 123 . A in", b"0 169 . B in"), why())),
    ("an optional in one that is out", [FIRST + NESTED], accepted(
        optionals(b"0 123 . A out", b"0 154 . B out"), why(b"0 123 . A missing nobody", b"0 154 . B parent"),
    )),
    ("declared in an optional that is out", [FIRST + b"(optional A (type z)(roletype r nobody))(roletype r z)"], faults(
        b"41 0 175 . z",
    )),
    ("no class in an optional", [b"(optional o (class w (p)))"], faults(b"24 0 12 . class")),
    ("a wide class", [wide(20)], accepted()),
    ("a class that is too wide", [wide(21)], faults(b"55 0 7 . w")),
    ("two commons", [b"(class c (p))(common k (x))(common j (x))(classcommon c k)(classcommon c j)"], faults(
        b"56 0 54 . c", b"56 0 71 . c",
    )),
    ("two commons, three statements", [
        b"(class c (p))(common k (x))(common j (x))(classcommon c k)(classcommon .c j)(classcommon c k)",
    ], faults(b"56 0 54 . c", b"56 0 71 . .c", b"56 0 89 . c")),
    ("two commons that make a class too wide", [wide(20) + b"(common j (d))(classcommon w j)"], faults(
        b"55 0 7 . w", b"56 0 104 . w", b"56 0 195 . w",
    )),
    ("one common by two words", [b"(class c (p))(common k (x))(classcommon c k)(classcommon c .k)"], accepted()),
    ("the permissions of both commons", [FIRST + SHARED + b"(allow b a (file (x y z)))"], faults(b"41 0 213 . z")),
    ("both commons, after the names", [FIRST + SHARED + b"(allow b a (file (x y)))"], faults(
        b"56 0 164 . file", b"56 0 184 . file",
    )),
    ("a list in another order", [b"(common k (p q))(common k (q p))"], faults(b"36 0 8 . k", b"36 0 24 . k")),
    ("a class and a common of one name", [b"(class x (p))(common x (p))"], accepted()),
    ("no class, no common", [b"(classcommon c k)"], faults(b"41 0 13 . c", b"41 0 15 . k")),
    ("not, with a common", [
        FIRST + b"(common file (ioctl read))(classcommon file file)(allow b a (file (not (read))))",
    ], accepted((BA, b"OK ioctl,open - ioctl,open,read"))),
    ("xor with all", [
        FIRST + b"(common file (ioctl))(classcommon file file)(allow b a (file (xor all (read ioctl))))",
    ], accepted((BA, b"OK open - ioctl,open,read"))),
    ("all beside others is no operator", [FIRST + b"(allow b a (file (all open)))"], accepted(
        (BA, b"OK open,read - open,read"),
    )),
    ("not all is nothing", [FIRST + b"(allow b a (file (not all)))(allow b a (file ()))"], accepted(
        (BA, b"OK - - open,read"),
    )),
    ("an operator has just its operands", [b"(allow a a (file (not)))"], faults(b"23 0 0 . allow")),
    ("a common without permissions", [b"(common k ())"], faults(b"23 0 0 . common")),
    ("no common in an optional, no classcommon in a macro", [
        b"(optional o (common k (x)))(macro m () (classcommon c k))",
    ], faults(b"24 0 12 . common", b"24 0 39 . classcommon")),
    ("a permission that its class and its common lack", [
        FIRST + b"(common k (ioctl))(classcommon file k)(optional o (allow b a (file (ioctl (not (lock))))))",
    ], accepted(optionals(b"0 161 . o out"), why(b"0 161 . o missing lock"), (BA, b"OK - - ioctl,open,read"))),
    ("equal lines are repeated", [FIRST + TWICE], accepted(
        optionals(b"0 135 . o out", b"0 135 . o out"),
        why(b"0 135 . o missing nobody", b"0 135 . o missing nobody"),
        (AB, b"OK read - open,read"),
    )),
    ("a class that is missing", [FIRST + b"(optional o (allow a b (dir (read))))"], accepted(
        optionals(b"0 123 . o out"), why(b"0 123 . o missing dir"),
    )),
]

# Replies to WHY that are right, and some that are not, for the modules beside them.
REASONS = [
    ("a chain of optionals", FIRST + CHAIN, CHAIN_REASONS, True),
    ("another order", FIRST + CHAIN, CHAIN_REASONS[::-1], False),
    ("one reason too few", FIRST + CHAIN, CHAIN_REASONS[:1], False),
    ("one reason twice", FIRST + CHAIN, CHAIN_REASONS[:1] * 2, False),
    ("another word", FIRST + CHAIN, [b"0 161 . B missing a", b"0 123 . A missing x"], False),
    ("no parent", FIRST + CHAIN, [CHAIN_REASONS[0], b"0 123 . A parent"], False),
    ("mutual optionals", FIRST + MUTUAL, [b"0 123 . A missing y", b"0 169 . B missing x"], False),
    ("a parent after its optional", FIRST + NESTED, [b"0 154 . B parent", b"0 123 . A missing nobody"], False),
    ("a permission of a class that is missing", FIRST + b"(optional o (allow a b (dir (read))))", [
        b"0 123 . o missing read",
    ], True),
    ("two that are told alike, another order", FIRST + ALIKE, [b"0 135 n o missing x", b"0 135 n o missing z"], True),
    ("two that are told alike", FIRST + ALIKE, [b"0 135 n o missing z", b"0 135 n o missing x"], True),
    ("two that are told alike, one twice", FIRST + ALIKE, [b"0 135 n o missing z"] * 2, False),
]

SMALL = [b"(type a)", b"(type b)"]
LISTED = b"OK 2\n%s 8\n%s 8\n" % tuple(hashlib.sha256(each).hexdigest().encode() for each in SMALL)
TWO = bundle_of(SMALL)

# Sessions: what they show, the input, the output, and the exit status.
SESSIONS = [
    ("a first answer", install(FIRST) + b"LOAD\n" + AB + b"\nQUIT\nLIST\n",
     b"OK new\nOK {tables}\nOK read - open,read\nOK\n", 0),
    ("a bad bundle", import_bundle(bundle_of([b"(type a)", b"(type b))", b"(type c)"])) + b"LIST\n",
     b"ERR 14 1 3 8\nOK 0\n", 0),
    ("another version of a bundle", import_bundle(TWO[:4] + b"\3" + TWO[5:]), b"ERR 11\n", 0),
    ("a bundle of one text twice", import_bundle(bundle_of(SMALL[:1] * 2)), b"ERR 13\n", 0),
    ("a bundle and one byte more", import_bundle(TWO + b"x"), b"ERR 15\n", 0),
    ("a bundle cut", import_bundle(TWO[:-1]), b"ERR 12\n", 0),
    ("one order of arrival", b"".join(map(install, [*SMALL, SMALL[0], SMALL[0]])) + b"LIST\nLOAD\n",
     b"OK new\nOK new\nOK known\nOK known\n" + LISTED + b"OK {tables}\n", 0),
    ("another order of arrival", install(SMALL[1]) + import_bundle(bundle_of(SMALL[:1])) + b"LIST\nLOAD\n",
     b"OK new\nOK 1\n" + LISTED + b"OK {tables}\n", 0),
    ("a request that is cut", b"INSTALL 10\n(typ", b"ERR 83\n", 2),
    ("limits of texts", b"".join(map(install, [
        b"(" * 128 + b")" * 128, b"(" * 129 + b")" * 129, b" " * 4_194_304, b" " * 4_194_305, b"a", b"(a", b'("a',
    ])), b"OK new\nERR 6 128\nOK new\nERR 1 4194304\nERR 7 0\nERR 2 2\nERR 4 1\n", 0),
    ("a line that is no request", b"AV x\nLIST\n", b"ERR 81\nOK 0\n", 0),
    ("a line too long", b"x" * 4097 + b"\nLIST\n", b"ERR 82\n", 2),
    ("a body too long", b"INSTALL 67108865\nLIST\n", b"ERR 84\n", 2),
]

# Examples of nearly a million instances.
LONG = [
    ("doubling blocks", [doubling(18)], accepted()),
    ("doubling calls", [doubling_calls(18)], accepted()),
    ("many statements", [b"(type a)" * 500_000, b"(type b)" * 500_000], accepted()),
    ("many statements, one too many", [b"(type a)" * 500_000, b"(type b)" * 500_000, b"(type c)"], TOO_MANY),
]


# A policy with something in each section, and its tables as they were written by hand.
WHOLE = (
    b"(category c0)(category c1)(categoryorder (c1 c0))(categoryalias ca)(categoryaliasactual ca c0)"
    b"(sensitivity s1)(sensitivity s0)(sensitivityorder (s0 s1))(sensitivitycategory s1 (all))"
    b"(sensitivityalias sa)(sensitivityaliasactual sa s1)(mls true)(user u)(userrange u ((s0) (s1 (c0))))"
    b"(role r)(role q)(block k (type t))(type b)(type a)(typealias z)(typealiasactual z b)"
    b"(typeattribute ab)(typeattributeset ab (b a))(typeattribute none)"
    b"(class file (read open))(common m (ioctl))(classcommon file m)(class dir (x))(boolean y true)(boolean x false)"
    b"(userrole u r)(roletype r ab)(roletype r a)(roletype q k.t)(roleallow r q)"
    b"(allow ab self (file (read)))(allow none a (file (read)))(allow a b (file ()))(neverallow b k.t (file (read)))"
    b"(booleanif ((and x ((not (y))))) (true (allow a ab (file (open read))))(false (allow a b (dir (all)))))"
    b"(auditallow a b (file (read)))(auditallow .a z (file (read)))(dontaudit a z (file (not open)))(dontaudit a none (dir (x)))"
    b"(classmap cm (w))(classmapping cm w (file (open)))(classmapping cm w (dir (x)))"
    b"(constrain (cm (w)) (or (eq t1 ab) ((and (neq u1 u2) (not (eq r2 (q object_r)))))))"
    b"(mlsconstrain (file (read)) (dom l1 h2))(constrain (dir ()) (eq t1 t2))"
)
ASKED = "04 11 04 00 0002 0000 0001 03 10 00 01 01 02 11 03 00 0002 0000 0001"
TABLES = [
    ("no module", [], "43494c54 01 00", [
        "0", "0", "0", "0", "0", "1 'object_r'", "0", "0", "0", "0", "0", "0", "0", "0", "0", "0", "0",
    ]),
    ("something in each section", [WHOLE], "43494c54 01 01", [
        "2 'c1' 'c0'",
        "1 'ca' 0001",
        "2 's0' 0000 's1' 0002 0000 0001",
        "1 'sa' 0001",
        "1 'u' 0000 0000 0001 0001 0001",
        "3 'object_r' 'q' 'r'",
        "3 'a' 'b' 'k.t'",
        "1 'z' 0001",
        "2 'dir' 01 'x' 'file' 03 'ioctl' 'open' 'read'",
        "2 'x' 00 'y' 01",
        "1 0000 0002",
        "3 0001 0002 0002 0000 0002 0001",
        "1 0002 0001",
        "3 00 0002 0000 0001 01 0001 00000004"
        " 01 03 01 0000 02 01 0001 0001 0000 00 0002 0000 0001 0001 00000006"
        " 02 03 01 0000 02 01 0001 0001 0000 00 0001 0001 0000 00000001",
        "1 00 0001 0000 00 0001 0001 0001 00000004",
        "1 00 0001 0000 00 0001 0001 0001 00000005",
        f"3 0000 00000001 {ASKED} 0001 00000002 {ASKED} 0001 00000004 10 06 09 02",
    ]),
]


def written_table(header, sections):
    """The bytes of tables: a section is its count, and then texts and numbers, these in hexadecimal."""
    found = bytes.fromhex(header)
    for section in sections:
        count, *fields = section.split()
        found += int(count).to_bytes(4, "big")
        for each in fields:
            text = each.strip("'").encode()
            found += len(text).to_bytes(4, "big") + text if each.startswith("'") else bytes.fromhex(each)
    return found


def tables_of(modules):
    """The bytes of the tables of some modules."""
    host = model.Host()
    for text in modules:
        host.install(text)
    host.load()
    return table_bytes.encode(Records(host.policy).tables())


# What stands for {tables} in a reply.
OF_TABLES = rb"[0-9]+ [0-9a-f]{64}"


def is_reply(wanted, replies):
    """Whether replies are those that are wanted, whatever the tables are where {tables} is."""
    return re.fullmatch(OF_TABLES.join(map(re.escape, wanted.split(b"{tables}"))), replies) is not None


def answered(modules, asked, language=table.ACCEPTED):
    host = model.Host(language)
    for text in modules:
        host.install(text)
    replies, _ = model.run(b"".join(request + b"\n" for request, _ in asked), host)
    return re.sub(rb"(?m)^OK %s$" % OF_TABLES, b"OK", b"".join(replies))


def are_reasons(text, lines):
    """Whether the model takes lines as the reply to WHY."""
    host = model.Host()
    host.install(text)
    if not host.load().startswith(b"OK "):
        return None
    return host.why().is_right(lines)


def forms():
    """The statements of scripts/forms.txt with their faults, whatever the statements mean."""
    path = pathlib.Path(__file__).resolve().parent.parent / "scripts/forms.txt"
    for line in path.read_text("utf-8").splitlines():
        if line and not line.startswith("#"):
            end = line.rindex(")") + 1
            yield line[:end], sorted(line[end:].split()), table.WHOLE


def faults_of_form(text, language):
    try:
        shapes.written([read(text.encode())], language)
    except Refused as refusal:
        return sorted("%d@%d:%s" % (code, at, word.decode()) for code, _, at, _, word in refusal.faults)
    return []


def all_examples(is_long):
    """What is shown, the modules, the requests with their replies, and what is accepted of the language."""
    yield from ((*each, table.ACCEPTED) for each in EXAMPLES + (LONG if is_long else []))
    for stages, examples in stage_examples.STAGES + (stage_examples.LONG if is_long else []):
        language = table.WHOLE if stages is None else table.accepting(stages)
        for shown, modules, asked in examples:
            yield shown, modules, [(request, reply_of(modules, reply)) for request, reply in asked], language


def reply_of(modules, reply):
    """A reply as it is, or the one that tells these faults."""
    if isinstance(reply, bytes):
        return reply
    lines = sorted((each.line(modules) for each in reply), key=sort_key)
    return b"\n".join([b"FAULTS %d" % len(lines), *lines])


def sort_key(line):
    code, module, at, space, word = line.split(b" ")
    return int(code), int(module), int(at), space, word


# The files of rows/ whose rows do not run over the model: these take it too long, and those have other replies to WHY that are
# right too.
LEFT_OUT = ["limits.session", "optionals.session"]


def rows():
    """The rows of sessions: what each shows, what is accepted, the bytes of the session and of its replies."""
    folder = pathlib.Path(__file__).resolve().parent.parent
    sys.path.insert(0, str(folder / "scripts"))
    import sessions
    files = [(path, table.ACCEPTED) for path in sessions.files() if path.name not in LEFT_OUT]
    later = sorted((folder / "rows" / "later").glob("*.session"))
    for path, language in files + [(path, table.accepting(table.STAGES)) for path in later]:
        for row in sessions.rows_of(path):
            for steps in row.sessions:
                yield row.name, language, *joined(steps)
    for shown, steps in documents(folder, sessions):
        yield shown, table.ACCEPTED, *joined(steps)
    for path in sorted((folder / "examples").iterdir()):
        modules = b"".join(install(each.read_bytes()) for each in sorted(path.glob("*.cil")))
        new = b"OK new\n" * len([*path.glob("*.cil")])
        yield path.name, table.ACCEPTED, modules + (path / "requests").read_bytes(), new + (path / "output").read_bytes()


def joined(steps):
    """The bytes that some steps send, and those of their replies."""
    return b"".join(step.given for step in steps), b"".join(step.reply for step in steps)


def documents(folder, sessions):
    """The examples of documents: where they are, and their steps."""
    first = [(folder / "examples/first" / name).read_bytes() for name in ("base.cil", "app.cil")]
    for text, reply in sessions.examples_of("docs/FAULTS.md"):
        is_text = reply.startswith(b"ERR")
        load = [] if is_text else sessions.steps_of_example(b"LOAD\n" + reply)
        yield "FAULTS", [sessions.install(text, reply) if is_text else sessions.install(text), *load]
    for document, modules in (("FROM_SECILC", first), ("TOUR", [])):
        for text, asked in sessions.examples_of(f"docs/{document}.md"):
            yield document, [*map(sessions.install, [*modules, text]), *sessions.steps_of_example(asked)]


def main():
    examples = list(all_examples(sys.argv[1:] == ["--long"]))
    wrong = 0
    for shown, modules, asked, language in examples:
        wanted = b"".join(reply + b"\n" for _, reply in asked)
        replies = answered(modules, asked, language)
        if replies != wanted:
            wrong += 1
            print(f"{shown}: the rules have {wanted!r}, the model has {replies!r}")
    for shown, given, wanted, wanted_status in SESSIONS:
        replies, status = model.run(given, model.Host())
        if not is_reply(wanted, b"".join(replies)) or status != wanted_status:
            wrong += 1
            print(f"{shown}: the rules have {wanted!r} and {wanted_status}, the model has {replies!r} and {status}")
    all_rows = list(rows())
    for shown, language, given, wanted in all_rows:
        replies, _ = model.run(given, model.Host(language))
        if not is_reply(wanted, b"".join(replies)):
            wrong += 1
            print(f"{shown}: the row has {wanted!r}, the model has {replies!r}")
    for shown, text, lines, is_right in REASONS:
        if are_reasons(text, lines) != is_right:
            wrong += 1
            print(f"reasons, {shown}: the rules have {is_right}, the model has {are_reasons(text, lines)}")
    all_forms = list(forms())
    for text, wanted, language in all_forms:
        found = faults_of_form(text, language)
        if found != wanted:
            wrong += 1
            print(f"{text}: the rules have {wanted}, the model has {found}")
    for shown, modules, header, sections in TABLES:
        wanted, made = written_table(header, sections), tables_of(modules)
        if made != wanted:
            wrong += 1
            print(f"tables, {shown}: by hand {wanted.hex(' ')}, the model has {made.hex(' ')}")
    print(f"{len(examples) + len(SESSIONS) + len(REASONS) + len(TABLES)} examples, {len(all_rows)} rows and {len(all_forms)} forms, {wrong} wrong")
    sys.exit(1 if wrong else 0)


if __name__ == "__main__":
    main()
