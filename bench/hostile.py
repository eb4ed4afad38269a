#!/usr/bin/env python3
"""Runs the program on texts that are made to be dear.

usage: hostile.py [PROGRAM] [--seconds N] [--gigabytes N] [--bytes N] [FORM [SIZE]]

Each form is a kind of text, made for one pass of the program or for one limit. `hostile.py FORM SIZE` runs the program
on that form, and prints the form, its size, the bytes of its requests, the seconds that the run took, the seconds of
these in which the processor ran the program, the most memory that the program held at once, how many bytes it replied,
and the first line that is no reply to an INSTALL.
Without a size it is the full size of the form, and without a form all forms are run at their full sizes, one after the
other. With --bytes N it is the size at which the requests have about so many bytes, at most the full size. A run ends
after N seconds (120) and has an address space of N gigabytes (10).

A size is a number of bytes, with few exceptions, which the form says. Twice the size is twice the text. Where a form
multiplies its statements by inheritance or by calls, these are twice as many too. So a time that grows fourfold where
the size is doubled is a square in all that the form has, and one that grows eightfold a cube.

PROGRAM has a slash in its name. Without it the program is crates/cilhost/out/cilhost of this repository. The memory
is that of the process with its start, which is a copy of this one: less than 20 MB cannot be told.
"""
import functools
import itertools
import os
import resource
import subprocess
import sys
import tempfile
import time

# A module may have 4,194,304 bytes. Texts have a little less, so that what is put round them has room.
LONGEST = 4_000_000
ALL = 64_000_000

# A policy may have so many types and roles (60), the role object_r among them.
MOST_TYPES, MOST_ROLES = 65_535, 4_096

# So many classes are the most, and so many booleans.
MANY_CLASSES, MOST_BOOLEANS = 1_024, 4_096


# ---- texts

def filled(size, head, unit, tail):
    """Texts of so many bytes: in each one unit again and again, between a head and a tail. No two are alike."""
    for left in range(size, 0, -LONGEST):
        front = f";{left}\n{head}"
        yield front + unit * max(0, (min(left, LONGEST) - len(front) - len(tail)) // len(unit)) + tail


def pieces(size, make):
    """The first pieces, each made by its number, that have so many bytes together."""
    found = []
    left = size
    while left > 0:
        found.append(make(len(found)))
        left -= len(found[-1])
    return found


def numbered(size, make):
    """Texts of so many bytes, of pieces that are made by their numbers."""
    text, length, number = [], 0, 0
    for left in range(size, 0, -LONGEST):
        while length < min(left, LONGEST):
            text.append(make(number))
            length += len(text[-1])
            number += 1
        yield "".join(text)
        text, length = [], 0


def parted(made):
    """Texts of these pieces, each as long as a module may be."""
    text, length = [], 0
    for piece in made:
        if length + len(piece) > LONGEST:
            yield "".join(text)
            text, length = [], 0
        text.append(piece)
        length += len(piece)
    yield "".join(text)


def template(name, body):
    """A block that is there only by inheritance."""
    return f"(block {name}(blockabstract {name}){body})"


def inherit(name):
    """A statement that brings what is in a block."""
    return f"(blockinherit {name})"


def doubled(copies, body):
    """Templates d0, d1 and so on, each of which inherits the one before it twice; and the name of the last one, which
    brings the body as often as the greatest power of two in a number says."""
    levels = max(1, copies).bit_length() - 1
    texts = [template("d0", body)]
    texts += [template(f"d{level + 1}", inherit(f"d{level}") * 2) for level in range(levels)]
    return "".join(texts), f"d{levels}"


def doubled_calls(copies, body):
    """The same with macros."""
    levels = max(1, copies).bit_length() - 1
    texts = [f"(macro d0(){body})"]
    texts += [f"(macro d{level + 1}()(call d{level})(call d{level}))" for level in range(levels)]
    return "".join(texts), f"d{levels}"


def path(size, bottom):
    """Templates c0, c1 and so on, of which each inherits the one before it; c0 has the bottom. A block inherits the
    last, so the bottom comes through all of them."""
    def link(n):
        return template(f"c{n:x}", inherit(f"c{n - 1:x}") if n else bottom)
    links = pieces(size + len(bottom), link)
    return "".join(links) + f"(block b{inherit(f'c{len(links) - 1:x}')})"


def spaces(size, bottom, each="", name="a"):
    """The same, but each template has a block that inherits the one before it: the bottom is in as many namespaces."""
    def link(n):
        return template(f"c{n:x}", f"(block {name}{each}{inherit(f'c{n - 1:x}')})" if n else bottom)
    links = pieces(size + len(bottom), link)
    return "".join(links) + f"(block b{inherit(f'c{len(links) - 1:x}')})"


def nest(size):
    """The beginnings of 126 blocks in one another and their ends. Of the largest texts they have the longest names."""
    name = "a" * max(1, min(1024, size * 1024 // LONGEST))
    return f"(block {name}" * 126, ")" * 126


# ---- reading, and the faults of statements

def nested(size):
    """Lists as deep as they may be."""
    return filled(size, "(sid", "(" * 127 + ")" * 127, ")")


def empty_lists(size):
    """Empty lists in one list."""
    return filled(size, "(sid", "()", ")")


def words(size):
    """Words of one byte in one list."""
    return filled(size, "(sid", " a", ")")


def strings(size):
    """Empty strings in one list."""
    return filled(size, "(sid", '""', ")")


def long_word(size):
    """One word: a bad name (25)."""
    return filled(size, "(type ", "a", ")")


def long_path(size):
    """One word of as many names as there is room for, which is not there (41)."""
    return filled(size, "(roletype object_r a", ".a", ")")


def comment(size):
    """One comment."""
    return filled(size, ";", ";", "\n")


def set_aside(size):
    """The shortest statements: more than there may be (38)."""
    return filled(size, "", "(sid)", "")


def shape_faults(size):
    """Statements without a word: a fault (23) for each two bytes."""
    return filled(size, "", "()", "")


def deep_shape_faults(size):
    """The same in blocks whose namespace has 129 KB, which each fault tells."""
    head, tail = nest(size)
    return filled(size, head, "()", tail)


def parameters(size):
    """Parameters of one macro, each of which is compared with all before it."""
    return ["(macro m(" + "".join(pieces(size, "(type a{:x})".format)) + "))"]


def parameter_names(size):
    """Declarations in a macro, each of which is compared with all parameters."""
    ones = "".join(pieces(size // 4, "(type a{:x})".format))
    return [f"(macro m({ones})" + "".join(pieces(size * 3 // 4, "(type b{:x})".format)) + ")"]


def parameter_copies(size):
    """Optionals in a macro of very many parameters, whose list is copied for each."""
    ones = "".join(pieces(size // 4, "(type a{:x})".format))
    return [f"(macro m({ones})" + "(optional a)" * (size // 16) + ")"]


def constraints(size):
    """Constraints whose expression is a word alone (23)."""
    return filled(size, "", "(constrain a(b))", "")


def alike_heads(size):
    """Constraints that begin like several comparisons, up to the last word (23)."""
    return filled(size, "", "(mlsconstrain a(dom r1 r1))", "")


def branches(size):
    """Branches without statements."""
    return filled(size, "(boolean b true)", "(booleanif b(true)(false))", "")


def deep_sets(size):
    """Rules whose permissions are 120 lists in one another."""
    return filled(size, "(class c(e))(type b)", f"(allow b b(c{'(' * 120}e{')' * 120}))", "")


# ---- modules

def modules(size):
    """Modules of one statement, each of which comes before all others."""
    for number in range(size // 15, 0, -1):
        yield f"(type a{number:07x})"


def rising_modules(size):
    """Modules of one statement, in their order."""
    for number in range(size // 22):
        yield f"(type a{number:07x})"


# ---- blocks

def same_names(size):
    """Blocks of one name: all pairs are kept."""
    return filled(size, "", "(block a)", "")


def same_names_wide(size):
    """Fewer blocks of one name, and much in each of them, which is gone through for each pair."""
    count = int(size ** 0.5)
    return [("(block a" + "(sid)" * (size // count // 5 - 2) + ")") * count]


def chain(size):
    """Blocks, each of which inherits the one before it. None is a template, so each has all that is before it."""
    return numbered(size, lambda n: f"(block b{n:x}{inherit(f'b{n - 1:x}') if n else ''})")


def heirs(size):
    """Very many blocks that inherit one that has very much in it."""
    return [template("m", "(sid)" * (size // 10)) + "".join(pieces(size // 2, "(block b{:x}(blockinherit m))".format))]


def ring(size):
    """Blocks that inherit one another in a ring (33)."""
    links = pieces(size, lambda n: f"(block b{n:x}{inherit(f'b{n + 1:x}')})")
    return ["".join(links) + f"(block b{len(links):x}{inherit('b0')})"]


def deep_names(size):
    """Blocks whose full names are alike up to the outermost name."""
    deep, ends = "(block a" * 124, ")" * 125
    return numbered(size, lambda n: f"(block b{n:x}{deep}{ends}")


def deep_targets(size):
    """Blockinherits 125 blocks deep, whose word is looked up in each of these. Other blocks of that name have
    namespaces that are alike up to their outermost name."""
    deep, ends = "(block a" * 124, ")" * 124
    others = pieces(size // 4, lambda n: f"(block b{n:x}{deep}(block z){ends})")
    return ["".join(others) + f"(block z)(block c{deep}{inherit('z') * (size * 3 // 4 // 16)}{ends})"]


def doubling(size):
    """A size is a number of copies: as many types that templates bring."""
    text, last = doubled(size, "(type a)")
    return [f"{text}(block b{inherit(last)})"]


def long_paths(size):
    """Macros of one name, which come through very many blockinherits and are the same."""
    text, last = doubled(size // 30, "(macro a())")
    return [text + path(size, inherit(last))]


def nested_paths(size):
    """Blockinherits one through the other, all written 120 blocks deep. Each way up goes through these each time."""
    return ["(block a" * 120 + path(size, "") + ")" * 120]


def nested_names(size):
    """A size is a number of copies: types that templates bring which are written in a namespace of 129 KB."""
    head, tail = nest(LONGEST)
    text, last = doubled(size, "(type a)")
    return [f"{head}{text}(block b{inherit(last)}){tail}"]


def long_scopes(size):
    """Words in scopes of very many namespaces, of which the last declares them."""
    return ["(user x)(role y)" + spaces(size, "", "(userrole x y)")]


def longer_scopes(size):
    """The same with doubling templates in the innermost of these namespaces."""
    text, last = doubled(size // 30, "(userrole x y)")
    return ["(user x)(role y)" + text + spaces(size, inherit(last))]


def long_names(size):
    """The same with a call of a macro of the longest name, which is hashed for each namespace."""
    name = "m" * 1024
    text, last = doubled(size // 30, f"(call {name})")
    return [f"(macro {name}())" + text + spaces(size, inherit(last))]


def one_long_scope(size):
    """One call whose scope has very many namespaces, and then very many statements in short scopes."""
    text, last = doubled_calls(size // 30, "(userrole x y)")
    return [f"(user x)(role y){text}" + spaces(size, "(call d0)") + f"(call {last})"]


def permission_scopes(size):
    """Permissions of one class, which is looked up for each of them in a scope of very many namespaces."""
    rule = f"(optional a(allow b b(c({' e' * (size // 4)}))))"
    return ["(class c(e))(type b)" + spaces(size // 2, rule)]


def deep_spaces(size):
    """A type in each of very many namespaces in one another, whose names the name of a type has."""
    return [spaces(size, "", "(type a)", "a" * 64)]


def deep_types(size):
    """Types in a namespace of 129 KB."""
    head, tail = nest(size)
    return [head + "".join(pieces(size - len(head), "(type a{:x})".format)) + tail]


# ---- macros

def doubling_calls(size):
    """A size is a number of copies: as many types that macros bring."""
    text, last = doubled_calls(size, "(type a)")
    return [f"{text}(call {last})"]


def helper(size):
    """A chain of macros that all call one helper first."""
    links = pieces(size, lambda n: f"(macro m{n:x}()(call z)(call m{n - 1:x}))" if n else "(macro z())(macro m0())")
    return ["".join(links) + f"(call m{len(links) - 1:x})"]


def turns(size):
    """A chain of macros that are in two blocks by turns."""
    links = pieces(size, lambda n: f"(macro m{n:x}()(call {'qp'[n % 2]}.m{n - 1:x}))" if n else "(macro m0())")
    last = len(links) - 1
    return [f"(block p{''.join(links[::2])})(block q{''.join(links[1::2])})(call {'pq'[last % 2]}.m{last:x})"]


def parameter_words(size):
    """Words in the body of a macro of very many parameters, each of which is compared with all of them."""
    ones = pieces(size // 4, "(type a{:x})".format)
    body = "(userrole x y)" * (size // 30)
    return [f"(user x)(role y)(type b)(macro m({''.join(ones)}){body})(call m({' b' * len(ones)}))"]


def arguments(size):
    """Calls with very many arguments, which are in a macro that is called very often."""
    ones = pieces(size // 5, "(type a{:x})".format)
    text, last = doubled_calls(size // 60, f"(call m({' b' * len(ones)}))")
    return [f"(type b)(macro m({''.join(ones)})){text}(call {last})"]


def unread_arguments(size):
    """A call of no macro with very many arguments, in an optional that is inherited very often."""
    text, last = doubled(size // 30, f"(optional a(call z({' b' * (size // 2)})))")
    return [f"{text}(block b{inherit(last)})"]


# ---- names

def clashes(size):
    """Classes of one name (36)."""
    return numbered(size, "(class a(b{:x}))".format)


def same_classes(size):
    """Statements of one class that are the same."""
    return filled(size, "", "(class a(b))", "")


def wide_class(size):
    """A class of very many permissions (55)."""
    return ["(class a(" + "".join(pieces(size, " b{:x}".format)) + "))"]


def listed(size):
    """Rules that list one permission very often."""
    return filled(size, "(class c(b))(type b)(allow b b(c(", " b", ")))")


def unresolved(size):
    """Words that name nothing (41): a fault for each five bytes."""
    return filled(size, "", "(allow a b(c()))", "")


def unlisted(size):
    """Permissions that a class lacks (41): a fault for each two bytes."""
    return filled(size, "(class c(a))(type b)(allow b b(c(", " b", ")))")


def long_fault_words(size):
    """A long word that names nothing, inherited very often: each fault has it."""
    text, last = doubled(size // 30, f"(roletype object_r a{'.a' * (size // 2)})")
    return [f"{text}(block b{inherit(last)})"]


def far_names(size):
    """One name in very many blocks, and words of that name in optionals outside, whose scope has none of these blocks."""
    blocks = "".join(pieces(size // 2, "(block b{:x}(type x))".format)[:MOST_TYPES])
    return [blocks + "(optional a(roletype object_r x))" * (size // 2 // 33)]


def class_copies(size):
    """A class that lists one permission very often, inherited very often."""
    text, last = doubled(size // 30, f"(class c({' a' * (size // 2)}))")
    return [f"{text}(block b{inherit(last)})"]


def permission_copies(size):
    """A rule that lists one permission very often, inherited often."""
    text, last = doubled(size // 4000, f"(allow b b(c({' a' * (size // 2)})))")
    return [f"(class c(a))(type b){text}(block b{inherit(last)})"]


def shared_names(size):
    """A common of very many names, and very many classes that share it."""
    names = " ".join(pieces(size // 2, "a{:x}".format))
    return [f"(common k({names}))", *numbered(size // 2, "(class b{0:x}())(classcommon b{0:x} k)".format)]


def common_copies(size):
    """Statements that join a common to a class, inherited very often."""
    text, last = doubled(4, "(classcommon c k)" * (size // 20))
    return [f"(class c())(common k(a)){text}(block b{inherit(last)})"]


def permission_list(size):
    """A rule with very many permissions, all of one class."""
    return [f"(class c(a b))(type b)(allow b b(c({' a' * (size // 2)})))"]


def deep_operators(size):
    """Rules whose permissions are operators 120 deep, over a class of 32 permissions."""
    names = " ".join(f"p{number:02}" for number in range(32))
    inside = "(not" * 59 + "(xor all(or p00 p31))" + ")" * 59
    deep = "(and all" * 60 + inside + ")" * 60
    return filled(size, f"(class c({names}))(type b)", f"(allow b b(c {deep}))", "")


def dots(size):
    """Words of very many names in scopes of very many namespaces, each of which has some of these names."""
    count = size // 2 // 70
    word = "a." * count + "a"
    return [spaces(size // 2, f"(optional a{f'(roletype object_r {word})' * (size // 2 // len(word))})")]


def pairs(size):
    """Pairs of a role and a type, of as many roles and types as there may be."""
    def pair(n):
        return f"(role a{n % (MOST_ROLES - 1):x})(type a{n % MOST_TYPES:x})(roletype a{n % (MOST_ROLES - 1):x} a{n % MOST_TYPES:x})"
    return numbered(size, pair)


def hashed(state, byte):
    """What a byte of a name makes of the hash of the names before it, as the tables of the program hash."""
    product = (state ^ byte * 0x10101) * 0x9e3779b97f4a7c17
    return (product ^ product >> 64) & 0xffffffffffffffff


def alike(count):
    """Names of five bytes whose places in a table of the global namespace are near one another. That the seed of the
    program's hashes is fixed makes them easy to find."""
    letters = b"abcdefghijklmnopqrstuvwxyzABCDEFGHIJKLMNOPQRSTUVWXYZ0123456789_"
    found = []
    for front in itertools.product(letters[:52], letters, letters, letters):
        # The hash of the number 0 and the length 5.
        state = 0x2a3103795ceef591
        for byte in front:
            state = hashed(state, byte)
        for byte in letters:
            end = hashed(state, byte)
            if (end ^ end >> 32) & 0x3f80 == 0:
                found.append(bytes(front + (byte,)).decode())
        if len(found) >= count:
            break
    return found


def flood(size):
    """Macros whose names have hashes that are near one another, and very many calls of one that is found late."""
    names = alike(size // 70)
    text, last = doubled(size // 30, f"(call {names[0]})")
    return ["".join(map("(macro {}())".format, names)) + f"{text}(block b{inherit(last)})"]


LETTERS = b"abcdefghijklmnopqrstuvwxyzABCDEFGHIJKLMNOPQRSTUVWXYZ0123456789_"


def guessed(state, byte):
    """What a byte makes of the hash by which the program guesses where the entries of a name are (FNV-1a)."""
    return (state ^ byte) * 0x100000001b3 & 0xffffffffffffffff


def five_bytes(bits):
    """Names of five bytes whose hashes, folded, end with so many zero bits."""
    last = (1 << bits) - 1
    for front in itertools.product(LETTERS[:52], LETTERS, LETTERS, LETTERS):
        state = functools.reduce(guessed, front, 0xcbf29ce484222325)
        for byte in LETTERS:
            end = guessed(state, byte)
            if (end ^ end >> 32) & last == 0:
                yield bytes(front + (byte,)).decode()


def asked_words(size, bits):
    """Types with such names, and as many bytes of words that name each of them in turn."""
    names = list(itertools.islice(five_bytes(bits), size // 24))
    words = itertools.islice(itertools.cycle(names), size // 2 // 25)
    return ["".join(map("(type {})".format, names)) + "".join(map("(roletype object_r {})".format, words))]


def flood_words(size):
    """Words whose names have hashes with the same nine bits, so that few of them find a place where they are guessed."""
    return asked_words(size, 9)


def other_words(size):
    """As many words with other names."""
    return asked_words(size, 0)


# ---- aliases and attributes

def types(size=LONGEST):
    """Types, as many as there is room for and as there may be."""
    return "".join(pieces(min(size, 12 * MOST_TYPES), "(type a{:x})".format)[:MOST_TYPES])


# An attribute of all types.
ALL_TYPES = "(typeattribute z)(typeattributeset z all)"


def many_types(size):
    """More types than there may be (60)."""
    return numbered(size, "(type a{:x})".format)


def growing_sets(size):
    """Attributes, each of which has what the one before has, and one type more."""
    def link(n):
        before = f"s{n - 1:x} " if n else ""
        return f"(type a{n:x})(typeattribute s{n:x})(typeattributeset s{n:x}({before}a{n:x}))"
    return numbered(size, link)


def set_words(size):
    """An attribute whose list names an attribute of very many types very often."""
    return [types(size // 4) + ALL_TYPES + f"(typeattribute y)(typeattributeset y({' z' * (size * 3 // 8)}))"]


def nested_sets(size):
    """Statements of an attribute whose expressions are operators 120 deep, over an attribute of very many types."""
    deep = "(xor z(not " * 60 + "z" + "))" * 60
    return [types(size // 8) + ALL_TYPES + "(typeattribute y)" + f"(typeattributeset y{deep})" * (size * 7 // 8 // 800)]


def set_ring(size):
    """Attributes in a ring: each is what the next one is (54)."""
    links = pieces(size, lambda n: f"(typeattribute s{n:x})(typeattributeset s{n:x} s{n + 1:x})")
    last = len(links)
    return ["".join(links) + f"(typeattribute s{last:x})(typeattributeset s{last:x} s0)"]


def alias_line(size):
    """Aliases, each of which stands for the next one. The last one stands for a type."""
    links = pieces(size, lambda n: f"(typealias a{n:x})(typealiasactual a{n:x} a{n + 1:x})")
    return ["".join(links) + f"(type a{len(links):x})"]


def full_links(size):
    """A size is a number of statements: each gives all roles all types."""
    roles = "".join(f"(role b{n:x})" for n in range(MOST_ROLES - 1))
    every = "(roleattribute y)(roleattributeset y all)"
    return [types() + ALL_TYPES + roles + every + "(roletype y z)" * size]


def full_rules(size):
    """A size is a number of rules: each is on a class of its own, from all types to all types."""
    each = (f"(class c{n:x}(e))(allow z z(c{n:x}(e)))" for n in range(size))
    return [types() + ALL_TYPES + "".join(each)]


def unlike_rules(size):
    """A size is a number of rules: each is between the types of an attribute of its own, which has all types but one."""
    def rule(n):
        return f"(typeattribute s{n:x})(typeattributeset s{n:x}(not a{n:x}))(allow s{n:x} s{n:x}(c(e)))"
    return [types() + "(class c(e))", "".join(map(rule, range(size)))]


def with_sets(size, rule):
    """A user, a class, types, and for each type an attribute that has it and the one before, with a rule made by its number."""
    def each(n):
        return f"(type a{n + 1:x})(typeattribute s{n:x})(typeattributeset s{n:x}(a{n:x} a{n + 1:x}))" + rule(n)
    return ["(user u)(class c(e))(type a0)" + "".join(pieces(size, each))]


def from_sets(size):
    """Rules from attributes of two types each to one type."""
    return with_sets(size, "(allow s{:x} a0(c(e)))".format)


def to_sets(size):
    """Rules from one type to attributes of two types each."""
    return with_sets(size, "(allow a0 s{:x}(c(e)))".format)


# ---- constraints

def constraint_sets(size):
    """A size is a number of constraints: the set of each has all types."""
    return [types() + ALL_TYPES + "(class c(e))", *parted("(constrain(c(e))(or(eq t1 z)(eq r1 object_r)))" for _ in range(size))]


def constraint_copies(size):
    """A constraint of very many comparisons on a class map that has a permission of each of a hundred classes."""
    def joined(count):
        return "(eq t1 t2)" if count == 1 else f"(or{joined(count // 2)}{joined(count - count // 2)})"
    classes = "".join(f"(class c{n:x}(e))(classmapping m x(c{n:x}(e)))" for n in range(100))
    return [f"(classmap m(x)){classes}(constrain(m(x)){joined(max(1, size // 14))})"]


def many_constraints(size):
    """Constraints on one permission, which a rule allows: each that the type of the source is another one, and none is false."""
    def each(n):
        return f"(type a{n + 1:x})(constrain(c(e))(neq t1 a{n + 1:x}))"
    return ["(user u)(class c(e))(type a0)(allow a0 a0(c(e)))" + "".join(pieces(size, each))]


# ---- class maps and class permissions

def on_map(size, rule):
    """A class map of so many permissions, each mapped to one of a class; and a rule for each, made by its name."""
    names = list(map("x{:x}".format, range(size)))
    yield f"(class c(e))(type a)(classmap m({' '.join(names)}))"
    yield from parted(map("(classmapping m {}(c(e)))".format, names))
    yield from parted(map(rule.format, names))


def map_words(size):
    """A size is a number of permissions of a class map, all mapped, and of rules: each is on one of them."""
    return on_map(size, "(allow a a(m({})))")


def map_lists(size):
    """The same, but each rule is on all but one of them."""
    return on_map(size, "(allow a a(m(not {})))")


def bits_on_the_way(size, number):
    """The sets of a class permission of its own that 32 of so many class permissions have: one permission each, at equal
    distances."""
    return [f"(classpermissionset p{number:x}(c(e{bit})))" for bit in range(32) if bit * size // 32 == number]


def on_a_circle(size, link):
    """A circle of so many class permissions. The permissions of a class come into it one by one."""
    yield "(type a)(allow a a p0)(class c(" + " ".join(map("e{}".format, range(32))) + "))"
    yield from parted("".join([link(n, (n + 1) % size), *bits_on_the_way(size, n)]) for n in range(size))


def permission_ring(size):
    """A size is a number of class permissions on a circle. Between two of them is a class map of one permission."""
    def link(n, following):
        has = f"(classpermission p{n:x})(classpermissionset p{n:x}(m{following:x}(x)))"
        return f"(classmap m{n:x}(x))(classmapping m{n:x} x p{n:x}){has}"
    return on_a_circle(size, link)


def map_ring(size):
    """The same, with one class map between all of them."""
    def link(n, following):
        return f"(classmapping m x{n:x} p{n:x})(classpermission p{n:x})(classpermissionset p{n:x}(m(x{following:x})))"
    yield f"(classmap m({' '.join(map('x{:x}'.format, range(size)))}))"
    yield from on_a_circle(size, link)


def wide_permissions(size):
    """A size is a number of class permissions. Each has a permission of each of 1,024 classes, and no rule names one."""
    yield "(classpermission q)(classmap m(x))(classmapping m x q)" + "".join(
        f"(class c{n:x}(e))(classpermissionset q(c{n:x}(e)))" for n in range(MANY_CLASSES)
    )
    yield from parted(map("(classpermission p{0:x})(classpermissionset p{0:x}(m(x)))".format, range(size)))


def wide_rules(size):
    """The same, with a rule for each of them, between two types of its own."""
    yield from wide_permissions(size)
    yield types()
    yield from parted(f"(allow a{n % MOST_TYPES:x} a{n // MOST_TYPES:x} p{n:x})" for n in range(size))


def class_masks(size):
    """As many classes as may be, and class permissions: each has the permission of one class."""
    yield "".join(f"(class c{number:x}(e))" for number in range(MANY_CLASSES))
    yield from numbered(size, lambda number: "(classpermission p{0:x})(classpermissionset p{0:x}(c{1:x}(e)))".format(number, number % MANY_CLASSES))


def class_rules(size):
    """Classes whose permissions one class permission has, and rules that name another one, which has one permission."""
    yield "(type a)(class c(e))(classpermission p)(classpermissionset p(c(e)))(classpermission q)"
    yield "".join(f"(class c{number:x}(e))(classpermissionset q(c{number:x}(e)))" for number in range(MANY_CLASSES - 1))
    yield from filled(size, "", "(allow a a p)", "")


def list_of(size):
    """A list of so many permissions of a class, which has one."""
    return f"(c({' '.join('e' * size)}))"


def list_calls(size):
    """A size is a number of permissions in a list, which is the argument of half as many calls."""
    body = f"(call m({list_of(size)}))"
    return [f"(type a)(class c(e))(macro m((classpermission p))(allow a a p))(macro n(){body})" + "(call n)" * (size // 2)]


def list_chain(size):
    """A size is a number of macros, each of which hands a list on to the next, and of the permissions in this list."""
    links = [f"(macro m{n + 1:x}((classpermission p))(call m{n:x}(p)))" for n in range(size - 1)]
    first = "(type a)(class c(e))(macro m0((classpermission p))(allow a a p))"
    return [first + "".join(links) + f"(call m{size - 1:x}({list_of(size)}))"]


def list_rules(size):
    """A macro of very many rules on one class permission, and a call of it with a very long list."""
    rules_ = "(allow a a p)" * (size // 2 // 13)
    return [f"(type a)(class c(e))(macro m((classpermission p)){rules_})(call m({list_of(size // 4)}))"]


# ---- booleans and neverallow

BASE = "(user u)(class c(e f))"


def many_booleans(size):
    """Booleans, more than may be (60)."""
    return numbered(size, lambda number: f"(boolean a{number:x} true)")


def disjunction(size):
    """A condition of one boolean, with as many words as there is room for; its lists nest some twenty deep."""
    made = "b"
    while 2 * len(made) + 6 <= size:
        made = f"(or {made} {made})"
    return made


def long_condition(size):
    """One rule in a branch, whose condition has a million words."""
    return [f"{BASE}(type a0)(boolean b false)(booleanif {disjunction(size)}(false(allow a0 a0(c(e)))))"]


def condition_rules(size):
    """Half of it is one condition, and half the rules in its branch. Each has a set of its own as its source, all of them
    with the type that is asked for."""
    count = size // 2 // 95
    made = [f"(type b{n:x})(typeattribute x{n:x})(typeattributeset x{n:x}(a0 b{n:x}))" for n in range(count)]
    yield from parted([BASE, "(type a0)(boolean b false)", *made])
    yield f"(booleanif {disjunction(size // 2)}(false{''.join(f'(allow x{n:x} a0(c(e)))' for n in range(count))}))"


def alike_conditions(size):
    """Conditions of sixty operators that differ in their last word, each with a rule. There are as many booleans as may be."""
    yield BASE + "(type a)" + "".join(f"(boolean a{number:x} true)" for number in range(MOST_BOOLEANS))
    def conditional(number):
        words_ = f"a{number % MOST_BOOLEANS:x} a{number // MOST_BOOLEANS:x}"
        return f"(booleanif {'(and a0 ' * 60}(or {words_}){')' * 60}(true(allow a a(c(e)))))"
    yield from numbered(size, conditional)


def branch_calls(size):
    """A branch with the call of a macro that calls the next, and so on; the last one has as many rules as macros have bytes."""
    links = pieces(size // 2, lambda n: f"(macro m{n + 1:x}()(call m{n:x}))")
    rules_ = "(allow a a(c(e)))" * (size // 2 // 17)
    return [f"{BASE}(type a)(boolean b true)(macro m0(){rules_})" + "".join(links) + f"(booleanif b(true(call m{len(links):x})))"]


def one_boolean(_size):
    """One boolean, and one rule in its branch."""
    return [f"{BASE}(type a0)(boolean b true)(booleanif b(true(allow a0 a0(c(e)))))"]


def never_apart(size):
    """A size is a number of allow statements, of one type a side, all on one class. A tenth as many neverallows are about
    other pairs of the same types."""
    yield BASE + "".join(f"(type a{number:x})" for number in range(1_000))
    yield from parted(f"(allow a{n % 1_000:x} a{n // 1_000:x}(c(e)))" for n in range(min(size, 500_000)))
    yield from parted(f"(neverallow a{n % 1_000:x} a{n // 1_000 + 500:x}(c(e)))" for n in range(min(size, 500_000) // 10))


def never_sets(size):
    """The same, where each side of each statement is one of 1,000 attributes of two types each."""
    yield BASE + "".join(
        f"(type a{n:x})(type b{n:x})(typeattribute x{n:x})(typeattributeset x{n:x}(a{n:x} b{n:x}))" for n in range(1_000)
    )
    yield from parted(f"(allow x{n % 1_000:x} x{n // 1_000:x}(c(e)))" for n in range(min(size, 500_000)))
    yield from parted(f"(neverallow x{n % 1_000:x} x{n // 1_000 + 500:x}(c(e)))" for n in range(min(size, 500_000) // 10))


def never_wide(size):
    """A size is a number of allow statements. Thirty neverallows are over all types, and about a permission that none has."""
    yield BASE + "(typeattribute z)(typeattributeset z all)" + "".join(f"(type a{number:x})" for number in range(4_000))
    yield from parted(f"(allow a{n % 4_000:x} a{n // 4_000:x}(c(e)))" for n in range(size))
    yield "(neverallow z z(c(f)))" * 30


def never_late(size):
    """A size is a number of allow statements, and as many are neverallows, over two large sets that share the last type."""
    yield f"{BASE}{types()}(typeattribute x)(typeattribute y)"
    yield f"(typeattributeset x({' '.join(f'a{n:x}' for n in range(0, MOST_TYPES, 2))}))"
    yield f"(typeattributeset y({' '.join(f'a{n:x}' for n in range(1, MOST_TYPES, 2))} a{MOST_TYPES - 1:x}))"
    yield "(allow x x(c(e)))" * size + "(neverallow y y(c(e)))" * size


def never_all(size):
    """A size is a number of allow statements, and as many are neverallows: each meets each (65)."""
    yield BASE + "(type a)" + "(allow a a(c(e)))" * size + "(neverallow a a(c(e)))" * size


# ---- optionals

def same_optionals(size):
    """Optionals that all declare one name, and have a word that names nothing."""
    return filled(size, "", "(optional a(type b)(roletype c b))", "")


def optional_chain(size):
    """Optionals, each of which names what the next one declares. The last one's is missing."""
    return numbered(size, lambda n: f"(optional a(type a{n:x})(roletype object_r a{n + 1:x}))")


def optional_ring(size):
    """The same, but the last one's is there, in the first. There are no more than there may be types."""
    links = pieces(size, lambda n: f"(optional a(type a{n:x})(roletype object_r a{n + 1:x}))")[:MOST_TYPES - 1]
    return ["".join(links) + f"(optional a(type a{len(links):x})(roletype object_r a0))"]


def deep_optionals(size):
    """Types in 125 optionals in one another."""
    return filled(size, "(optional a" * 125, "(type a)", ")" * 125)


def optional_lines(size):
    """Optionals in a namespace of 129 KB, which their lines tell."""
    head, tail = nest(size)
    return filled(size, head, "(optional a)", tail)


def optional_depth(size):
    """A chain of macros, each of which has the call of the next in an optional, with a type."""
    links = pieces(size, lambda n: f"(macro m{n:x}()(optional a(type a){f'(call m{n - 1:x})' if n else ''}))")
    return ["".join(links) + f"(call m{len(links) - 1:x})"]


def optional_rounds(size):
    """The same without the types, and very many statements in the innermost optional."""
    text, last = doubled_calls(size // 30, "(userrole x y)")
    links = pieces(size, lambda n: f"(macro m{n:x}()(optional a(call {f'm{n - 1:x}' if n else last})))")
    return [f"(user x)(role y){text}" + "".join(links) + f"(call m{len(links) - 1:x})"]


def candidates(size):
    """Words in an optional that could name something in each of very many namespaces."""
    rules = "(roletype object_r x)" * (size // 2 // 21)
    return [spaces(size // 2, f"(optional a{rules})", "(type x)")]


# ---- requests

def rules(size):
    """Rules between types, of which each query looks at few."""
    yield "(user u)(class c(e))"
    yield from numbered(size, lambda n: f"(type a{n % MOST_TYPES:x})(allow a{n % MOST_TYPES:x} a{n // MOST_TYPES:x}(c(e)))")


def none(_size):
    """No text."""
    return []


def installed(texts):
    """The requests that install texts."""
    for text in texts:
        yield f"INSTALL {len(text)}\n{text}"


def load(form, size):
    """Texts, and a LOAD."""
    yield from installed(form(size))
    yield "LOAD\n"


def lines(form, size):
    """Texts, a LOAD, and what follows for optionals."""
    yield from installed(form(size))
    yield "LOAD\nOPTIONALS\nWHY\n"


def queries(form, size):
    """Texts, a LOAD, and a thousand queries."""
    yield from installed(form(size))
    yield "LOAD\n" + "AV u:object_r:a0 u:object_r:a0 c\n" * 1000


def sources(form, size):
    """Texts, a LOAD, and a thousand queries of one target, each with a source of its own."""
    yield from installed(form(size))
    yield "LOAD\n" + "".join(f"AV u:object_r:a{n:x} u:object_r:a0 c\n" for n in range(1000))


def targets(form, size):
    """Texts, a LOAD, and a thousand queries of one source, each with a target of its own."""
    yield from installed(form(size))
    yield "LOAD\n" + "".join(f"AV u:object_r:a0 u:object_r:a{n:x} c\n" for n in range(1000))


def query(form, size):
    """Texts, a LOAD, and one query."""
    yield from installed(form(size))
    yield "LOAD\nAV u:object_r:a0 u:object_r:a0 c\n"


def settings(form, size):
    """Texts, a LOAD, and as many requests that turn one boolean."""
    yield from installed(form(size))
    yield "LOAD\n" + "SET b false\nSET b true\n" * (size // 2)


def lists(form, size):
    """Texts, and a hundred requests LIST and EXPORT."""
    yield from installed(form(size))
    yield "LIST\nEXPORT\n" * 100


def bundle(form, size):
    """An IMPORT of all texts, which have one length and are in their order, and a LOAD."""
    count, length = 0, 0
    for text in form(size):
        count, length = count + 1, length + 8 + len(text)
    yield f"IMPORT {13 + length}\nCILB\x01" + "".join(map(chr, count.to_bytes(8, "big")))
    for text in form(size):
        yield "".join(map(chr, len(text).to_bytes(8, "big"))) + text
    yield "LOAD\n"


def unknown(_form, size):
    """A size is a number of requests that are none."""
    yield "x\n" * size


# Each form with its full size and its requests.
FORMS = {
    "nested": (nested, LONGEST, load), "empty-lists": (empty_lists, LONGEST, load), "words": (words, LONGEST, load),
    "strings": (strings, LONGEST, load), "long-word": (long_word, LONGEST, load), "comment": (comment, LONGEST, load),
    "long-path": (long_path, LONGEST, load), "set-aside": (set_aside, ALL, load),
    "shape-faults": (shape_faults, ALL, load), "deep-shape-faults": (deep_shape_faults, LONGEST, load),
    "constraints": (constraints, 6_400_000, load), "alike-heads": (alike_heads, LONGEST, load),
    "branches": (branches, 2_600_000, load), "deep-sets": (deep_sets, LONGEST, load),
    "parameters": (parameters, LONGEST, load), "parameter-names": (parameter_names, LONGEST, load),
    "parameter-copies": (parameter_copies, LONGEST, load),
    "modules": (modules, 14_000_000, load), "bundle": (rising_modules, ALL, bundle), "lists": (words, ALL, lists),
    "same-names": (same_names, LONGEST, load), "same-names-wide": (same_names_wide, LONGEST, load),
    "chain": (chain, LONGEST, load), "heirs": (heirs, LONGEST, load), "ring": (ring, LONGEST, load),
    "deep-names": (deep_names, LONGEST, load), "deep-targets": (deep_targets, LONGEST, load),
    "doubling": (doubling, 131_072, load), "long-paths": (long_paths, LONGEST, load),
    "nested-paths": (nested_paths, LONGEST, load), "nested-names": (nested_names, 131_072, load),
    "long-scopes": (long_scopes, LONGEST, load), "permission-scopes": (permission_scopes, LONGEST, load),
    "longer-scopes": (longer_scopes, LONGEST, load), "long-names": (long_names, LONGEST, load),
    "one-long-scope": (one_long_scope, LONGEST, load), "deep-spaces": (deep_spaces, LONGEST, load),
    "deep-types": (deep_types, LONGEST, load),
    "doubling-calls": (doubling_calls, 262_144, load), "helper": (helper, LONGEST, load),
    "turns": (turns, LONGEST, load),
    "parameter-words": (parameter_words, LONGEST, load), "arguments": (arguments, LONGEST, load),
    "unread-arguments": (unread_arguments, LONGEST, load),
    "clashes": (clashes, 13_000_000, load), "same-classes": (same_classes, 11_000_000, load),
    "wide-class": (wide_class, LONGEST, load), "listed": (listed, ALL, load),
    "unresolved": (unresolved, 15_000_000, load), "unlisted": (unlisted, ALL, load),
    "long-fault-words": (long_fault_words, LONGEST, load), "class-copies": (class_copies, LONGEST, load),
    "far-names": (far_names, LONGEST, load),
    "permission-copies": (permission_copies, LONGEST, load), "dots": (dots, LONGEST, load),
    "shared-names": (shared_names, LONGEST, load), "common-copies": (common_copies, LONGEST, load),
    "permission-list": (permission_list, 1_000_000, load), "deep-operators": (deep_operators, LONGEST, load),
    "pairs": (pairs, LONGEST, load), "flood": (flood, LONGEST, load),
    "flood-words": (flood_words, 400_000, load), "other-words": (other_words, 400_000, load),
    "many-types": (many_types, LONGEST, load), "growing-sets": (growing_sets, LONGEST, load),
    "set-words": (set_words, LONGEST, load), "nested-sets": (nested_sets, LONGEST, load),
    "set-ring": (set_ring, LONGEST, load), "alias-line": (alias_line, LONGEST, load),
    "full-links": (full_links, 100, load), "full-rules": (full_rules, 1_000, load),
    "unlike-rules": (unlike_rules, 1_000, load),
    "from-sets": (from_sets, LONGEST, sources), "to-sets": (to_sets, LONGEST, targets),
    "constraint-sets": (constraint_sets, 20_000, load), "constraint-copies": (constraint_copies, 400_000, load),
    "many-constraints": (many_constraints, 2_600_000, queries),
    "map-words": (map_words, 100_000, load), "map-lists": (map_lists, 100_000, load),
    "permission-ring": (permission_ring, 100_000, load), "map-ring": (map_ring, 100_000, load),
    "wide-permissions": (wide_permissions, 100_000, load), "wide-rules": (wide_rules, 100_000, load),
    "class-masks": (class_masks, LONGEST, load), "class-rules": (class_rules, LONGEST, load),
    "list-calls": (list_calls, 2_000, load), "list-chain": (list_chain, 2_000, load),
    "list-rules": (list_rules, LONGEST, load),
    "many-booleans": (many_booleans, LONGEST, load), "long-condition": (long_condition, LONGEST - 200, queries),
    "condition-rules": (condition_rules, LONGEST, query), "alike-conditions": (alike_conditions, LONGEST, load),
    "branch-calls": (branch_calls, LONGEST - 200, load), "settings": (one_boolean, 100_000, settings),
    "never-apart": (never_apart, 100_000, load), "never-sets": (never_sets, 100_000, load),
    "never-wide": (never_wide, 116_000, load), "never-late": (never_late, 1_000, load),
    "never-all": (never_all, 1_000, load),
    "same-optionals": (same_optionals, 11_000_000, lines), "optional-chain": (optional_chain, LONGEST, lines),
    "optional-ring": (optional_ring, LONGEST, lines), "deep-optionals": (deep_optionals, 7_800_000, load),
    "optional-lines": (optional_lines, LONGEST, load),
    "optional-depth": (optional_depth, LONGEST, load), "optional-rounds": (optional_rounds, LONGEST, load),
    "candidates": (candidates, LONGEST, load),
    "queries": (rules, 17_000_000, queries), "unknown": (none, 1_000_000, unknown),
}


# ---- runs

def limit(gigabytes):
    """What a child does before it becomes the program."""
    resource.setrlimit(resource.RLIMIT_AS, (gigabytes << 30, gigabytes << 30))


def ended(child, seconds):
    """How a child ended, and what it used. It is killed after so many seconds."""
    start, is_late = time.monotonic(), False
    while True:
        number, status, usage = os.wait4(child, os.WNOHANG)
        if number:
            return "too long" if is_late else "" if status == 0 else told(status), usage
        if not is_late and time.monotonic() - start > seconds:
            is_late = True
            os.kill(child, 9)
        time.sleep(0.005)


def told(status):
    """How a process ended."""
    return f"signal {os.WTERMSIG(status)}" if os.WIFSIGNALED(status) else f"status {os.WEXITSTATUS(status)}"


def first_line(replies):
    """The first line that is no reply to an INSTALL."""
    replies.seek(0)
    for line in replies:
        if not line.startswith((b"OK new", b"OK known")):
            return line[:40].decode("latin-1").strip()
    return "no reply"


def run(program, name, size, seconds, gigabytes):
    """Runs the program on a form, and prints what came of it."""
    form, _full, requests = FORMS[name]
    with tempfile.TemporaryFile() as file, tempfile.TemporaryFile() as replies:
        for request in requests(form, size):
            file.write(request.encode("latin-1"))
        length = file.tell()
        file.seek(0)
        start = time.monotonic()
        # Popen is not waited for: wait4 tells what this child alone has used.
        child = subprocess.Popen([program, "session"], stdin=file, stdout=replies, preexec_fn=lambda: limit(gigabytes))
        how, usage = ended(child.pid, seconds)
        child.returncode = 0
        wall = time.monotonic() - start
        reply = first_line(replies)
        print(f"{name:17} {size:9} {length:9} {wall:8.2f} {usage.ru_utime + usage.ru_stime:8.2f} "
              f"{usage.ru_maxrss / 1000:8.0f} {replies.seek(0, 2):10}  {reply}{', ' * bool(how)}{how}", flush=True)


def size_for(name, count):
    """The size at which the requests of a form have about so many bytes, at most the full size."""
    form, full, requests = FORMS[name]
    size = min(full, count)
    for _ in range(4):
        length = sum(map(len, requests(form, size)))
        if abs(length - count) * 50 <= count:
            break
        size = min(full, max(1, size * count // length))
    return size


def main():
    words_, options = sys.argv[1:], {"--seconds": 120, "--gigabytes": 10, "--bytes": 0}
    here = os.path.dirname(os.path.abspath(__file__))
    program = os.path.join(here, "..", "crates", "cilhost", "out", "cilhost")
    if words_ and "/" in words_[0]:
        program = words_.pop(0)
    while len(words_) > 1 and words_[0] in options and words_[1].isdecimal():
        options[words_[0]] = int(words_[1])
        del words_[:2]
    if len(words_) > 2 or words_[:1] and words_[0] not in FORMS or words_[1:] and not words_[1].isdecimal():
        print(__doc__, "\nforms: ", " ".join(FORMS), sep="")
        return 0 if sys.argv[1:] == ["--help"] else 2
    if not os.path.exists(program):
        print(f"there is no program {os.path.normpath(program)}", file=sys.stderr)
        return 2
    print(f"{'form':17} {'size':>9} {'bytes':>9} {'seconds':>8} {'cpu':>8} {'peak MB':>8} {'replied':>10}  reply")
    for name in words_[:1] or FORMS:
        size = size_for(name, options["--bytes"]) if options["--bytes"] else FORMS[name][1]
        size = int(words_[1]) if words_[1:] else size
        run(program, name, size, options["--seconds"], options["--gigabytes"])
    return 0


if __name__ == "__main__":
    sys.exit(main())
