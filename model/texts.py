"""Texts as lists of words, strings and lists; and what a name is."""
import collections
import re

LONGEST_TEXT = 4_194_304
DEEPEST_LIST = 128
LONGEST_NAME = 1024

RESERVED = set(
    b"and or xor not eq neq dom domby incomp all range self notself other true false unordered"
    b" t1 t2 r1 r2 u1 u2 l1 l2 h1 h2".split()
)
NAME = re.compile(rb"[A-Za-z_][A-Za-z0-9_-]*\Z")
BLANKS = re.compile(rb"[ \t\n\r]+")
WORD = re.compile(rb"[\x21\x23-\x27\x2a-\x3a\x3c-\x7e]+")

# A node of a text: "word" and "string" with their bytes, "list" with its nodes; and where it begins.
Node = collections.namedtuple("Node", "kind at value")


def is_name(word):
    return len(word) <= LONGEST_NAME and NAME.match(word) is not None


def is_path(word):
    return all(is_name(name) for name in word[word.startswith(b"."):].split(b"."))


class Unreadable(Exception):
    """The first fault of a text, by its number and place."""

    def __init__(self, code, at):
        self.code, self.at = code, at


def read(text):
    """The nodes at the top of a text."""
    if len(text) > LONGEST_TEXT:
        raise Unreadable(1, LONGEST_TEXT)
    lists = [[]]
    at = 0
    while at < len(text):
        byte = text[at:at + 1]
        if byte in b" \t\n\r":
            at = BLANKS.match(text, at).end()
        elif byte == b";":
            newline = text.find(b"\n", at)
            at = len(text) if newline < 0 else newline
        elif byte == b"(":
            if len(lists) > DEEPEST_LIST:
                raise Unreadable(6, at)
            inner = []
            lists[-1].append(Node("list", at, inner))
            lists.append(inner)
            at += 1
        elif byte == b")":
            if len(lists) == 1:
                raise Unreadable(3, at)
            lists.pop()
            at += 1
        elif byte == b'"':
            quote = text.find(b'"', at + 1)
            newline = text.find(b"\n", at + 1)
            if quote < 0 or 0 <= newline < quote:
                raise Unreadable(4, at)
            if len(lists) == 1:
                raise Unreadable(7, at)
            lists[-1].append(Node("string", at, text[at + 1:quote]))
            at = quote + 1
        elif not b"\x21" <= byte <= b"\x7e":
            raise Unreadable(5, at)
        elif len(lists) == 1:
            raise Unreadable(7, at)
        else:
            word = WORD.match(text, at)
            lists[-1].append(Node("word", at, word.group()))
            at = word.end()
    if len(lists) > 1:
        raise Unreadable(2, len(text))
    return lists[0]
