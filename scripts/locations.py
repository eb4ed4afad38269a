"""What `cilhost locate` writes of a fault, by the rules that docs/FAULTS.md states: a second program beside the proved one."""
import re

from sessions import ROOT

OF_THE_POLICY = {38, 57, 58, 59, 60}


def sentences():
    """What each number is called, by the table of docs/FAULTS.md."""
    rows = re.findall(r"(?m)^\| (\d+) \| ([^|]+) \| (\d*) ?\| ([^|]*)\|$", (ROOT / "docs/FAULTS.md").read_text("utf-8"))
    return {int(number): text.strip().encode() for row in rows for number, text in (row[:2], row[2:]) if number}


def shown(text):
    return bytes(byte if 0x20 <= byte <= 0x7E else 0x20 for byte in text)


def source(text, place):
    """The line of a place, at most 120 bytes of it, and the mark below it; and in front of both the numbers of the line and the column."""
    line = text.count(b"\n", 0, place) + 1
    start = text.rfind(b"\n", 0, place) + 1
    end = text.find(b"\n", place)
    end = len(text) if end < 0 else end
    last = min(end, max(place + 60, start + 120))
    first = max(start, last - 120)
    word = re.match(rb"[^\x00-\x20()\";\x7f-\xff]*", text[place:last]).group()
    number = b"%5d" % line
    lines = number + b" | " + shown(text[first:last]) + b"\n"
    mark = b" " * len(number) + b" | " + b" " * (place - first) + b"^" + b"~" * (len(word) - 1) + b"\n"
    return line, place - start + 1, lines + mark


def located(name, text, number, place, space=b".", word=b"-"):
    """The lines of a fault: of LOAD, or of a text that cannot be read."""
    cause = b"%d: %s" % (number, sentences()[number])
    cause += b"" if word == b"-" else b": " + shown(word)
    cause += b"" if space == b"." else b" (in %s)" % space
    if number in OF_THE_POLICY:
        return b"policy: " + cause + b"\n"
    line, column, lines = source(text, place)
    return b"%s:%d:%d: " % (name, line, column) + cause + b"\n" + lines
