#!/usr/bin/env python3
"""What the passes of LOAD cost, from a file of callgrind (--dump-instr=yes) of a session with one LOAD.

usage: passes.py FILE

Most passes are no functions of the program: they are parts of a few large ones. There they are told apart by the calls in
them, in the order of the addresses. A line has a pass, its instructions with those of all that it calls, and the first
address in it at which the program was once, where a debugger can see that the pass begins; 0 where there is none.
"""
import re
import sys

LOADING, COMPILING, PLACED = "requests::load", "compiler::compile", "compiler::placed_policy"
CHOOSING = "chosen::greatest_of"


def lines_of(path):
    """For each function its addresses with their instructions, and its calls: address, callee, instructions."""
    names, costs, calls = {}, {}, {}
    function, callee, called, address = None, None, False, 0

    def named(line):
        number, name = re.match(r"c?fn=\((\d+)\)(?: (.*))?$", line.strip()).groups()
        if name:
            names[number] = name
        return names[number]

    for line in open(path, encoding="utf-8"):
        if line.startswith("fn="):
            function = named(line)
        elif line.startswith("cfn="):
            callee = named(line)
        elif line.startswith("calls="):
            called = True
        elif function and re.match(r"[0-9+*-]", line):
            place, *_, cost = line.split()
            if place[0] in "+-":
                address += int(place, 0)
            elif place != "*":
                address = int(place, 0)
            if called:
                calls.setdefault(function, []).append((address, callee, int(cost)))
            else:
                own = costs.setdefault(function, {})
                own[address] = own.get(address, 0) + int(cost)
            called = False
    return costs, calls


def only(names, wanted):
    found = [name for name in names if wanted in name]
    if len(found) != 1:
        sys.exit(f"passes.py: {len(found)} functions of the name {wanted}")
    return found[0]


class Function:
    """The calls of a function in the order of their addresses, and the passes in it."""

    def __init__(self, costs, calls):
        self.costs, self.calls = costs, sorted(calls)
        self.start, self.passes = 0, []

    def place(self, wanted, last=False, before=None):
        """The place of the first call of a function from here on, or of the last one before a place."""
        places = [i for i in range(self.start, before or len(self.calls)) if wanted in self.calls[i][1]]
        if not places:
            sys.exit(f"passes.py: no call of {wanted}")
        return places[-1 if last else 0]

    def ends(self, name, place):
        """The next pass ends with the call at this place."""
        self.passes.append((name, self.start, place + 1))
        self.start = place + 1

    def ends_before(self, name, wanted):
        self.ends(name, self.place(wanted) - 1)

    def ends_with(self, name, wanted):
        self.ends(name, self.place(wanted))

    def lines(self):
        addresses = sorted(self.costs)
        for name, first, last in self.passes:
            low = self.calls[first - 1][0] if first else addresses[0] - 1
            high = self.calls[last - 1][0] if last < len(self.calls) else addresses[-1]
            own = [address for address in addresses if low < address <= high]
            cost = sum(self.costs[address] for address in own) + sum(call[2] for call in self.calls[first:last])
            yield name, cost, next((address for address in own if self.costs[address] == 1), 0)


def main():
    if len(sys.argv) != 2 or sys.argv[1].startswith("-"):
        print(__doc__, end="")
        return 2
    costs, calls = lines_of(sys.argv[1])
    loading, compiling, placed, choosing = (only(costs, name) for name in (LOADING, COMPILING, PLACED, CHOOSING))

    one = Function(costs[compiling], calls[compiling])
    one.ends_with("reading", "reader::read_level")
    one.ends_with("written", "Reader::judge_all")
    one.ends_before("freeing trees", "parts::parts_of")
    one.ends_before("inherit", "expansion::expand")
    one.ends_with("expand", "expansion::expand")
    one.ends_with("placed", PLACED)
    one.ends("freeing the rest", len(one.calls) - 1)

    # Behind the policy LOAD only copies the set of modules.
    all_of_it = Function(costs[loading], calls[loading])
    all_of_it.ends_with("compiling", COMPILING)
    all_of_it.ends("copy of the set", len(all_of_it.calls) - 1)

    two = Function(costs[placed], calls[placed])
    two.ends_with("declare", "gather::declare")
    two.ends_with("commons_of", "shared::shared_at")
    two.ends_before("permissions_of", "worded::has_word")
    two.ends_before("asks_of", CHOOSING)
    two.ends_with("choosing", CHOOSING)
    for name, wanted in (("judged", "judge::judged"), ("settled", "settled_rows::settled"), ("tables_of", "compiler::tables_of"),
                         ("optional_lines", "lines::optional_lines"), ("why_lines", "lines::why_lines")):
        two.ends_with(name, wanted)
    two.ends("freeing names", len(two.calls) - 1)

    three = Function(costs[choosing], calls[choosing])
    three.ends_before("guess: graph", "edge::sort_edges")
    three.ends_with("guess: sorting", "edge::sort_edges")
    three.ends_before("guess: settling", "counts::lookups_of")
    three.ends_with("lookups_of", "counts::lookups_of")
    three.ends("check", len(three.calls) - 1)

    inside = {"compiling": one, "placed": two, "choosing": three}

    def tell(function):
        for name, cost, address in function.lines():
            if name in inside:
                tell(inside[name])
            else:
                print("%s\t%d\t%#x" % (name, cost, address))

    tell(all_of_it)
    return 0


if __name__ == "__main__":
    sys.exit(main())
