"""Which statements stand in which namespace: blocks and what they inherit.

A namespace is the tuple of the names that lead to it. A scope is a list of namespaces, the global one last.
"""
import collections

from faults import TOO_MANY, fault, stop_at

MOST_INSTANCES = 1_000_000

# A statement that stands in a namespace, the scope of that place, and the blockinherits through which it came there,
# each as module and place, the outermost first.
Standing = collections.namedtuple("Standing", "statement space scope chain")


def chain_of(space):
    """A namespace and those round it, the innermost first, without the global one."""
    return tuple(space[:length] for length in range(len(space), 0, -1))


def joined_scope(*parts):
    """Namespaces in order, each where it comes first, and the global one last."""
    once = dict.fromkeys(space for part in parts for space in part if space)
    return (*once, ())


def paths(word, scope):
    """The full names that a word may mean, the nearest first."""
    if word.startswith(b"."):
        return [tuple(word[1:].split(b"."))]
    names = tuple(word.split(b"."))
    return [space + names for space in scope]


class Contents:
    """The statements of a policy by where they stand; or the faults of blocks."""

    def __init__(self, top):
        self.top = top
        self.blocks, self.inherits, self.named = {}, [], []
        self.find(top)
        self.targets = {each: self.targets_of(each) for each in self.inherits}
        self.sizes = {}
        stop_at(self.doubled() + self.unresolved() + self.cycles())
        stop_at([TOO_MANY] if self.size(top) > MOST_INSTANCES else [])

    def find(self, statements):
        """Enters the blocks, macros and blockinherits that are written."""
        for each in statements:
            space = each.place.space
            if each.keyword == b"blockinherit":
                self.inherits.append(each)
            elif each.keyword in (b"block", b"macro"):
                self.named.append(each)
            if each.keyword == b"block":
                self.blocks.setdefault((*space, each.name.value), []).append(each)
                self.find(each.body)

    def targets_of(self, inherit):
        space = inherit.place.space
        for path in paths(inherit.target_block.value, (*chain_of(space), ())):
            if path in self.blocks:
                return self.blocks[path]
        return []

    def unresolved(self):
        return [
            fault(32, each.module, each.target_block.at, each.place.space, each.target_block.value)
            for each in self.inherits
            if not self.targets[each]
        ]

    def cycles(self):
        """Of each block, the blocks that it needs in one step; and the blockinherits that need a block round them."""
        needed = collections.defaultdict(set)
        for each in self.inherits:
            for block in each.place.blocks:
                needed[block].update(self.targets[each])
        return [
            fault(33, each.module, each.target_block.at, each.place.space, each.target_block.value)
            for each in self.inherits
            if reached(self.targets[each], needed) & set(each.place.blocks)
        ]

    def doubled(self):
        """Blocks and macros that share a name, where they are written or where they are inherited."""
        together = collections.defaultdict(set)
        for each in self.named:
            together[each.place.space, each.name.value].add(each)
        for number, bodies in enumerate(self.joined_bodies()):
            for body in bodies:
                for each in body:
                    if each.keyword in (b"block", b"macro"):
                        together[number, each.name.value].add(each)
        return [
            fault(31, each.module, each.name.at, each.place.space, each.name.value)
            for group in together.values()
            if len(group) > 1
            for each in group
        ]

    def joined_bodies(self):
        """For each namespace the bodies whose statements stand in it. Namespaces with the same bodies are one here.

        So there are finitely many, even where a block inherits itself in a block of its own.
        """
        seen, waiting = {}, [self.with_inherited([self.top])]
        while waiting:
            bodies = waiting.pop()
            key = frozenset(id(body) for body in bodies)
            if key in seen:
                continue
            seen[key] = bodies
            inner = collections.defaultdict(list)
            for body in bodies:
                for each in body:
                    if each.keyword == b"block" and not each.is_abstract:
                        inner[each.name.value].append(each.body)
            waiting += [self.with_inherited(blocks) for blocks in inner.values()]
        return seen.values()

    def with_inherited(self, bodies):
        found = []
        waiting = list(bodies)
        while waiting:
            body = waiting.pop()
            if not any(body is other for other in found):
                found.append(body)
                waiting += [block.body for each in body if each in self.targets for block in self.targets[each]]
        return found

    def size(self, statements):
        """How many instances statements bring. Calls are not unfolded."""
        count = len(statements)
        for each in statements:
            if each.keyword == b"block" and not each.is_abstract:
                count += self.size_of(each)
            elif each.keyword in (b"optional", b"booleanif"):
                count += self.size(each.body)
            for block in self.targets.get(each, []):
                count += self.size_of(block)
        return count

    def size_of(self, block):
        if block not in self.sizes:
            self.sizes[block] = self.size(block.body)
        return self.sizes[block]

    def standing(self):
        """All statements with the namespaces in which they stand, once for each chain.

        What is in an optional or a branch stands where the optional or the booleanif stands, and is not listed.
        """
        found = []
        self.stand(self.top, (), ((),), (), found)
        return found

    def stand(self, statements, space, scope, chain, found):
        for each in statements:
            found.append(Standing(each, space, scope, chain))
            if each.keyword == b"block" and not each.is_abstract:
                inner = (*space, each.name.value)
                self.stand(each.body, inner, joined_scope([inner], scope), chain, found)
            for block in self.targets.get(each, []):
                wider = joined_scope(scope, chain_of(block.place.space))
                self.stand(block.body, space, wider, (*chain, (each.module, each.at)), found)


def reached(first, steps):
    """The things that are first, or that steps lead to."""
    found, waiting = set(), list(first)
    while waiting:
        each = waiting.pop()
        if each not in found:
            found.add(each)
            waiting += steps[each]
    return found
