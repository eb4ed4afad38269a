"""The block lib of a distribution's policy: its macros and templates, and the calls of the macros."""
from distribution_words import USED, allow

MACROS = 50


class Library:
    """The block lib: templates, macros for a class and its permissions, and macros for permissions on any class."""

    def __init__(self, roles):
        self.roles = roles
        used = [(name, number, list_) for _, name, lists in USED for number, list_ in enumerate(lists)]
        self.of_class = {(name, list_): f"{name}_{number}" for name, number, list_ in used}
        lists = list(dict.fromkeys(list_ for _, list_ in self.of_class))[:MACROS - len(self.of_class)]
        self.of_list = {list_: f"access_{number}" for number, list_ in enumerate(lists)}
        assert len(self.of_class) + len(self.of_list) == MACROS
        self.calls = 0

    def lines(self):
        yield "(block lib"
        for (name, list_), macro in self.of_class.items():
            yield f"(macro {macro} ((type source)(type target)) {allow('source', 'target', name, list_)})"
        for list_, macro in self.of_list.items():
            yield f"(macro {macro} ((type source)(type target)(class on)) {allow('source', 'target', 'on', list_)})"
        yield f"(block domain (blockabstract domain)(type t){''.join(f'(roletype {role} t)' for role in self.roles)})"
        yield "(block one (blockabstract one)(type o0))"
        yield "(block two (blockabstract two)(blockinherit one)(type o1))"
        yield ")"

    def call(self, source, target, name, list_):
        """The call that makes this rule: every second one is of a macro with a class, if there is one."""
        self.calls += 1
        if list_ in self.of_list and self.calls % 2 == 0:
            return f"(call lib.{self.of_list[list_]} ({source} {target} {name}))"
        return f"(call lib.{self.of_class[name, list_]} ({source} {target}))"
