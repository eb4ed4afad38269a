"""Which optionals are in: the greatest good set, and the reasons for those left out.

An optional here is an instance, and its own instances are those in it that are in no optional inside it.
"""
import collections

from faults import printed
from names import Names

# Why an optional is left out: a word that names nothing, or None where its parent is out.
Reason = collections.namedtuple("Reason", "optional missing")


def place_of(optional):
    """By what an optional is told. Several can be told alike."""
    statement = optional.statement
    return statement.module, statement.at, printed(optional.space), statement.label.value


class Optionals:
    """The optionals of a policy by the instances that are their own; which are in, and why the others are out."""

    def __init__(self, instances):
        self.instances = instances
        self.own = {each: [] for each in instances.all if each in instances.optionals}
        for each in instances.all:
            if each.optionals:
                self.own[each.optionals[-1]].append(each)
        self.enabled, self.reasons = set(self.own), []
        self.leave_out()

    def leave_out(self):
        """Takes out in rounds what is not good, until all is good that is left."""
        while True:
            names = Names(self.instances, self.enabled)
            going = [
                Reason(each, why[0])
                for each in self.own
                if each in self.enabled
                for why in [self.reasons_for(each, self.enabled, names)]
                if why
            ]
            if not going:
                return
            self.reasons += going
            self.enabled -= {reason.optional for reason in going}

    def reasons_for(self, optional, enabled, names):
        """What speaks against an optional while these are in: None for its parent, and words."""
        parent_out = [None for parent in optional.optionals[-1:] if parent not in enabled]
        return parent_out + [word.text for each in self.own[optional] for word, _ in names.missing(each)]

    def lines(self):
        return sorted((*place_of(each), b"in" if each in self.enabled else b"out") for each in self.own)

    def are_right(self, reasons):
        """Whether places and words are right reasons: each holds while those before it are gone, and just those go
        that are left out. Where several optionals are told alike, each of them may be the one that is meant.
        """
        is_one_each = len(reasons) == len(self.own) - len(self.enabled)
        return is_one_each and self.could_hold(reasons) and self.can_go(reasons, frozenset(), set())

    def could_hold(self, reasons):
        """Whether each reason holds where all are gone that are told like one before it. Most wrong ones do not."""
        left = set(self.own)
        for place, missing in reasons:
            names = Names(self.instances, left)
            if not any(missing in self.reasons_for(each, left, names) for each in self.out_at(place)):
                return False
            left.difference_update(self.out_at(place))
        return True

    def can_go(self, reasons, gone, hopeless):
        """Whether the reasons after those of the optionals that are gone hold. What leads to nothing is kept."""
        if len(gone) == len(reasons):
            return True
        place, missing = reasons[len(gone)]
        left = self.own.keys() - gone
        names = Names(self.instances, left)
        for each in self.out_at(place):
            if each in left and missing in self.reasons_for(each, left, names):
                more = gone | {each}
                if more not in hopeless and self.can_go(reasons, more, hopeless):
                    return True
        hopeless.add(gone)
        return False

    def out_at(self, place):
        return [each for each in self.own if each not in self.enabled and place_of(each) == place]
