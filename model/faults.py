"""The faults of a policy. A fault is its code, module, place, printed namespace and word."""

# Over a million instances.
TOO_MANY = (38, 0, 0, b".", b"-")


class Refused(Exception):
    """The faults of a step, as a sorted list without repeats."""

    def __init__(self, faults):
        self.faults = sorted(set(faults))


def fault(code, module, at, space, word):
    return code, module, at, printed(space), word


def printed(space):
    return b".".join(space) or b"."


def stop_at(faults):
    if faults:
        raise Refused(faults)
