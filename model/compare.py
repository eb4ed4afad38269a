#!/usr/bin/env python3
"""Runs random sessions through the program and through the model, and compares replies and exit status, byte for byte.
The reply to LOAD has the digest of the tables, so these are compared too. Replies to WHY need not be the same: they are
judged by the model.

Of each kind, the first session that differs is cut down to the parts that matter, and printed.
"""
import argparse
import collections
import multiprocessing
import random
import re
import subprocess
import sys

import block_sessions
import flat_sessions
import form_sessions
import model
import optional_sessions
import stage_sessions
import table

KINDS = {
    each.__name__: each
    for each in (
        flat_sessions.policies, flat_sessions.faults, flat_sessions.shapes, block_sessions.blocks,
        flat_sessions.texts, flat_sessions.bundles, flat_sessions.lines, flat_sessions.long_texts,
        optional_sessions.optionals, form_sessions.forms,
    )
}

# Sessions of what stages add. There are none without a stage.
OF_STAGES = {"stages": stage_sessions.stages, "levels": stage_sessions.levels}

USUAL_COUNT = 200

# So many sessions are given to a process at a time.
AT_A_TIME = 50

# The reply to a LOAD that is accepted: how many bytes the tables have, and their SHA-256.
ACCEPTED_LOAD = rb"OK [0-9]+ [0-9a-f]{64}"


def session(kind, number, language=table.ACCEPTED):
    """The parts of a session. One number of a kind, and of kinds of stages one language, is one session."""
    rng = random.Random(f"{kind} {number}")
    return OF_STAGES[kind](rng, language) if kind in OF_STAGES else KINDS[kind](rng)


def answer(program, parts):
    ran = subprocess.run([program, "session"], input=b"".join(parts), capture_output=True, check=False)
    return ran.stdout, ran.returncode, ran.stderr


def wanted(language, parts):
    """The replies of the model, one by one, and the exit status."""
    return model.run(b"".join(parts), model.Host(language))


def is_alike(answered, replies, status):
    """Whether a program answered as the model does."""
    given, *rest = answered
    at = 0
    for reply in replies:
        at = end_of(reply, given, at)
        if at is None:
            return False
    return at == len(given) and rest == [status, b""]


def end_of(reply, given, at):
    """Where a reply ends that begins at a place of what was answered, or nothing where there is another one."""
    if not isinstance(reply, model.Why):
        return at + len(reply) if given.startswith(reply, at) else None
    first, *wanted_lines = reply.split(b"\n")
    lines = given[at:].split(b"\n")[:1 + len(wanted_lines)]
    return at + len(b"\n".join(lines)) if lines[0] == first and reply.is_right(lines[1:]) else None


def cut_down(program, language, parts):
    """The parts that are left when each that does not matter has been taken out."""
    at = 0
    while at < len(parts):
        fewer = parts[:at] + parts[at + 1:]
        if is_alike(answer(program, fewer), *wanted(language, fewer)):
            at += 1
        else:
            parts = fewer
    return parts


def told(program, language, kind, number):
    """What is printed of a session that differs."""
    parts = cut_down(program, language, session(kind, number, language))
    replies, status = wanted(language, parts)
    return "\n".join([
        f"{kind} {number} differs: {b''.join(parts)!r}",
        f"    the program has {answer(program, parts)!r}",
        f"    the model has   {(b''.join(replies), status, b'')!r}",
    ])


def run_some(given):
    """Runs some sessions: what the model replied to loads and queries, counted, and the first session that differs."""
    program, language, kind, numbers = given
    counts = collections.Counter()
    for number in numbers:
        parts = session(kind, number, language)
        replies, status = wanted(language, parts)
        counts.update(replies_counted(b"".join(each for each in replies if not isinstance(each, model.Turned))))
        counts.update("booleans, " + each.strip().decode() for each in replies if isinstance(each, model.Turned))
        if program and not is_alike(answer(program, parts), replies, status):
            return counts, number
    return counts, None


def replies_counted(replies):
    """The replies to loads and queries of a session, by what they tell; a code once for a load that has it."""
    for load in re.split(rb"\n(?=%s\n|FAULTS )" % ACCEPTED_LOAD, b"\n" + replies):
        lines = load.split(b"\n")
        if lines[0].startswith(b"FAULTS "):
            yield "loads refused"
            faults = [lines.pop(1) for _ in range(int(lines[0][7:]))]
            yield from sorted({"fault " + line.split(b" ")[0].decode() for line in faults})
        elif re.fullmatch(ACCEPTED_LOAD, lines[0]):
            yield "loads accepted"
        for line in lines:
            if re.fullmatch(rb"OK \S+ \S+ \S+", line):
                yield "queries, nothing allowed" if line.startswith(b"OK - ") else "queries, something allowed"
                if line.split(b" ")[2] != b"-":
                    yield "queries, something audited"
            elif line in (b"OK yes", b"OK no"):
                yield "checks, " + line.decode()
            elif re.fullmatch(rb"ERR 7[0-9].*", line):
                yield "queries, " + line.decode()
            elif re.fullmatch(rb"\d+ \d+ \S+ \S+ (in|out|parent|missing \S+)", line):
                yield "optionals, " + line.split(b" ")[4].decode()


def run_all(given, kind, numbers):
    """Runs sessions of a kind up to the first that differs: the counts, and that session's number or nothing."""
    some = [
        (given.program, given.language, kind, numbers[at:at + AT_A_TIME]) for at in range(0, len(numbers), AT_A_TIME)
    ]
    counts = collections.Counter()
    with multiprocessing.Pool(given.jobs) as pool:
        for counted, different in pool.imap(run_some, some):
            counts += counted
            if different is not None:
                return counts, different
    return counts, None


def are_alike(given, kind, numbers):
    counts, different = run_all(given, kind, numbers)
    if different is not None:
        print(told(given.program, given.language, kind, different))
        return False
    refused = counts["loads refused"]
    loads = refused + counts["loads accepted"]
    print(f"{kind}: {len(numbers)} sessions alike; of {loads} loads {refused} were refused", flush=True)
    return True


def print_census(given, kind, numbers):
    counts, _ = run_all(given, kind, numbers)
    print(f"{kind}: {len(numbers)} sessions")
    for told_of, count in sorted(counts.items()):
        print(f"    {told_of}: {count}")


def arguments():
    parser = argparse.ArgumentParser(
        usage="%(prog)s [--jobs JOBS] [--stages STAGES | --whole] {PROGRAM | --census} [KIND [COUNT [FIRST]]]",
        description="Runs random sessions through the program and through the model, and compares their answers.",
        epilog="Kinds of sessions: " + "; ".join(
            f"{kind}: {made.__doc__}" for kind, made in (KINDS | OF_STAGES).items()
        ),
    )
    parser.add_argument("words", nargs="*", help="PROGRAM is the built cilhost. KIND is a kind of sessions, or all, as"
                        " without it. COUNT is how many sessions of a kind (200; of long_texts, among all kinds, a"
                        " twentieth). FIRST is the number of the first; one number is one session (0).")
    parser.add_argument("--census", action="store_true", help="counts what the model replies, without the program")
    parser.add_argument("--whole", action="store_true", help="the whole language is accepted, for sessions of forms")
    parser.add_argument("--stages", default="", help="what is accepted beside today's language, and needed for sessions"
                        " of stages: some of " + ",".join(table.STAGES))
    parser.add_argument("--jobs", type=int, default=1, help="how many processes run sessions at a time (1)")
    given = parser.parse_intermixed_args()
    words = given.words if given.census else given.words[1:]
    if len(words) > 3 or not (given.census or given.words):
        parser.error("PROGRAM or --census is wanted, and at most KIND, COUNT and FIRST after it")
    given.program = None if given.census else given.words[0]
    stages = given.stages.split(",") if given.stages else []
    if not table.STAGES.keys() >= set(stages):
        parser.error("the stages are " + ",".join(table.STAGES))
    given.language = table.WHOLE if given.whole else table.accepting(stages)
    given.kinds = KINDS | OF_STAGES if stages or table.TODAY else KINDS
    given.kind = words[0] if words else "all"
    if given.kind not in given.kinds and given.kind != "all":
        parser.error(f"there is no kind {given.kind}, or not without --stages")
    if given.whole and given.kind != "forms":
        parser.error("--whole is for sessions of the kind forms")
    if not all(word.isdecimal() for word in words[1:]):
        parser.error("COUNT and FIRST are numbers")
    given.count, given.first = (int(word) for word in (*words[1:], *[str(USUAL_COUNT), "0"][len(words[1:]):]))
    return given


def main():
    given = arguments()
    if given.kind != "all":
        counts = {given.kind: given.count}
    else:
        # A session of a long text takes more than a second.
        counts = {kind: given.count // 20 if kind == "long_texts" else given.count for kind in given.kinds}
    is_alike = True
    for kind, count in counts.items():
        numbers = range(given.first, given.first + count)
        if given.census:
            print_census(given, kind, numbers)
        else:
            is_alike &= are_alike(given, kind, numbers)
    sys.exit(0 if is_alike else 1)


if __name__ == "__main__":
    main()
