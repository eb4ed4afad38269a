#!/usr/bin/env python3
"""Asks SELinux itself: compiles the policies of rows with secilc, and compares what libsepol decides with what the rows say.

usage: model/sepol.py [FILE.session ...]        without a FILE all of rows/*.session

A policy that is accepted here (`LOAD`, `OK ..`) gets what secilc wants of each policy besides: an order of its classes, an
initial context, and one sensitivity, which each user has, with levels off. Then each AV and CHECK of the row that has a decision is
put to libsepol, before the first SET. Policies that secilc or libsepol refuses are counted and left out: docs/FROM_SECILC.md says
in what both differ. One line is printed for each reply that differs, then how many were compared. Status: 0, or 1 if one
differs.

It wants Debian's packages secilc, libsepol-dev and gcc. Nothing else of this repository uses it, and the gate does not.
"""
import pathlib
import subprocess
import sys
import tempfile

sys.dont_write_bytecode = True
HERE = pathlib.Path(__file__).resolve().parent
sys.path.insert(0, str(HERE.parent / "scripts"))

import model
from faults import printed
from names import Entry
from sessions import files, rows_of

LIBRARY = "/usr/lib/x86_64-linux-gnu/libsepol.a"


def built(folder):
    """The program that asks libsepol."""
    program = folder / "sepol"
    subprocess.run(["gcc", "-O1", "-o", program, HERE / "sepol.c", LIBRARY], check=True)
    return program


def besides(policy):
    """What secilc wants of a policy besides what it says."""
    levels = policy.levels
    lines = [
        b"(handleunknown allow)(user sepol_u)(role sepol_r)(type sepol_t)(role object_r)",
        b"(userrole sepol_u sepol_r)(roletype sepol_r sepol_t)(sid sepol)(sidorder (sepol))",
        b"(classorder (unordered %s))" % b" ".join(b"." + name for name in sorted(policy.names[b"class"])),
    ]
    if not levels.switches:
        lines.append(b"(mls false)")
    if not levels.categories.places:
        lines.append(b"(category sepol_c)(categoryorder (sepol_c))")
    lowest = b"sepol_s"
    if levels.sensitivities.places:
        lowest = b"." + printed(levels.sensitivities.order()[0])
    else:
        lines.append(b"(sensitivity sepol_s)(sensitivityorder (sepol_s))(sensitivitycategory sepol_s (sepol_c))")
    lines.append(b"(sidcontext sepol (sepol_u sepol_r sepol_t ((%s)(%s))))" % (lowest, lowest))
    have_level = {levels.names.named(each.words[0]).path for each in levels.of(b"userlevel")}
    for path in [*levels.names.declared[b"user"], (b"sepol_u",)]:
        ranges = levels.user_ranges.get(Entry(b"user", path))
        user, level = printed(path), b"(%s)" % lowest
        if ranges:
            level = written(levels, min(ranges).low)
        else:
            lines.append(b"(userrange .%s ((%s)(%s)))" % (user, lowest, lowest))
        if path not in have_level:
            lines.append(b"(userlevel .%s %s)" % (user, level))
    return b"\n".join(lines)


def written(levels, level):
    """A level as CIL has it."""
    categories = [b"." + printed(path) for path in sorted(level.categories)]
    sensitivity = printed(levels.sensitivities.order()[level.sensitivity])
    return b"(.%s (%s))" % (sensitivity, b" ".join(categories)) if categories else b"(.%s)" % sensitivity


def compiled(folder, texts, policy):
    """The binary policy that secilc makes, or nothing where it refuses; and what it says."""
    names = []
    for number, text in enumerate([*texts, besides(policy)]):
        names.append(folder / f"{number}.cil")
        names[-1].write_bytes(text + b"\n")
    made = folder / "policy"
    is_on = "true" if policy.levels.is_on else "false"
    done = subprocess.run(
        ["secilc", "-M", is_on, "-o", made, "-f", folder / "contexts", *names], capture_output=True, check=False,
    )
    return made if done.returncode == 0 else None, done.stderr.decode(errors="replace")


def queries_of(session):
    """The texts of each accepted load of a session, with the queries behind it that have a decision, and their replies."""
    texts, loads = [], []
    is_open = False
    for step in session:
        word = (step.request.split() or [""])[0]
        if word == "INSTALL:":
            texts.append(step.given.split(b"\n", 1)[1])
        elif word == "LOAD":
            is_open = step.reply.startswith(b"OK ")
            if is_open:
                loads.append(([*texts], []))
        elif word == "SET":
            is_open = False
        elif word in ("AV", "CHECK") and is_open and step.reply.startswith((b"OK ", b"ERR 72")):
            loads[-1][1].append((step.given.split(), step.reply.strip()))
    return [load for load in loads if load[1]]


def policy_of(texts):
    """What the model makes of some texts."""
    host = model.Host()
    for text in texts:
        host.install(text)
    host.load()
    return host.policy


def replies(program, policy, queries):
    """What libsepol replies to some queries; nothing where it cannot read the policy."""
    asked = b"".join(b"%s %s %s\n" % tuple(words[1:4]) for words, _ in queries)
    done = subprocess.run([program, policy], input=asked, capture_output=True, check=False)
    if done.returncode:
        return None
    lines = done.stdout.split(b"\n")
    made = []
    for (words, _), line in zip(queries, lines):
        if line == b"none":
            made.append(line)
        elif words[0] == b"AV":
            made.append(b"OK " + line)
        else:
            made.append(b"OK yes" if words[4] in line.split()[0].split(b",") else b"OK no")
    return made


def main():
    is_told = sys.argv[1:2] == ["--why"]
    chosen = [pathlib.Path(name) for name in sys.argv[1 + is_told:]] or files()
    compared = wrong = refused = 0
    with tempfile.TemporaryDirectory() as name:
        folder = pathlib.Path(name)
        program = built(folder)
        for path in chosen:
            for row in rows_of(path):
                for session in row.sessions:
                    for texts, queries in queries_of(session):
                        policy = policy_of(texts)
                        made, said = compiled(folder, texts, policy) if policy else (None, "")
                        answered = made and replies(program, made, queries)
                        if not answered:
                            refused += 1
                            if is_told:
                                print(f"{path.name}: {row.name}: refused: {said or 'by libsepol'}")
                            continue
                        for (words, want), got in zip(queries, answered):
                            compared += 1
                            if got != (b"none" if want.startswith(b"ERR") else want):
                                wrong += 1
                                asked = b" ".join(words).decode()
                                print(f"{path.name}: {row.name}: {asked}: the row has {want.decode()}, libsepol {got.decode()}")
    print(f"{compared} replies compared, {wrong} differ; {refused} policies are refused by secilc or libsepol")
    return min(wrong, 1)


if __name__ == "__main__":
    sys.exit(main())
