#!/usr/bin/env bash
# What it takes to look up a name: how many names of a policy are found by a guess, and the instructions of a look-up, as
# callgrind counts them. README.md says how to read the table.
. "$(dirname "$0")/session_common.sh"
command -v valgrind >/dev/null || { echo "this script needs valgrind" >&2; exit 2; }

# How many names the policy of distribution.sh --optionals declares, and how many of these are halved.
"$here/distribution.py" --optionals "$work/policy"
"$here/guesses.py" "$work/policy" | tee "$work/guesses"
awk '{ share = $(NF - 1); printf "%s of the names that are declared once: %s\n", share " %", (share >= 99 ? "at least 99 %" : "LESS THAN 99 %") }' \
    "$work/guesses"

# A policy with $1 blocks in one another, each with 50 types, and 20,000 statements in the innermost one. Both words of a
# statement are declared in the global namespace alone.
nested() {
    awk -v blocks="$1" 'BEGIN {
        print "(role r)"
        for (t = 0; t < 50; t++) printf "(type g%03d)", t
        for (b = 0; b < blocks; b++) {
            printf "\n(block n%03d ", b
            for (t = 0; t < 50; t++) printf "(type i%03d)", t
        }
        for (i = 0; i < 20000; i++) printf "\n(roletype r g%03d)", i % 50
        for (b = 0; b < blocks; b++) printf ")"
    }'
}

# How often a function is called in the file $1 of callgrind, and the instructions of these calls with all that they call.
calls_of() {
    awk -v wanted="$2" '
        function named(line) {
            sub(/^c?fn=/, "", line)
            id = line; sub(/\).*/, ")", id)
            if (line != id) { name = line; sub(/^\([0-9]+\) /, "", name); names[id] = name }
            return names[id]
        }
        /^fn=/ { caller = named($0) }
        /^cfn=/ { callee = named($0) }
        /^calls=/ {
            split($1, number, "=")
            getline
            if (index(callee, wanted) && !index(caller, wanted)) { calls += number[2]; cost += $NF }
        }
        END { print calls + 0, cost + 0 }' "$1"
}

printf '%10s %9s %14s %14s\n' namespaces look-ups 'million ins.' 'a look-up ins.'
for blocks in 0 2 120; do
    nested "$blocks" >"$work/module"
    { install_request "$work/module"; echo LOAD; } >"$work/loaded"
    valgrind --tool=callgrind --callgrind-out-file="$work/calls" "$program" session <"$work/loaded" >"$work/replies" 2>"$work/log"
    expect_no_refusal
    calls_of "$work/calls" walk::Walk::word >"$work/counts$blocks"
    awk -v namespaces="$((blocks + 1))" '{
        if ($1 == 0) { print "no call of Walk::word: it is no function of this program"; exit 1 }
        printf "%10d %9d %14.1f %14.0f\n", namespaces, $1, $2 / 1e6, $2 / $1 }' "$work/counts$blocks"
done
awk '{ printf "a look-up in three namespaces takes %.0f instructions: %s\n", $2 / $1, ($2 <= 300 * $1 ? "at most 300" : "MORE THAN 300") }' \
    "$work/counts2"
