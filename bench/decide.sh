#!/usr/bin/env bash
# What a decision costs by the number of allow rules on its class: instructions of its questions to the three sections of rules
# (`covered_in` of `cil_index`; `decide` itself is no function of the program), as callgrind counts them in sessions of 2,000 AV. Only
# rules of one type on each side, then also rules of `self`. README.md says how to read the table.
. "$(dirname "$0")/session_common.sh"
command -v valgrind >/dev/null || { echo "this script needs valgrind" >&2; exit 2; }

TYPES=5000

# A policy with one class and $1 rules on it, each of its own pair of types; where $2 is `self`, every tenth rule reaches its
# source.
policy() {
    awk -v rules="$1" -v form="$2" -v types="$TYPES" 'BEGIN {
        print "(class file (open read write))(user u)(role r)(userrole u r)"
        for (t = 0; t < types; t++) printf "(type ty%d)(roletype r ty%d)\n", t, t
        for (i = 0; i < rules; i++) {
            target = "ty" ((i * 7 + int(i / types)) % types)
            if (form == "self" && i % 10 == 0) target = "self"
            printf "(allow ty%d %s (file (%s)))\n", i % types, target, i % 3 ? "read" : "open"
        }
    }'
}

# 2,000 questions: every second one is of a pair that a rule may have.
questions() {
    awk -v rules="$1" -v types="$TYPES" 'BEGIN {
        for (i = 0; i < 2000; i++) {
            rule = int(i * rules / 2000)
            source = rule % types
            target = i % 2 ? (rule * 7 + int(rule / types)) % types : (i * 31) % types
            printf "AV u:r:ty%d u:r:ty%d file\n", source, target
        }
    }'
}

# How many decisions the file $1 of callgrind has, and the instructions of their questions with all that these call.
calls_of_decide() {
    awk '
        function named(line) {
            sub(/^c?fn=/, "", line)
            id = line; sub(/\).*/, ")", id)
            if (line != id) { name = line; sub(/^\([0-9]+\) /, "", name); names[id] = name }
            return names[id]
        }
        /^fn=/ { named($0) }
        /^cfn=/ { callee = named($0) }
        /^calls=/ {
            split($1, number, "=")
            getline
            if (callee ~ /section::covered_in/) { calls += number[2]; cost += $NF }
        }
        END { print int(calls / 3), cost + 0 }' "$1"
}

printf '%-6s %8s %10s %12s %8s\n' form rules decisions 'one, ins.' growth
for form in plain self; do
    last=
    for rules in 1000 10000 100000; do
        policy "$rules" "$form" >"$work/module"
        { install_request "$work/module"; echo LOAD; questions "$rules"; } >"$work/asked"
        valgrind --tool=callgrind --callgrind-out-file="$work/calls" "$program" session <"$work/asked" >"$work/replies" 2>"$work/log"
        expect_no_refusal
        read -r calls cost <<<"$(calls_of_decide "$work/calls")"
        [ "$calls" -gt 0 ] || { echo "no call of covered_in: it is no function of this program" >&2; exit 1; }
        one=$((cost / calls))
        growth=-
        if [ -n "$last" ]; then
            growth=$(awk -v now="$one" -v last="$last" 'BEGIN { printf "%.2f", now / last }')
            awk -v g="$growth" 'BEGIN { exit g < 1.5 ? 0 : 1 }' || growth="$growth: NOT BELOW 1.5"
        fi
        printf '%-6s %8d %10d %12d %8s\n' "$form" "$rules" "$calls" "$one" "$growth"
        last=$one
    done
done
