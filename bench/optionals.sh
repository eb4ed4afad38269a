#!/usr/bin/env bash
# Times LOAD, OPTIONALS and WHY in sessions of the program cilhost, over policies of very many optionals. README.md says
# how to read the table.
. "$(dirname "$0")/session_common.sh"

# The requests that install $2 optionals in the form $1, 50,000 in a module: each has a name that the next declares
# (chain); each has the same name, which is missing (missing); all declare and have one name (shared); the same, and each
# has a name that is missing (vain).
policy() {
    printf '(role r)' >"$work/module"
    install_request "$work/module"
    local from
    for ((from = 0; from < $2; from += 50000)); do
        awk -v form="$1" -v from="$from" -v to="$((from + 50000 < $2 ? from + 50000 : $2))" 'BEGIN {
            for (i = from; i < to; i++) {
                printf "(optional o%d ", i
                if (form == "chain") printf "(type x%d)(roletype r x%d)", i, i + 1
                if (form == "shared" || form == "vain") printf "(type x)(roletype r x)"
                if (form == "missing" || form == "vain") printf "(roletype r nobody)"
                print ")"
            }
        }' >"$work/module"
        install_request "$work/module"
    done
}

# A row: $1 the form, $2 how many optionals, $3 how many of them are out. LOAD alone goes to $work/load_us.
row() {
    local installed loaded told
    policy "$1" "$2" >"$work/installed"
    { cat "$work/installed"; echo LOAD; } >"$work/loaded"
    { cat "$work/loaded"; printf 'OPTIONALS\nWHY\n'; } >"$work/asked"

    measure "$work/installed"; expect_no_refusal; installed=$(cat "$work/us")
    measure "$work/loaded"; expect_no_refusal; loaded=$(cat "$work/us")
    measure "$work/asked"; expect_no_refusal; told=$(cat "$work/us")
    if [ "$(grep -c '^OK [0-9]*$' "$work/replies")" -ne 2 ] || ! grep -qx "OK $2" "$work/replies" ||
        ! grep -qx "OK $3" "$work/replies"; then
        echo "$1: not $3 of $2 optionals are out" >&2
        exit 1
    fi
    echo $((loaded - installed)) >"$work/load_us"
    awk -v form="$1" -v count="$2" -v out="$3" -v bytes="$(wc -c <"$work/installed")" -v installed="$installed" \
        -v loaded="$loaded" -v told="$told" -v peak="$(cat "$work/peak")" 'BEGIN {
        printf "%-8s %9d %7d %9d %11.1f %9.1f %18.1f %9.1f\n", form, count, out, bytes, installed / 1000,
            (loaded - installed) / 1000, (told - loaded) / 1000, peak * 1024 / 1000000 }'
}

# The instructions of LOAD alone, for $1 optionals in a chain.
load_instructions() {
    policy chain "$1" >"$work/installed"
    instructions_of "$work/installed" LOAD
}

# Compares the instructions $3 of LOAD for $2 optionals in a chain with those, $1, for a tenth of them. Ten times as many, with
# the logarithm, should take at most fifteen times as many.
growth() {
    awk -v first="$1" -v count="$2" -v last="$3" 'BEGIN {
        printf "chain: LOAD of %d has %.0f million instructions, %.1f times those of %d: %s\n", count, last / 1000000,
            last / first, count / 10, last <= 15 * first ? "at most 15" : "MORE THAN 15" }'
}

printf '%-8s %9s %7s %9s %11s %9s %18s %9s\n' form optionals out bytes 'INSTALL ms' 'LOAD ms' 'OPTIONALS, WHY ms' 'peak MB'
row chain 1000 1000
row chain 10000 10000
ten_thousand=$(cat "$work/load_us")
row chain 100000 100000
row missing 100000 100000
row shared 50000 0
row vain 50000 50000
awk -v us="$ten_thousand" 'BEGIN {
    printf "chain: LOAD of 10,000 takes %.0f ms: %s\n", us / 1000, us < 300000 ? "less than 300" : "NOT LESS THAN 300" }'
if command -v valgrind >/dev/null; then
    thousand=$(load_instructions 1000)
    ten_thousand=$(load_instructions 10000)
    growth "$thousand" 10000 "$ten_thousand"
    growth "$ten_thousand" 100000 "$(load_instructions 100000)"
else
    echo "chain: the growth is not measured, which needs valgrind"
fi
