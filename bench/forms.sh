#!/usr/bin/env bash
# What LOAD costs over templates that are inherited in five ways, and over macros that are called in three. README.md says
# how to read the table.
. "$(dirname "$0")/session_common.sh"
command -v valgrind >/dev/null || { echo "this script needs valgrind" >&2; exit 2; }

# A text of the form $1, with $2 templates, blocks, macros or calls.
text() {
    awk -v form="$1" -v count="$2" 'BEGIN {
        last = count - 1
        if (form == "chain") {
            print "(block tpl0 (blockabstract tpl0)(type x))"
            for (n = 1; n < count; n++) printf "(block tpl%d (blockabstract tpl%d)(blockinherit tpl%d))\n", n, n, n - 1
            printf "(block heir (blockinherit tpl%d))\n", last
        }
        if (form == "heirs") {
            print "(block t (blockabstract t)(type x))"
            for (n = 0; n < count; n++) printf "(block b%d (blockinherit t))\n", n
        }
        if (form == "templates") {
            for (n = 0; n < count; n++) printf "(block tpl%d (blockabstract tpl%d)(type x%d))\n", n, n, n
            print "(block heir"
            for (n = 0; n < count; n++) printf "(blockinherit tpl%d)\n", n
            print ")"
        }
        if (form == "long-scopes") {
            print "(block b0 (block t (blockabstract t)(type x)))"
            for (n = 1; n < count; n++) printf "(block b%d (block t (blockabstract t)(blockinherit b%d.t)))\n", n, n - 1
            printf "(block heir (blockinherit b%d.t))\n", last
        }
        if (form == "doubling") {
            print "(block b0 (type t))"
            for (n = 1; n < count; n++) printf "(block b%d (blockinherit b%d)(blockinherit b%d))\n", n, n - 1, n - 1
        }
        if (form == "macro-chain") {
            print "(macro m0 () (type x))"
            for (n = 1; n < count; n++) printf "(macro m%d () (call m%d ()))\n", n, n - 1
            printf "(call m%d ())\n", last
        }
        if (form == "macro-calls") {
            print "(macro m ((type a)(role r)) (type x)(roletype r a))"
            for (n = 0; n < count; n++) printf "(type ty%d)(role ro%d)(call m (ty%d ro%d))\n", n, n % 4000, n, n % 4000
        }
        if (form == "macro-doubling") {
            print "(macro m0 () (type t))"
            for (n = 1; n < count; n++) printf "(macro m%d () (call m%d ())(call m%d ()))\n", n, n - 1, n - 1
            printf "(call m%d ())\n", last
        }
    }'
}

# A row: $1 the form, $2 how many, $3 the first words of the reply to LOAD. LOAD alone goes to $work/load.
row() {
    local installed loaded
    text "$1" "$2" >"$work/module"
    install_request "$work/module" >"$work/installed"
    { cat "$work/installed"; echo LOAD; } >"$work/loaded"
    measure "$work/installed"; expect_no_refusal; installed=$(cat "$work/us")
    measure "$work/loaded"; loaded=$(cat "$work/us")
    if ! sed 1d "$work/replies" | tr '\n' ' ' | grep -q "^$3"; then
        echo "$1 $2: LOAD did not reply $3, but $(sed -n 2p "$work/replies")" >&2
        exit 1
    fi
    instructions_of "$work/installed" LOAD >"$work/load"
    awk -v form="$1" -v count="$2" -v bytes="$(wc -c <"$work/module")" -v us="$((loaded - installed))" \
        -v load="$(cat "$work/load")" -v peak="$(cat "$work/peak")" -v reply="$3" 'BEGIN {
        printf "%-15s %7d %9d %10.1f %12.1f %9.1f  %s\n", form, count, bytes, us / 1000, load / 1e6, peak * 1024 / 1e6, reply }'
}

# Compares the instructions $3 for 10,000 templates or calls with those, $2, for 1,250, in the form $1. Eight times as many,
# with the logarithm, should take at most sixteen times as many.
growth() {
    awk -v form="$1" -v first="$2" -v last="$3" 'BEGIN {
        printf "%s: 10,000 take %.1f times as many instructions as 1,250: %s\n", form, last / first,
            last <= 16 * first ? "at most 16" : "MORE THAN 16" }'
}

printf '%-15s %7s %9s %10s %12s %9s  %s\n' form number bytes 'LOAD ms' 'million ins.' 'peak MB' reply
: >"$work/growth"
for form in chain heirs templates long-scopes macro-chain macro-calls; do
    row "$form" 1250 OK
    first=$(cat "$work/load")
    row "$form" 10000 OK
    growth "$form" "$first" "$(cat "$work/load")" >>"$work/growth"
done
row doubling 18 OK
row doubling 31 'FAULTS 1 38 '
row macro-doubling 19 OK
row macro-doubling 20 'FAULTS 1 38 '
cat "$work/growth"
