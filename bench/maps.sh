#!/usr/bin/env bash
# Times sessions of the program cilhost over policies of class maps and class permissions, which maps.py writes: one in the
# style of CIL that is written by hand, and chains and circles of class permissions. README.md says how to read the table.
# usage: bench/maps.sh
[ "$#" -eq 0 ] || { echo "usage: bench/maps.sh" >&2; exit 2; }
. "$(dirname "$0")/session_common.sh"

# Writes the policy $1 by maps.py with the other arguments: the requests that install it go to $work/installed, and with
# LOAD behind them to $work/loaded.
policy() {
    local folder=$work/$1
    shift
    "$here/maps.py" "$@" "$folder"
    for module in "$folder"/*.cil; do install_request "$module"; done >"$work/installed"
    { cat "$work/installed"; echo LOAD; } >"$work/loaded"
}

# A row: $1 what it is called, then the arguments of maps.py. LOAD alone goes to $work/load_us. Each reply to a query has to
# be as maps.py says.
row() {
    local name=$1 folder=$work/$1 installed loaded peak
    policy "$@"
    measure "$work/installed"; expect_no_refusal; installed=$(cat "$work/us")
    measure "$work/loaded"; expect_no_refusal; loaded=$(cat "$work/us"); peak=$(cat "$work/peak")
    echo $((loaded - installed)) >"$work/load_us"

    cat "$work/loaded" "$folder/queries" | "$program" session >"$work/replies"
    tail -n "$(wc -l <"$folder/queries")" "$work/replies" >"$work/answers"
    if ! cmp "$work/answers" "$folder/answers" >&2; then
        echo "$name: the replies to AV are not as they should be" >&2
        exit 1
    fi
    awk -v name="$name" -v bytes="$(cat "$folder"/*.cil | wc -c)" -v queries="$(wc -l <"$folder/queries")" \
        -v installed="$installed" -v us="$(cat "$work/load_us")" -v peak="$peak" 'BEGIN {
        printf "%-12s %9d %8d %11.1f %9.1f %8.1f\n", name, bytes, queries, installed / 1000, us / 1000,
            peak * 1024 / 1000000
    }'
}

# The instructions of LOAD alone, for the form $1 of $2 class permissions.
load_instructions() {
    policy "$1-$2" "--$1" "$2"
    instructions_of "$work/installed" LOAD
}

# Compares the instructions $4 of LOAD for $3 class permissions in the form $1 with those, $2, for a tenth of them. Ten times
# as many, with the logarithm, should take at most fifteen times as many.
growth() {
    awk -v form="$1" -v first="$2" -v count="$3" -v last="$4" 'BEGIN {
        printf "%s: LOAD of %d has %.0f million instructions, %.1f times those of %d: %s\n", form, count, last / 1000000,
            last / first, count / 10, last <= 15 * first ? "at most 15" : "MORE THAN 15" }'
}

printf '%-12s %9s %8s %11s %9s %8s\n' policy bytes queries 'INSTALL ms' 'LOAD ms' 'peak MB'
row maps
for form in chain ring; do
    for count in 1000 10000 100000; do
        row "$form-$count" "--$form" "$count"
    done
done
if command -v valgrind >/dev/null; then
    for form in chain ring; do
        thousand=$(load_instructions "$form" 1000)
        ten_thousand=$(load_instructions "$form" 10000)
        growth "$form" "$thousand" 10000 "$ten_thousand"
        growth "$form" "$ten_thousand" 100000 "$(load_instructions "$form" 100000)"
    done
else
    echo "chain and ring: the growth is not measured, which needs valgrind"
fi
