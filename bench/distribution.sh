#!/usr/bin/env bash
# Times a session of the program cilhost that loads a policy as large as the flat part of a distribution's policy, which
# distribution.py writes. With --blocks it also times one that loads the same policy in blocks, with inheritance and
# calls of macros, and compares the answers of both. With --optionals it times sessions that load a policy of the shape
# of a whole distribution's, with 10,000 optionals, and half of it. With --whole that policy has attributes, booleans and
# audit rules too. README.md says how to read the tables.
# usage: bench/distribution.sh [--blocks | --optionals | --whole]
case "$#,$*" in
    0, | 1,--blocks | 1,--optionals | 1,--whole) ;;
    *) echo "usage: bench/distribution.sh [--blocks | --optionals | --whole]" >&2; exit 2 ;;
esac
. "$(dirname "$0")/session_common.sh"

# A row for the $2-th part of the policy with optionals that distribution.py writes with $1. LOAD alone goes to
# $work/load_us, the number of queries to $work/queries. Each optional has to be in or out, and each reply to a query has
# to be, as distribution.py says.
row_with_optionals() {
    local policy=$work/policy$2 installed loaded peak out
    "$here/distribution.py" "$1" --scale "$2" "$policy"
    for module in "$policy"/*.cil; do install_request "$module"; done >"$work/installed"
    { cat "$work/installed"; echo LOAD; } >"$work/loaded"
    { cat "$work/loaded"; printf 'OPTIONALS\nWHY\n'; cat "$policy/queries"; } >"$work/asked"
    out=$(grep -c ' out$' "$policy/optionals")
    wc -l <"$policy/queries" >"$work/queries"

    measure "$work/installed"; expect_no_refusal; installed=$(cat "$work/us")
    measure "$work/loaded"; expect_no_refusal; loaded=$(cat "$work/us"); peak=$(cat "$work/peak")
    echo $((loaded - installed)) >"$work/load_us"

    "$program" session <"$work/asked" >"$work/replies"
    awk '/ (in|out)$/ { print $3, $4, $5 }' "$work/replies" | LC_ALL=C sort >"$work/told"
    tail -n "$(cat "$work/queries")" "$work/replies" >"$work/answers"
    if ! cmp "$work/told" "$policy/optionals" >&2 || ! cmp "$work/answers" "$policy/answers" >&2 ||
        [ "$(grep -cE ' (parent|missing [^ ]+)$' "$work/replies")" -ne "$out" ]; then
        echo "the replies to OPTIONALS, WHY or AV are not as they should be" >&2
        exit 1
    fi

    awk -v statements="$(awk '$1 == "statements" { print $2 }' "$policy/counts")" \
        -v optionals="$(wc -l <"$policy/optionals")" -v out="$out" -v bytes="$(cat "$policy"/*.cil | wc -c)" \
        -v us="$(cat "$work/load_us")" -v peak="$peak" 'BEGIN {
        printf "%10d %9d %5d %9d %8.1f %8.1f %12.1f\n", statements, optionals, out, bytes, us / 1000,
            peak * 1024 / 1000000, peak * 1024 / bytes
    }'
}

if [ "$*" = --optionals ] || [ "$*" = --whole ]; then
    printf '%10s %9s %5s %9s %8s %8s %12s\n' statements optionals out bytes 'LOAD ms' 'peak MB' 'peak / bytes'
    row_with_optionals "$1" 2
    half=$(cat "$work/load_us")
    row_with_optionals "$1" 1
    echo "which optionals are in, and $(cat "$work/queries") answers of each policy, are as they should be"
    awk -v half="$half" -v whole="$(cat "$work/load_us")" 'BEGIN {
        growth = whole / half
        printf "LOAD of the whole takes %.2f times as long as that of half: %s\n", growth,
            growth <= 2.4 ? "at most 2.4" : "MORE THAN 2.4" }'
    exit
fi

# A query for every 50th rule, and what the rule allows.
"$here/distribution.py" "$work/flat"
cat "$work/flat"/*.cil | grep '^(allow' | tr -d '()' >"$work/all_rules"
awk 'NR % 50 == 0' "$work/all_rules" >"$work/rules"
awk '{ print "AV system_u:system_r:" $2, "system_u:object_r:" ($3 == "self" ? $2 : $3), $4 }' "$work/rules" \
    >"$work/queries"
queries=$(wc -l <"$work/rules")

# A row: $1 the folder of the modules, $2 the file of the queries. The replies to these go to $work/replies_of_$1.
row() {
    local installed loaded asked peak bytes
    for module in "$work/$1"/*.cil; do install_request "$module"; done >"$work/installed"
    { cat "$work/installed"; echo LOAD; } >"$work/loaded"
    cat "$work/loaded" "$2" >"$work/asked"
    bytes=$(cat "$work/$1"/*.cil | wc -c)

    measure "$work/installed"; expect_no_refusal; installed=$(cat "$work/us")
    measure "$work/loaded"; expect_no_refusal; loaded=$(cat "$work/us"); peak=$(cat "$work/peak")
    measure "$work/asked"; expect_no_refusal; asked=$(cat "$work/us")
    tail -n "$queries" "$work/replies" >"$work/replies_of_$1"

    awk -v policy="$1" -v modules="$(ls "$work/$1"/*.cil | wc -l)" -v bytes="$bytes" \
        -v rules="$(wc -l <"$work/all_rules")" -v queries="$queries" \
        -v installed="$installed" -v loaded="$loaded" -v asked="$asked" -v peak="$peak" 'BEGIN {
        printf "%-6s %8d %9d %8d %11.1f %8.1f %12.0f %8.1f %12.1f\n", policy, modules, bytes, rules, installed / 1000,
            (loaded - installed) / 1000, queries * 1000000 / (asked - loaded),
            peak * 1024 / 1000000, peak * 1024 / bytes
    }'
}

printf '%-6s %8s %9s %8s %11s %8s %12s %8s %12s\n' policy modules bytes rules 'INSTALL ms' 'LOAD ms' 'AV a second' \
    'peak MB' 'peak / bytes'
row flat "$work/queries"

# Each reply has to allow what its rule allows.
paste -d ' ' "$work/replies_of_flat" "$work/rules" | awk '{
    for (i = 9; i <= NF; i++) if (index("," $2 ",", "," $i ",") == 0) { print "a rule is not in force: " $0; exit 1 }
}' >&2

# The same queries, with the names that the types have in blocks, must have the same replies.
if [ "$*" = --blocks ]; then
    "$here/distribution.py" --blocks "$work/blocks"
    awk 'NR == FNR { name[$1] = $2; next }
        { split($2, source, ":"); split($3, target, ":")
          print $1, source[1] ":" source[2] ":" name[source[3]], target[1] ":" target[2] ":" name[target[3]], $4 }' \
        "$work/blocks/names" "$work/queries" >"$work/queries_of_blocks"
    row blocks "$work/queries_of_blocks"
    if ! cmp "$work/replies_of_flat" "$work/replies_of_blocks" >&2; then
        echo "the answers of both policies differ" >&2
        exit 1
    fi
    echo "$queries answers of both policies are the same"
fi
