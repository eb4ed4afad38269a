#!/usr/bin/env bash
# How INSTALL and LOAD grow, by instructions, over booleanifs, over a chain of macros that a branch calls, and over
# calls whose argument is a long list. README.md says how to read the table. Status 1: twice the input takes 2.4 times
# as many instructions or more, or a reply is not as it should be.
# usage: bench/branches.sh
[ "$#" -eq 0 ] || { echo "usage: bench/branches.sh" >&2; exit 2; }
. "$(dirname "$0")/session_common.sh"
command -v valgrind >/dev/null || { echo "this script needs valgrind" >&2; exit 2; }

# Writes the policy of the form $1 with $2 booleanifs, macros or calls, and $3 permissions in a list. The requests that
# install it go to $work/installed, with LOAD behind them to $work/loaded, and with a query behind that to $work/asked;
# what the last one has to reply goes to $work/expected.
policy() {
    local folder=$work/policy
    rm -rf "$folder"
    mkdir "$folder"
    awk -v form="$1" -v number="$2" -v words="$3" -v folder="$folder" '
        function query(source, target, permissions, class_permissions) {
            printf "AV u:r:%s u:r:%s file\n", source, target > (folder "/query")
            printf "OK %s - %s\n", permissions, class_permissions > (folder "/expected")
        }
        BEGIN {
            module = folder "/0.cil"
            print "(user u)(role r)(userrole u r)" > module
            for (n = 0; n < 40; n++) printf "(type ty%d)(roletype r ty%d)\n", n, n > module
            if (form != "lists") print "(class file (read write))" > module

            # Of 100 booleans each has pairs of types of its own, so no two rules are the same.
            if (form == "booleanifs") {
                for (n = 0; n < 100; n++) printf "(boolean b%d true)\n", n > module
                for (n = 0; n < number; n++) {
                    if (n % 25000 == 0) module = folder "/" n / 25000 + 1 ".cil"
                    source = "ty" int(n / 100) % 40
                    target = "ty" int(n / 4000)
                    printf "(booleanif b%d (true (allow %s %s (file (read)))) (false (allow %s %s (file (write)))))\n",
                        n % 100, source, target, source, target > module
                }
                query(source, target, "read", "read,write")
            }

            # Each macro calls the one before it, and a branch calls the last one.
            if (form == "chain") {
                print "(boolean b true)(macro m0 () (allow ty0 ty1 (file (read))))" > module
                for (n = 1; n < number; n++) printf "(macro m%d () (call m%d))\n", n, n - 1 > module
                printf "(booleanif b (true (call m%d)))\n", number - 1 > module
                query("ty0", "ty1", "read", "read,write")
            }

            # The list is written once, and each call of the outer macro brings a call that has it. A class has 32
            # permissions, so the list has each of them often.
            if (form == "lists") {
                for (n = 0; n < 32; n++) all = all (n ? "," : "") "p" n + 10
                permissions = all
                gsub(",", " ", permissions)
                printf "(class file (%s))\n", permissions > module
                print "(macro inner ((classpermission p)) (allow ty0 ty1 p))" > module
                print "(macro outer () (call inner ((file (" > module
                for (n = 0; n < words; n++) printf "p%d\n", n % 32 + 10 > module
                print ")))))" > module
                for (n = 0; n < number; n++) print "(call outer)" > module
                query("ty0", "ty1", all, all)
            }
        }'
    for module in "$folder"/*.cil; do install_request "$module"; done >"$work/installed"
    { cat "$work/installed"; echo LOAD; } >"$work/loaded"
    cat "$work/loaded" "$folder/query" >"$work/asked"
    cp "$folder/expected" "$work/expected"
}

# The instructions of a session with the requests of the file $1, none of which may be refused, go to $work/count.
count() {
    instructions "$1" >"$work/count"
    expect_no_refusal
    [ -s "$work/count" ] || { echo "valgrind has counted nothing" >&2; exit 1; }
}

# A row: the arguments of `policy`. What INSTALL takes goes to $install, and what LOAD takes to $load.
row() {
    local installed
    policy "$@"
    "$program" session <"$work/asked" >"$work/replies"
    expect_no_refusal
    if ! tail -n 1 "$work/replies" | cmp - "$work/expected" >&2; then
        echo "$1 $2: the reply to AV is not as it should be" >&2
        exit 1
    fi
    count "$work/installed"; installed=$(cat "$work/count")
    count "$work/loaded"; load=$(($(cat "$work/count") - installed))
    install=$((installed - start))
    awk -v form="$1" -v number="$2" -v words="$3" -v bytes="$(cat "$work/policy"/*.cil | wc -c)" \
        -v install="$install" -v load="$load" 'BEGIN {
        printf "%-10s %7d %6s %9d %12.1f %9.1f\n", form, number, words, bytes, install / 1e6, load / 1e6 }'
}

# Compares the last row with one of half as much, whose INSTALL took $2 and whose LOAD $3; $1 says what is doubled.
growth() {
    awk -v what="$1" -v half_install="$2" -v half_load="$3" -v install="$install" -v load="$load" '
        function compare(requests, half, whole) {
            printf "%s: %s %.2f times as many instructions: %s\n", what, requests, whole / half,
                whole < 2.4 * half ? "below 2.4" : "NOT BELOW 2.4"
        }
        BEGIN {
            compare("LOAD takes", half_load, load)
            compare("INSTALL and LOAD take", half_install + half_load, install + load)
        }' >>"$work/growth"
}

: >"$work/growth"
: >"$work/nothing"
count "$work/nothing"
start=$(cat "$work/count")

printf '%-10s %7s %6s %9s %12s %9s\n' form number words bytes 'INSTALL Mi.' 'LOAD Mi.'
row booleanifs 50000 -
half_install=$install half_load=$load
row booleanifs 100000 -
growth 'booleanifs, 100000 in place of 50000' "$half_install" "$half_load"

row chain 5000 -
half_install=$install half_load=$load
row chain 10000 -
growth 'chain, 10000 macros in place of 5000' "$half_install" "$half_load"

row lists 250 1000
half_install=$install half_load=$load
row lists 500 500
short_install=$install short_load=$load
row lists 500 1000
growth 'lists, 500 calls in place of 250' "$half_install" "$half_load"
growth 'lists, 1000 words in place of 500' "$short_install" "$short_load"

cat "$work/growth"
! grep -q NOT "$work/growth"
