#!/usr/bin/env bash
# Times sessions of the program cilhost over pipes: LOAD, AV and INSTALL. README.md says how to read the tables.
. "$(dirname "$0")/session_common.sh"

# Declarations: 30 classes of ten permissions, 5,000 types, a user and a role that has each type.
declarations() {
    awk 'BEGIN {
        for (c = 0; c < 30; c++) {
            printf "(class cl%d (", c
            for (p = 0; p < 10; p++) printf "%spe%d_%d", p ? " " : "", c, p
            print "))"
        }
        print "(user us)(role ro)(userrole us ro)"
        for (t = 0; t < 5000; t++) printf "(type ty%d)(roletype ro ty%d)\n", t, t
    }'
}

# The rules from number $1 to number $2: they go round types and classes out of step, three permissions in each.
rules() {
    awk -v from="$1" -v to="$2" 'BEGIN {
        for (i = from; i < to; i++) {
            c = i % 30
            printf "(allow ty%d ty%d (cl%d (pe%d_%d pe%d_%d pe%d_%d)))\n", i % 5000, (i * 7 + int(i / 5000)) % 5000, c, c, i % 10, c, (i + 1) % 10, c, (i + 2) % 10
        }
    }'
}

# The requests that install a policy of $1 rules, 20,000 in a module.
policy() {
    declarations >"$work/module"
    install_request "$work/module"
    local from
    for ((from = 0; from < $1; from += 20000)); do
        rules "$from" "$((from + 20000 < $1 ? from + 20000 : $1))" >"$work/module"
        install_request "$work/module"
    done
}

# The requests that install $1 modules of 25 KB, each of its own rules, and the declarations.
many_modules() {
    declarations >"$work/module"
    install_request "$work/module"
    local number
    for ((number = 0; number < $1; number++)); do
        rules "$((number * 500))" "$((number * 500 + 500))" >"$work/module"
        install_request "$work/module"
    done
}

# The request that installs a class of $1 permissions, which is too many, and a rule that names each of them.
wide_class() {
    awk -v n="$1" 'BEGIN {
        printf "(type ty)(class cl ("
        for (p = 0; p < n; p++) printf "pe%d ", p
        printf "))(allow ty ty (cl ("
        for (p = 0; p < n; p++) printf "pe%d ", p
        print ")))"
    }' >"$work/module"
    install_request "$work/module"
}

growth=0
last=
# Keeps in $growth how many times as long as $last a session of $1 microseconds took, where that is the most so far.
doubled() {
    if [ -n "$last" ]; then
        growth=$(awk -v growth="$growth" -v now="$1" -v last="$last" 'BEGIN { g = now / last; print (g > growth ? g : growth) }')
    fi
    last=$1
}
# Prints how many times as long a doubling of $1 took at most, and begins again.
print_growth() {
    awk -v what="$1" -v growth="$growth" 'BEGIN { printf "a doubling of the %s takes at most %.2f times as long: %s\n", what, growth, growth <= 2.4 ? "at most 2.4" : "MORE THAN 2.4" }'
    growth=0
    last=
}

printf '%10s %12s %10s %14s %9s\n' rules 'INSTALL ms' 'LOAD ms' 'AV a second' 'peak MB'
for count in 10000 100000; do
    policy "$count" >"$work/installed"
    { cat "$work/installed"; echo LOAD; } >"$work/loaded"
    queries=$((200000000 / count / 10))
    { cat "$work/loaded"; awk -v n="$queries" 'BEGIN { for (i = 0; i < n; i++) printf "AV us:ro:ty%d us:ro:ty%d cl%d\n", i % 5000, (i * 7) % 5000, i % 30 }'; } >"$work/asked"
    measure "$work/installed"; expect_no_refusal; installed=$(cat "$work/us")
    measure "$work/loaded"; expect_no_refusal; loaded=$(cat "$work/us")
    measure "$work/asked"; expect_no_refusal; asked=$(cat "$work/us")
    awk -v rules="$count" -v i="$installed" -v l="$loaded" -v a="$asked" -v n="$queries" -v peak="$(cat "$work/peak")" \
        'BEGIN { printf "%10d %12.1f %10.1f %14.0f %9.1f\n", rules, i / 1000, (l - i) / 1000, n * 1000000 / (a - l), peak * 1024 / 1000000 }'
done

printf '\n%10s %12s %10s %9s\n' modules 'INSTALL ms' 'LOAD ms' 'peak MB'
for count in 100 200 400; do
    many_modules "$count" >"$work/installed"
    { cat "$work/installed"; echo LOAD; } >"$work/loaded"
    measure "$work/installed"; expect_no_refusal; installed=$(cat "$work/us")
    measure "$work/loaded"; expect_no_refusal; loaded=$(cat "$work/us")
    awk -v modules="$count" -v i="$installed" -v l="$loaded" -v peak="$(cat "$work/peak")" \
        'BEGIN { printf "%10d %12.1f %10.1f %9.1f\n", modules, i / 1000, (l - i) / 1000, peak * 1024 / 1000000 }'
    doubled "$loaded"
done
print_growth modules

printf '\n%11s %20s %9s\n' permissions 'INSTALL and LOAD ms' 'peak MB'
for count in 50000 100000 200000; do
    { wide_class "$count"; echo LOAD; } >"$work/loaded"
    measure "$work/loaded"
    grep -q '^55 0 16 . cl$' "$work/replies" || { echo "a class of $count permissions was not refused" >&2; exit 1; }
    awk -v count="$count" -v us="$(cat "$work/us")" -v peak="$(cat "$work/peak")" 'BEGIN { printf "%11d %20.1f %9.1f\n", count, us / 1000, peak * 1024 / 1000000 }'
    doubled "$(cat "$work/us")"
done
print_growth permissions
