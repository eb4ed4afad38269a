#!/usr/bin/env bash
# What a text, a bundle and a word cost: the instructions of requests to the program cilhost, as valgrind counts them, and
# for texts and bundles the memory of the session. LIST answers the SHA-256 of each module, and is what the others are
# compared with. README.md says how to read the tables.
. "$(dirname "$0")/session_common.sh"
command -v valgrind >/dev/null || { echo "this script needs valgrind" >&2; exit 2; }


# A policy of $1 bytes; with $2 texts are not alike. Declarations, rules of three permissions, and a comment up to the
# exact length.
text() {
    awk -v bytes="$1" -v salt="$2" 'BEGIN {
        text = "(class file (open read write getattr))(user us)(role ro)(userrole us ro)\n"
        for (t = 0; t < 200; t++) text = text "(type ty" salt "x" t ")(roletype ro ty" salt "x" t ")\n"
        printf "%s", text
        left = bytes - length(text)
        for (i = 0; ; i++) {
            line = "(allow ty" salt "x" (i % 200) " ty" salt "x" (int(i / 200) * 7 + i) % 200 " (file (open read write)))\n"
            if (length(line) > left - 2) break
            printf "%s", line
            left -= length(line)
        }
        printf ";"
        for (left -= 1; left > 0; left--) printf "-"
    }'
}

# Compares the figure $3 for the last size with the figure $2 for the first, of the request $1: for four times the bytes at
# most five times as much.
growth() {
    awk -v what="$1" -v first="$2" -v last="$3" 'BEGIN {
        printf "%s: four times the bytes take %.1f times as many instructions: %s\n", what, last / first,
            last <= 5 * first ? "linear" : "NOT LINEAR" }'
}

: >"$work/nothing"
empty=$(instructions "$work/nothing")

printf '%10s %13s %10s %13s %14s %10s %9s\n' bytes 'INSTALL Mi.' 'LIST Mi.' 'INSTALL/LIST' 'LOAD Mi.' 'LOAD/INST.' 'peak MB'
first=
for size in 1048576 2097152 4194304; do
    text "$size" 0 >"$work/module"
    install_request "$work/module" >"$work/installed"
    install=$(($(instructions "$work/installed") - empty))
    list=$(instructions_of "$work/installed" LIST)
    load=$(instructions_of "$work/installed" LOAD)
    expect_no_refusal
    { cat "$work/installed"; echo LOAD; } >"$work/loaded"
    measure "$work/loaded"
    awk -v bytes="$size" -v install="$install" -v list="$list" -v load="$load" -v peak="$(cat "$work/peak")" 'BEGIN {
        printf "%10d %13.1f %10.1f %13.2f %14.1f %10.2f %9.1f\n", bytes, install / 1e6, list / 1e6, install / list,
            load / 1e6, load / install, peak * 1024 / 1e6 }'
    first=${first:-$install $load}
done
growth INSTALL "${first% *}" "$install"
growth LOAD "${first#* }" "$load"

printf '\n%8s %10s %12s %12s %10s %13s %9s\n' modules bytes 'IMPORT Mi.' 'again Mi.' 'LIST Mi.' 'IMPORT/LIST' 'peak MB'
first=
for modules in 50 100 200; do
    for ((number = 0; number < modules; number++)); do
        text 60000 "$number" >"$work/module"
        install_request "$work/module"
    done >"$work/installed"
    # The reply to EXPORT, the last one, is OK with a number, and then so many bytes.
    { cat "$work/installed"; echo EXPORT; } | "$program" session >"$work/replies"
    bytes=$(grep -aom1 '^OK [0-9][0-9]*$' "$work/replies" | cut -d ' ' -f 2)
    tail -c "$bytes" "$work/replies" >"$work/bundle"
    { echo "IMPORT $bytes"; cat "$work/bundle"; } >"$work/imported"
    cat "$work/imported" "$work/imported" >"$work/twice"
    import=$(($(instructions "$work/imported") - empty))
    again=$(($(instructions "$work/twice") - empty - import))
    list=$(instructions_of "$work/imported" LIST)
    expect_no_refusal
    measure "$work/imported"
    awk -v modules="$modules" -v bytes="$bytes" -v import="$import" -v again="$again" -v list="$list" \
        -v peak="$(cat "$work/peak")" 'BEGIN {
        printf "%8d %10d %12.1f %12.1f %10.1f %13.2f %9.1f\n", modules, bytes, import / 1e6, again / 1e6, list / 1e6,
            import / list, peak * 1024 / 1e6 }'
    first=${first:-$import}
done
growth IMPORT "$first" "$import"
awk -v again="$again" -v first="$import" 'BEGIN {
    printf "the second import of one bundle takes %.2f of the first: %s\n", again / first, again <= first ? "no more" : "MORE" }'

# A policy with $1 blocks in one another, each with 50 types, and $2 statements in the innermost one. Both words of a
# statement are declared in the global namespace alone, so that each look-up asks $1 namespaces more.
nested() {
    awk -v blocks="$1" -v statements="$2" 'BEGIN {
        print "(role r)"
        for (t = 0; t < 50; t++) printf "(type g%03d)", t
        for (b = 0; b < blocks; b++) {
            printf "\n(block n%03d ", b
            for (t = 0; t < 50; t++) printf "(type i%03d)", t
        }
        for (i = 0; i < statements; i++) printf "\n(roletype r g%03d)", i % 50
        for (b = 0; b < blocks; b++) printf ")"
    }' >"$work/module"
    install_request "$work/module"
}

printf '\n%10s %14s %19s\n' namespaces 'a word ins.' 'a namespace ins.'
first=
for blocks in 0 2 120; do
    nested "$blocks" 0 >"$work/installed"
    without=$(instructions_of "$work/installed" LOAD)
    nested "$blocks" 20000 >"$work/installed"
    with=$(instructions_of "$work/installed" LOAD)
    expect_no_refusal
    word=$(((with - without) / 40000))
    first=${first:-$word}
    awk -v blocks="$blocks" -v word="$word" -v first="$first" 'BEGIN {
        printf "%10d %14d %19s\n", blocks + 1, word, blocks ? sprintf("%.0f", (word - first) / blocks) : "-" }'
done
