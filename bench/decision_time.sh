#!/usr/bin/env bash
# How many microseconds a decision takes that is not kept: over the policy of distribution.py --attributes, in sessions of 800,000 AV
# each. It is the time of the functions of `cil_index` that a question calls, by the samples of perf, which takes 4,000 of them in a
# second of processor time. Other work on the machine makes it longer. README.md says how to read the table.
# usage: decision_time.sh [HOW-MANY-SESSIONS]
. "$(dirname "$0")/session_common.sh"
command -v perf >/dev/null || { echo "this script needs perf" >&2; exit 2; }

TIMES=400

"$here/distribution.py" --attributes "$work/policy"
for module in "$work"/policy/*.cil; do install_request "$module"; done >"$work/asked"
echo LOAD >>"$work/asked"
for _ in $(seq "$TIMES"); do
    cat "$work/policy/queries" >>"$work/asked"
    cat "$work/policy/answers" >>"$work/expected"
done
queries=$(wc -l <"$work/expected")

# How many samples are in functions that the pattern $1 has.
samples() {
    perf report -i "$work/samples" --stdio -F sample,sym 2>>"$work/log" | awk -v wanted="$1" '$0 ~ wanted { sum += $1 } END { print sum + 0 }'
}

printf '%10s %12s %14s\n' queries samples 'decision, us'
for _ in $(seq "${1:-5}"); do
    perf record -q -e cpu-clock -F 4000 -o "$work/samples" "$program" session <"$work/asked" >"$work/replies" 2>"$work/log"
    expect_no_refusal
    tail -n "$queries" "$work/replies" | cmp -s - "$work/expected" || { echo "a reply is not the expected one" >&2; exit 1; }
    found=$(samples 'cil_index::(cover|matches|search|section::covered)')
    [ "$found" -gt 0 ] || { echo "no sample is in a function of cil_index" >&2; exit 1; }
    printf '%10d %12d %14s\n' "$queries" "$found" "$(awk -v found="$found" -v queries="$queries" 'BEGIN { printf "%.2f", found / 4000 * 1e6 / queries }')"
done
