# What the scripts of sessions share: the program cilhost is built, and its sessions can be run and measured. With PROGRAM
# set that program is measured, and nothing is built.
set -eu
here=$(cd "$(dirname "${BASH_SOURCE[0]}")" && pwd)
crate=$here/../crates/cilhost
program=$crate/out/cilhost
work=$(mktemp -d)
trap 'rm -rf "$work"' EXIT

[ -x /usr/bin/time ] || { echo "this script needs GNU time, /usr/bin/time" >&2; exit 2; }

if [ -n "${PROGRAM:-}" ]; then
    program=$PROGRAM
elif ! (cd "$crate" && rt run -- --version </dev/null >"$work/build" 2>&1); then
    cat "$work/build" >&2
    exit 1
fi

# The request that installs the file $1.
install_request() {
    printf 'INSTALL %d\n' "$(wc -c <"$1")"
    cat "$1"
}

# Runs the requests of the file $1 three times: the least time in microseconds goes to $work/us, the most memory
# in kB to $work/peak, the replies to $work/replies.
measure() {
    local least= start stop
    echo 0 >"$work/peak"
    for _ in 1 2 3; do
        start=$(date +%s%N)
        cat "$1" | /usr/bin/time -f '%M' -o "$work/now" "$program" session >"$work/replies"
        stop=$(date +%s%N)
        if [ -z "$least" ] || [ $(((stop - start) / 1000)) -lt "$least" ]; then least=$(((stop - start) / 1000)); fi
        if [ "$(cat "$work/now")" -gt "$(cat "$work/peak")" ]; then cp "$work/now" "$work/peak"; fi
    done
    echo "$least" >"$work/us"
}

# Ends where a reply in $work/replies is a refusal.
expect_no_refusal() {
    if grep -aq '^ERR\|^FAULTS' "$work/replies"; then
        echo "a request was refused: $(grep -am1 '^ERR\|^FAULTS' "$work/replies")" >&2
        exit 1
    fi
}

# The instructions of a session with the requests of the file $1, as valgrind counts them. They do not depend on what else
# the machine does. The replies go to $work/replies.
instructions() {
    valgrind --tool=callgrind --callgrind-out-file=/dev/null "$program" session <"$1" 2>&1 >"$work/replies" |
        awk '/Collected/ { print $4 }'
}

# The instructions that the request $2, a line, adds to a session with the requests of the file $1.
instructions_of() {
    { cat "$1"; echo "$2"; } >"$work/with_request"
    echo $(($(instructions "$work/with_request") - $(instructions "$1")))
}
