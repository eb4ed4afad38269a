#!/usr/bin/env bash
# What each pass of LOAD costs, for parts of the policy of distribution.sh --optionals: its instructions, as callgrind
# counts them, and by a debugger its processor time and the memory that is held when it ends. docs/SPEED.md says how to
# read the tables. The whole policy takes some five minutes.
# usage: bench/passes.sh [N]...   the N-th parts of the policy, from 1 to 100; without any the half, and the whole
. "$(dirname "$0")/session_common.sh"
for tool in valgrind gdb; do
    command -v "$tool" >/dev/null || { echo "this script needs $tool" >&2; exit 2; }
done
[ $# -gt 0 ] || set -- 2 1

# At each address of the file $PASSES: the processor time of the program so far in ms, the memory that it holds, and the
# most that it held, in MB. The session ends behind the LOAD.
cat >"$work/marks.py" <<'PYTHON'
import os

def tell(pass_):
    process = "/proc/%d/" % gdb.selected_inferior().pid
    status = dict(line.split(":", 1) for line in open(process + "status"))
    held, most = (int(status[name].split()[0]) * 1024 / 1e6 for name in ("VmRSS", "VmHWM"))
    time = int(open(process + "schedstat").read().split()[0]) / 1e6
    print("mark\t%s\t%.1f\t%.1f\t%.1f" % (pass_, time, held, most), flush=True)

class Mark(gdb.Breakpoint):
    def __init__(self, pass_, address):
        super().__init__("*%#x" % address)
        self.pass_ = pass_

    def stop(self):
        self.enabled = False
        tell(self.pass_)
        return False

program = os.path.realpath(gdb.current_progspace().filename)
maps = open("/proc/%d/maps" % gdb.selected_inferior().pid)
base = next(int(line.split("-")[0], 16) for line in maps if line.rstrip().endswith(program))
for line in open(os.environ["PASSES"]):
    pass_, _, address = line.rstrip("\n").split("\t")
    if int(address, 16) > 0:
        Mark(pass_, base + int(address, 16))
gdb.execute("catch syscall exit_group")
gdb.execute("continue")
tell("end")
gdb.execute("continue")
PYTHON

# Writes the marks of the session with the requests of the file $1 to the file $2.
marks() {
    PASSES=$work/passes gdb -q -batch -iex 'set debuginfod enabled off' -ex "starti session <'$1' >/dev/null" \
        -x "$work/marks.py" "$program" 2>&1 | grep '^mark' >"$2"
}

# The tables of the $1-th part of the policy. The instructions go to $work/counts$1.
tables() {
    "$here/distribution.py" --optionals --scale "$1" "$work/policy"
    for module in "$work/policy"/*.cil; do install_request "$module"; done >"$work/loaded"
    echo LOAD >>"$work/loaded"
    valgrind --tool=callgrind --dump-instr=yes --callgrind-out-file="$work/calls" "$program" session <"$work/loaded" \
        >"$work/replies" 2>"$work/log"
    expect_no_refusal
    python3 "$here/passes.py" "$work/calls" >"$work/passes"
    cut -f 1,2 "$work/passes" >"$work/counts$1"
    for run in 1 2 3; do marks "$work/loaded" "$work/marks$run"; done

    echo "1/$1 of the policy: $(cat "$work/policy"/*.cil | wc -c) bytes"
    rm -r "$work/policy"
    printf '%-22s %12s %6s\n' pass 'million ins.' %
    awk -F '\t' '{ name[NR] = $1; cost[NR] = $2; all += $2 }
        END { for (i = 1; i <= NR; i++) printf "%-22s %12.1f %6.1f\n", name[i], cost[i] / 1e6, 100 * cost[i] / all
              printf "%-22s %12.1f\n", "LOAD", all / 1e6 }' "$work/passes"
    # A mark is where a pass begins, and so where the one before it ended. Modules are read and judged in turn, so
    # reading and what is written have one mark. The least time of three runs.
    printf '%-22s %12s %8s %8s\n' 'up to the end of' 'ms' 'MB' 'most MB'
    paste "$work/marks1" "$work/marks2" "$work/marks3" | awk -F '\t' '
        NR == 1 { at = "(INSTALL)"; next_ = $2 }
        NR > 1 { at = next_ == "reading" ? "reading, written" : next_; next_ = $2 }
        { for (run = 0; run < 3; run++) {
              time = $(3 + 5 * run) - was[run]; was[run] = $(3 + 5 * run)
              if (run == 0 || time < least) least = time
          }
          printf "%-22s %12.1f %8.1f %8.1f\n", at, least, $4, $5 }'
}

for part; do tables "$part"; done
if [ $# -eq 2 ]; then
    echo "the second part by the first"
    paste "$work/counts$1" "$work/counts$2" | awk -F '\t' '
        { printf "%-22s %12.2f%s\n", $1, $4 / $2, $4 <= 2.1 * $2 ? "" : ": MORE THAN 2.1"; a += $2; b += $4 }
        END { printf "%-22s %12.2f: %s\n", "LOAD", b / a, b <= 2.4 * a ? "at most 2.4" : "MORE THAN 2.4" }'
fi
