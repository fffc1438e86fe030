#!/bin/bash
# Refuses each allocation in turn, 1, 2, 3 .., until a run needs no more: of the commands, or of the tests of a crate.
#
# usage: bench/memory.sh                      `chain` on the stored trace and on 60 packets over 3 pipes, `distill` on a ring of 12
#                                             nodes in three modes, `assign` to three cores, `rehearse` and `emulate` on two sites
#                                             and two cores, `workload` with 100 packets; a minute or two
#        bench/memory.sh CRATE [LAST]         each test of that crate, up to its allocation LAST (1,000); some seconds to minutes
#
# The commands are the built program's (MODELNET names another than crates/modelnet/out/modelnet), and the tests are crates/CRATE/out/CRATE_tests,
# which `rt test` leaves there. A few lines of C in front of malloc and realloc refuse the Nth call, or that one and all after it.
# A refused run of a command has to end in one of these ways:
#   status 1 and `modelnet: no memory`, or no line where the line finds no memory either; no output was begun
#   status 6 or 7 and its line, where the host found no memory for a kept name; the outputs before that role are whole, and
#   that role has a front of its text
#   status 0 and whole outputs, where the program can do without
set -eu
here=$(cd "$(dirname "${BASH_SOURCE[0]}")/.." && pwd)
folder=$(mktemp -d)
trap 'rm -rf "$folder"' EXIT

out_is_whole() { cmp -s "$folder/out.pcap" "$folder/whole.pcap"; }
report_is_whole() { cmp -s "$folder/report.txt" "$folder/whole.txt"; }
no_out() { [ ! -e "$folder/out.pcap" ]; }
no_report() { [ ! -e "$folder/report.txt" ]; }

# usage: front FILE WHOLE: FILE is a front of WHOLE, or isn't there
front() { [ ! -e "$1" ] || cmp -s -n "$(stat -c %s "$1")" "$1" "$2"; }
no_screen() { [ ! -s "$folder/screen" ]; }
screen_is_whole() { cmp -s "$folder/screen" "$folder/whole.screen"; }
cut_at_out() { front "$folder/out.pcap" "$folder/whole.pcap" && no_report; }
cut_at_report() { out_is_whole && front "$folder/report.txt" "$folder/whole.txt"; }

# usage: allowed STATUS LINE: a refused run may end so, and may have left what it left
allowed() {
    case "$1 $2" in
        "0 ") out_is_whole && report_is_whole ;;
        "1 " | "1 modelnet: no memory" | "6 modelnet: cannot read trace") no_out && no_report ;;
        "7 modelnet: cannot write out") cut_at_out ;;
        "7 modelnet: cannot write report") cut_at_report ;;
        "6 ") [ "$REFUSE_FROM" = 1 ] && no_out && no_report ;;
        "7 ") [ "$REFUSE_FROM" = 1 ] && { cut_at_out || cut_at_report; } ;;
        *) false ;;
    esac
}

# usage: sweep NAME TRACE PIPE..: refuses each allocation of one command line in turn
sweep() {
    local name=$1 trace=$2 number=0 status line
    shift 2
    local words=(chain --trace "$trace" --out "$folder/out.pcap" --report "$folder/report.txt" "$@")
    "$binary" "${words[@]}"
    mv "$folder/out.pcap" "$folder/whole.pcap"
    mv "$folder/report.txt" "$folder/whole.txt"
    : >"$folder/ends"
    while true; do
        number=$((number + 1))
        rm -f "$folder/out.pcap" "$folder/report.txt"
        status=0
        LD_PRELOAD=$folder/refuse.so REFUSE=$number "$binary" "${words[@]}" 2>"$folder/line" 9>"$folder/refused" || status=$?
        [ -s "$folder/refused" ] || break
        line=$(cat "$folder/line")
        echo "status $status, ${line:-no line}" >>"$folder/ends"
        if ! allowed "$status" "$line"; then
            echo "$name: allocation $number: status $status, '$line'" >&2
            wrong=1
        fi
    done
    if [ "$status" != 0 ] || ! out_is_whole || ! report_is_whole; then
        echo "$name: a run with all its memory ended with status $status" >&2
        wrong=1
    fi
    echo "$name: $((number - 1)) allocations refused"
    sort "$folder/ends" | uniq -c
}

# usage: screen_allowed STATUS LINE: a refused run of a command that prints may end so, and may have printed what it printed
screen_allowed() {
    case "$1 $2" in
        "0 ") cmp -s "$folder/screen" "$folder/whole.screen" ;;
        "1 " | "1 modelnet: no memory" | "6 modelnet: cannot read topology") [ ! -s "$folder/screen" ] ;;
        "7 modelnet: cannot write screen") front "$folder/screen" "$folder/whole.screen" ;;
        "6 ") [ "$REFUSE_FROM" = 1 ] && [ ! -s "$folder/screen" ] ;;
        "7 ") [ "$REFUSE_FROM" = 1 ] && front "$folder/screen" "$folder/whole.screen" ;;
        *) false ;;
    esac
}

# usage: sweep_screen NAME WORD..: refuses each allocation of a command that prints alone in turn
sweep_screen() {
    local name=$1 number=0 status line
    shift
    local words=("$@")
    "$binary" "${words[@]}" >"$folder/whole.screen"
    : >"$folder/ends"
    while true; do
        number=$((number + 1))
        status=0
        LD_PRELOAD=$folder/refuse.so REFUSE=$number "$binary" "${words[@]}" 2>"$folder/line" 9>"$folder/refused" >"$folder/screen" || status=$?
        [ -s "$folder/refused" ] || break
        line=$(cat "$folder/line")
        echo "status $status, ${line:-no line}" >>"$folder/ends"
        if ! screen_allowed "$status" "$line"; then
            echo "$name: allocation $number: status $status, '$line'" >&2
            wrong=1
        fi
    done
    if [ "$status" != 0 ] || ! cmp -s "$folder/screen" "$folder/whole.screen"; then
        echo "$name: a run with all its memory ended with status $status" >&2
        wrong=1
    fi
    echo "$name: $((number - 1)) allocations refused"
    sort "$folder/ends" | uniq -c
}

# usage: run_allowed STATUS LINE: a refused run over a topology may end so, and may have left what it left
run_allowed() {
    case "$1 $2" in
        "0 ") out_is_whole && report_is_whole && screen_is_whole ;;
        "1 " | "1 modelnet: no memory" | "6 modelnet: cannot read topology" | "6 modelnet: cannot read trace") no_out && no_report && no_screen ;;
        "7 modelnet: cannot write out") cut_at_out && no_screen ;;
        "7 modelnet: cannot write report") cut_at_report && no_screen ;;
        "7 modelnet: cannot write screen") out_is_whole && report_is_whole && front "$folder/screen" "$folder/whole.screen" ;;
        "6 ") [ "$REFUSE_FROM" = 1 ] && no_out && no_report && no_screen ;;
        "7 ") [ "$REFUSE_FROM" = 1 ] && { cut_at_out || cut_at_report || { out_is_whole && report_is_whole; }; } ;;
        *) false ;;
    esac
}

# usage: sweep_run NAME COMMAND: refuses each allocation of a run over two sites, on two cores and with a cluster report, in turn
sweep_run() {
    local name=$1 command=$2 number=0 status line
    local data=$here/crates/modelnet/data
    local words=("$command" --topology "$data/two_sites.gml" --trace "$data/two_sites.pcap" --out "$folder/out.pcap"
        --report "$folder/report.txt" --cores 2 --cluster-report yes)
    "$binary" "${words[@]}" >"$folder/whole.screen"
    mv "$folder/out.pcap" "$folder/whole.pcap"
    mv "$folder/report.txt" "$folder/whole.txt"
    : >"$folder/ends"
    while true; do
        number=$((number + 1))
        rm -f "$folder/out.pcap" "$folder/report.txt"
        status=0
        LD_PRELOAD=$folder/refuse.so REFUSE=$number "$binary" "${words[@]}" 2>"$folder/line" 9>"$folder/refused" >"$folder/screen" || status=$?
        [ -s "$folder/refused" ] || break
        line=$(cat "$folder/line")
        echo "status $status, ${line:-no line}" >>"$folder/ends"
        if ! run_allowed "$status" "$line"; then
            echo "$name: allocation $number: status $status, '$line'" >&2
            wrong=1
        fi
    done
    if [ "$status" != 0 ] || ! out_is_whole || ! report_is_whole || ! screen_is_whole; then
        echo "$name: a run with all its memory ended with status $status" >&2
        wrong=1
    fi
    echo "$name: $((number - 1)) allocations refused"
    sort "$folder/ends" | uniq -c
}

# usage: tests CRATE LAST: refuses each allocation of each test of a crate in turn, up to number LAST
tests() {
    local tests=$here/crates/$1/out/$1_tests last=$2 count=0 test number status
    cd "$folder"
    : >"$folder/ends"
    for test in $("$tests" --list | sed -n 's/: test$//p'); do
        for number in $(seq 1 "$last"); do
            status=0
            { LD_PRELOAD=$folder/refuse.so REFUSE=$number "$tests" "$test" >"$folder/said" 2>&1 9>"$folder/refused"; } 2>/dev/null || status=$?
            [ -s "$folder/refused" ] || break
            count=$((count + 1))
            if [ "$status" = 0 ]; then
                echo "passed without it" >>"$folder/ends"
            elif grep -qE 'NoMemory|AllocError|AllocFailed|out of memory|OutOfMemory' "$folder/said"; then
                echo "failed for want of memory" >>"$folder/ends"
            else
                echo "failed by another answer" >>"$folder/ends"
                echo "$1: $test: allocation $number: status $status: $(tr '\n' ' ' <"$folder/said")" >&2
            fi
        done
    done
    echo "$1: $count allocations refused"
    sort "$folder/ends" | uniq -c
}

cat >"$folder/refuse.c" <<'C'
#include <stdlib.h>
#include <unistd.h>

void *__libc_malloc(size_t);
void *__libc_realloc(void *, size_t);

static long calls, refused, from;

static int refuses(void) {
    if (calls == 0) {
        const char *number = getenv("REFUSE"), *on = getenv("REFUSE_FROM");
        refused = number ? atol(number) : 0;
        from = on && *on == '1';
    }
    calls++;
    if (calls != refused && !(from && calls > refused)) return 0;
    return write(9, "x", 1) == 1;
}

void *malloc(size_t size) { return refuses() ? NULL : __libc_malloc(size); }
void *realloc(void *old, size_t size) { return refuses() ? NULL : __libc_realloc(old, size); }
C
cc -O1 -shared -fPIC -fno-builtin -o "$folder/refuse.so" "$folder/refuse.c"

if [ $# -gt 0 ]; then
    tests "$1" "${2:-1000}"
    exit 0
fi

binary=${MODELNET:-$here/crates/modelnet/out/modelnet}
wrong=0

# 60 packets of 40 captured bytes, three at each tick.
python3 - "$folder/in.pcap" <<'PY'
import struct
import sys

with open(sys.argv[1], "wb") as out:
    out.write(struct.pack("<IHHIIII", 0xA1B23C4D, 2, 4, 0, 0, 262144, 101))
    for number in range(60):
        out.write(struct.pack("<IIII", 0, number // 3 * 100_000, 40, 400))
        out.write(bytes([number] * 40))
PY

# A ring of 12 nodes, every third with an address.
python3 - "$folder/ring.gml" <<'PY'
import sys

with open(sys.argv[1], "w") as out:
    out.write("graph [\n")
    for node in range(12):
        out.write(f' node [ id {node}' + (f' address "10.0.0.{node}"' if node % 3 == 0 else "") + " ]\n")
    for node in range(12):
        out.write(f" edge [ source {node} target {(node + 1) % 12} bandwidth 8000000 latency {100 + node} ]\n")
    out.write("]\n")
PY

for REFUSE_FROM in 0 1; do
    export REFUSE_FROM
    [ "$REFUSE_FROM" = 0 ] && how="one refused" || how="all refused from one on"
    sweep "one packet, $how" "$here/crates/modelnet/data/in.pcap" 8000000:5000:50:0
    sweep "60 packets, $how" "$folder/in.pcap" 8000000:50:8:0 100000000:300:50:100000 8000000:5000:3:0
    sweep_screen "a ring walked in, $how" distill --topology "$folder/ring.gml" --mode=walk:1
    sweep_screen "a ring end to end, $how" distill --topology "$folder/ring.gml" --mode=end
    sweep_screen "a ring walked out, $how" distill --topology "$folder/ring.gml" --mode=walk:1:1
    sweep_screen "a ring on three cores, $how" assign --topology "$folder/ring.gml" --mode=walk:1 --cores=3
    for command in rehearse emulate; do
        sweep_run "two sites by $command, $how" "$command"
    done
    sweep_screen "a workload, $how" workload --number 7 --packets 100
done
exit "$wrong"
