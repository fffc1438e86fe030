#!/bin/bash
# What `chain` takes: time, visits a second and peak memory for 200,000 packets over 8 pipes, or as many as the arguments say.
#
# usage: bench/chain.sh [PACKETS] [PIPES] [CAPTURED]      (MODELNET names another binary than crates/modelnet/out/modelnet)
#
# The least time of three runs counts. Of each packet 20 bytes were captured, or CAPTURED. Where rustc is there, bench/plain_chain.rs does the
# same work after each run, and its bytes have to be equal.
set -eu
here=$(cd "$(dirname "${BASH_SOURCE[0]}")/.." && pwd)
binary=${MODELNET:-$here/crates/modelnet/out/modelnet}
packets=${1:-200000}
count=${2:-8}
captured=${3:-20}
folder=$(mktemp -d)
trap 'rm -rf "$folder"' EXIT

# Packets of up to 1,500 bytes, 50 us apart on average.
python3 - "$packets" "$captured" "$folder/in.pcap" <<'PY'
import random
import struct
import sys

packets, captured, name = int(sys.argv[1]), int(sys.argv[2]), sys.argv[3]
draw = random.Random(7)
time_ns = 0
with open(name, "wb") as out:
    out.write(struct.pack("<IHHIIII", 0xA1B23C4D, 2, 4, 0, 0, 262144, 101))
    for number in range(packets):
        length = draw.randint(min(1500, max(60, captured)), 1500)
        out.write(struct.pack("<IIII", time_ns // 10**9, time_ns % 10**9, captured, length))
        out.write((number.to_bytes(4, "little") + bytes(captured))[:captured])
        time_ns += draw.randint(0, 100_000)
PY

pipes=()
for pipe in $(seq 1 "$count"); do
    pipes+=("200000000:$((pipe * 500)):100:1000")
done

# usage: chain NAME BINARY: one run, whose time and memory are kept
chain() {
    /usr/bin/env time -a -f '%e %M' -o "$folder/$1.time" \
        "$2" chain --trace "$folder/in.pcap" --out "$folder/$1.pcap" --report "$folder/$1.txt" "${pipes[@]}"
}

# usage: tell NAME: the least time of its runs, and the greatest memory
tell() {
    awk -v name="$1" -v visits="$visits" '
        NR == 1 || $1 < seconds { seconds = $1 }
        $2 > memory { memory = $2 }
        END {
            speed = seconds < 0.05 ? "too short to tell a speed" : int(visits / seconds) " visits a second"
            printf "%s: %.2f seconds, %s, %d KiB\n", name, seconds, speed, memory
        }
    ' "$folder/$1.time"
}

plain=
if command -v rustc >/dev/null; then
    plain=$folder/plain_chain
    rustc --edition 2024 -O -C target-cpu=x86-64-v2 -o "$plain" "$here/bench/plain_chain.rs"
fi
for _ in 1 2 3; do
    chain modelnet "$binary"
    [ -z "$plain" ] || chain plain "$plain"
done

visits=$(awk '$1 == "pipe" { sum += $4 + $6 + $8 } END { print sum }' "$folder/modelnet.txt")
echo "packets $packets, pipes $count, bytes of trace $(stat -c %s "$folder/in.pcap"), visits $visits"
tell modelnet
if [ -n "$plain" ]; then
    tell plain
    cmp "$folder/modelnet.pcap" "$folder/plain.pcap" && cmp "$folder/modelnet.txt" "$folder/plain.txt" && echo "equal bytes"
fi
