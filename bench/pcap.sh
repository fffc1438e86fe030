#!/bin/bash
# Reads and writes the largest traces: 1,048,576 packets, and 256 MB in packets of 262,000 bytes, over one fast pipe.
#
# usage: bench/pcap.sh      (MODELNET names another binary than crates/modelnet/out/modelnet)
set -eu
here=$(cd "$(dirname "${BASH_SOURCE[0]}")/.." && pwd)
binary=${MODELNET:-$here/crates/modelnet/out/modelnet}
folder=$(mktemp -d)
trap 'rm -rf "$folder"' EXIT

# usage: trace PACKETS BYTES: packets of so many captured bytes, 1 us apart
trace() {
    python3 - "$1" "$2" "$folder/in.pcap" <<'PY'
import struct
import sys

packets, size, name = int(sys.argv[1]), int(sys.argv[2]), sys.argv[3]
with open(name, "wb") as out:
    out.write(struct.pack("<IHHIIII", 0xA1B23C4D, 2, 4, 0, 0, 262144, 101))
    for number in range(packets):
        time_ns = number * 1000
        out.write(struct.pack("<IIII", time_ns // 10**9, time_ns % 10**9, size, size))
        out.write(bytes(size))
PY
}

for shape in "1048576 20" "1024 262000"; do
    trace $shape
    /usr/bin/env time -f '%e seconds, %M KiB' -o "$folder/time" \
        "$binary" chain --trace "$folder/in.pcap" --out "$folder/out.pcap" --report "$folder/report.txt" 1000000000000:0:1000:0
    printf '%s packets of %s bytes, %s bytes of trace: ' $shape "$(stat -c %s "$folder/in.pcap")"
    cat "$folder/time"
    sed -n 2p "$folder/report.txt"
done
