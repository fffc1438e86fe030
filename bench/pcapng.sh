#!/bin/bash
# Captures of Wireshark's tools against tshark: each file is read, or refused with a fault, and its times and lengths are those that tshark
# prints; 100,000 mutated copies of four of them in 200 MB; and the largest traces in pcapng and in classic pcap, in the same minute.
#
# usage: bench/pcapng.sh      (needs tshark, dumpcap, editcap, mergecap, text2pcap: Debian's tshark and wireshark-common)
#
# The reader is a small program over `read_capture` that is built in a copy of the repository (some minutes).
# tshark itself counts wrongly at units below a nanosecond (its product overflows 64 bits), so those files are held against exact numbers.
set -eu
here=$(cd "$(dirname "${BASH_SOURCE[0]}")/.." && pwd)
folder=$(mktemp -d)
trap 'rm -rf "$folder"' EXIT

build_reader() {
    git clone -q "$here" "$folder/copy"
    cd "$folder/copy/crates"
    rt new read_any start_io >/dev/null
    rm -rf read_any/specs read_any/proofs
    find read_any/src -name '*.rt' ! -name main.rt -delete
    echo 'read_any: pcapng_in pcap_io mn_base anyhow' >>../crates.txt
    cp "$here/bench/read_any.txt" read_any/src/main.rt
    cd read_any
    rt run -- print /dev/null >/dev/null 2>&1 || true
    cp out/read_any "$folder/read_any"
}

build_reader
cd "$folder"
python3 "$here/bench/pcapng.py" "$folder/read_any"
for file in multi_le.pcapng multi_be.pcapng two_sections.pcapng commented.pcapng; do
    (ulimit -v 200000 && "$folder/read_any" mutate "$file")
done
for name in small large; do
    for format in pcap pcapng; do
        /usr/bin/env time -f "%e seconds, %U of them the program's, %M KiB" "$folder/read_any" count "$name.$format"
    done
done
