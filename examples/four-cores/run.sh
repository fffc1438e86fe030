#!/bin/bash
# The same emulation on four cores, with the directory that assign deals and with one that tools/partition makes. Writes
# four-cores.png.
. "$(dirname "$0")/../common.sh"
"$python" inputs.py
given=(--topology sites.gml --tick-ns 10000)
"$MODELNET" distill "${given[@]}" > out/pipes.txt
"$MODELNET" assign --topology sites.gml --cores 4 > out/assign.txt
"$python" "$tools/partition" --pipes out/pipes.txt --cores 4 --to out/partition.txt 2> out/expected.txt
cat out/expected.txt
for directory in assign partition; do
  "$MODELNET" emulate "${given[@]}" --trace calls.pcap --cores 4 --directory "out/$directory.txt" \
    --out "out/$directory.pcap" --report "out/$directory.report.txt" --cluster-report yes > "out/$directory.cluster.txt"
done
cmp out/assign.pcap out/partition.pcap
cmp out/assign.report.txt out/partition.report.txt
"$python" picture.py
