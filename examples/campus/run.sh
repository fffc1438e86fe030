#!/bin/bash
# Four distillations of one campus, side by side: how long they run and how wrong their delays are. Writes campus.png.
#
#   ./run.sh --measure    also measures the times anew, into times.csv (the least of ten runs)
. "$(dirname "$0")/../common.sh"
"$python" inputs.py
modes=(hop walk:1:1 walk:1 end)
for mode in "${modes[@]}"; do
  run "$mode" campus.gml day.pcap "--tick-ns 10000 --mode $mode"
done
if [ "${1:-}" = --measure ]; then
  "$python" measure.py "${modes[@]}" > out/times.csv
  mv out/times.csv times.csv
fi
"$python" picture.py "${modes[@]}"
