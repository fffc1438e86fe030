#!/bin/bash
# How long emulate takes on one core, and on four with either directory, over 100,000 packets. Times differ from run to run, so no
# file keeps them.
. "$(dirname "$0")/../common.sh"
[ -e out/partition.txt ] || ./run.sh
[ -e out/many.pcap ] || "$python" inputs.py 100000 out/many.pcap
TIMEFORMAT='%R s'
for words in "--cores 1" "--cores 4 --directory out/assign.txt" "--cores 4 --directory out/partition.txt"; do
  echo "emulate $words"
  # shellcheck disable=SC2086 # words are options
  time "$MODELNET" emulate --topology sites.gml --trace out/many.pcap --tick-ns 10000 $words \
    --out out/many.out.pcap --report out/many.report.txt
done
