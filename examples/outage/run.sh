#!/bin/bash
# A link that slows down from 10 to 2 Mbit/s for two seconds. Writes outage.png, and out/page.
. "$(dirname "$0")/../common.sh"
"$python" inputs.py
"$MODELNET" distill --topology sites.gml --tick-ns 10000 > out/pipes.txt
link=$(sed -n 's/^pipe \([0-9]*\) from 5 to 6 .*/\1/p' out/pipes.txt)

# the directory that assign prints, as one of the second version with two changes; a tick is 10 us, so 1.5 s are tick 150000
{
  "$MODELNET" assign --topology sites.gml | sed '1s/directory 1/directory 2/; 1s/$/ changes 2/'
  echo "change tick 150000 pipe $link bps 2000000 us 10000 queue 100 ppm 0"
  echo "change tick 350000 pipe $link bps 10000000 us 10000 queue 100 ppm 0"
} > directory.txt

mkdir -p out/outage
cp directory.txt out/outage/
run outage sites.gml sensors.pcap "--tick-ns 10000" --directory directory.txt
"$python" picture.py "$link"
"$python" "$tools/figures" out/outage --trace sensors.pcap --to out/page
