#!/bin/bash
# Is 8 Mbit/s with 5 ms better than 10 Mbit/s with 20 ms for this trace? Writes arrivals.png, difference.png and
# delay-distribution.png, and out/page.
. "$(dirname "$0")/../common.sh"
"$python" inputs.py
for link in short long; do
  run "$link" "$link.gml" office.pcap "--tick-ns 10000"
done
"$python" "$tools/compare" out/short out/long --trace office.pcap --to out/page
"$python" "$tools/compare" out/short out/long --trace office.pcap --to out/call --pair 10.0.0.1,10.0.1.2
cp out/page/difference.png out/page/delay-distribution.png .
cp out/call/difference.png call-difference.png
