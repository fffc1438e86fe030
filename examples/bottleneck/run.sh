#!/bin/bash
# Delay against loss: bursts through a link with a queue of 10, 50 and 200 packets. Writes bottleneck.png.
. "$(dirname "$0")/../common.sh"
"$python" inputs.py
for queue in 10 50 200; do
  run "queue-$queue" "queue-$queue.gml" bursts.pcap "--tick-ns 10000"
done
"$python" picture.py
