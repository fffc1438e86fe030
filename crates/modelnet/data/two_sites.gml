graph [
  comment "Two sites, each with two hosts behind a router, and one slow link between them. Latency is in us, bandwidth in bit/s, loss in ppm."
  node [ id 0 label "client a" address "10.1.0.1" ]
  node [ id 1 label "client b" address "10.1.0.2" ]
  node [ id 2 label "server a" address "10.2.0.1" ]
  node [ id 3 label "server b" address "10.2.0.2" ]
  node [ id 4 label "west" ]
  node [ id 5 label "east" ]
  edge [ source 0 target 4 bandwidth 100000000 latency 200 ]
  edge [ source 1 target 4 bandwidth 100000000 latency 200 ]
  edge [ source 2 target 5 bandwidth 100000000 latency 200 ]
  edge [ source 3 target 5 bandwidth 100000000 latency 200 ]
  edge [ source 4 target 5 bandwidth 2000000 latency 20000 queue 25 loss 10000 ]
]
