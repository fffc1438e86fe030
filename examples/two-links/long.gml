graph [
  node [
    id 0
    label "0"
    address "10.0.0.1"
  ]
  node [
    id 1
    label "1"
    address "10.0.1.1"
  ]
  node [
    id 2
    label "2"
    address "10.0.1.2"
  ]
  node [
    id 3
    label "3"
  ]
  edge [
    source 0
    target 3
    bandwidth 10000000
    latency 20000
    queue 40
  ]
  edge [
    source 1
    target 3
    bandwidth 100000000
    latency 100
  ]
  edge [
    source 2
    target 3
    bandwidth 100000000
    latency 100
  ]
]
