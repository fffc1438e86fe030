graph [
  node [
    id 0
    label "0"
    address "10.0.0.1"
  ]
  node [
    id 1
    label "1"
    address "10.0.0.2"
  ]
  node [
    id 2
    label "2"
    address "10.0.0.3"
  ]
  node [
    id 3
    label "3"
    address "10.0.0.4"
  ]
  node [
    id 4
    label "4"
    address "10.0.1.1"
  ]
  node [
    id 5
    label "5"
  ]
  node [
    id 6
    label "6"
  ]
  edge [
    source 0
    target 5
    bandwidth 100000000
    latency 200
  ]
  edge [
    source 1
    target 5
    bandwidth 100000000
    latency 200
  ]
  edge [
    source 2
    target 5
    bandwidth 100000000
    latency 200
  ]
  edge [
    source 3
    target 5
    bandwidth 100000000
    latency 200
  ]
  edge [
    source 4
    target 6
    bandwidth 100000000
    latency 200
  ]
  edge [
    source 5
    target 6
    bandwidth 10000000
    latency 10000
    queue 100
  ]
]
