graph [
  node [
    id 0
    label "0"
    address "10.0.0.1"
  ]
  node [
    id 1
    label "1"
    address "10.0.0.2"
  ]
  node [
    id 2
    label "2"
    address "10.0.0.3"
  ]
  node [
    id 3
    label "3"
    address "10.0.0.4"
  ]
  node [
    id 4
    label "4"
    address "10.0.1.1"
  ]
  node [
    id 5
    label "5"
    address "10.0.1.2"
  ]
  node [
    id 6
    label "6"
    address "10.0.1.3"
  ]
  node [
    id 7
    label "7"
    address "10.0.1.4"
  ]
  node [
    id 8
    label "8"
  ]
  node [
    id 9
    label "9"
  ]
  edge [
    source 0
    target 8
    bandwidth 100000000
    latency 500
    queue 1000
  ]
  edge [
    source 1
    target 8
    bandwidth 100000000
    latency 500
    queue 1000
  ]
  edge [
    source 2
    target 8
    bandwidth 100000000
    latency 500
    queue 1000
  ]
  edge [
    source 3
    target 8
    bandwidth 100000000
    latency 500
    queue 1000
  ]
  edge [
    source 4
    target 9
    bandwidth 100000000
    latency 500
    queue 1000
  ]
  edge [
    source 5
    target 9
    bandwidth 100000000
    latency 500
    queue 1000
  ]
  edge [
    source 6
    target 9
    bandwidth 100000000
    latency 500
    queue 1000
  ]
  edge [
    source 7
    target 9
    bandwidth 100000000
    latency 500
    queue 1000
  ]
  edge [
    source 8
    target 9
    bandwidth 10000000
    latency 10000
    queue 50
  ]
]
