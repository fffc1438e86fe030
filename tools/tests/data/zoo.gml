Creator "Topology Zoo Toolset"
Version "1.0"
graph [
  directed 0
  Network "Example after the Topology Zoo"
  Backbone 1
  node [
    id 0
    label "Zürich"
    Country "Switzerland"
    Longitude 8.55
    Internal 1
    Latitude 47.36667
  ]
  node [
    id 1
    label "Genève"
    Longitude 6.14569
    Internal 1
    Latitude 46.20222
  ]
  node [
    id 2
    label "Lugano"
    Longitude 8.96004
    Latitude 46.01008
  ]
  node [
    id 3
    label "None"
    hyperedge 1
  ]
  node [
    id 4
    label "None"
  ]
  edge [
    source 0
    target 1
    LinkSpeed "10"
    LinkLabel "10 Gbps"
    LinkSpeedUnits "G"
    LinkSpeedRaw 10000000000.0
  ]
  edge [
    source 0
    target 2
    LinkLabel "OC-48"
  ]
  edge [
    source 1
    target 2
    LinkLabel "155 Mbit/s"
  ]
  edge [
    source 1
    target 2
    LinkSpeed "2.5"
    LinkSpeedUnits "G"
  ]
  edge [
    source 2
    target 3
    LinkLabel "Dark Fibre"
  ]
  edge [
    source 0
    target 4
  ]
  edge [
    source 4
    target 4
  ]
]
