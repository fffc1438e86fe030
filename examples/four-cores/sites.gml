graph [
  node [
    id 0
    label "0"
    address "10.0.0.1"
  ]
  node [
    id 1
    label "1"
    address "10.0.1.1"
  ]
  node [
    id 2
    label "2"
    address "10.0.2.1"
  ]
  node [
    id 3
    label "3"
    address "10.0.3.1"
  ]
  node [
    id 4
    label "4"
    address "10.0.4.1"
  ]
  node [
    id 5
    label "5"
    address "10.0.5.1"
  ]
  node [
    id 6
    label "6"
    address "10.0.6.1"
  ]
  node [
    id 7
    label "7"
    address "10.0.7.1"
  ]
  node [
    id 8
    label "8"
    address "10.0.0.2"
  ]
  node [
    id 9
    label "9"
    address "10.0.1.2"
  ]
  node [
    id 10
    label "10"
    address "10.0.2.2"
  ]
  node [
    id 11
    label "11"
    address "10.0.3.2"
  ]
  node [
    id 12
    label "12"
    address "10.0.4.2"
  ]
  node [
    id 13
    label "13"
    address "10.0.5.2"
  ]
  node [
    id 14
    label "14"
    address "10.0.6.2"
  ]
  node [
    id 15
    label "15"
    address "10.0.7.2"
  ]
  node [
    id 16
    label "16"
    address "10.0.0.3"
  ]
  node [
    id 17
    label "17"
    address "10.0.1.3"
  ]
  node [
    id 18
    label "18"
    address "10.0.2.3"
  ]
  node [
    id 19
    label "19"
    address "10.0.3.3"
  ]
  node [
    id 20
    label "20"
    address "10.0.4.3"
  ]
  node [
    id 21
    label "21"
    address "10.0.5.3"
  ]
  node [
    id 22
    label "22"
    address "10.0.6.3"
  ]
  node [
    id 23
    label "23"
    address "10.0.7.3"
  ]
  node [
    id 24
    label "24"
    address "10.0.0.4"
  ]
  node [
    id 25
    label "25"
    address "10.0.1.4"
  ]
  node [
    id 26
    label "26"
    address "10.0.2.4"
  ]
  node [
    id 27
    label "27"
    address "10.0.3.4"
  ]
  node [
    id 28
    label "28"
    address "10.0.4.4"
  ]
  node [
    id 29
    label "29"
    address "10.0.5.4"
  ]
  node [
    id 30
    label "30"
    address "10.0.6.4"
  ]
  node [
    id 31
    label "31"
    address "10.0.7.4"
  ]
  node [
    id 32
    label "32"
    address "10.0.0.5"
  ]
  node [
    id 33
    label "33"
    address "10.0.1.5"
  ]
  node [
    id 34
    label "34"
    address "10.0.2.5"
  ]
  node [
    id 35
    label "35"
    address "10.0.3.5"
  ]
  node [
    id 36
    label "36"
    address "10.0.4.5"
  ]
  node [
    id 37
    label "37"
    address "10.0.5.5"
  ]
  node [
    id 38
    label "38"
    address "10.0.6.5"
  ]
  node [
    id 39
    label "39"
    address "10.0.7.5"
  ]
  node [
    id 40
    label "40"
    address "10.0.0.6"
  ]
  node [
    id 41
    label "41"
    address "10.0.1.6"
  ]
  node [
    id 42
    label "42"
    address "10.0.2.6"
  ]
  node [
    id 43
    label "43"
    address "10.0.3.6"
  ]
  node [
    id 44
    label "44"
    address "10.0.4.6"
  ]
  node [
    id 45
    label "45"
    address "10.0.5.6"
  ]
  node [
    id 46
    label "46"
    address "10.0.6.6"
  ]
  node [
    id 47
    label "47"
    address "10.0.7.6"
  ]
  node [
    id 48
    label "48"
  ]
  node [
    id 49
    label "52"
  ]
  node [
    id 50
    label "56"
  ]
  node [
    id 51
    label "60"
  ]
  node [
    id 52
    label "64"
  ]
  node [
    id 53
    label "68"
  ]
  node [
    id 54
    label "72"
  ]
  node [
    id 55
    label "76"
  ]
  node [
    id 56
    label "49"
  ]
  node [
    id 57
    label "53"
  ]
  node [
    id 58
    label "57"
  ]
  node [
    id 59
    label "61"
  ]
  node [
    id 60
    label "65"
  ]
  node [
    id 61
    label "69"
  ]
  node [
    id 62
    label "73"
  ]
  node [
    id 63
    label "77"
  ]
  node [
    id 64
    label "50"
  ]
  node [
    id 65
    label "54"
  ]
  node [
    id 66
    label "58"
  ]
  node [
    id 67
    label "62"
  ]
  node [
    id 68
    label "66"
  ]
  node [
    id 69
    label "70"
  ]
  node [
    id 70
    label "74"
  ]
  node [
    id 71
    label "78"
  ]
  node [
    id 72
    label "51"
  ]
  node [
    id 73
    label "55"
  ]
  node [
    id 74
    label "59"
  ]
  node [
    id 75
    label "63"
  ]
  node [
    id 76
    label "67"
  ]
  node [
    id 77
    label "71"
  ]
  node [
    id 78
    label "75"
  ]
  node [
    id 79
    label "79"
  ]
  edge [
    source 0
    target 48
    bandwidth 100000000
    latency 80
  ]
  edge [
    source 1
    target 49
    bandwidth 100000000
    latency 88
  ]
  edge [
    source 2
    target 50
    bandwidth 100000000
    latency 63
  ]
  edge [
    source 3
    target 51
    bandwidth 100000000
    latency 142
  ]
  edge [
    source 4
    target 52
    bandwidth 100000000
    latency 100
  ]
  edge [
    source 5
    target 53
    bandwidth 100000000
    latency 111
  ]
  edge [
    source 6
    target 54
    bandwidth 100000000
    latency 69
  ]
  edge [
    source 7
    target 55
    bandwidth 100000000
    latency 61
  ]
  edge [
    source 8
    target 56
    bandwidth 100000000
    latency 58
  ]
  edge [
    source 9
    target 57
    bandwidth 100000000
    latency 52
  ]
  edge [
    source 10
    target 58
    bandwidth 100000000
    latency 101
  ]
  edge [
    source 11
    target 59
    bandwidth 100000000
    latency 120
  ]
  edge [
    source 12
    target 60
    bandwidth 100000000
    latency 87
  ]
  edge [
    source 13
    target 61
    bandwidth 100000000
    latency 147
  ]
  edge [
    source 14
    target 62
    bandwidth 100000000
    latency 57
  ]
  edge [
    source 15
    target 63
    bandwidth 100000000
    latency 78
  ]
  edge [
    source 16
    target 64
    bandwidth 100000000
    latency 116
  ]
  edge [
    source 17
    target 65
    bandwidth 100000000
    latency 118
  ]
  edge [
    source 18
    target 66
    bandwidth 100000000
    latency 96
  ]
  edge [
    source 19
    target 67
    bandwidth 100000000
    latency 85
  ]
  edge [
    source 20
    target 68
    bandwidth 100000000
    latency 149
  ]
  edge [
    source 21
    target 69
    bandwidth 100000000
    latency 72
  ]
  edge [
    source 22
    target 70
    bandwidth 100000000
    latency 63
  ]
  edge [
    source 23
    target 71
    bandwidth 100000000
    latency 83
  ]
  edge [
    source 24
    target 72
    bandwidth 100000000
    latency 77
  ]
  edge [
    source 25
    target 73
    bandwidth 100000000
    latency 53
  ]
  edge [
    source 26
    target 74
    bandwidth 100000000
    latency 132
  ]
  edge [
    source 27
    target 75
    bandwidth 100000000
    latency 83
  ]
  edge [
    source 28
    target 76
    bandwidth 100000000
    latency 84
  ]
  edge [
    source 29
    target 77
    bandwidth 100000000
    latency 74
  ]
  edge [
    source 30
    target 78
    bandwidth 100000000
    latency 71
  ]
  edge [
    source 31
    target 79
    bandwidth 100000000
    latency 89
  ]
  edge [
    source 32
    target 48
    bandwidth 100000000
    latency 87
  ]
  edge [
    source 33
    target 49
    bandwidth 100000000
    latency 130
  ]
  edge [
    source 34
    target 50
    bandwidth 100000000
    latency 143
  ]
  edge [
    source 35
    target 51
    bandwidth 100000000
    latency 97
  ]
  edge [
    source 36
    target 52
    bandwidth 100000000
    latency 61
  ]
  edge [
    source 37
    target 53
    bandwidth 100000000
    latency 127
  ]
  edge [
    source 38
    target 54
    bandwidth 100000000
    latency 93
  ]
  edge [
    source 39
    target 55
    bandwidth 100000000
    latency 135
  ]
  edge [
    source 40
    target 56
    bandwidth 100000000
    latency 99
  ]
  edge [
    source 41
    target 57
    bandwidth 100000000
    latency 114
  ]
  edge [
    source 42
    target 58
    bandwidth 100000000
    latency 81
  ]
  edge [
    source 43
    target 59
    bandwidth 100000000
    latency 72
  ]
  edge [
    source 44
    target 60
    bandwidth 100000000
    latency 81
  ]
  edge [
    source 45
    target 61
    bandwidth 100000000
    latency 110
  ]
  edge [
    source 46
    target 62
    bandwidth 100000000
    latency 85
  ]
  edge [
    source 47
    target 63
    bandwidth 100000000
    latency 61
  ]
  edge [
    source 48
    target 56
    bandwidth 1000000000
    latency 240
  ]
  edge [
    source 48
    target 72
    bandwidth 1000000000
    latency 174
  ]
  edge [
    source 48
    target 57
    bandwidth 100000000
    latency 8688
  ]
  edge [
    source 48
    target 75
    bandwidth 100000000
    latency 9774
  ]
  edge [
    source 49
    target 57
    bandwidth 1000000000
    latency 179
  ]
  edge [
    source 49
    target 73
    bandwidth 1000000000
    latency 149
  ]
  edge [
    source 49
    target 58
    bandwidth 100000000
    latency 7391
  ]
  edge [
    source 49
    target 76
    bandwidth 100000000
    latency 7471
  ]
  edge [
    source 50
    target 58
    bandwidth 1000000000
    latency 253
  ]
  edge [
    source 50
    target 74
    bandwidth 1000000000
    latency 215
  ]
  edge [
    source 50
    target 59
    bandwidth 100000000
    latency 5321
  ]
  edge [
    source 50
    target 77
    bandwidth 100000000
    latency 5910
  ]
  edge [
    source 51
    target 59
    bandwidth 1000000000
    latency 178
  ]
  edge [
    source 51
    target 75
    bandwidth 1000000000
    latency 120
  ]
  edge [
    source 51
    target 60
    bandwidth 100000000
    latency 4379
  ]
  edge [
    source 51
    target 78
    bandwidth 100000000
    latency 7790
  ]
  edge [
    source 52
    target 60
    bandwidth 1000000000
    latency 260
  ]
  edge [
    source 52
    target 76
    bandwidth 1000000000
    latency 236
  ]
  edge [
    source 52
    target 61
    bandwidth 100000000
    latency 9308
  ]
  edge [
    source 52
    target 79
    bandwidth 100000000
    latency 7860
  ]
  edge [
    source 53
    target 61
    bandwidth 1000000000
    latency 279
  ]
  edge [
    source 53
    target 77
    bandwidth 1000000000
    latency 272
  ]
  edge [
    source 53
    target 62
    bandwidth 100000000
    latency 5602
  ]
  edge [
    source 53
    target 72
    bandwidth 100000000
    latency 4544
  ]
  edge [
    source 54
    target 62
    bandwidth 1000000000
    latency 205
  ]
  edge [
    source 54
    target 78
    bandwidth 1000000000
    latency 261
  ]
  edge [
    source 54
    target 63
    bandwidth 100000000
    latency 7613
  ]
  edge [
    source 54
    target 73
    bandwidth 100000000
    latency 6263
  ]
  edge [
    source 55
    target 63
    bandwidth 1000000000
    latency 147
  ]
  edge [
    source 55
    target 79
    bandwidth 1000000000
    latency 291
  ]
  edge [
    source 55
    target 56
    bandwidth 100000000
    latency 8823
  ]
  edge [
    source 55
    target 74
    bandwidth 100000000
    latency 6626
  ]
  edge [
    source 56
    target 64
    bandwidth 1000000000
    latency 176
  ]
  edge [
    source 57
    target 65
    bandwidth 1000000000
    latency 295
  ]
  edge [
    source 58
    target 66
    bandwidth 1000000000
    latency 173
  ]
  edge [
    source 59
    target 67
    bandwidth 1000000000
    latency 166
  ]
  edge [
    source 60
    target 68
    bandwidth 1000000000
    latency 171
  ]
  edge [
    source 61
    target 69
    bandwidth 1000000000
    latency 187
  ]
  edge [
    source 62
    target 70
    bandwidth 1000000000
    latency 151
  ]
  edge [
    source 63
    target 71
    bandwidth 1000000000
    latency 191
  ]
  edge [
    source 64
    target 72
    bandwidth 1000000000
    latency 101
  ]
  edge [
    source 65
    target 73
    bandwidth 1000000000
    latency 230
  ]
  edge [
    source 66
    target 74
    bandwidth 1000000000
    latency 210
  ]
  edge [
    source 67
    target 75
    bandwidth 1000000000
    latency 111
  ]
  edge [
    source 68
    target 76
    bandwidth 1000000000
    latency 232
  ]
  edge [
    source 69
    target 77
    bandwidth 1000000000
    latency 137
  ]
  edge [
    source 70
    target 78
    bandwidth 1000000000
    latency 262
  ]
  edge [
    source 71
    target 79
    bandwidth 1000000000
    latency 211
  ]
]
