graph [
  node [
    id 0
    label "0"
  ]
  node [
    id 1
    label "1"
  ]
  node [
    id 2
    label "2"
  ]
  node [
    id 3
    label "3"
  ]
  node [
    id 4
    label "4"
  ]
  node [
    id 5
    label "5"
  ]
  node [
    id 6
    label "6"
  ]
  node [
    id 7
    label "7"
  ]
  node [
    id 8
    label "8"
  ]
  node [
    id 9
    label "9"
  ]
  node [
    id 10
    label "10"
  ]
  node [
    id 11
    label "11"
  ]
  node [
    id 12
    label "12"
  ]
  node [
    id 13
    label "13"
  ]
  node [
    id 14
    label "14"
  ]
  node [
    id 15
    label "15"
  ]
  node [
    id 16
    label "16"
  ]
  node [
    id 17
    label "17"
  ]
  node [
    id 18
    label "18"
  ]
  node [
    id 19
    label "19"
  ]
  node [
    id 20
    label "20"
  ]
  node [
    id 21
    label "21"
  ]
  node [
    id 22
    label "22"
  ]
  node [
    id 23
    label "23"
  ]
  node [
    id 24
    label "24"
  ]
  node [
    id 25
    label "25"
  ]
  node [
    id 26
    label "26"
  ]
  node [
    id 27
    label "27"
  ]
  node [
    id 28
    label "28"
  ]
  node [
    id 29
    label "29"
  ]
  node [
    id 30
    label "30"
  ]
  node [
    id 31
    label "31"
  ]
  node [
    id 32
    label "32"
  ]
  node [
    id 33
    label "33"
  ]
  node [
    id 34
    label "34"
  ]
  node [
    id 35
    label "35"
  ]
  node [
    id 36
    label "36"
  ]
  node [
    id 37
    label "37"
  ]
  node [
    id 38
    label "38"
  ]
  node [
    id 39
    label "39"
  ]
  node [
    id 40
    label "40"
  ]
  node [
    id 41
    label "41"
  ]
  node [
    id 42
    label "42"
  ]
  node [
    id 43
    label "43"
  ]
  node [
    id 44
    label "44"
  ]
  node [
    id 45
    label "45"
  ]
  node [
    id 46
    label "46"
  ]
  node [
    id 47
    label "47"
  ]
  node [
    id 48
    label "48"
  ]
  node [
    id 49
    label "49"
  ]
  node [
    id 50
    label "50"
  ]
  node [
    id 51
    label "51"
  ]
  node [
    id 52
    label "52"
  ]
  node [
    id 53
    label "53"
  ]
  node [
    id 54
    label "54"
  ]
  node [
    id 55
    label "55"
  ]
  node [
    id 56
    label "56"
  ]
  node [
    id 57
    label "57"
  ]
  node [
    id 58
    label "58"
  ]
  node [
    id 59
    label "59"
  ]
  node [
    id 60
    label "60"
    address "10.1.0.1"
  ]
  node [
    id 61
    label "61"
    address "10.1.0.2"
  ]
  node [
    id 62
    label "62"
    address "10.1.0.3"
  ]
  node [
    id 63
    label "63"
    address "10.1.0.4"
  ]
  node [
    id 64
    label "64"
    address "10.1.0.5"
  ]
  node [
    id 65
    label "65"
    address "10.1.0.6"
  ]
  node [
    id 66
    label "66"
    address "10.1.0.7"
  ]
  node [
    id 67
    label "67"
    address "10.1.0.8"
  ]
  node [
    id 68
    label "68"
    address "10.1.0.9"
  ]
  node [
    id 69
    label "69"
    address "10.1.0.10"
  ]
  node [
    id 70
    label "70"
    address "10.1.0.11"
  ]
  node [
    id 71
    label "71"
    address "10.1.0.12"
  ]
  node [
    id 72
    label "72"
    address "10.1.0.13"
  ]
  node [
    id 73
    label "73"
    address "10.1.0.14"
  ]
  node [
    id 74
    label "74"
    address "10.1.0.15"
  ]
  node [
    id 75
    label "75"
    address "10.1.0.16"
  ]
  node [
    id 76
    label "76"
    address "10.1.0.17"
  ]
  node [
    id 77
    label "77"
    address "10.1.0.18"
  ]
  node [
    id 78
    label "78"
    address "10.1.0.19"
  ]
  node [
    id 79
    label "79"
    address "10.1.0.20"
  ]
  node [
    id 80
    label "80"
    address "10.1.0.21"
  ]
  node [
    id 81
    label "81"
    address "10.1.0.22"
  ]
  node [
    id 82
    label "82"
    address "10.1.0.23"
  ]
  node [
    id 83
    label "83"
    address "10.1.0.24"
  ]
  node [
    id 84
    label "84"
    address "10.1.0.25"
  ]
  node [
    id 85
    label "85"
    address "10.1.0.26"
  ]
  node [
    id 86
    label "86"
    address "10.1.0.27"
  ]
  node [
    id 87
    label "87"
    address "10.1.0.28"
  ]
  node [
    id 88
    label "88"
    address "10.1.0.29"
  ]
  node [
    id 89
    label "89"
    address "10.1.0.30"
  ]
  node [
    id 90
    label "90"
    address "10.1.0.31"
  ]
  node [
    id 91
    label "91"
    address "10.1.0.32"
  ]
  node [
    id 92
    label "92"
    address "10.1.0.33"
  ]
  node [
    id 93
    label "93"
    address "10.1.0.34"
  ]
  node [
    id 94
    label "94"
    address "10.1.0.35"
  ]
  node [
    id 95
    label "95"
    address "10.1.0.36"
  ]
  node [
    id 96
    label "96"
    address "10.1.0.37"
  ]
  node [
    id 97
    label "97"
    address "10.1.0.38"
  ]
  node [
    id 98
    label "98"
    address "10.1.0.39"
  ]
  node [
    id 99
    label "99"
    address "10.1.0.40"
  ]
  node [
    id 100
    label "100"
    address "10.1.0.41"
  ]
  node [
    id 101
    label "101"
    address "10.1.0.42"
  ]
  node [
    id 102
    label "102"
    address "10.1.0.43"
  ]
  node [
    id 103
    label "103"
    address "10.1.0.44"
  ]
  node [
    id 104
    label "104"
    address "10.1.0.45"
  ]
  node [
    id 105
    label "105"
    address "10.1.0.46"
  ]
  node [
    id 106
    label "106"
    address "10.1.0.47"
  ]
  node [
    id 107
    label "107"
    address "10.1.0.48"
  ]
  node [
    id 108
    label "108"
    address "10.1.0.49"
  ]
  node [
    id 109
    label "109"
    address "10.1.0.50"
  ]
  node [
    id 110
    label "110"
    address "10.1.0.51"
  ]
  node [
    id 111
    label "111"
    address "10.1.0.52"
  ]
  node [
    id 112
    label "112"
    address "10.1.0.53"
  ]
  node [
    id 113
    label "113"
    address "10.1.0.54"
  ]
  node [
    id 114
    label "114"
    address "10.1.0.55"
  ]
  node [
    id 115
    label "115"
    address "10.1.0.56"
  ]
  node [
    id 116
    label "116"
    address "10.1.0.57"
  ]
  node [
    id 117
    label "117"
    address "10.1.0.58"
  ]
  node [
    id 118
    label "118"
    address "10.1.0.59"
  ]
  node [
    id 119
    label "119"
    address "10.1.0.60"
  ]
  node [
    id 120
    label "120"
    address "10.1.0.61"
  ]
  node [
    id 121
    label "121"
    address "10.1.0.62"
  ]
  node [
    id 122
    label "122"
    address "10.1.0.63"
  ]
  node [
    id 123
    label "123"
    address "10.1.0.64"
  ]
  node [
    id 124
    label "124"
    address "10.1.0.65"
  ]
  node [
    id 125
    label "125"
    address "10.1.0.66"
  ]
  node [
    id 126
    label "126"
    address "10.1.0.67"
  ]
  node [
    id 127
    label "127"
    address "10.1.0.68"
  ]
  node [
    id 128
    label "128"
    address "10.1.0.69"
  ]
  node [
    id 129
    label "129"
    address "10.1.0.70"
  ]
  node [
    id 130
    label "130"
    address "10.1.0.71"
  ]
  node [
    id 131
    label "131"
    address "10.1.0.72"
  ]
  node [
    id 132
    label "132"
    address "10.1.0.73"
  ]
  node [
    id 133
    label "133"
    address "10.1.0.74"
  ]
  node [
    id 134
    label "134"
    address "10.1.0.75"
  ]
  node [
    id 135
    label "135"
    address "10.1.0.76"
  ]
  node [
    id 136
    label "136"
    address "10.1.0.77"
  ]
  node [
    id 137
    label "137"
    address "10.1.0.78"
  ]
  node [
    id 138
    label "138"
    address "10.1.0.79"
  ]
  node [
    id 139
    label "139"
    address "10.1.0.80"
  ]
  node [
    id 140
    label "140"
    address "10.1.0.81"
  ]
  node [
    id 141
    label "141"
    address "10.1.0.82"
  ]
  node [
    id 142
    label "142"
    address "10.1.0.83"
  ]
  node [
    id 143
    label "143"
    address "10.1.0.84"
  ]
  node [
    id 144
    label "144"
    address "10.1.0.85"
  ]
  node [
    id 145
    label "145"
    address "10.1.0.86"
  ]
  node [
    id 146
    label "146"
    address "10.1.0.87"
  ]
  node [
    id 147
    label "147"
    address "10.1.0.88"
  ]
  node [
    id 148
    label "148"
    address "10.1.0.89"
  ]
  node [
    id 149
    label "149"
    address "10.1.0.90"
  ]
  node [
    id 150
    label "150"
    address "10.1.0.91"
  ]
  node [
    id 151
    label "151"
    address "10.1.0.92"
  ]
  node [
    id 152
    label "152"
    address "10.1.0.93"
  ]
  node [
    id 153
    label "153"
    address "10.1.0.94"
  ]
  node [
    id 154
    label "154"
    address "10.1.0.95"
  ]
  node [
    id 155
    label "155"
    address "10.1.0.96"
  ]
  node [
    id 156
    label "156"
    address "10.1.0.97"
  ]
  node [
    id 157
    label "157"
    address "10.1.0.98"
  ]
  node [
    id 158
    label "158"
    address "10.1.0.99"
  ]
  node [
    id 159
    label "159"
    address "10.1.0.100"
  ]
  node [
    id 160
    label "160"
    address "10.1.0.101"
  ]
  node [
    id 161
    label "161"
    address "10.1.0.102"
  ]
  node [
    id 162
    label "162"
    address "10.1.0.103"
  ]
  node [
    id 163
    label "163"
    address "10.1.0.104"
  ]
  node [
    id 164
    label "164"
    address "10.1.0.105"
  ]
  node [
    id 165
    label "165"
    address "10.1.0.106"
  ]
  node [
    id 166
    label "166"
    address "10.1.0.107"
  ]
  node [
    id 167
    label "167"
    address "10.1.0.108"
  ]
  node [
    id 168
    label "168"
    address "10.1.0.109"
  ]
  node [
    id 169
    label "169"
    address "10.1.0.110"
  ]
  node [
    id 170
    label "170"
    address "10.1.0.111"
  ]
  node [
    id 171
    label "171"
    address "10.1.0.112"
  ]
  node [
    id 172
    label "172"
    address "10.1.0.113"
  ]
  node [
    id 173
    label "173"
    address "10.1.0.114"
  ]
  node [
    id 174
    label "174"
    address "10.1.0.115"
  ]
  node [
    id 175
    label "175"
    address "10.1.0.116"
  ]
  node [
    id 176
    label "176"
    address "10.1.0.117"
  ]
  node [
    id 177
    label "177"
    address "10.1.0.118"
  ]
  node [
    id 178
    label "178"
    address "10.1.0.119"
  ]
  node [
    id 179
    label "179"
    address "10.1.0.120"
  ]
  node [
    id 180
    label "180"
    address "10.1.0.121"
  ]
  node [
    id 181
    label "181"
    address "10.1.0.122"
  ]
  node [
    id 182
    label "182"
    address "10.1.0.123"
  ]
  node [
    id 183
    label "183"
    address "10.1.0.124"
  ]
  node [
    id 184
    label "184"
    address "10.1.0.125"
  ]
  node [
    id 185
    label "185"
    address "10.1.0.126"
  ]
  node [
    id 186
    label "186"
    address "10.1.0.127"
  ]
  node [
    id 187
    label "187"
    address "10.1.0.128"
  ]
  node [
    id 188
    label "188"
    address "10.1.0.129"
  ]
  node [
    id 189
    label "189"
    address "10.1.0.130"
  ]
  node [
    id 190
    label "190"
    address "10.1.0.131"
  ]
  node [
    id 191
    label "191"
    address "10.1.0.132"
  ]
  node [
    id 192
    label "192"
    address "10.1.0.133"
  ]
  node [
    id 193
    label "193"
    address "10.1.0.134"
  ]
  node [
    id 194
    label "194"
    address "10.1.0.135"
  ]
  node [
    id 195
    label "195"
    address "10.1.0.136"
  ]
  node [
    id 196
    label "196"
    address "10.1.0.137"
  ]
  node [
    id 197
    label "197"
    address "10.1.0.138"
  ]
  node [
    id 198
    label "198"
    address "10.1.0.139"
  ]
  node [
    id 199
    label "199"
    address "10.1.0.140"
  ]
  edge [
    source 0
    target 1
    bandwidth 10000000
    latency 2850
    queue 40
  ]
  edge [
    source 0
    target 11
    bandwidth 10000000
    latency 830
    queue 40
  ]
  edge [
    source 0
    target 2
    bandwidth 10000000
    latency 2486
    queue 40
  ]
  edge [
    source 0
    target 3
    bandwidth 10000000
    latency 1571
    queue 40
  ]
  edge [
    source 0
    target 15
    bandwidth 30000000
    latency 484
    queue 40
  ]
  edge [
    source 0
    target 24
    bandwidth 30000000
    latency 386
    queue 40
  ]
  edge [
    source 1
    target 2
    bandwidth 10000000
    latency 650
    queue 40
  ]
  edge [
    source 1
    target 3
    bandwidth 10000000
    latency 501
    queue 40
  ]
  edge [
    source 1
    target 11
    bandwidth 10000000
    latency 1096
    queue 40
  ]
  edge [
    source 1
    target 7
    bandwidth 10000000
    latency 2902
    queue 40
  ]
  edge [
    source 1
    target 10
    bandwidth 10000000
    latency 2426
    queue 40
  ]
  edge [
    source 1
    target 12
    bandwidth 30000000
    latency 471
    queue 40
  ]
  edge [
    source 1
    target 13
    bandwidth 30000000
    latency 509
    queue 40
  ]
  edge [
    source 1
    target 14
    bandwidth 30000000
    latency 449
    queue 40
  ]
  edge [
    source 1
    target 15
    bandwidth 30000000
    latency 402
    queue 40
  ]
  edge [
    source 1
    target 21
    bandwidth 30000000
    latency 437
    queue 40
  ]
  edge [
    source 2
    target 3
    bandwidth 10000000
    latency 2028
    queue 40
  ]
  edge [
    source 2
    target 8
    bandwidth 10000000
    latency 1808
    queue 40
  ]
  edge [
    source 2
    target 23
    bandwidth 30000000
    latency 567
    queue 40
  ]
  edge [
    source 2
    target 27
    bandwidth 30000000
    latency 327
    queue 40
  ]
  edge [
    source 3
    target 5
    bandwidth 10000000
    latency 589
    queue 40
  ]
  edge [
    source 3
    target 9
    bandwidth 10000000
    latency 1616
    queue 40
  ]
  edge [
    source 3
    target 16
    bandwidth 30000000
    latency 594
    queue 40
  ]
  edge [
    source 3
    target 18
    bandwidth 30000000
    latency 520
    queue 40
  ]
  edge [
    source 3
    target 22
    bandwidth 30000000
    latency 547
    queue 40
  ]
  edge [
    source 3
    target 23
    bandwidth 30000000
    latency 407
    queue 40
  ]
  edge [
    source 3
    target 24
    bandwidth 30000000
    latency 308
    queue 40
  ]
  edge [
    source 4
    target 6
    bandwidth 10000000
    latency 2502
    queue 40
  ]
  edge [
    source 4
    target 9
    bandwidth 10000000
    latency 1311
    queue 40
  ]
  edge [
    source 4
    target 27
    bandwidth 30000000
    latency 550
    queue 40
  ]
  edge [
    source 5
    target 6
    bandwidth 10000000
    latency 2195
    queue 40
  ]
  edge [
    source 5
    target 7
    bandwidth 10000000
    latency 2704
    queue 40
  ]
  edge [
    source 5
    target 13
    bandwidth 30000000
    latency 428
    queue 40
  ]
  edge [
    source 5
    target 19
    bandwidth 30000000
    latency 361
    queue 40
  ]
  edge [
    source 5
    target 25
    bandwidth 30000000
    latency 456
    queue 40
  ]
  edge [
    source 5
    target 26
    bandwidth 30000000
    latency 570
    queue 40
  ]
  edge [
    source 6
    target 7
    bandwidth 10000000
    latency 2708
    queue 40
  ]
  edge [
    source 6
    target 8
    bandwidth 10000000
    latency 885
    queue 40
  ]
  edge [
    source 6
    target 26
    bandwidth 30000000
    latency 499
    queue 40
  ]
  edge [
    source 7
    target 8
    bandwidth 10000000
    latency 1290
    queue 40
  ]
  edge [
    source 7
    target 14
    bandwidth 30000000
    latency 400
    queue 40
  ]
  edge [
    source 7
    target 16
    bandwidth 30000000
    latency 563
    queue 40
  ]
  edge [
    source 8
    target 9
    bandwidth 10000000
    latency 2807
    queue 40
  ]
  edge [
    source 8
    target 10
    bandwidth 10000000
    latency 2767
    queue 40
  ]
  edge [
    source 8
    target 17
    bandwidth 30000000
    latency 485
    queue 40
  ]
  edge [
    source 8
    target 20
    bandwidth 30000000
    latency 568
    queue 40
  ]
  edge [
    source 9
    target 11
    bandwidth 10000000
    latency 1587
    queue 40
  ]
  edge [
    source 9
    target 18
    bandwidth 30000000
    latency 455
    queue 40
  ]
  edge [
    source 9
    target 19
    bandwidth 30000000
    latency 345
    queue 40
  ]
  edge [
    source 9
    target 21
    bandwidth 30000000
    latency 459
    queue 40
  ]
  edge [
    source 10
    target 11
    bandwidth 10000000
    latency 2998
    queue 40
  ]
  edge [
    source 10
    target 12
    bandwidth 30000000
    latency 517
    queue 40
  ]
  edge [
    source 10
    target 17
    bandwidth 30000000
    latency 314
    queue 40
  ]
  edge [
    source 10
    target 20
    bandwidth 30000000
    latency 401
    queue 40
  ]
  edge [
    source 10
    target 25
    bandwidth 30000000
    latency 585
    queue 40
  ]
  edge [
    source 11
    target 22
    bandwidth 30000000
    latency 494
    queue 40
  ]
  edge [
    source 12
    target 32
    bandwidth 100000000
    latency 100
    queue 40
  ]
  edge [
    source 12
    target 48
    bandwidth 100000000
    latency 100
    queue 40
  ]
  edge [
    source 13
    target 33
    bandwidth 100000000
    latency 100
    queue 40
  ]
  edge [
    source 13
    target 49
    bandwidth 100000000
    latency 100
    queue 40
  ]
  edge [
    source 14
    target 34
    bandwidth 100000000
    latency 100
    queue 40
  ]
  edge [
    source 14
    target 50
    bandwidth 100000000
    latency 100
    queue 40
  ]
  edge [
    source 15
    target 35
    bandwidth 100000000
    latency 100
    queue 40
  ]
  edge [
    source 15
    target 51
    bandwidth 100000000
    latency 100
    queue 40
  ]
  edge [
    source 16
    target 36
    bandwidth 100000000
    latency 100
    queue 40
  ]
  edge [
    source 16
    target 52
    bandwidth 100000000
    latency 100
    queue 40
  ]
  edge [
    source 17
    target 37
    bandwidth 100000000
    latency 100
    queue 40
  ]
  edge [
    source 17
    target 53
    bandwidth 100000000
    latency 100
    queue 40
  ]
  edge [
    source 18
    target 38
    bandwidth 100000000
    latency 100
    queue 40
  ]
  edge [
    source 18
    target 54
    bandwidth 100000000
    latency 100
    queue 40
  ]
  edge [
    source 19
    target 39
    bandwidth 100000000
    latency 100
    queue 40
  ]
  edge [
    source 19
    target 55
    bandwidth 100000000
    latency 100
    queue 40
  ]
  edge [
    source 20
    target 40
    bandwidth 100000000
    latency 100
    queue 40
  ]
  edge [
    source 20
    target 56
    bandwidth 100000000
    latency 100
    queue 40
  ]
  edge [
    source 21
    target 41
    bandwidth 100000000
    latency 100
    queue 40
  ]
  edge [
    source 21
    target 57
    bandwidth 100000000
    latency 100
    queue 40
  ]
  edge [
    source 22
    target 42
    bandwidth 100000000
    latency 100
    queue 40
  ]
  edge [
    source 22
    target 58
    bandwidth 100000000
    latency 100
    queue 40
  ]
  edge [
    source 23
    target 43
    bandwidth 100000000
    latency 100
    queue 40
  ]
  edge [
    source 23
    target 59
    bandwidth 100000000
    latency 100
    queue 40
  ]
  edge [
    source 24
    target 28
    bandwidth 100000000
    latency 100
    queue 40
  ]
  edge [
    source 24
    target 44
    bandwidth 100000000
    latency 100
    queue 40
  ]
  edge [
    source 25
    target 29
    bandwidth 100000000
    latency 100
    queue 40
  ]
  edge [
    source 25
    target 45
    bandwidth 100000000
    latency 100
    queue 40
  ]
  edge [
    source 26
    target 30
    bandwidth 100000000
    latency 100
    queue 40
  ]
  edge [
    source 26
    target 46
    bandwidth 100000000
    latency 100
    queue 40
  ]
  edge [
    source 27
    target 31
    bandwidth 100000000
    latency 100
    queue 40
  ]
  edge [
    source 27
    target 47
    bandwidth 100000000
    latency 100
    queue 40
  ]
  edge [
    source 28
    target 113
    bandwidth 100000000
    latency 50
  ]
  edge [
    source 28
    target 126
    bandwidth 100000000
    latency 50
  ]
  edge [
    source 29
    target 81
    bandwidth 100000000
    latency 50
  ]
  edge [
    source 29
    target 82
    bandwidth 100000000
    latency 50
  ]
  edge [
    source 29
    target 117
    bandwidth 100000000
    latency 50
  ]
  edge [
    source 29
    target 146
    bandwidth 100000000
    latency 50
  ]
  edge [
    source 29
    target 153
    bandwidth 100000000
    latency 50
  ]
  edge [
    source 30
    target 139
    bandwidth 100000000
    latency 50
  ]
  edge [
    source 30
    target 142
    bandwidth 100000000
    latency 50
  ]
  edge [
    source 30
    target 167
    bandwidth 100000000
    latency 50
  ]
  edge [
    source 30
    target 176
    bandwidth 100000000
    latency 50
  ]
  edge [
    source 30
    target 180
    bandwidth 100000000
    latency 50
  ]
  edge [
    source 30
    target 184
    bandwidth 100000000
    latency 50
  ]
  edge [
    source 31
    target 115
    bandwidth 100000000
    latency 50
  ]
  edge [
    source 31
    target 122
    bandwidth 100000000
    latency 50
  ]
  edge [
    source 31
    target 185
    bandwidth 100000000
    latency 50
  ]
  edge [
    source 32
    target 70
    bandwidth 100000000
    latency 50
  ]
  edge [
    source 32
    target 129
    bandwidth 100000000
    latency 50
  ]
  edge [
    source 32
    target 145
    bandwidth 100000000
    latency 50
  ]
  edge [
    source 32
    target 162
    bandwidth 100000000
    latency 50
  ]
  edge [
    source 32
    target 189
    bandwidth 100000000
    latency 50
  ]
  edge [
    source 32
    target 196
    bandwidth 100000000
    latency 50
  ]
  edge [
    source 32
    target 198
    bandwidth 100000000
    latency 50
  ]
  edge [
    source 33
    target 66
    bandwidth 100000000
    latency 50
  ]
  edge [
    source 33
    target 75
    bandwidth 100000000
    latency 50
  ]
  edge [
    source 33
    target 148
    bandwidth 100000000
    latency 50
  ]
  edge [
    source 33
    target 168
    bandwidth 100000000
    latency 50
  ]
  edge [
    source 33
    target 177
    bandwidth 100000000
    latency 50
  ]
  edge [
    source 34
    target 63
    bandwidth 100000000
    latency 50
  ]
  edge [
    source 34
    target 132
    bandwidth 100000000
    latency 50
  ]
  edge [
    source 34
    target 140
    bandwidth 100000000
    latency 50
  ]
  edge [
    source 34
    target 141
    bandwidth 100000000
    latency 50
  ]
  edge [
    source 35
    target 83
    bandwidth 100000000
    latency 50
  ]
  edge [
    source 35
    target 118
    bandwidth 100000000
    latency 50
  ]
  edge [
    source 35
    target 191
    bandwidth 100000000
    latency 50
  ]
  edge [
    source 36
    target 147
    bandwidth 100000000
    latency 50
  ]
  edge [
    source 36
    target 154
    bandwidth 100000000
    latency 50
  ]
  edge [
    source 36
    target 193
    bandwidth 100000000
    latency 50
  ]
  edge [
    source 36
    target 197
    bandwidth 100000000
    latency 50
  ]
  edge [
    source 37
    target 98
    bandwidth 100000000
    latency 50
  ]
  edge [
    source 37
    target 124
    bandwidth 100000000
    latency 50
  ]
  edge [
    source 37
    target 135
    bandwidth 100000000
    latency 50
  ]
  edge [
    source 37
    target 138
    bandwidth 100000000
    latency 50
  ]
  edge [
    source 38
    target 105
    bandwidth 100000000
    latency 50
  ]
  edge [
    source 38
    target 111
    bandwidth 100000000
    latency 50
  ]
  edge [
    source 38
    target 149
    bandwidth 100000000
    latency 50
  ]
  edge [
    source 38
    target 190
    bandwidth 100000000
    latency 50
  ]
  edge [
    source 39
    target 60
    bandwidth 100000000
    latency 50
  ]
  edge [
    source 39
    target 80
    bandwidth 100000000
    latency 50
  ]
  edge [
    source 39
    target 116
    bandwidth 100000000
    latency 50
  ]
  edge [
    source 39
    target 181
    bandwidth 100000000
    latency 50
  ]
  edge [
    source 40
    target 76
    bandwidth 100000000
    latency 50
  ]
  edge [
    source 40
    target 86
    bandwidth 100000000
    latency 50
  ]
  edge [
    source 40
    target 123
    bandwidth 100000000
    latency 50
  ]
  edge [
    source 40
    target 155
    bandwidth 100000000
    latency 50
  ]
  edge [
    source 41
    target 186
    bandwidth 100000000
    latency 50
  ]
  edge [
    source 42
    target 131
    bandwidth 100000000
    latency 50
  ]
  edge [
    source 43
    target 65
    bandwidth 100000000
    latency 50
  ]
  edge [
    source 43
    target 136
    bandwidth 100000000
    latency 50
  ]
  edge [
    source 43
    target 178
    bandwidth 100000000
    latency 50
  ]
  edge [
    source 43
    target 179
    bandwidth 100000000
    latency 50
  ]
  edge [
    source 44
    target 84
    bandwidth 100000000
    latency 50
  ]
  edge [
    source 44
    target 87
    bandwidth 100000000
    latency 50
  ]
  edge [
    source 44
    target 90
    bandwidth 100000000
    latency 50
  ]
  edge [
    source 44
    target 150
    bandwidth 100000000
    latency 50
  ]
  edge [
    source 45
    target 77
    bandwidth 100000000
    latency 50
  ]
  edge [
    source 45
    target 94
    bandwidth 100000000
    latency 50
  ]
  edge [
    source 45
    target 107
    bandwidth 100000000
    latency 50
  ]
  edge [
    source 45
    target 125
    bandwidth 100000000
    latency 50
  ]
  edge [
    source 45
    target 160
    bandwidth 100000000
    latency 50
  ]
  edge [
    source 45
    target 169
    bandwidth 100000000
    latency 50
  ]
  edge [
    source 45
    target 170
    bandwidth 100000000
    latency 50
  ]
  edge [
    source 45
    target 171
    bandwidth 100000000
    latency 50
  ]
  edge [
    source 46
    target 112
    bandwidth 100000000
    latency 50
  ]
  edge [
    source 46
    target 163
    bandwidth 100000000
    latency 50
  ]
  edge [
    source 46
    target 165
    bandwidth 100000000
    latency 50
  ]
  edge [
    source 47
    target 73
    bandwidth 100000000
    latency 50
  ]
  edge [
    source 47
    target 101
    bandwidth 100000000
    latency 50
  ]
  edge [
    source 48
    target 103
    bandwidth 100000000
    latency 50
  ]
  edge [
    source 48
    target 108
    bandwidth 100000000
    latency 50
  ]
  edge [
    source 48
    target 137
    bandwidth 100000000
    latency 50
  ]
  edge [
    source 49
    target 89
    bandwidth 100000000
    latency 50
  ]
  edge [
    source 49
    target 182
    bandwidth 100000000
    latency 50
  ]
  edge [
    source 49
    target 188
    bandwidth 100000000
    latency 50
  ]
  edge [
    source 50
    target 199
    bandwidth 100000000
    latency 50
  ]
  edge [
    source 51
    target 85
    bandwidth 100000000
    latency 50
  ]
  edge [
    source 51
    target 104
    bandwidth 100000000
    latency 50
  ]
  edge [
    source 51
    target 119
    bandwidth 100000000
    latency 50
  ]
  edge [
    source 51
    target 120
    bandwidth 100000000
    latency 50
  ]
  edge [
    source 51
    target 133
    bandwidth 100000000
    latency 50
  ]
  edge [
    source 51
    target 134
    bandwidth 100000000
    latency 50
  ]
  edge [
    source 51
    target 164
    bandwidth 100000000
    latency 50
  ]
  edge [
    source 51
    target 166
    bandwidth 100000000
    latency 50
  ]
  edge [
    source 51
    target 175
    bandwidth 100000000
    latency 50
  ]
  edge [
    source 51
    target 183
    bandwidth 100000000
    latency 50
  ]
  edge [
    source 52
    target 69
    bandwidth 100000000
    latency 50
  ]
  edge [
    source 52
    target 99
    bandwidth 100000000
    latency 50
  ]
  edge [
    source 52
    target 106
    bandwidth 100000000
    latency 50
  ]
  edge [
    source 53
    target 62
    bandwidth 100000000
    latency 50
  ]
  edge [
    source 53
    target 109
    bandwidth 100000000
    latency 50
  ]
  edge [
    source 53
    target 192
    bandwidth 100000000
    latency 50
  ]
  edge [
    source 54
    target 74
    bandwidth 100000000
    latency 50
  ]
  edge [
    source 54
    target 91
    bandwidth 100000000
    latency 50
  ]
  edge [
    source 54
    target 92
    bandwidth 100000000
    latency 50
  ]
  edge [
    source 55
    target 61
    bandwidth 100000000
    latency 50
  ]
  edge [
    source 55
    target 71
    bandwidth 100000000
    latency 50
  ]
  edge [
    source 55
    target 127
    bandwidth 100000000
    latency 50
  ]
  edge [
    source 55
    target 173
    bandwidth 100000000
    latency 50
  ]
  edge [
    source 55
    target 187
    bandwidth 100000000
    latency 50
  ]
  edge [
    source 56
    target 64
    bandwidth 100000000
    latency 50
  ]
  edge [
    source 56
    target 67
    bandwidth 100000000
    latency 50
  ]
  edge [
    source 56
    target 68
    bandwidth 100000000
    latency 50
  ]
  edge [
    source 56
    target 78
    bandwidth 100000000
    latency 50
  ]
  edge [
    source 56
    target 88
    bandwidth 100000000
    latency 50
  ]
  edge [
    source 56
    target 114
    bandwidth 100000000
    latency 50
  ]
  edge [
    source 56
    target 151
    bandwidth 100000000
    latency 50
  ]
  edge [
    source 56
    target 156
    bandwidth 100000000
    latency 50
  ]
  edge [
    source 56
    target 158
    bandwidth 100000000
    latency 50
  ]
  edge [
    source 56
    target 159
    bandwidth 100000000
    latency 50
  ]
  edge [
    source 56
    target 174
    bandwidth 100000000
    latency 50
  ]
  edge [
    source 57
    target 102
    bandwidth 100000000
    latency 50
  ]
  edge [
    source 57
    target 144
    bandwidth 100000000
    latency 50
  ]
  edge [
    source 57
    target 194
    bandwidth 100000000
    latency 50
  ]
  edge [
    source 58
    target 72
    bandwidth 100000000
    latency 50
  ]
  edge [
    source 58
    target 95
    bandwidth 100000000
    latency 50
  ]
  edge [
    source 58
    target 96
    bandwidth 100000000
    latency 50
  ]
  edge [
    source 58
    target 130
    bandwidth 100000000
    latency 50
  ]
  edge [
    source 58
    target 143
    bandwidth 100000000
    latency 50
  ]
  edge [
    source 58
    target 157
    bandwidth 100000000
    latency 50
  ]
  edge [
    source 58
    target 161
    bandwidth 100000000
    latency 50
  ]
  edge [
    source 58
    target 172
    bandwidth 100000000
    latency 50
  ]
  edge [
    source 59
    target 79
    bandwidth 100000000
    latency 50
  ]
  edge [
    source 59
    target 93
    bandwidth 100000000
    latency 50
  ]
  edge [
    source 59
    target 97
    bandwidth 100000000
    latency 50
  ]
  edge [
    source 59
    target 100
    bandwidth 100000000
    latency 50
  ]
  edge [
    source 59
    target 110
    bandwidth 100000000
    latency 50
  ]
  edge [
    source 59
    target 121
    bandwidth 100000000
    latency 50
  ]
  edge [
    source 59
    target 128
    bandwidth 100000000
    latency 50
  ]
  edge [
    source 59
    target 152
    bandwidth 100000000
    latency 50
  ]
  edge [
    source 59
    target 195
    bandwidth 100000000
    latency 50
  ]
]
