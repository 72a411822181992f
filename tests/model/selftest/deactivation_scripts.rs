//! Scripts of DEACTIVATE and DEACTIVATE ACK with the answers that request (i) asks for.
//! In a script of an order each call has all the faults that come after its own.

/// What the script shows, the script, and its answers.
pub const SCRIPTS: [(&str, &str, &str); 9] = [
    (
        "case 9's records: three ACKs of type 5, the post's marks cleared, another post's left",
        "\
record 0 1 1001 0 0 1
record 1 1 1002 0 0 0
record 2 1 1004 0 1 1
post 0 67 249E8001F4A0007D80
dump
post 0 67 249E8001F4A0007D80
post 0 68 249E8001F4A0007D80
post 1 67 249E8001F4A0007D80
dump
",
        "\
4 acks 3 73 80 80 24BE8001F4A0007D9C80 24BE8001F4A0007D9201 24BE8001F4A0007D9102
5 dump | 0:1001:0:0:0 1:1002:0:0:0 2:1004:0:1:1
6 acks 3 73 80 80 24BE8001F4A0007D9C80 24BE8001F4A0007D9201 24BE8001F4A0007D9102
7 refused 13
8 acks 3 73 80 80 24BE8001F4A0007D9180 24BE8001F4A0007D9201 24BE8001F4A0007D9C02
9 dump | 0:1001:0:0:0 1:1002:0:0:0 2:1004:0:1:0
",
    ),
    (
        "DEACTIVATE: 1, 2, reading, 8 for its ACK, 14, 15",
        "\
record 0 1 1001 0 2 1
out 299
place 0 16384 0
post 2 66 249E8001F4A0007D80
post 2 73 24BE8001F4A0007D9C80
unplace 0
post 2 66 249E8001F4A0007D80
post 2 67 249E8001F4A0007D80
post 2 73 24BE8001F4A0007D9C80
post 0 66 249E8001F4A0007D80
post 0 68 249E8001F4A0007D80
post 0 74 24BE8001F4A0007D9C80
post 0 73 24BE8001F4A0007D9C80
post 0 80 24BE8001F4A0007D9201
post 0 43 24A28001F4A0
post 0 67 249E8001F4A0007D80
out 300
post 0 73 24BE8001F4A0007D9C80
post 0 67 249E8001F4A0007D80
dump
record 0 1 1001 0 0 1
post 0 73 24BE8001F4A0007D9C80
dump
post 0 67 249E8001F4A0007D80
dump
",
        "\
4 refused 1
5 refused 1
7 refused 2
8 refused 2
9 refused 2
10 refused 4 at 43 ssi
11 refused 13
12 refused 13
13 refused 8
14 refused 8
15 refused 8
16 refused 14
18 refused 8
19 refused 15
20 dump | 0:1001:0:2:1
22 refused 8
23 dump | 0:1001:0:0:1
24 acks 2 73 80 24BE8001F4A0007D9880 24BE8001F4A0007D9701
25 dump | 0:1001:0:0:0
",
    ),
    (
        "15 for DEACTIVATE: over 128 records, an SSI or an extension over 24 bits; not in use is good",
        "\
record 0 1 1001 0 0 1
record 1 0 16777216 16777216 255 1
post 0 41 24828001F480
record 0 1 1001 0 0 1
record 1 1 16777216 0 0 0
post 0 41 24828001F480
record 1 1 0 16777216 0 0
post 0 41 24828001F480
record 1 0 0 0 0 0
record 128 0 0 0 0 0
post 0 41 24828001F480
dump
",
        "\
3 acks 1 43 24A28001F4A0
6 refused 15
8 refused 15
11 refused 15
12 dump | 0:1001:0:0:1
",
    ),
    (
        "refused in reading: 9, 10, 11, and 7 for the types that are still not carried",
        "\
post 0 15 2488
post 0 15 2480
post 0 14 2488
post 0 17 248200
post 0 17 248380
post 0 16 248380
post 0 67 249E8001F620007D20
post 0 67 249E8001F4A0008520
post 0 67 249E8001F4A0008500
post 0 91 249E8001F4C0007D80000000
post 0 115 249F0001F4800002C0007D800000C0
post 0 67 24BE8001F620007D20
post 0 17 24A380
post 0 15 24A8
post 0 15 24A0
post 0 67 28DE8001F4A0007D80
post 0 67 24DE8001F4A0007D80
post 0 67 24FE8001F4A0007D80
",
        "\
1 refused 9
2 refused 9
3 refused 4 at 11 range
4 refused 10
5 refused 10
6 refused 4 at 15 kind
7 refused 11
8 refused 11
9 acks 1 76 24BE8001F4A000850010
10 refused 11
11 refused 11
12 refused 11
13 refused 10
14 refused 9
15 refused 9
16 refused 5
17 refused 7
18 refused 7
",
    ),
    (
        "waiting calls stay: the call moves and proceeds after both its parties were released",
        "\
record 0 1 1001 0 0 1
record 1 1 1004 0 1 1
setup 1001 0 1004 0 5 2
post 0 41 24828001F480
dump
setup 1001 0 2000 0 6
setup 1001 0 1004 0 6
post 1 41 24828001F600
setup 1001 0 1004 0 7
post 0 25 25800280
dump
post 1 37 2508001F60
post 0 37 2508001F60
post 1 25 25800280
reject 1 6
dump
",
        "\
3 admitted 0 0 254000 25600288
4 acks 1 43 24A28001F4A0
5 dump 0:5:0>1!2 | 0:1001:0:0:0 1:1004:0:1:1
6 free
7 admitted 1 1 254000 25600300
8 acks 1 43 24A28001F620
9 free
10 moved 1 25600288
11 dump 0:5:1!2 1:6:1 | 0:1001:0:0:0 1:1004:0:1:0
12 state not-active 50 25228001F62000
13 state other-post 47 25228001F608
14 proceed 25A0
15 rejected 264000
16 dump | 0:1001:0:0:0 1:1004:0:1:0
",
    ),
    (
        "a released car's calls are diverted, cancelled and rejected; ACTIVATE marks it again",
        "\
record 0 1 1001 0 0 1
setup 1001 0 1 0 5
setup 1001 0 1 0 6
setup 1001 0 1 0 7
post 0 41 24828001F480
setup 1001 0 1 0 8
dump
post 0 25 25E00280
cancel 6
post 0 30 2620038C
post 0 42 24428001F480
setup 1001 0 1 0 5
dump
",
        "\
2 admitted 0 0 254000 25600280
3 admitted 0 1 254000 25600300
4 admitted 0 2 254000 25600380
5 acks 1 43 24A28001F4A0
6 free
7 dump 0:5:0 1:6:0 2:7:0 | 0:1001:0:0:0
8 diverted 260000
9 cancelled 0 25C00300
10 rejected 264300
11 acks 1 43 24628001F4A0
12 admitted 0 0 254000 25600280
13 dump 0:5:0 | 0:1001:0:0:1
",
    ),
    (
        "DEACTIVATE with U = N: one outcome; one identity twice has two mask bits",
        "\
profile 9 0 7 7 16 1 2 3 0 0 0 0 0 0 0 0 0 0 0 17 2 2 30 4 8
record 0 1 1 0 1 1
post 0 67 2484800000A0000060
record 1 1 2 0 0 1
post 0 93 2486800000A0000048000018
post 0 93 248680000120000128000010
dump
",
        "\
3 acks 1 76 24A4800000A000006070
5 acks 2 98 105 24A6800000A000004800001D40 24A6800000A000004800001E8380
6 acks 2 98 105 24A680000120000128000016C0 24A6800001200001280000150380
7 dump | 0:1:0:1:1 1:2:0:0:0
",
    ),
    (
        "the lowest-numbered record in use is cleared and no other; kind 2 with the home extension",
        "\
profile 9 77 1 2 16 1 2 3 0 0 0 0 0 0 0 0 0 0 0 17 2 2 30 4 8
record 2 1 1001 77 1 1
record 5 1 1001 77 1 1
record 0 0 1001 77 1 1
post 1 65 24830001F480002680
dump
post 1 61 2510001F48000268
post 1 41 24828001F480
record 0 1 1001 77 1 1
post 1 41 24828001F480
dump
post 0 41 24828001F480
post 1 41 24828001F500
",
        "\
5 acks 1 67 24A30001F4800026A0
6 dump | 2:1001:77:1:0 5:1001:77:1:1
7 state not-active 74 25230001F4800026A000
8 acks 1 43 24A28001F4A0
10 acks 1 43 24A28001F4A0
11 dump | 0:1001:77:1:0 2:1001:77:1:0 5:1001:77:1:1
12 acks 1 50 24A28001F48080
13 acks 1 50 24A28001F50040
",
    ),
    (
        "a range of 64 with one car of the post: a mask of 64 bits in each of two ACKs",
        "\
record 0 1 1001 0 0 1
post 0 67 249E8001F4A0008500
dump
",
        "\
2 acks 2 133 140 24BE8001F4A00085180000000000000008 24BE8001F4A0008517FFFFFFFFFFFFFFF010
3 dump | 0:1001:0:0:0
",
    ),
];
