//! Scripts with the answers that document 01 asks for.
//! In a script of an order each call has all the faults that come after its own.

/// What the script shows, the script, and its answers.
pub const SCRIPTS: [(&str, &str, &str); 15] = [
    (
        "a post's message: 1, 2, reading, 8, 14, 15, 21",
        "\
record 0 1 1001 0 2 0
out 299
place 0 16384 0
post 2 0
unplace 0
post 2 0
post 0 0
post 0 12 25A0
post 0 11 25A0
post 0 123 24448001F4C00000E00000B8A0000120
out 300
post 0 123 24448001F4C00000E00000B8A0000120
record 0 1 1001 0 0 0
post 0 123 24448001F4C00000E00000B8A0000120
dump
",
        "\
4 refused 1
6 refused 2
7 refused 3
8 refused 13
9 refused 8
10 refused 14
12 refused 15
14 refused 21
15 dump | 0:1001:0:0:0
",
    ),
    (
        "INTERROGATE: 14, 15, and each of its answers",
        "\
record 0 1 1001 0 2 1
out 299
post 0 37 2508001F48
out 300
post 0 37 2508001F48
record 0 0 1001 0 0 1
post 0 37 2508001F48
record 0 1 1001 0 1 1
post 0 37 2508001F48
post 1 37 2508001F48
record 0 1 1001 0 1 0
post 1 37 2508001F48
",
        "\
3 refused 14
5 refused 15
7 state no-record 47 25228001F484
9 state other-post 47 25228001F488
10 state active 50 25228001F4B000
12 state not-active 50 25228001F4A000
",
    ),
    (
        "ACCEPT and DIVERT: 14, 19, 20, without 15",
        "\
record 0 1 1001 0 2 0
out 299
post 0 25 25800280
out 300
post 0 25 25800280
place 7 5 1
post 0 25 25800280
post 1 25 25800280
post 1 25 25800280
place 7 16383 0
post 1 25 25FFFF80
post 0 25 25FFFF80
dump
",
        "\
3 refused 14
5 refused 19
7 refused 20
8 proceed 25A0
9 refused 19
11 refused 20
12 diverted 260000
13 dump | 0:1001:0:2:0
",
    ),
    (
        "set-up: 16, 14, 15, 17, free, 18",
        "\
record 0 1 10 0 1 1
record 1 1 11 0 2 0
place 0 1 1
place 1 2 1
place 2 3 1
place 3 4 1
place 4 5 1
place 5 6 1
place 6 7 1
place 7 8 1
out 299
setup 16777216 0 10 0 1
setup 10 16777216 10 0 1
setup 10 0 16777216 0 1
setup 10 0 10 16777216 1
setup 10 0 10 0 16384
setup 10 0 10 0 1
out 300
setup 10 0 10 0 1
record 1 0 11 0 2 1
setup 10 0 10 0 1
setup 11 0 11 0 1
setup 11 0 11 0 9
setup 10 0 11 0 9
cancel 8
setup 11 0 10 0 9
",
        "\
12 refused 16
13 refused 16
14 refused 16
15 refused 16
16 refused 16
17 refused 14
19 refused 15
21 refused 17
22 refused 17
23 free
24 refused 18
25 cancelled 1 25C00400
26 admitted 1 7 254000 25600480
",
    ),
    (
        "the caller's post before the called party's",
        "\
record 0 1 10 0 1 1
record 1 1 11 0 0 1
setup 10 0 11 0 1
setup 11 0 10 0 2
setup 12 0 10 0 3
dump
",
        "\
3 admitted 1 0 254000 25600080
4 admitted 0 1 254000 25600100
5 admitted 1 2 254000 25600180
6 dump 0:1:1>0 1:2:0>1 2:3:1 | 0:10:0:1:1 1:11:0:0:1
",
    ),
    (
        "reject: 2, 16, 14, 19, 20; cancel: 16, 14, 19",
        "\
out 299
reject 2 16384
reject 0 16384
reject 0 5
cancel 16384
cancel 5
place 3 5 1
reject 0 5
cancel 5
out 300
unplace 3
reject 0 5
place 3 5 1
reject 0 5
reject 1 5
reject 1 5
cancel 5
place 3 5 1
cancel 5
dump
",
        "\
2 refused 2
3 refused 16
4 refused 14
5 refused 16
6 refused 14
8 refused 14
9 refused 14
12 refused 19
14 refused 20
15 rejected 264000
16 refused 19
17 refused 19
19 cancelled 1 25C00280
20 dump |
",
    ),
    (
        "15: over 128 lent records, and only records in use are looked at",
        "\
record 127 0 4294967295 4294967295 255 1
post 0 37 2508001F48
record 128 0 0 0 0 0
post 0 37 2508001F48
setup 1 0 2 0 3
post 0 25 25800280
record 255 1 9 9 1 1
dump
",
        "\
2 state no-record 47 25228001F484
4 refused 15
5 refused 15
6 refused 19
8 dump | 255:9:9:1:1
",
    ),
    (
        "15: SSI or extension over 24 bits, of a record in use",
        "\
record 0 1 16777215 16777215 1 0
post 0 37 2508001F48
record 0 1 16777216 0 0 0
post 0 37 2508001F48
record 0 1 0 16777216 0 0
post 0 37 2508001F48
record 0 0 4294967295 4294967295 255 1
post 0 37 2508001F48
",
        "\
2 state no-record 47 25228001F484
4 refused 15
6 refused 15
8 state no-record 47 25228001F484
",
    ),
    (
        "identity is the pair of SSI and extension",
        "\
record 0 1 1001 77 0 1
post 0 37 2508001F48
post 0 61 2510001F48000268
setup 1001 0 1001 0 1
setup 1001 0 1001 77 1
",
        "\
2 state no-record 47 25228001F484
3 state active 74 25230001F4800026B000
4 free
5 admitted 0 0 254000 25600080
",
    ),
    (
        "1: POSTS is not the number of pairs, nor one less; 8 is no failure reason",
        "\
profile 9 0 1 2 16 1 2 3 0 0 0 0 0 0 0 0 0 0 0 17 1 2 30 4 8
profile 9 0 1 2 16 1 2 3 0 0 0 0 0 0 0 0 0 0 0 17 3 2 30 4 8
profile 9 0 1 2 16 1 2 3 0 0 0 0 0 0 0 0 0 0 0 17 2 2 30 0 0
profile 9 0 1 2 16 1 2 3 0 0 0 0 0 0 0 0 0 0 0 17 1 2 30 0 0 0 0
profile 9 0 1 2 16 1 2 3 0 0 0 0 0 0 0 0 0 0 0 17 0 2 30
profile 9 0 1 2 16 1 2 3 0 0 0 0 0 0 0 0 0 0 0 17 1 2 30
post 1 1
",
        "\
1 refused 1
2 refused 1
3 refused 1
4 refused 1
5 refused 1
7 refused 2
",
    ),
    (
        "the lowest-numbered record in use decides; kind 2 with the home extension is at home",
        "\
profile 9 77 1 2 16 1 2 3 0 0 0 0 0 0 0 0 0 0 0 17 2 2 30 4 8
record 2 1 1001 77 1 0
record 5 1 1001 77 0 0
record 0 0 1001 77 0 0
post 0 61 2510001F48000268
post 1 61 2510001F48000268
post 1 37 2508001F48
post 1 66 24430001F480002680
dump
",
        "\
5 state other-post 71 25230001F480002688
6 state not-active 74 25230001F4800026A000
7 state not-active 50 25228001F4A000
8 acks 1 67 24630001F4800026A0
9 dump | 2:1001:77:1:1 5:1001:77:0:0
",
    ),
    (
        "U = N: the two failures are one outcome; one identity twice has two mask bits",
        "\
profile 9 0 7 7 16 1 2 3 0 0 0 0 0 0 0 0 0 0 0 17 2 2 30 4 8
record 0 1 1 0 1 0
post 0 68 2444800000A0000060
record 1 1 2 0 0 0
post 0 94 2446800000A0000048000018
post 0 94 244680000120000128000010
dump
",
        "\
3 acks 1 76 2464800000A000006070
5 acks 2 98 105 2466800000A000004800001D40 2466800000A000004800001E8380
6 acks 2 98 105 246680000120000128000016C0 2466800001200001280000150380
7 dump | 0:1:0:1:0 1:2:0:0:1
",
    ),
    (
        "an option that means none is as no option",
        "\
post 0 47 2442800000E0
post 0 73 2442800000E280000480
post 0 43 2442800000C0
",
        "\
1 acks 1 50 24628000008040
2 refused 21
3 refused 12
",
    ),
    (
        "a profile refused leaves the desk, a good one opens a new one; records and out stay",
        "\
record 0 1 10 0 0 1
setup 10 0 1 0 5
out 299
profile 64 0 1 2 16 1 2 3 0 0 0 0 0 0 0 0 0 0 0 17 2 2 30 4 8
dump
profile 63 0 1 2 16 1 2 3 0 0 0 0 0 0 0 0 0 0 0 17 1 2 30
dump
post 1 1
setup 10 0 1 0 5
out 300
setup 10 0 1 0 5
",
        "\
2 admitted 0 0 254000 25600280
4 refused 1
5 dump 0:5:0 | 0:10:0:0:1
7 dump | 0:10:0:0:1
8 refused 2
9 refused 14
11 admitted 0 0 FD4000 FD600280
",
    ),
    (
        "a freed place is used again, and so is its identifier",
        "\
record 0 1 10 0 0 1
setup 10 0 1 0 5
setup 10 0 1 0 6
setup 10 0 1 0 5
post 0 25 25800280
setup 10 0 1 0 5
setup 10 0 1 0 7
dump
",
        "\
2 admitted 0 0 254000 25600280
3 admitted 0 1 254000 25600300
4 refused 17
5 proceed 25A0
6 admitted 0 0 254000 25600280
7 admitted 0 2 254000 25600380
8 dump 0:5:0 1:6:0 2:7:0 | 0:10:0:0:1
",
    ),
];
