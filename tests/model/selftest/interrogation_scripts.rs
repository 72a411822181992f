//! Scripts of INTERROGATE and of the reasons in a profile's line, with the answers that request
//! (viii) asks for.

/// What the script shows, the script, and its answers.
pub const SCRIPTS: [(&str, &str, &str); 7] = [
    (
        "INTERROGATE: 1, 2, reading, 8 for its ACK, 14, 15, 26",
        "\
profile 9 0 1 2 16 2 2 3 0 0 0 0 0 0 0 0 0 0 0 17 2 2 30 4 8
record 0 1 1001 0 2 1
out 299
place 0 16384 0
post 2 37 2508001F48
unplace 0
post 2 37 2508001F48
post 0 36 2508001F48
post 0 76 253E8001F4A0007D8800
post 0 37 2508001F48
out 300
post 0 37 2508001F48
record 0 1 1001 0 1 1
post 0 37 2508001F48
post 1 37 2508001F48
post 0 37 2508001F50
dump
",
        "\
5 refused 1
7 refused 2
8 refused 4 at 13 ssi
9 refused 8
10 refused 14
12 refused 15
14 refused 26
15 refused 26
16 refused 26
17 dump | 0:1001:0:1:1
",
    ),
    (
        "the lowest range value that means a list of one, of 3, 5 and 9; of 15 alone; of 0",
        "\
profile 9 0 1 2 16 2 2 1 0 1 0 0 0 1 0 0 0 0 0 17 2 2 30 4 8
post 0 37 2508001F48
profile 9 0 1 2 16 2 2 3 0 0 0 0 0 0 0 0 0 0 0 1 2 2 30 4 8
post 0 37 2508001F48
profile 9 0 1 2 1 1 2 3 0 0 0 0 0 0 0 0 0 0 0 17 2 2 30 4 8
post 0 37 2508001F48
",
        "\
2 state no-record 47 25268001F484
4 state no-record 47 253E8001F484
6 state no-record 47 25208001F484
",
    ),
    (
        "the two reasons: left out, given, none and all of their bits, and U and N are others",
        "\
record 0 1 1004 0 1 1
post 0 37 2508001F48
post 0 37 2508001F60
profile 9 0 127 0 16 1 2 3 0 0 0 0 0 0 0 0 0 0 0 17 2 2 30 4 8 7 0
post 0 37 2508001F48
post 0 37 2508001F60
post 0 41 24428001F480
post 0 42 24428001F480
profile 9 0 127 0 16 1 2 3 0 0 0 0 0 0 0 0 0 0 0 17 2 2 30 4 8 0 7
post 0 37 2508001F48
post 0 37 2508001F60
profile 9 0 127 0 16 1 2 3 0 0 0 0 0 0 0 0 0 0 0 17 2 2 30 4 8
post 0 37 2508001F48
post 0 37 2508001F60
profile 9 0 1 2 16 1 2 3 0 0 0 0 0 0 0 0 0 0 0 17 2 2 30 4 8 0 0
post 0 37 2508001F48
post 0 37 2508001F60
",
        "\
2 state no-record 47 25228001F484
3 state other-post 47 25228001F608
5 state no-record 47 25228001F49C
6 state other-post 47 25228001F600
7 refused 4 at 41 o-bit
8 acks 1 50 24628001F49FC0
10 state no-record 47 25228001F480
11 state other-post 47 25228001F61C
13 state no-record 47 25228001F484
14 state other-post 47 25228001F608
16 state no-record 47 25228001F480
17 state other-post 47 25228001F600
",
    ),
    (
        "a reason over 7 is 1, by whatever it is over, and leaves the reasons in force",
        "\
profile 9 0 1 2 16 1 2 3 0 0 0 0 0 0 0 0 0 0 0 17 2 2 30 4 8 3 4
profile 9 0 1 2 16 1 2 3 0 0 0 0 0 0 0 0 0 0 0 17 2 2 30 4 8 8 2
profile 9 0 1 2 16 1 2 3 0 0 0 0 0 0 0 0 0 0 0 17 2 2 30 4 8 1 8
profile 9 0 1 2 16 1 2 3 0 0 0 0 0 0 0 0 0 0 0 17 2 2 30 4 8 257 2
profile 9 0 1 2 16 1 2 3 0 0 0 0 0 0 0 0 0 0 0 17 2 2 30 4 8 1 4294967295
post 0 37 2508001F48
",
        "\
2 refused 1
3 refused 1
4 refused 1
5 refused 1
6 state no-record 47 25228001F48C
",
    ),
    (
        "a pair more than POSTS is the reasons, with 1 to 8 posts; all else is what it was",
        "\
profile 9 0 1 2 16 1 2 3 0 0 0 0 0 0 0 0 0 0 0 17 1 2 30 4 6
post 0 37 2508001F48
post 1 37 2508001F48
profile 9 0 1 2 16 1 2 3 0 0 0 0 0 0 0 0 0 0 0 17 8 1 1 1 1 1 1 1 1 1 1 1 1 1 1 1 1 5 3
post 7 37 2508001F48
profile 9 0 1 2 16 1 2 3 0 0 0 0 0 0 0 0 0 0 0 17 9 1 1 1 1 1 1 1 1 1 1 1 1 1 1 1 1 5 3
profile 9 0 1 2 16 1 2 3 0 0 0 0 0 0 0 0 0 0 0 17 7 1 1 1 1 1 1 1 1 1 1 1 1 1 1 1 1 5 3
profile 9 0 1 2 16 1 2 3 0 0 0 0 0 0 0 0 0 0 0 17 9 1 1 1 1 1 1 1 1 1 1 1 1 1 1 1 1 1 1 5 3
profile 9 0 1 2 16 1 2 3 0 0 0 0 0 0 0 0 0 0 0 17 0 1 2
profile 9 0 1 2 16 1 2 3 0 0 0 0 0 0 0 0 0 0 0 17 1 1 1 1 1 1 2
profile 9 0 1 2 16 1 2 3 0 0 0 0 0 0 0 0 0 0 0 17 4294967295 1 1 1 2
profile 9 0 1 2 16 1 2 3 0 0 0 0 0 0 0 0 0 0 0 17 1 1 1 1
profile 9 0 1 2 16 1 2 3 0 0 0 0 0 0 0 0 0 0 0 17 1 1 1 1 2 3
",
        "\
2 state no-record 47 25228001F490
3 refused 2
5 state no-record 47 25228001F494
6 not understood
7 not understood
8 not understood
9 refused 1
10 refused 1
11 refused 1
12 not understood
13 not understood
",
    ),
    (
        "the address as it was given: kind 2 with the home extension stays kind 2",
        "\
record 0 1 1001 0 0 1
post 0 37 2508001F48
post 0 61 2510001F48000000
post 1 61 2510001F48000000
post 0 61 2510001F48000008
",
        "\
2 state active 50 25228001F4B000
3 state active 74 25230001F48000003000
4 state other-post 71 25230001F480000008
5 state no-record 71 25230001F480000084
",
    ),
    (
        "8 for INTERROGATE ACK, whatever it says, after reading and before 14 and 15",
        "\
record 0 1 10 0 2 1
out 299
post 0 50 25228001F4B000
post 0 47 25228001F484
post 0 63 25228001F4863E6A
post 0 236 25228001F4B1E28001F64A0003E90000054000FB3E8001F4A0007D931F00
post 2 50 25228001F4B000
post 0 46 25228001F484
post 0 48 25228001F484
post 0 63 25228001F4863EA6
post 0 51 25228001F48600
post 0 54 25228001F4871C
post 0 55 25228001F4868E
post 0 56 25228001F48647
post 0 56 25228001F48644
post 0 11 2520
post 0 43 25228001F4B000
post 0 44 25228001F4B000
post 0 45 25228001F4B000
post 0 47 25228001F4B000
post 0 49 25228001F4B000
dump
",
        "\
3 refused 8
4 refused 8
5 refused 8
6 refused 8
7 refused 2
8 refused 4 at 46 o-bit
9 refused 13
10 refused 11
11 refused 12
12 refused 10
13 refused 10
14 refused 27
15 refused 10
16 refused 4 at 11 range
17 refused 4 at 43 activation-type
18 refused 4 at 44 interception-type
19 refused 4 at 45 basic-service
20 refused 4 at 47 basic-service
21 refused 4 at 49 o-bit
22 dump | 0:10:0:2:1
",
    ),
];
