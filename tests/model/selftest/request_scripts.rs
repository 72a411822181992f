//! Scripts of REQUEST, REJECT, REJECTED and CANCEL with the answers that request (iv) asks for.
//! In a script of an order each call has all the faults that come after its own.

/// What the script shows, the script, and its answers.
pub const SCRIPTS: [(&str, &str, &str); 10] = [
    (
        "the worked call of two posts: its cause goes along",
        "\
record 0 1 1001 0 0 1
record 1 1 1004 0 1 1
setup 1001 0 1004 0 5 2
dump
post 0 25 25800280
dump
post 0 25 25800280
post 1 25 25800280
dump
",
        "\
3 admitted 0 0 254000 25600288
4 dump 0:5:0>1!2 | 0:1001:0:0:1 1:1004:0:1:1
5 moved 1 25600288
6 dump 0:5:1!2 | 0:1001:0:0:1 1:1004:0:1:1
7 refused 20
8 proceed 25A0
9 dump | 0:1001:0:0:1 1:1004:0:1:1
",
    ),
    (
        "set-up: the cause is 0 where it is left out, and INTERCEPTED has 0 whatever it is",
        "\
record 0 1 10 0 0 1
setup 10 0 1 0 5
setup 10 0 1 0 0 31
setup 10 0 1 0 16383 31
setup 10 0 1 0 16382 0
setup 1 0 2 0 6 7
dump
",
        "\
2 admitted 0 0 254000 25600280
3 admitted 0 1 254000 2560007C
4 admitted 0 2 254000 257FFFFC
5 admitted 0 3 254000 257FFF00
6 free
7 dump 0:5:0 1:0:0!31 2:16383:0!31 3:16382:0 | 0:10:0:0:1
",
    ),
    (
        "set-up: 16 for a cause over 5 bits, before 14, 15, 17, free and 18",
        "\
record 0 1 10 0 0 1
record 1 1 11 0 2 0
place 0 5 0
out 299
setup 10 0 1 0 5 32
setup 10 0 1 0 5 256
setup 1 0 2 0 6 65536
setup 1 0 2 0 6 4294967295
setup 10 0 1 0 5 31
out 300
setup 10 0 1 0 5 31
record 1 0 11 0 2 0
setup 10 0 1 0 5 32
setup 10 0 1 0 5 31
setup 1 0 2 0 5 32
setup 1 0 2 0 6 32
setup 1 0 2 0 6 31
dump
",
        "\
5 refused 16
6 refused 16
7 refused 16
8 refused 16
9 refused 14
11 refused 15
13 refused 16
14 refused 17
15 refused 16
16 refused 16
17 free
18 dump 0:5:0 | 0:10:0:0:1
",
    ),
    (
        "REJECT: 1, 2, reading, 14, 19, 20, without 15; REJECTED has its cause, not the call's",
        "\
record 0 1 10 0 2 1
place 0 5 1
cause 0 32
out 299
post 2 0
cause 0 7
post 2 0
post 0 29 26200288
post 0 31 26200288
post 0 30 26200308
post 0 30 26200288
post 1 30 26200288
out 300
post 0 30 26200308
post 0 30 26200288
dump
post 1 30 26200288
post 1 30 26200288
place 0 5 1
cause 0 7
post 1 30 26200280
place 0 16383 0
post 0 30 263FFFFC
dump
",
        "\
5 refused 1
7 refused 2
8 refused 4 at 25 cause
9 refused 13
10 refused 14
11 refused 14
12 refused 14
14 refused 19
15 refused 20
16 dump 0:5:1!7 | 0:10:0:2:1
17 rejected 264200
18 refused 19
21 rejected 264000
23 rejected 265F00
24 dump | 0:10:0:2:1
",
    ),
    (
        "the plain reject gives REJECTED a cause of 0; 2, 16, 14, 19, 20",
        "\
place 0 5 1
cause 0 32
out 299
reject 2 16384
cause 0 7
reject 2 16384
reject 1 16384
reject 1 6
reject 0 5
reject 1 5
out 300
reject 1 6
reject 0 5
dump
reject 1 5
reject 1 5
",
        "\
4 refused 1
6 refused 2
7 refused 16
8 refused 14
9 refused 14
10 refused 14
12 refused 19
13 refused 20
14 dump 0:5:1!7 |
15 rejected 264000
16 refused 19
",
    ),
    (
        "cancel names the post where the call waited: 1, 16, 14, 19",
        "\
place 0 5 0
second 0 1
place 1 6 0
second 1 1
place 2 7 1
cause 2 32
out 299
cancel 16384
cause 2 31
cancel 16384
cancel 8
cancel 5
out 300
cancel 8
post 0 25 25800280
cancel 5
cancel 6
cancel 7
cancel 5
dump
",
        "\
8 refused 1
10 refused 16
11 refused 14
12 refused 14
14 refused 19
15 moved 1 25600280
16 cancelled 1 25C00280
17 cancelled 0 25C00300
18 cancelled 1 25C00380
19 refused 19
20 dump |
",
    ),
    (
        "8 for REQUEST, CANCEL and REJECTED from a post: after reading, before 14 and 15",
        "\
record 0 1 10 0 2 1
out 299
place 0 5 0
post 0 31 25600280
post 0 150 2560028B4000FA70001F6000002C00001632B8
post 0 40 2560028207
post 0 25 25C00280
post 0 17 264200
post 0 44 2642D0003E90
post 2 25 25C00280
post 0 30 25600280
post 0 32 25600280
post 0 38 2560028200
post 0 41 25600283C000
post 0 26 25C00280
post 0 18 264280
post 0 11 24C0
post 0 11 24E0
dump
",
        "\
4 refused 8
5 refused 8
6 refused 8
7 refused 8
8 refused 8
9 refused 8
10 refused 2
11 refused 4 at 30 o-bit
12 refused 13
13 refused 12
14 refused 10
15 refused 13
16 refused 12
17 refused 7
18 refused 7
19 dump 0:5:0 | 0:10:0:2:1
",
    ),
    (
        "a free place keeps no cause; place puts 0; a place used again has its own call's",
        "\
record 0 1 10 0 0 1
cause 0 9
cause 1 255
setup 10 0 1 0 5
setup 10 0 1 0 6 3
dump
cause 0 9
second 1 1
cause 1 255
dump
place 1 6 0
dump
post 0 30 26200280
setup 10 0 1 0 5 4
dump
unplace 0
setup 10 0 1 0 5
dump
",
        "\
4 admitted 0 0 254000 25600280
5 admitted 0 1 254000 2560030C
6 dump 0:5:0 1:6:0!3 | 0:10:0:0:1
10 dump 0:5:0!9 1:6:0>1!255 | 0:10:0:0:1
12 dump 0:5:0!9 1:6:0 | 0:10:0:0:1
13 rejected 264000
14 admitted 0 0 254000 25600290
15 dump 0:5:0!4 1:6:0 | 0:10:0:0:1
17 admitted 0 0 254000 25600280
18 dump 0:5:0 1:6:0 | 0:10:0:0:1
",
    ),
    (
        "18 at a move leaves the cause; a move again has the cause that was given last",
        "\
place 0 100 1
place 1 101 1
place 2 102 1
place 3 103 1
place 4 104 1
place 5 105 1
place 6 106 1
place 7 107 1
place 8 5 0
second 8 1
cause 8 2
post 0 25 25800280
post 0 30 26200300
dump
cancel 100
post 0 25 25800280
second 8 0
cause 8 16
post 1 25 25800280
post 1 30 26200288
post 0 25 25E00280
dump
",
        "\
12 refused 18
13 refused 19
14 dump 0:100:1 1:101:1 2:102:1 3:103:1 4:104:1 5:105:1 6:106:1 7:107:1 8:5:0>1!2 |
15 cancelled 1 25C03200
16 moved 1 25600288
19 moved 0 256002C0
20 refused 20
21 diverted 260000
22 dump 1:101:1 2:102:1 3:103:1 4:104:1 5:105:1 6:106:1 7:107:1 |
",
    ),
    (
        "another SS type: 63 in each of the messages, and 5 for the sample's",
        "\
profile 63 0 1 2 16 1 2 3 0 0 0 0 0 0 0 0 0 0 0 17 2 2 30 4 8
record 0 1 1001 0 0 1
record 1 1 1004 0 1 1
setup 1001 0 1004 0 5 2
post 0 25 FD800280
post 1 30 26200288
post 1 30 FE200288
place 0 5 1
cancel 5
",
        "\
4 admitted 0 0 FD4000 FD600288
5 moved 1 FD600288
6 refused 5
7 rejected FE4200
9 cancelled 1 FDC00280
",
    ),
];
