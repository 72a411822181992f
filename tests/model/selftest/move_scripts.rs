//! Scripts of calls of two posts with the answers that request (iii) asks for.

/// What the script shows, the script, and its answers.
pub const SCRIPTS: [(&str, &str, &str); 8] = [
    (
        "both posts are asked, the caller's first; the place is kept",
        "\
record 0 1 1001 0 0 1
record 1 1 1004 0 1 1
place 0 9 0
setup 1001 0 1004 0 5
dump
post 1 25 25800280
post 0 25 25800280
dump
post 0 25 25800280
post 1 25 25800280
post 1 25 25800280
setup 1004 0 1001 0 5
dump
",
        "\
4 admitted 0 1 254000 25600280
5 dump 0:9:0 1:5:0>1 | 0:1001:0:0:1 1:1004:0:1:1
6 refused 20
7 moved 1 25600280
8 dump 0:9:0 1:5:1 | 0:1001:0:0:1 1:1004:0:1:1
9 refused 20
10 proceed 25A0
11 refused 19
12 admitted 1 1 254000 25600280
13 dump 0:9:0 1:5:1>0 | 0:1001:0:0:1 1:1004:0:1:1
",
    ),
    (
        "no second post: one restricted, or both of one post; the lower record decides",
        "\
record 0 1 1001 0 0 1
record 1 1 1002 0 0 1
record 2 1 1004 0 1 0
record 3 1 1005 0 1 1
setup 1001 0 1004 0 1
setup 1004 0 1001 0 2
setup 1001 0 1002 0 3
setup 1001 0 1001 0 4
setup 1005 0 9999 0 5
setup 1005 0 1001 0 6
record 4 1 1001 0 1 1
setup 1005 0 1001 0 7
dump
post 0 25 25800080
post 1 25 25800280
",
        "\
5 admitted 0 0 254000 25600080
6 admitted 0 1 254000 25600100
7 admitted 0 2 254000 25600180
8 admitted 0 3 254000 25600200
9 admitted 1 4 254000 25600280
10 admitted 1 5 254000 25600300
12 admitted 1 6 254000 25600380
13 dump 0:1:0 1:2:0 2:3:0 3:4:0 4:5:1 5:6:1>0 6:7:1>0 | \
0:1001:0:0:1 1:1002:0:0:1 2:1004:0:1:0 3:1005:0:1:1 4:1001:0:1:1
14 proceed 25A0
15 proceed 25A0
",
    ),
    (
        "ACCEPT of a call that would move: 1, 2, reading, 8, 14, 19, 20, 18, and the call stays",
        "\
place 0 100 1
place 1 101 1
place 2 102 1
place 3 103 1
place 4 104 1
place 5 105 1
place 6 106 1
place 7 107 1
place 8 5 0
second 8 1
out 299
place 9 16384 0
post 2 25 25800280
unplace 9
post 2 25 25800280
post 0 26 25800280
post 0 11 25A0
post 0 25 25800300
post 1 25 25800280
post 0 25 25800280
out 300
post 0 25 25800300
post 1 25 25800280
post 0 25 25800280
post 0 25 25800280
dump
cancel 100
post 0 25 25800280
post 0 25 25800280
post 1 25 25800280
dump
",
        "\
13 refused 1
15 refused 2
16 refused 13
17 refused 8
18 refused 14
19 refused 14
20 refused 14
22 refused 19
23 refused 20
24 refused 18
25 refused 18
26 dump 0:100:1 1:101:1 2:102:1 3:103:1 4:104:1 5:105:1 6:106:1 7:107:1 8:5:0>1 |
27 cancelled 1 25C03200
28 moved 1 25600280
29 refused 20
30 proceed 25A0
31 dump 1:101:1 2:102:1 3:103:1 4:104:1 5:105:1 6:106:1 7:107:1 |
",
    ),
    (
        "DIVERT, reject and cancel end the call before it moves and after",
        "\
place 0 1 0
second 0 1
place 1 2 0
second 1 1
place 2 3 0
second 2 1
place 3 4 0
second 3 1
place 4 5 0
second 4 1
place 5 6 0
second 5 1
post 1 25 25E00080
post 0 25 25E00080
reject 1 2
reject 0 2
cancel 3
post 0 25 25800200
post 0 25 25800280
post 0 25 25800300
post 0 25 25E00200
post 1 25 25E00200
reject 0 5
reject 1 5
cancel 6
dump
",
        "\
13 refused 20
14 diverted 260000
15 refused 20
16 rejected 264000
17 cancelled 0 25C00180
18 moved 1 25600200
19 moved 1 25600280
20 moved 1 25600300
21 refused 20
22 diverted 260000
23 refused 20
24 rejected 264000
25 cancelled 1 25C00300
26 dump |
",
    ),
    (
        "the posts are those of the records at set-up; a move doesn't ask 15",
        "\
record 0 1 1001 0 0 1
record 1 1 1004 0 0 1
setup 1001 0 1004 0 4
record 1 1 1004 0 1 1
setup 1001 0 1004 0 1
setup 1001 0 1004 0 2
setup 1001 0 1004 0 3
post 0 25 25800200
record 1 1 1004 0 0 1
post 0 25 25800080
record 1 1 1004 0 1 0
post 0 25 25800100
record 1 1 1004 0 2 1
record 0 0 0 0 0 0
post 0 25 25800180
setup 1001 0 1004 0 4
dump
",
        "\
3 admitted 0 0 254000 25600200
5 admitted 0 1 254000 25600080
6 admitted 0 2 254000 25600100
7 admitted 0 3 254000 25600180
8 proceed 25A0
10 moved 1 25600080
12 moved 1 25600100
15 moved 1 25600180
16 refused 15
17 dump 1:1:1 2:2:1 3:3:1 | 1:1004:0:2:1
",
    ),
    (
        "a second post that is its own: the call moves to it, at its ceiling too",
        "\
place 0 100 1
place 1 101 1
place 2 102 1
place 3 103 1
place 4 104 1
place 5 105 1
place 6 106 1
place 7 107 1
second 3 1
dump
post 0 25 25803380
post 1 25 25803380
dump
post 1 25 25803380
dump
",
        "\
10 dump 0:100:1 1:101:1 2:102:1 3:103:1>1 4:104:1 5:105:1 6:106:1 7:107:1 |
11 refused 20
12 moved 1 25603380
13 dump 0:100:1 1:101:1 2:102:1 3:103:1 4:104:1 5:105:1 6:106:1 7:107:1 |
14 proceed 25A0
15 dump 0:100:1 1:101:1 2:102:1 4:104:1 5:105:1 6:106:1 7:107:1 |
",
    ),
    (
        "a free place keeps no second post; place puts a call without one",
        "\
record 0 1 1001 0 0 1
second 0 1
second 1 255
setup 1001 0 9 0 5
place 1 6 0
dump
second 0 1
second 1 1
dump
place 1 6 0
unplace 0
dump
setup 1001 0 9 0 5
post 0 25 25800280
post 0 25 25800300
dump
",
        "\
4 admitted 0 0 254000 25600280
6 dump 0:5:0 1:6:0 | 0:1001:0:0:1
9 dump 0:5:0>1 1:6:0>1 | 0:1001:0:0:1
12 dump 1:6:0 | 0:1001:0:0:1
13 admitted 0 0 254000 25600280
14 proceed 25A0
15 proceed 25A0
16 dump | 0:1001:0:0:1
",
    ),
    (
        "a call that has moved may be given a second post again; the last one named counts",
        "\
place 4 5 0
second 4 255
post 0 25 25800280
second 4 0
second 4 1
post 0 25 25800280
second 4 0
dump
post 0 25 25800280
post 1 25 25800280
post 0 25 25800280
dump
",
        "\
3 refused 1
6 moved 1 25600280
8 dump 4:5:1>0 |
9 refused 20
10 moved 0 25600280
11 proceed 25A0
12 dump |
",
    ),
];
