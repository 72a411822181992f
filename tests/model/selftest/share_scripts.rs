//! Scripts of new shares with the answers that request (vi) asks for, all from the sample profile:
//! two posts with 2 and 4 reserved, ceilings 30 and 8.
//! In a script of an order each change has all the faults that come after its own.

/// What the script shows, the script, and its answers.
pub const SCRIPTS: [(&str, &str, &str); 9] = [
    (
        "new shares leave every waiting call, with its place, its second post and its cause",
        "\
record 0 1 1001 0 0 1
record 1 1 1004 0 1 1
setup 1001 0 1004 0 5 2
setup 1004 0 9 0 6
dump
shares 4 30 2 8
dump
post 0 25 25800280
post 1 25 25800300
shares 2 30 4 8
dump
",
        "\
3 admitted 0 0 254000 25600288
4 admitted 1 1 254000 25600300
5 dump 0:5:0>1!2 1:6:1 | 0:1001:0:0:1 1:1004:0:1:1
6 taken
7 dump 0:5:0>1!2 1:6:1 | 0:1001:0:0:1 1:1004:0:1:1
8 moved 1 25600288
9 proceed 25A0
10 taken
11 dump 0:5:1!2 | 0:1001:0:0:1 1:1004:0:1:1
",
    ),
    (
        "new shares: 1, 23, 24; neither 14 nor 15",
        "\
place 0 100 1
place 1 101 1
place 2 102 1
place 3 103 1
place 4 104 1
place 5 105 1
place 6 106 1
place 7 107 1
place 8 108 1
shares 2 33 4 8
shares 2 30 4 7
shares 2 30 4 9
unplace 8
shares 2 33 4 7
shares 2 30 4 7
out 0
record 0 1 16777216 0 2 1
shares 2 33 4 7
shares 2 30 4 7
shares 2 30 4 9
dump
",
        // With nine calls post 1 is over its ceiling of 8: 1, though a ceiling of 9 would mend it.
        // With eight, a ceiling of 7 is 24, unless the 33 of the other post comes first.
        "\
10 refused 1
11 refused 1
12 refused 1
14 refused 23
15 refused 24
18 refused 23
19 refused 24
20 taken
21 dump 0:100:1 1:101:1 2:102:1 3:103:1 4:104:1 5:105:1 6:106:1 7:107:1 | 0:16777216:0:2:1
",
    ),
    (
        "a firm buys two more reserved places, and gives them back",
        "\
record 0 1 1001 0 0 1
record 1 1 1004 0 1 1
shares 0 2 30 30
setup 1001 0 9 0 1
setup 1001 0 9 0 2
setup 1001 0 9 0 3
shares 4 4 30 30
shares 4 4 28 30
setup 1001 0 9 0 3
shares 5 5 28 30
setup 1001 0 9 0 4
setup 1001 0 9 0 5
shares 0 3 28 30
shares 0 4 28 30
setup 1001 0 9 0 5
setup 1004 0 9 0 5
dump
",
        // 4 and 30 reserved are 34: 23. 4 and 28 are 32 and are taken, so a third call is below
        // the reserved number; 5 and 28 are 33: 23, and the fourth is the last below 4. Four held
        // are more than 3: 24. With a ceiling of 4 a fifth is 18, and post 1 has all its places.
        "\
3 taken
4 admitted 0 0 254000 25600080
5 admitted 0 1 254000 25600100
6 refused 18
7 refused 23
8 taken
9 admitted 0 2 254000 25600180
10 refused 23
11 admitted 0 3 254000 25600200
12 refused 18
13 refused 24
14 taken
15 refused 18
16 admitted 1 4 254000 25600280
17 dump 0:1:0 1:2:0 2:3:0 3:4:0 4:5:1 | 0:1001:0:0:1 1:1004:0:1:1
",
    ),
    (
        "rows past the posts are not looked at; a post's row that is left out is 0 0",
        "\
shares 2 30
shares 2 30 4 8 255 0
shares 1 30 4 8 33 33 32 32 4294967295 4294967295 0 0 1 0 9 3
post 2 1
shares 4 8
profile 9 0 1 2 16 1 2 3 0 0 0 0 0 0 0 0 0 0 0 17 1 2 30
shares 2 30
shares 2 30 4 8
post 1 1
profile 9 0 1 2 16 1 2 3 0 0 0 0 0 0 0 0 0 0 0 17 8 1 1 1 1 1 1 1 1 1 1 1 1 1 1 1 1
shares 1 1 1 1 1 1 1 1 1 1 1 1 1 1
shares 1 1 1 1 1 1 1 1 1 1 1 1 1 1 0 0
shares 1 1 1 1 1 1 1 1 1 1 1 1 1 1 26 32
shares 1 1 1 1 1 1 1 1 1 1 1 1 1 1 25 32
",
        // Seven posts with 1 reserved leave 25 of 32 to the eighth.
        "\
1 refused 23
2 taken
3 taken
4 refused 2
5 refused 23
7 taken
8 taken
9 refused 2
11 refused 23
12 refused 23
13 refused 23
14 taken
",
    ),
    (
        "the shares in force decide whether a lent desk is sound",
        "\
place 0 100 1
place 1 101 1
place 2 102 1
shares 2 30 1 3
place 3 103 1
cancel 103
shares 2 30 4 8
unplace 3
cancel 100
shares 28 30 2 10
place 3 103 0
place 4 104 1
cancel 101
place 5 105 1
place 6 106 1
place 7 107 1
cancel 102
unplace 7
cancel 102
",
        // A fourth call is over the ceiling of 3. Then 28 are reserved and post 1 holds 2, 3, and
        // after a cancel 2, 3, 4, 5: 28 and 5 are 33, 28 and 4 are 32.
        "\
4 taken
6 refused 1
7 refused 1
9 cancelled 1 25C03200
10 taken
13 cancelled 1 25C03280
17 refused 1
19 cancelled 1 25C03300
",
    ),
    (
        "a post may hold more than the old ceiling once the new one is higher",
        "\
record 0 1 1004 0 1 1
place 0 100 1
place 1 101 1
place 2 102 1
place 3 103 1
place 4 104 1
place 5 105 1
place 6 106 1
place 7 107 1
setup 1004 0 9 0 5
shares 2 30 4 9
setup 1004 0 9 0 5
setup 1004 0 9 0 6
post 1 25 25800280
cancel 107
shares 2 30 4 8
shares 2 30 4 7
setup 1004 0 9 0 6
",
        "\
10 refused 18
11 taken
12 admitted 1 8 254000 25600280
13 refused 18
14 proceed 25A0
15 cancelled 1 25C03580
16 taken
17 taken
18 refused 18
",
    ),
    (
        "a refused change changes nothing",
        "\
record 0 1 1001 0 0 1
place 0 100 1
place 1 101 1
shares 0 1 0 1
setup 1001 0 9 0 1
setup 1001 0 9 0 2
shares 0 1 0 33
setup 1001 0 9 0 3
shares 0 0
setup 1001 0 9 0 4
shares 0 4 0 2
setup 1001 0 9 0 5
dump
",
        "\
4 refused 24
5 admitted 0 2 254000 25600080
6 admitted 0 3 254000 25600100
7 refused 23
8 admitted 0 4 254000 25600180
9 refused 23
10 admitted 0 5 254000 25600200
11 taken
12 refused 18
13 dump 0:100:1 1:101:1 2:1:0 3:2:0 4:3:0 5:4:0 | 0:1001:0:0:1
",
    ),
    (
        "a profile line opens a desk with its own shares, a refused one leaves those in force",
        "\
record 0 1 1001 0 0 1
shares 0 1 0 1
setup 1001 0 9 0 1
setup 1001 0 9 0 2
profile 64 0 1 2 16 1 2 3 0 0 0 0 0 0 0 0 0 0 0 17 2 2 30 4 8
setup 1001 0 9 0 2
profile 9 0 1 2 16 1 2 3 0 0 0 0 0 0 0 0 0 0 0 17 2 2 30 4 8
setup 1001 0 9 0 1
setup 1001 0 9 0 2
shares 0 1 0 1
",
        "\
2 taken
3 admitted 0 0 254000 25600080
4 refused 18
5 refused 1
6 refused 18
8 admitted 0 0 254000 25600080
9 admitted 0 1 254000 25600100
10 refused 24
",
    ),
    (
        "a move is judged by the shares in force, and a moved call is held where it waits now",
        "\
place 0 5 0
second 0 1
place 1 101 1
place 2 102 1
shares 2 30 2 2
post 0 25 25800280
shares 2 30 2 3
post 0 25 25800280
shares 2 30 2 2
shares 2 30 2 3
shares 31 31 0 3
shares 29 29 0 3
post 1 25 25800280
shares 31 31 0 3
shares 30 31 0 3
",
        // Post 1 holds two: at a ceiling of 2 the move is 18, at 3 it goes. Then post 1 holds
        // three: a ceiling of 2 is 24, and 31 and 3 are 34, 29 and 3 are 32. With two left 31 and
        // 2 are 33, 30 and 2 are 32.
        "\
5 taken
6 refused 18
7 taken
8 moved 1 25600280
9 refused 24
10 taken
11 refused 24
12 taken
13 proceed 25A0
14 refused 24
15 taken
",
    ),
];
