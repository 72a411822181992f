//! Scripts of messages that break off, with the answers that request (ii) asks for.

/// What the script shows, the script, and its answers.
pub const SCRIPTS: [(&str, &str, &str); 4] = [
    (
        "the worked line from a post, and what is not 4",
        "\
post 0 24 25800280
post 0 25 25800280
post 0 26 25800280
post 0 0 25800280
post 0 33 25800280
post 0 11 25800280
post 0 10 25800280
post 0 6 25800280
post 0 5 25800280
post 0 1 25800280
post 0 1
",
        "\
1 refused 4 at 11 identifier
2 refused 19
3 refused 13
4 refused 3
5 refused 3
6 refused 4 at 11 identifier
7 refused 4 at 6 pdu-type
8 refused 4 at 6 pdu-type
9 refused 4 at 0 ss-type
10 refused 4 at 0 ss-type
11 refused 3
",
    ),
    (
        "1 and 2 before 4; 4 before 8, 14 and 15, and before 5 where the header is cut",
        "\
out 0
record 0 1 1001 0 2 1
place 0 16384 0
post 2 24 25800280
unplace 0
post 2 24 25800280
post 0 24 25800280
post 0 36 2508001F48
post 0 16 254000
post 0 79 24BE8001F4A0007D9201
post 0 10 29A0
post 0 11 29A0
dump
",
        "\
4 refused 1
6 refused 2
7 refused 4 at 11 identifier
8 refused 4 at 13 ssi
9 refused 4 at 16 o-bit
10 refused 4 at 73 reason
11 refused 4 at 6 pdu-type
12 refused 5
13 dump | 0:1001:0:2:1
",
    ),
    (
        "4 before 11, 12 and 13; 9 and 10 before the 4 of what follows; the mask is one element",
        "\
post 0 66 245E8001F620007D20
post 0 67 245E8001F620007D20
post 0 15 2440
post 0 14 2440
post 0 17 250000
post 0 13 2500
post 0 12 2500
post 0 37 2560028200
post 0 38 2560028200
post 0 67 24BE8001F4A0007D9201
post 0 68 24BE8001F4A0007D9201
post 0 70 24BE8001F4A0007D9201
post 0 71 24BE8001F4A0007D9201
post 0 72 24BE8001F4A0007D9201
post 0 73 24BE8001F4A0007D9201
post 0 80 24BE8001F4A0007D9201
",
        "\
1 refused 4 at 43 ssi
2 refused 11
3 refused 9
4 refused 4 at 11 range
5 refused 10
6 refused 10
7 refused 4 at 11 kind
8 refused 4 at 37 p-bit
9 refused 12
10 refused 4 at 67 mask-present
11 refused 4 at 68 mask
12 refused 4 at 68 mask
13 refused 4 at 68 mask
14 refused 4 at 72 result
15 refused 4 at 73 reason
16 refused 8
",
    ),
    (
        "another profile: positions over 255 in a list of fifteen of kind 2; its SS type",
        "\
profile 63 0 1 2 0 0 0 0 0 0 0 0 0 0 0 0 0 0 0 15 1 0 32
post 0 764 FC9F00000000000040000000000010000000000004000000000001000000000000400000000000100000000000040000000000010000000000004000000000001000000000000400000000000100000000000040000000000010000000000000
post 0 740 FC9F00000000000040000000000010000000000004000000000001000000000000400000000000100000000000040000000000010000000000004000000000001000000000000400000000000100000000000040000000000010000000000000
post 0 716 FC9F00000000000040000000000010000000000004000000000001000000000000400000000000100000000000040000000000010000000000004000000000001000000000000400000000000100000000000040000000000010000000000000
post 0 14 FC9E
post 0 11 249E
post 0 10 249E
",
        "\
2 refused 4 at 741 extension
3 refused 4 at 717 ssi
4 refused 4 at 715 kind
5 refused 4 at 11 range
6 refused 5
7 refused 4 at 6 pdu-type
",
    ),
];
