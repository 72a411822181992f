//! Worked cases of new shares, each with its arithmetic, from the sample profile: two posts with 2
//! and 4 reserved, ceilings 30 and 8. Columns are parted by bars.

/// Calls at post 0 and at post 1, the new shares, the answer, and why. A sum is that of the larger
/// of reserved number and held, post by post.
pub const CHANGES: &str = "\
0 0 | 2 30 4 8 | taken | those in force
0 0 | 0 1 0 1 | taken | nothing reserved, ceilings of 1
0 0 | 2 32 4 32 | taken | ceilings of 32, which may come to 64
0 0 | 7 7 8 8 | taken | reserved as many as the ceilings
0 0 | 0 0 4 8 | refused 23 | the first ceiling is 0
0 0 | 2 30 0 0 | refused 23 | the last ceiling is 0
0 0 | 2 33 4 8 | refused 23 | the first ceiling is 33
0 0 | 2 30 4 33 | refused 23 | the last ceiling is 33
0 0 | 31 30 0 8 | refused 23 | reserved 31 of 30
0 0 | 2 30 9 8 | refused 23 | reserved 9 of 8
0 0 | 2 30 | refused 23 | a row left out is 0 0
0 0 | 30 30 2 8 | taken | reserved 30 + 2 = 32
0 0 | 30 30 3 8 | refused 23 | reserved 30 + 3 = 33
0 0 | 32 32 0 1 | taken | reserved 32 + 0 = 32
0 0 | 32 32 1 1 | refused 23 | reserved 32 + 1 = 33
0 0 | 256 30 4 8 | refused 23 | 256 counts as 255, not as 0, and is over 30
0 0 | 2 286 4 8 | refused 23 | 286 counts as 255, not as 30
0 0 | 2 30 4 264 | refused 23 | 264 counts as 255, not as 8
0 0 | 255 255 4 8 | refused 23 | 255 is over 32
0 0 | 4294967295 4294967295 4 8 | refused 23 | both count as 255
0 3 | 2 30 3 3 | taken | 3 held of 3, 2 + 3 = 5
0 3 | 2 30 2 2 | refused 24 | 3 held of 2
20 0 | 1 1 4 8 | refused 24 | 20 held of 1
20 0 | 2 20 4 8 | taken | 20 held of 20, 20 + 4 = 24
20 0 | 2 19 4 8 | refused 24 | 20 held of 19
10 0 | 5 30 22 22 | taken | 10 + 22 = 32, reserved 27
10 0 | 5 30 23 23 | refused 24 | 10 + 23 = 33, reserved 28
10 0 | 9 30 23 23 | refused 24 | 10 + 23 = 33, reserved 9 + 23 = 32
10 0 | 10 30 22 22 | taken | 10 + 22 = 32, reserved 32
10 0 | 11 30 22 22 | refused 23 | reserved 11 + 22 = 33, so 23 before 24
0 8 | 25 30 0 8 | refused 24 | 25 + 8 = 33, reserved 25
0 8 | 24 30 0 8 | taken | 24 + 8 = 32, reserved 24
24 8 | 0 24 0 8 | taken | 24 + 8 = 32, nothing reserved
24 8 | 25 30 0 8 | refused 24 | 25 + 8 = 33
24 8 | 24 24 8 8 | taken | 24 + 8 = 32, reserved 32
16 8 | 16 16 8 8 | taken | 16 + 8 = 24, though reserved and held together are 48
10 3 | 30 30 0 2 | refused 24 | 30 + 3 = 33, and 3 held of 2
10 3 | 0 32 0 32 | taken | 10 + 3 = 13
0 3 | 2 30 3 2 | refused 23 | reserved 3 of 2, and 3 held of 2
10 0 | 5 33 23 23 | refused 23 | a ceiling of 33, and 10 + 23 = 33
3 0 | 0 0 4 8 | refused 23 | a ceiling of 0, and 3 held of 0
";

/// Calls at post 0 and at post 1, the post that a set-up is for, what it is answered before, the
/// new shares, what it is answered then, and why.
pub const SET_UPS: &str = "\
28 0 | 0 | 18 | 2 30 3 8 | admitted | case 11: free 4, owed 4; then owed 3
28 0 | 0 | 18 | 2 29 4 8 | 18 | free 4, owed 4, as before
27 0 | 0 | admitted | 2 30 5 8 | 18 | free 5, owed 4; then owed 5
0 8 | 1 | 18 | 2 30 4 9 | admitted | case 12: 8 held of 8; then of 9
0 3 | 1 | admitted | 2 30 3 3 | 18 | 3 held of 8; then of 3
3 0 | 1 | admitted | 2 3 4 8 | admitted | the other post's ceiling
28 3 | 1 | admitted | 28 30 4 8 | admitted | free 1, which is owed to this post
24 4 | 1 | admitted | 28 30 4 8 | 18 | free 4, owed 0; then owed 28 - 24 = 4
20 8 | 1 | 18 | 0 30 12 12 | admitted | 8 held of 8; then of 12, all of them reserved
20 8 | 0 | admitted | 0 30 12 12 | 18 | free 4, owed 0; then owed 12 - 8 = 4
";

/// Calls at post 0 and at post 1 beside the one that is asked about, its first post and its second,
/// the new shares, what its ACCEPT is answered then, and why.
pub const MOVES: &str = "\
0 7 | 0 1 | 2 30 4 7 | refused 18 | 7 held of 7
0 7 | 0 1 | 2 30 4 8 | moved 1 25600280 | 7 held of 8
0 8 | 0 1 | 2 30 4 9 | moved 1 25600280 | 8 held of 9
20 0 | 1 0 | 2 30 12 12 | refused 18 | free 12 with its own, owed 12 without it
20 0 | 1 0 | 2 30 11 12 | moved 0 25600280 | free 12 with its own, owed 11
20 11 | 0 1 | 21 30 11 12 | refused 18 | free 1, its own, owed 21 - 20 = 1
20 11 | 0 1 | 20 30 11 12 | moved 1 25600280 | free 1, its own, owed 0
";
