//! The shape of one line of a desk script. Words are parted by one space; lines are bytes.
//! What is no such line is of another shape; README.md lists what was decided about it.

use crate::desk::Rows;
use crate::hex::read_hex;
use crate::layout::read_meaning;
use crate::places::Call;
use crate::profile::{Meaning, Post, Profile, MOST_POSTS, PLACES};
use crate::records::{Identity, Record};

pub const MOST_OUTPUT: usize = 300;
const MOST_DIGITS: usize = 10;
const MOST_HEX_DIGITS: usize = 1024;
/// SS type, home, U, N, sixteen meanings, number of posts.
const NUMBERS_BEFORE_POSTS: usize = 21;
/// Those of the sample profile.
const FAILURES_LEFT_OUT: [u32; 2] = [1, 2];
/// A number of new shares that is larger counts as this one.
const MOST_OF_SHARE: u32 = 255;

pub enum Line {
    /// Nothing where the numbers are no profile that keeps the rules.
    Profile(Option<Profile>),
    Record {
        number: usize,
        record: Record,
    },
    Post {
        post: u32,
        bits: usize,
        bytes: Vec<u8>,
    },
    SetUp {
        caller: Identity,
        called: Identity,
        identifier: u32,
        cause: u32,
    },
    Reject {
        post: u32,
        identifier: u32,
    },
    Cancel {
        identifier: u32,
    },
    Out {
        bytes: usize,
    },
    Place {
        place: usize,
        call: Call,
    },
    Unplace {
        place: usize,
    },
    Second {
        place: usize,
        post: u32,
    },
    Cause {
        place: usize,
        cause: u32,
    },
    Shares(Rows),
    Dump,
}

/// Nothing if the line is of another shape.
pub fn read_script_line(line: &[u8]) -> Option<Line> {
    let words: Vec<&[u8]> = line.split(|byte| *byte == b' ').collect();
    let (name, rest) = words.split_first()?;
    match (*name, rest) {
        (b"post", [post, bits]) => read_post(post, bits, Vec::new()),
        (b"post", [post, bits, hex]) => read_post(post, bits, read_bytes(hex)?),
        _ => read_numbers_line(name, &read_numbers(rest)?),
    }
}

fn read_post(post: &[u8], bits: &[u8], bytes: Vec<u8>) -> Option<Line> {
    Some(Line::Post {
        post: read_number(post)?,
        bits: read_number(bits)? as usize,
        bytes,
    })
}

/// All lines but `post` are a word and numbers.
fn read_numbers_line(name: &[u8], numbers: &[u32]) -> Option<Line> {
    match (name, numbers) {
        (b"profile", _) => read_profile_line(numbers),
        (b"record", [number, in_use, ssi, extension, post, active]) => Some(Line::Record {
            number: at_most(*number, 255)? as usize,
            record: Record {
                in_use: at_most(*in_use, 1)? == 1,
                ssi: *ssi,
                extension: *extension,
                post: at_most(*post, 255)?,
                active: at_most(*active, 1)? == 1,
            },
        }),
        (b"setup", [parties @ .., identifier]) if parties.len() == 4 => {
            Some(set_up(parties, *identifier, 0))
        }
        (b"setup", [parties @ .., identifier, cause]) if parties.len() == 4 => {
            Some(set_up(parties, *identifier, *cause))
        }
        (b"reject", [post, identifier]) => Some(Line::Reject {
            post: *post,
            identifier: *identifier,
        }),
        (b"cancel", [identifier]) => Some(Line::Cancel {
            identifier: *identifier,
        }),
        (b"out", [bytes]) => Some(Line::Out {
            bytes: at_most(*bytes, MOST_OUTPUT as u32)? as usize,
        }),
        (b"place", [place, identifier, post]) => Some(Line::Place {
            place: at_most(*place, PLACES - 1)? as usize,
            call: Call {
                identifier: at_most(*identifier, 65_535)?,
                post: at_most(*post, 255)?,
                second: None,
                cause: 0,
            },
        }),
        (b"unplace", [place]) => Some(Line::Unplace {
            place: at_most(*place, PLACES - 1)? as usize,
        }),
        (b"second", [place, post]) => Some(Line::Second {
            place: at_most(*place, PLACES - 1)? as usize,
            post: at_most(*post, 255)?,
        }),
        (b"cause", [place, cause]) => Some(Line::Cause {
            place: at_most(*place, PLACES - 1)? as usize,
            cause: at_most(*cause, 255)?,
        }),
        (b"shares", _) => Some(Line::Shares(rows_of(&read_pairs(numbers)?))),
        (b"dump", []) => Some(Line::Dump),
        _ => None,
    }
}

/// SSI and extension of the caller, then of the called party.
fn set_up(parties: &[u32], identifier: u32, cause: u32) -> Line {
    let party = |ssi: usize| Identity {
        ssi: parties[ssi],
        extension: parties[ssi + 1],
    };
    Line::SetUp {
        caller: party(0),
        called: party(2),
        identifier,
        cause,
    }
}

/// A pair more than POSTS says, which is 1 to 8, is the two failure reasons of INTERROGATE ACK.
fn read_profile_line(numbers: &[u32]) -> Option<Line> {
    let mut shares = numbers.get(NUMBERS_BEFORE_POSTS..)?;
    let mut failures = FAILURES_LEFT_OUT;
    let posts = numbers[NUMBERS_BEFORE_POSTS - 1] as usize;
    if (1..=MOST_POSTS).contains(&posts) && shares.len() == 2 * posts + 2 {
        failures = [shares[2 * posts], shares[2 * posts + 1]];
        shares = &shares[..2 * posts];
    }
    let posts = read_pairs(shares)?;
    Some(Line::Profile(profile_of(numbers, posts, failures)))
}

/// 1 to 8 pairs of a reserved number and a ceiling.
fn read_pairs(numbers: &[u32]) -> Option<Vec<Post>> {
    if numbers.is_empty() || numbers.len() % 2 != 0 || numbers.len() > 2 * MOST_POSTS {
        return None;
    }
    let post = |pair: &[u32]| Post {
        reserved: pair[0],
        ceiling: pair[1],
    };
    Some(numbers.chunks(2).map(post).collect())
}

/// A row that is left out is 0 0.
fn rows_of(posts: &[Post]) -> Rows {
    let mut rows = Rows::default();
    for (row, post) in rows.iter_mut().zip(posts) {
        *row = Post {
            reserved: post.reserved.min(MOST_OF_SHARE),
            ceiling: post.ceiling.min(MOST_OF_SHARE),
        };
    }
    rows
}

fn profile_of(numbers: &[u32], posts: Vec<Post>, failures: [u32; 2]) -> Option<Profile> {
    let mut meanings = [Meaning::Reserved; 16];
    for (range, meaning) in meanings.iter_mut().enumerate() {
        *meaning = read_meaning(u8::try_from(numbers[4 + range]).ok()?)?;
    }
    let profile = Profile {
        ss_type: numbers[0],
        home_extension: numbers[1],
        meanings,
        reason_no_record: numbers[2],
        reason_other_post: numbers[3],
        posts,
        failure_no_record: failures[0],
        failure_other_post: failures[1],
    };
    if profile.keeps_rules() && numbers[20] as usize == profile.posts.len() {
        Some(profile)
    } else {
        None
    }
}

fn at_most(number: u32, most: u32) -> Option<u32> {
    if number <= most {
        Some(number)
    } else {
        None
    }
}

fn read_numbers(words: &[&[u8]]) -> Option<Vec<u32>> {
    words.iter().map(|word| read_number(word)).collect()
}

/// 1 to 10 decimal digits, at most 4,294,967,295.
fn read_number(digits: &[u8]) -> Option<u32> {
    if digits.is_empty() || digits.len() > MOST_DIGITS {
        return None;
    }
    let mut number: u64 = 0;
    for digit in digits {
        if !digit.is_ascii_digit() {
            return None;
        }
        number = 10 * number + u64::from(digit - b'0');
    }
    u32::try_from(number).ok()
}

/// At least one byte: where there are none, the word isn't there either.
fn read_bytes(hex: &[u8]) -> Option<Vec<u8>> {
    if hex.is_empty() || hex.len() > MOST_HEX_DIGITS {
        return None;
    }
    read_hex(hex)
}
