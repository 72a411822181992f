//! The profile: what one network gives at opening, and the rules that it has to keep. All of it but
//! the posts' shares is fixed from then on.
//! A profile that breaks a rule is refusal 1, which stands before every other refusal.

pub const PLACES: u32 = 32;
pub const MOST_POSTS: usize = 8;

/// What one of the sixteen range values says about the addresses that follow it.
#[derive(Clone, Copy, PartialEq, Eq, Debug)]
pub enum Meaning {
    NoIdentity,
    List(u8),
    FirstAndLast,
    Reserved,
}

/// A post's share of the places: g (reserved number) and c (ceiling).
#[derive(Clone, Copy, PartialEq, Eq, Debug, Default)]
pub struct Post {
    pub reserved: u32,
    pub ceiling: u32,
}

#[derive(Clone, PartialEq, Eq, Debug)]
pub struct Profile {
    pub ss_type: u32,
    pub home_extension: u32,
    pub meanings: [Meaning; 16],
    /// U, the failure reason for an identity with no record.
    pub reason_no_record: u32,
    /// N, the failure reason for another post's user.
    pub reason_other_post: u32,
    pub posts: Vec<Post>,
    /// INTERROGATE ACK's failure reasons for the same two, 3 bits each.
    pub failure_no_record: u32,
    pub failure_other_post: u32,
}

impl Profile {
    pub fn keeps_rules(&self) -> bool {
        self.ss_type <= 63
            && self.home_extension < 1 << 24
            && self.meanings.iter().all(meaning_keeps_rules)
            && self.reason_no_record <= 127
            && self.reason_other_post <= 127
            && self.failure_no_record <= 7
            && self.failure_other_post <= 7
            && !self.posts.is_empty()
            && self.posts.len() <= MOST_POSTS
            && shares_keep_rules(&self.posts)
    }
}

/// What the profile asks of the shares of its posts, whichever posts there are.
pub fn shares_keep_rules(posts: &[Post]) -> bool {
    posts.iter().all(post_keeps_rules)
        && posts.iter().map(|post| post.reserved).sum::<u32>() <= PLACES
}

fn meaning_keeps_rules(meaning: &Meaning) -> bool {
    match meaning {
        Meaning::List(count) => (1..=15).contains(count),
        _ => true,
    }
}

fn post_keeps_rules(post: &Post) -> bool {
    (1..=PLACES).contains(&post.ceiling) && post.reserved <= post.ceiling
}

/// Document 01's sample profile, which the listing program uses.
pub fn sample() -> Profile {
    let mut meanings = [Meaning::Reserved; 16];
    meanings[0] = Meaning::NoIdentity;
    meanings[1] = Meaning::List(1);
    meanings[2] = Meaning::List(2);
    meanings[3] = Meaning::List(3);
    meanings[15] = Meaning::FirstAndLast;
    Profile {
        ss_type: 9,
        home_extension: 0,
        meanings,
        reason_no_record: 1,
        reason_other_post: 2,
        posts: vec![
            Post {
                reserved: 2,
                ceiling: 30,
            },
            Post {
                reserved: 4,
                ceiling: 8,
            },
        ],
        failure_no_record: 1,
        failure_other_post: 2,
    }
}
