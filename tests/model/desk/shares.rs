//! New shares on a running desk, with the posts that it has.

use super::{refuse, Answer, Desk};
use crate::places::shares_fit;
use crate::profile::{shares_keep_rules, Post, MOST_POSTS};
use crate::refusal::Refusal;

/// A row for each post that a desk could have.
pub type Rows = [Post; MOST_POSTS];

impl Desk {
    /// 1, 23, 24. Rows past the desk's posts are not looked at, and the desk has none. Nothing but
    /// the shares changes, so that every waiting call stays.
    pub fn change_shares(&mut self, rows: &Rows) -> Result<Answer, Refusal> {
        self.sound()?;
        let posts = &rows[..self.profile.posts.len()];
        refuse(!shares_keep_rules(posts), 23)?;
        refuse(!shares_fit(posts, &self.places), 24)?;
        self.profile.posts = posts.to_vec();
        Ok(Answer::Taken)
    }
}
