//! New shares in a history: a line now and then on the desk as it stands, and scenes in which
//! they change while calls wait and are then tried.

use super::share_rows::{self, REFUSED_23, REFUSED_24, TAKEN};
use super::share_scene::ShareScene;
use super::Source;
use std::collections::VecDeque;

impl Source {
    /// On whatever desk there is, damaged ones too.
    pub(super) fn share_change(&mut self) -> Vec<u8> {
        let aims: &[_] = match self.dice.below(4) {
            0 | 1 => &TAKEN,
            2 => &REFUSED_23,
            _ => &REFUSED_24,
        };
        let aim = self.dice.pick(aims);
        share_rows::line(&mut self.dice, aim, &self.replay.desk)
    }

    pub(super) fn share_scene(&mut self) -> Vec<u8> {
        let mut scene = ShareScene {
            cast: &self.cast,
            replay: self.replay.clone(),
            last_identifier: 1000 + self.dice.below(10_000) as u32,
            caller: self.cast.identity(&mut self.dice),
            dice: &mut self.dice,
            lines: VecDeque::new(),
        };
        scene.play();
        let mut lines = scene.lines;
        let first = lines.pop_front();
        self.waiting.extend(lines);
        first.unwrap_or_default()
    }
}
