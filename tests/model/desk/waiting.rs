//! The waiting calls of the desk: set-up, and all that moves or ends a call.

use super::{long_enough, refuse, Answer, Desk, Lent, BYTES_BETWEEN};
use crate::message::Message;
use crate::places::{admits, lowest_free, place_of, without, Call};
use crate::records::{record_of, Identity, Record};
use crate::refusal::Refusal::{self, Number};
use crate::request::Options;

impl Desk {
    /// 14, 19, 20, and for a move 18. A call with a second post moves, any other proceeds.
    pub(super) fn accept(
        &mut self,
        lent: Lent,
        post: u32,
        identifier: u32,
    ) -> Result<Answer, Refusal> {
        long_enough(lent.output)?;
        let (place, call) = self.waiting_at(post, identifier)?;
        if let Some(second) = call.second {
            return self.move_to(lent, second, place, call);
        }
        self.places[place] = None;
        let bits = self.put(&Message::Accepted, lent.output);
        Ok(Answer::Proceed { bits })
    }

    /// The call keeps its place and its cause and has no second post any more; the post it moves
    /// to gets its REQUEST: 18.
    fn move_to(
        &mut self,
        lent: Lent,
        post: u32,
        place: usize,
        call: Call,
    ) -> Result<Answer, Refusal> {
        let rest = without(&self.places, place);
        refuse(!admits(&self.profile, &rest, post), 18)?;
        let moved = Call {
            post,
            second: None,
            ..call
        };
        self.places[place] = Some(moved);
        let bits = self.put(&request_of(&moved), lent.output);
        Ok(Answer::Moved { post, bits })
    }

    /// 14, 19, 20; whether there is a second post doesn't matter.
    pub(super) fn divert(
        &mut self,
        lent: Lent,
        post: u32,
        identifier: u32,
    ) -> Result<Answer, Refusal> {
        long_enough(lent.output)?;
        let (place, _) = self.waiting_at(post, identifier)?;
        self.places[place] = None;
        let diverted = Message::Diverted {
            cause: 0,
            dispatcher: None,
        };
        let bits = self.put(&diverted, lent.output);
        Ok(Answer::Diverted { bits })
    }

    /// Call set-up: 16, 14, 15, 17, "free", 18. The cause is that of REQUEST alone.
    pub fn set_up(
        &mut self,
        lent: Lent,
        caller: Identity,
        called: Identity,
        identifier: u32,
        cause: u32,
    ) -> Result<Answer, Refusal> {
        self.sound()?;
        let numbers = [caller.ssi, caller.extension, called.ssi, called.extension];
        refuse(numbers.iter().any(|number| *number >= 1 << 24), 16)?;
        fitting_identifier(identifier)?;
        refuse(cause >= 1 << 5, 16)?;
        long_enough(lent.output)?;
        self.sound_records(lent.records)?;
        refuse(place_of(&self.places, identifier).is_some(), 17)?;
        let (post, second) = match posts_asked(lent.records, caller, called) {
            Some(asked) => asked,
            None => return Ok(Answer::Free),
        };
        refuse(!admits(&self.profile, &self.places, post), 18)?;
        let place = lowest_free(&self.places).expect("the places rule left a place free");
        let admitted = Call {
            identifier,
            post,
            second,
            cause,
        };
        self.places[place] = Some(admitted);
        let intercepted = Message::Intercepted {
            cause: 0,
            dispatcher: None,
        };
        let intercepted_bits = self.put(&intercepted, lent.output);
        let area = &mut lent.output[BYTES_BETWEEN..];
        let request_bits = self.put(&request_of(&admitted), area);
        Ok(Answer::Admitted {
            post,
            place,
            intercepted_bits,
            request_bits,
        })
    }

    /// The plain call: 2, 16, 14, 19, 20. It gives no cause.
    pub fn reject(&mut self, lent: Lent, post: u32, identifier: u32) -> Result<Answer, Refusal> {
        self.sound()?;
        self.known_post(post)?;
        fitting_identifier(identifier)?;
        self.end_rejected(lent, post, identifier, 0)
    }

    /// The plain call and the REJECT message alike: 14, 19, 20. REJECTED has the rejection cause,
    /// whatever the interception cause was.
    pub(super) fn end_rejected(
        &mut self,
        lent: Lent,
        post: u32,
        identifier: u32,
        cause: u32,
    ) -> Result<Answer, Refusal> {
        long_enough(lent.output)?;
        let (place, _) = self.waiting_at(post, identifier)?;
        self.places[place] = None;
        let rejected = Message::Rejected {
            cause,
            dispatcher: None,
        };
        let bits = self.put(&rejected, lent.output);
        Ok(Answer::Rejected { bits })
    }

    /// From the switch, so at whatever post the call waits: 16, 14, 19.
    pub fn cancel(&mut self, lent: Lent, identifier: u32) -> Result<Answer, Refusal> {
        self.sound()?;
        fitting_identifier(identifier)?;
        long_enough(lent.output)?;
        let place = place_of(&self.places, identifier).ok_or(Number(19))?;
        let Call { post, .. } = self.places[place].take().ok_or(Number(19))?;
        let bits = self.put(&Message::Cancel { identifier }, lent.output);
        Ok(Answer::Cancelled { post, bits })
    }

    /// The call that waits at the post, and its place: 19, 20.
    fn waiting_at(&self, post: u32, identifier: u32) -> Result<(usize, Call), Refusal> {
        let place = place_of(&self.places, identifier).ok_or(Number(19))?;
        let call = self.places[place].ok_or(Number(19))?;
        refuse(call.post != post, 20)?;
        Ok((place, call))
    }
}

fn fitting_identifier(identifier: u32) -> Result<(), Refusal> {
    refuse(identifier >= 1 << 14, 16)
}

/// What a post is sent about a call that waits for it: the mandatory elements, no optional one.
fn request_of(call: &Call) -> Message {
    Message::Request {
        identifier: call.identifier,
        cause: call.cause,
        options: Options::default(),
    }
}

/// The post that a call is for, and the post asked second, if there is one: the called party's,
/// where both parties are restricted and their posts differ. Nothing if neither is restricted.
pub fn posts_asked(
    records: &[Record],
    caller: Identity,
    called: Identity,
) -> Option<(u32, Option<u32>)> {
    match (restricted(records, caller), restricted(records, called)) {
        (Some(callers), Some(calleds)) if callers != calleds => Some((callers, Some(calleds))),
        (Some(callers), _) => Some((callers, None)),
        (None, Some(calleds)) => Some((calleds, None)),
        (None, None) => None,
    }
}

/// The post of the party's record, if its mark is set.
pub fn restricted(records: &[Record], party: Identity) -> Option<u32> {
    let record = records[record_of(records, party)?];
    if record.active {
        Some(record.post)
    } else {
        None
    }
}
