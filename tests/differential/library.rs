//! The product's `cad_read`, `cad_read_at` and `cad_write` against the model's, on the same drawn
//! inputs, whole outputs compared. The model's own files draw and answer; only the calls here are
//! new. The benchmark's plain readers are in the archive too, for their own comparison.

#[allow(dead_code)]
#[path = "../model/ack.rs"]
pub mod ack;
#[allow(dead_code)]
#[path = "../model/bits.rs"]
pub mod bits;
#[allow(dead_code)]
#[path = "../model/break_off.rs"]
pub mod break_off;
#[allow(dead_code)]
#[path = "../model/breakable.rs"]
pub mod breakable;
#[allow(dead_code)]
#[path = "../model/dice.rs"]
pub mod dice;
#[allow(dead_code)]
#[path = "../model/draw.rs"]
pub mod draw;
#[allow(dead_code)]
#[path = "../model/element.rs"]
pub mod element;
#[allow(dead_code)]
#[path = "../model/event.rs"]
pub mod event;
#[allow(dead_code)]
#[path = "../model/fault.rs"]
pub mod fault;
#[allow(dead_code)]
#[path = "../model/interface.rs"]
pub mod interface;
#[allow(dead_code)]
#[path = "../model/interrogate_ack.rs"]
pub mod interrogate_ack;
#[allow(dead_code)]
#[path = "../model/interrogation_fault.rs"]
pub mod interrogation_fault;
#[allow(dead_code)]
#[path = "../model/layout.rs"]
pub mod layout;
#[allow(dead_code)]
#[path = "../model/message.rs"]
pub mod message;
#[allow(dead_code)]
#[path = "../model/profile.rs"]
pub mod profile;
#[path = "../benchmark/readers.rs"]
pub mod readers;
#[allow(dead_code)]
#[path = "../model/refusal.rs"]
pub mod refusal;
#[allow(dead_code)]
#[path = "../model/request.rs"]
pub mod request;
#[allow(dead_code)]
#[path = "../model/trail.rs"]
pub mod trail;
#[allow(dead_code)]
#[path = "../model/user_fault.rs"]
pub mod user_fault;
#[allow(dead_code)]
#[path = "../model/value.rs"]
pub mod value;
#[allow(dead_code)]
#[path = "../model/write.rs"]
pub mod write;

mod both;
mod damage;
mod reads;
mod tally;
mod writes;

use crate::both::Both;
use crate::dice::Dice;

/// Makes at least so many reads and writes, decided by the seed alone, and prints what was
/// answered. 0 if both sides always did the same and every answer came.
#[no_mangle]
pub extern "C" fn differential(seed: u64, reads: u64, writes: u64) -> i32 {
    let mut both = Both::new();
    let mut dice = Dice::new(seed);
    while both.reads.count() < reads {
        reads::round(&mut dice, &mut both);
    }
    while both.writes.count() < writes {
        writes::round(&mut dice, &mut both);
    }
    both.reads.print("reads");
    both.breaks.print();
    both.lengths.print();
    both.writes.print("writes");
    let every_read = both
        .reads
        .gave_all(&[0, 1, 3, 4, 5, 6, 7, 9, 10, 11, 12, 13, 14, 27]);
    let every_element = both.breaks.gave_all() & both.lengths.gave_all();
    let every_write = both.writes.gave_all(&[0, 1, 14, 22]);
    if every_read && every_element && every_write {
        0
    } else {
        1
    }
}
