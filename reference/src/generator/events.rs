//! The events that generated frames have, by their numbers.

use crate::random::Random;

/// The numbers of the events in a ThreePackedEvents octet.
pub const JOINS: [u8; 3] = [0, 1, 3];
pub const LV: u8 = 5;
/// The numbers of the FourPackedEvents.
pub const ASKING: u8 = 1;
pub const READY: u8 = 2;
pub const READY_FAILED: u8 = 3;

/// So many events. Of twenty vectors so many have one kind of join for all values, up to twelve any joins,
/// three Lv for all, and the others any events.
pub fn some_events(random: &mut Random, count: u64, with_one_join: u64) -> Vec<u8> {
    let style = random.below(20);
    let one_join = random.one_of(&JOINS);
    let event = |random: &mut Random| match style {
        0..=11 if style < with_one_join => one_join,
        0..=11 => random.one_of(&JOINS),
        12..=14 => LV,
        _ => random.below(6) as u8,
    };
    (0..count).map(|_| event(random)).collect()
}
