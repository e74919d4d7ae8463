//! Frames of higher versions, with events and types that only these know.

use crate::frame::{FrameDraft, MessageDraft, VectorDraft};
use crate::random::Random;

/// A frame of these Messages, at times of a higher version, with a Message of an unknown type and
/// strange vectors; with an EndMark or without one, or with octets behind it.
pub fn of_some_version(
    random: &mut Random,
    messages: Vec<MessageDraft>,
    unknown: fn(&mut Random) -> MessageDraft,
) -> FrameDraft {
    let mut frame = FrameDraft::new(messages);
    if random.percent(14) {
        frame.version = random.one_of(&[1, 1, 2, 255]);
        if random.percent(40) {
            let place = random.below(frame.messages.len() as u64 + 1) as usize;
            frame.messages.insert(place, unknown(random));
        }
        make_some_strange(random, &mut frame);
    }
    match random.below(20) {
        0..=1 => frame.end_mark = false,
        2 => frame.after = random.octets_up_to(40),
        _ => {}
    }
    frame
}

/// Gives a vector an event that only a newer version knows; at times one that says LeaveAll too.
pub fn make_strange(random: &mut Random, vector: &mut VectorDraft) {
    let any = random.between(216, 255) as u8;
    let octet = random.one_of(&[216, 255, any]);
    match random.below(6) {
        0..=1 => vector.leave_all_event = random.between(2, 7) as u8,
        2..=3 => vector.first_event_octet = Some(octet),
        4 => vector.last_event_octet = Some(octet),
        _ => {
            vector.leave_all_event = random.one_of(&[1, 1, 2]);
            vector.last_event_octet = Some(octet);
        }
    }
}

/// The same for some vectors of a frame.
pub fn make_some_strange(random: &mut Random, frame: &mut FrameDraft) {
    for vector in frame.messages.iter_mut().flat_map(|message| &mut message.vectors) {
        if random.percent(40) {
            make_strange(random, vector);
        }
    }
}
