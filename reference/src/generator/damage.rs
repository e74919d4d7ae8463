//! Damaged frames.

use super::newer::make_some_strange;
use crate::frame::{FrameDraft, MessageDraft, VectorDraft};
use crate::random::Random;

/// A frame damaged in one or more of many ways, at times with a Message of an unknown type. Some of
/// the damage does no harm.
pub fn damaged(
    random: &mut Random,
    mut frame: FrameDraft,
    unknown: fn(&mut Random) -> MessageDraft,
) -> Vec<u8> {
    if random.percent(20) {
        frame.version = random.one_of(&[1, 255]);
        make_some_strange(random, &mut frame);
    }
    for _ in 0..random.one_of(&[0, 1, 1, 1, 1, 1, 2, 2]) {
        damage(random, &mut frame, unknown);
    }
    let mut octets = frame.octets();
    match random.below(20) {
        0..=1 => {
            for _ in 0..random.between(1, 3) {
                let place = random.below(octets.len() as u64) as usize;
                octets[place] ^= 1 << random.below(8);
            }
        }
        2..=3 => octets.truncate(random.below(octets.len() as u64 + 1) as usize),
        4 => {
            let length = random.one_of(&[1500, 1500, 1501, 1501, 1499, 3000]);
            octets.resize(length.max(octets.len()), 0);
        }
        5 => {
            octets = vec![random.one_of(&[0, 0, 1, 255])];
            octets.extend(random.octets_up_to(60));
        }
        6 => {
            octets = random.one_of(&[vec![], vec![0], vec![7], vec![0, 0], vec![0, 0, 0]]);
        }
        _ => {}
    }
    octets
}

/// One damage to the parts of a frame.
fn damage(random: &mut Random, frame: &mut FrameDraft, unknown: fn(&mut Random) -> MessageDraft) {
    match random.below(10) {
        0 => {
            frame.end_mark = false;
            frame.after = random.one_of(&[vec![0], vec![1], vec![0, 1], vec![0, 1, 0, 0]]);
            return;
        }
        1 => {
            let place = random.below(frame.messages.len() as u64 + 1) as usize;
            let message = unknown(random);
            frame.messages.insert(place, message);
            return;
        }
        _ if frame.messages.is_empty() => return,
        _ => {}
    }
    let place = random.below(frame.messages.len() as u64) as usize;
    if random.percent(8) {
        // AttributeType 0, at any version.
        frame.messages[place].attribute_type = 0;
        frame.version = random.one_of(&[0, 0, 1, 200]);
        return;
    }
    let newer = frame.version > 0;
    damage_message(random, &mut frame.messages[place], newer);
}

/// One damage to the header of a Message, to the end of its list, or to one of its vectors.
fn damage_message(random: &mut Random, message: &mut MessageDraft, newer: bool) {
    match random.below(20) {
        0..=1 => message.list_length_off = random.one_of(&[-2, -1, 1, 2, 3, 4, 300]),
        2 => message.attribute_type = random.one_of(&[5, 255, 1, 2, 3, 4]),
        3..=4 => {
            message.attribute_length =
                random.one_of(&[0, 4, 8, 25, 34, message.attribute_length.wrapping_add(1)])
        }
        5 => message.list_end_mark = false,
        6 => message.after_list_end_mark = random.octets_up_to(4),
        7 => message.after_list_end_mark = vec![0, 0],
        _ if message.vectors.is_empty() => {}
        15..=18 => {
            let place = random.below(message.vectors.len() as u64) as usize;
            near_the_fields_end(random, message.attribute_type, &mut message.vectors[place]);
        }
        way => {
            let place = random.below(message.vectors.len() as u64) as usize;
            damage_vector(random, &mut message.vectors[place], way, newer);
        }
    }
}

/// A damage to the events of a vector or to the number of its values, in a way that was drawn.
fn damage_vector(random: &mut Random, vector: &mut VectorDraft, way: u64, newer: bool) {
    match way {
        8..=10 => {
            let any = random.between(216, 255) as u8;
            vector.first_event_octet = Some(random.one_of(&[215, 216, 216, 217, 255, any]));
        }
        11..=12 => vector.leave_all_event = random.one_of(&[2, 2, 3, 4, 7]),
        13..=14 => {
            let values = vector.events.len() as u64;
            vector.number_of_values =
                Some(random.one_of(&[values + 1, values + 3, values + 4, 0x1fff]) as u16);
            if newer && random.percent(50) {
                vector.leave_all_event = random.between(2, 7) as u8;
            }
        }
        _ => vector.events.push(random.below(6) as u8),
    }
}

/// Moves a vector's values to the end of a field, or one past it.
fn near_the_fields_end(random: &mut Random, attribute_type: u8, vector: &mut VectorDraft) {
    let last = (vector.events.len() as u64).saturating_sub(1);
    let past = random.below(2);
    let first = |greatest: u64| greatest.saturating_sub(last).saturating_add(past).min(greatest);
    match (attribute_type, vector.first_value.len()) {
        (1, 1) => vector.first_value[0] = first(0xff) as u8,
        (2, 6) => {
            let address = first((1 << 48) - 1);
            vector.first_value.copy_from_slice(&address.to_be_bytes()[2..]);
        }
        (4, 4) => vector.first_value[random.below(2) as usize] = first(0xff) as u8,
        (1 | 2, 25 | 34) if random.percent(50) => {
            let destination = first((1 << 48) - 1);
            vector.first_value[8..14].copy_from_slice(&destination.to_be_bytes()[2..]);
        }
        (_, 8 | 25 | 34) => {
            let unique_id = first(0xffff) as u16;
            vector.first_value[6..8].copy_from_slice(&unique_id.to_be_bytes());
        }
        _ => {}
    }
}
