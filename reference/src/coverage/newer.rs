//! What is counted of vectors that are passed over.

use std::collections::BTreeSet;

use super::counts::Counts;
use super::frames::type_word;
use crate::bridge::Bridge;
use crate::mrp::{self, GREATEST_THREE_PACKED};
use crate::numbers::{self, Number};
use crate::octets::number_of;
use crate::pdu::{self, AttributeType, Fault, PassedOver, Pdu, VectorRead};
use crate::registrations::MOST_STREAMS;

/// Rows of the table.
pub const ROWS: &[&str] = &[
    "passed over: talker advertise",
    "passed over: talker failed",
    "passed over: listener",
    "passed over: domain",
    "passed over for its LeaveAllEvent",
    "passed over for an event octet",
    "passed over for its LeaveAllEvent and an event octet",
    "passed over for an event octet behind a good one",
    "passed over with LeaveAllEvent 1",
    "passed over with 0 values",
    "passed over with several values",
    "passed over with several four-packed octets",
    "passed over with a value past its field",
    "passed over, with a vector read before it",
    "passed over, with a vector read behind it",
    "passed over, last of its list",
    "passed over, with streams that there is no room for",
    "passed over at version 1",
    "passed over at version 2 to 254",
    "passed over at version 255",
    "PDU of vectors passed over alone",
    "LeaveAllEvent above 1 that doesn't fit, refused with 3",
    "fault behind a vector passed over",
    "number 7 behind a vector passed over",
    "number 6 at version 0",
];

/// Whether a vector is passed over for its LeaveAllEvent, and for an event octet.
pub fn causes<T>(vector: &mrp::PassedOver<T>) -> (bool, bool) {
    let strange = |octet: &u8| *octet > GREATEST_THREE_PACKED;
    (vector.leave_all_event > 1, vector.three_packed.iter().any(strange))
}

fn is_passed_over(vector: &VectorRead) -> bool {
    matches!(vector, VectorRead::PassedOver(_))
}

/// The vectors that were passed over in an accepted PDU of a higher version.
pub fn passed_over(counts: &mut Counts, version: u8, pdu: &Pdu, before: &Bridge) {
    let mut passed_over = 0;
    for list in pdu.lists() {
        for (place, vector) in list.iter().enumerate() {
            if let VectorRead::PassedOver(vector) = vector {
                passed_over += 1;
                one_passed_over(counts, vector);
                let (before, after) = (&list[..place], &list[place + 1..]);
                let read_before = before.iter().any(|vector| !is_passed_over(vector));
                let read_after = after.iter().any(|vector| !is_passed_over(vector));
                counts.count_if("passed over, with a vector read before it", read_before);
                counts.count_if("passed over, with a vector read behind it", read_after);
                counts.count_if("passed over, last of its list", after.is_empty());
            }
        }
    }
    if passed_over == 0 {
        return;
    }
    counts.count(match version {
        1 => "passed over at version 1",
        255 => "passed over at version 255",
        _ => "passed over at version 2 to 254",
    });
    counts.count_if("PDU of vectors passed over alone", pdu.vectors().next().is_none());
    let streams = streams_passed_over(pdu, before);
    counts.count_if("passed over, with streams that there is no room for", {
        before.registrations.streams.len() + streams > MOST_STREAMS
    });
}

fn one_passed_over(counts: &mut Counts, vector: &PassedOver) {
    counts.count(&format!("passed over: {}", type_word(vector.attribute_type)));
    let (by_leave_all, by_octet) = causes(vector);
    counts.count(match (by_leave_all, by_octet) {
        (true, true) => "passed over for its LeaveAllEvent and an event octet",
        (true, false) => "passed over for its LeaveAllEvent",
        _ => "passed over for an event octet",
    });
    let later = !by_leave_all && vector.three_packed[0] <= GREATEST_THREE_PACKED;
    counts.count_if("passed over for an event octet behind a good one", later);
    let leaves = vector.leave_all_event == 1;
    counts.count_if("passed over with LeaveAllEvent 1", leaves);
    let values = vector.number_of_values;
    counts.count_if("passed over with 0 values", values == 0);
    counts.count_if("passed over with several values", values > 1);
    let fits = pdu::values_fit(vector.attribute_type, &vector.first_value, values);
    counts.count_if("passed over with a value past its field", !fits);
    let listens = vector.attribute_type == AttributeType::Listener;
    counts.count_if("passed over with several four-packed octets", listens && values > 4);
}

/// How many streams that aren't held stand in vectors that were passed over.
fn streams_passed_over(pdu: &Pdu, before: &Bridge) -> usize {
    let mut streams = BTreeSet::new();
    for vector in pdu.lists().flatten() {
        if let VectorRead::PassedOver(vector) = vector {
            if vector.attribute_type != AttributeType::Domain {
                let first = number_of(&vector.first_value[..8]);
                streams.extend((0..vector.number_of_values as u64).map(|n| first.wrapping_add(n)));
            }
        }
    }
    let is_new = |stream_id: &&u64| !before.registrations.streams.contains_key(*stream_id);
    streams.iter().filter(is_new).count()
}

/// A PDU that is refused for what stands behind a vector that was passed over, or for one that
/// doesn't fit.
pub fn newer_refused(counts: &mut Counts, version: u8, number: Number, fault: &Fault) {
    let unfit = fault.unfit.map_or(false, |leave_all_event| leave_all_event > 1);
    counts.count_if("LeaveAllEvent above 1 that doesn't fit, refused with 3", unfit);
    let behind = fault.behind_passed_over;
    counts.count_if("fault behind a vector passed over", behind);
    let by_value = behind && number == numbers::VALUE;
    counts.count_if("number 7 behind a vector passed over", by_value);
    counts.count_if("number 6 at version 0", number == numbers::EVENT && version == 0);
}
