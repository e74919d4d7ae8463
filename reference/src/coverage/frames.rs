//! What is counted of frames.

use super::counts::Counts;
use super::domains::domain_vector;
use crate::mrp::Event;
use crate::numbers::{self, Number};
use crate::octets::number_of;
use crate::pdu::{AttributeType, Message, Pdu, Value, Vector};

/// Rows of the table: lengths.
pub const LENGTHS: &[&str] =
    &["PDU of 0 octets", "PDU of 1500 octets accepted", "PDU of 1501 octets"];

/// Rows of the table.
pub const ROWS: &[&str] = &[
    "talker advertise New",
    "talker advertise JoinIn",
    "talker advertise In",
    "talker advertise JoinMt",
    "talker advertise Mt",
    "talker advertise Lv",
    "talker failed New",
    "talker failed JoinIn",
    "talker failed In",
    "talker failed JoinMt",
    "talker failed Mt",
    "talker failed Lv",
    "listener New",
    "listener JoinIn",
    "listener In",
    "listener JoinMt",
    "listener Mt",
    "listener Lv",
    "domain New",
    "domain JoinIn",
    "domain In",
    "domain JoinMt",
    "domain Mt",
    "domain Lv",
    "listener join or Lv with Ignore",
    "LeaveAll talker advertise",
    "LeaveAll talker failed",
    "LeaveAll listener",
    "LeaveAll domain",
    "LeaveAll with 0 values",
    "LeaveAll with values",
    "vector of several values",
    "vector of more than 1000 values",
    "PDU of more than 10 Messages",
    "PDU of several Messages",
    "PDU without Messages",
    "frame ended by EndMark",
    "frame ended without EndMark",
    "higher version accepted",
];

/// Rows of the table: values at the bounds of their fields.
pub const BOUNDS: &[&str] = &[
    "unknown type at higher version skipped",
    "Unique ID FFFF with 1 value",
    "Unique ID FFFF with 2 values",
    "last Unique ID FFFF with several values",
    "last destination at its bound",
    "destination past its bound",
    "last Domain octet at its bound",
    "Domain octet past its bound",
];

pub fn event_word(event: Event) -> &'static str {
    match event {
        Event::New => "New",
        Event::JoinIn => "JoinIn",
        Event::In => "In",
        Event::JoinMt => "JoinMt",
        Event::Mt => "Mt",
        Event::Lv => "Lv",
    }
}

pub fn type_word(attribute_type: AttributeType) -> &'static str {
    match attribute_type {
        AttributeType::TalkerAdvertise => "talker advertise",
        AttributeType::TalkerFailed => "talker failed",
        AttributeType::Listener => "listener",
        AttributeType::Domain => "domain",
    }
}

pub fn is_talker(attribute_type: AttributeType) -> bool {
    matches!(attribute_type, AttributeType::TalkerAdvertise | AttributeType::TalkerFailed)
}

pub fn lengths(counts: &mut Counts, octets: &[u8], number: Number) {
    let unfit = number == numbers::PDU_LENGTH;
    counts.count_if("PDU of 0 octets", unfit && octets.is_empty());
    counts.count_if("PDU of 1501 octets", unfit && octets.len() == 1501);
    if number == numbers::ACCEPTED {
        counts.count_if("PDU of 1500 octets accepted", octets.len() == 1500);
        counts.count_if("higher version accepted", octets[0] > 0);
    }
}

pub fn value_past(
    counts: &mut Counts,
    attribute_type: AttributeType,
    first_value: &[u8],
    values: usize,
) {
    if attribute_type == AttributeType::Domain {
        counts.count("Domain octet past its bound");
        return;
    }
    let unique_id = number_of(&first_value[6..8]);
    counts.count_if("Unique ID FFFF with 2 values", unique_id == 0xffff && values == 2);
    if is_talker(attribute_type) {
        let last = number_of(&first_value[8..14]) + values as u64 - 1;
        counts.count_if("destination past its bound", last >= 1 << 48);
    }
}

pub fn pdu(counts: &mut Counts, pdu: &Pdu) {
    counts.count_if("PDU of several Messages", pdu.messages.len() > 1);
    counts.count_if("PDU of more than 10 Messages", pdu.messages.len() > 10);
    counts.count_if("PDU without Messages", pdu.messages.is_empty());
    counts.count_if("frame ended by EndMark", pdu.end_mark);
    counts.count_if("frame ended without EndMark", !pdu.end_mark);
    for message in &pdu.messages {
        counts.count_if("unknown type at higher version skipped", *message == Message::Skipped(()));
    }
    for vector in pdu.vectors() {
        one_vector(counts, vector);
    }
}

fn one_vector(counts: &mut Counts, vector: &Vector) {
    let word = type_word(vector.attribute_type);
    let values = vector.values.len();
    if vector.leave_all {
        counts.count(&format!("LeaveAll {word}"));
        counts.count_if("LeaveAll with 0 values", values == 0);
        counts.count_if("LeaveAll with values", values > 0);
    }
    counts.count_if("vector of several values", values > 1);
    counts.count_if("vector of more than 1000 values", values > 1_000);
    for (event, value) in &vector.values {
        counts.count(&format!("{word} {}", event_word(*event)));
        let ignored = matches!(value, Value::Listener(_, None));
        let idle = matches!(event, Event::In | Event::Mt);
        counts.count_if("listener join or Lv with Ignore", ignored && !idle);
    }
    match vector.values.last() {
        Some((_, Value::Talker(talker))) => {
            last_unique_id(counts, talker.stream_id, values);
            let bound = (1 << 48) - 1;
            let at_bound = talker.parameters.destination == bound;
            counts.count_if("last destination at its bound", at_bound);
        }
        Some((_, Value::Listener(stream_id, _))) => last_unique_id(counts, *stream_id, values),
        Some((_, Value::Domain(last))) => {
            let at_bound = last.class_id.max(last.priority) == 255;
            counts.count_if("last Domain octet at its bound", at_bound);
            domain_vector(counts, vector);
        }
        None => {}
    }
}

fn last_unique_id(counts: &mut Counts, stream_id: u64, values: usize) {
    let at_bound = stream_id & 0xffff == 0xffff;
    counts.count_if("Unique ID FFFF with 1 value", at_bound && values == 1);
    counts.count_if("last Unique ID FFFF with several values", at_bound && values > 1);
}
