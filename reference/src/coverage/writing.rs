//! What is counted of writes and reports.

use super::counts::Counts;
use super::packing::packed;
use super::{said, sending};
use crate::bridge::{Bridge, WriteAnswer};
use crate::declarations::{Declaration, Said};
use crate::mrp::LONGEST_PDU;
use crate::numbers::{self, Number};
use crate::pdu::{self, AttributeType};
use crate::sending::Written;
use crate::settled::SettledStream;

/// Rows of the table: what is written.
pub const ROWS: &[&str] = &[
    "write of Advertise, Failed, Listener and Domain",
    "write of Domain alone",
    "write of Domain before an advance",
    "write on a port without Domain",
    "write that ends before the Domain Message",
    "write that ends between two Domains",
    "write of exactly 1500 octets",
    "write of exactly 1500 octets with Domain",
];

/// Rows of the table: places.
pub const PLACES: &[&str] = &[
    "write with declarations left over",
    "write from a next place",
    "write at place = count",
    "write at place = count + 1",
    "report at place = count",
    "report at place = count + 1",
    "report of a stream joined since",
];

/// The writes of a script.
#[derive(Default)]
pub struct Writes {
    /// The port of the last accepted one, and its next place.
    last: Option<(u32, usize)>,
}

impl Writes {
    pub fn wrote(
        &mut self,
        counts: &mut Counts,
        (before, after): (&Bridge, &Bridge),
        (port, place): (u32, u32),
        answer: WriteAnswer,
    ) {
        let place = place as usize;
        let list = before.declarations(port as usize);
        let refused = answer.number != numbers::ACCEPTED;
        counts.count_if("write at place = count + 1", refused && place == list.len() + 1);
        if refused {
            said::refused(counts, before, port as usize, answer.number);
            return;
        }
        counts.count_if("write at place = count", place == list.len());
        let continued = place > 0 && place < list.len() && self.last == Some((port, place));
        counts.count_if("write from a next place", continued);
        self.last = Some((port, answer.next_place));
        let written = sending::wrote(counts, (before, after), port as usize, place);
        counts.count_if("write with declarations left over", written.no_room.is_some());
        said::written(counts, before, (port as usize, place), &written);
        packed(counts, before, (port as usize, place), &written);
        let full = answer.length == LONGEST_PDU;
        counts.count_if("write of exactly 1500 octets", full);
        contents(counts, before.clock, &list, &written);
    }
}

/// What stands in the PDU of an accepted write, and what it leaves to the next.
fn contents(counts: &mut Counts, clock: u32, list: &[Declaration], written: &Written) {
    let taken: Vec<Declaration> = written.said.iter().map(|said| said.declaration).collect();
    let has = |attribute_type| {
        taken.iter().any(|declaration| declaration.attribute_type() == attribute_type)
    };
    let all = pdu::ATTRIBUTE_TYPES.into_iter().all(has);
    counts.count_if("write of Advertise, Failed, Listener and Domain", all);
    let has_domain = has(AttributeType::Domain);
    let full = written.pdu.len() == LONGEST_PDU;
    counts.count_if("write of exactly 1500 octets with Domain", full && has_domain);
    let is_domain = |one: &Declaration| one.attribute_type() == AttributeType::Domain;
    counts.count_if("write of Domain alone", has_domain && taken.iter().all(is_domain));
    counts.count_if("write of Domain before an advance", has_domain && clock == 0);
    counts.count_if("write on a port without Domain", !list.iter().any(is_domain));
    if let (Some(last), Some(Said { declaration: left, .. })) = (taken.last(), &written.no_room) {
        let ends_before = is_domain(left) && !is_domain(last);
        counts.count_if("write that ends before the Domain Message", ends_before);
        counts.count_if("write that ends between two Domains", is_domain(last));
    }
}

pub fn reported(counts: &mut Counts, bridge: &Bridge, place: u32, number: Number) {
    let place = place as usize;
    let count = bridge.registrations.streams.len();
    let accepted = number == numbers::ACCEPTED;
    counts.count_if("report at place = count", accepted && place == count);
    counts.count_if("report at place = count + 1", !accepted && place == count + 1);
    if let Some(stream_id) = bridge.registrations.streams.keys().nth(place) {
        let none = SettledStream::none(bridge.settings.ports.len());
        let joined_since = bridge.settled.streams[stream_id] == none;
        counts.count_if("report of a stream joined since", joined_since);
    }
}
