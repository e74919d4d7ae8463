//! What is counted of MMRP frames, addresses and pruning.

use super::counts::Counts;
use super::frames::{event_word, is_talker};
use super::heard;
use super::held::{registered_at, talker_port};
use super::newer::causes;
use crate::bridge::Bridge;
use crate::fan_in::FanIn;
use crate::mmrp::{self, Address, Message, MmrpType, Pdu, Vector, VectorRead, ADDRESS_BITS};
use crate::mrp::{Event, Fault};
use crate::numbers::{self, Number};
use crate::pdu;
use crate::registrations::{Addresses, TalkerRegistration, MOST_ADDRESSES};
use crate::settled::Column;
use crate::settling::Step;

/// Rows of the table.
pub const ROWS: &[&str] = &[
    "mmrp 0",
    "mmrp 1",
    "mmrp 2",
    "mmrp 3",
    "mmrp 4",
    "mmrp 5",
    "mmrp 6",
    "mmrp 7",
    "mmrp 12",
    "mmrp 14",
    "pruning on",
    "pruning off",
    "settings refused with pruning on",
    "MMRP PDU of 0 octets",
    "MMRP PDU of more than 1500 octets",
    "MMRP service requirement New",
    "MMRP service requirement JoinIn",
    "MMRP service requirement In",
    "MMRP service requirement JoinMt",
    "MMRP service requirement Mt",
    "MMRP service requirement Lv",
    "MMRP mac New",
    "MMRP mac JoinIn",
    "MMRP mac In",
    "MMRP mac JoinMt",
    "MMRP mac Mt",
    "MMRP mac Lv",
    "MMRP LeaveAll service requirement",
    "MMRP LeaveAll mac",
    "MMRP LeaveAll with 0 values",
    "MMRP vector of several values",
    "MMRP PDU of several Messages",
    "MMRP PDU without Messages",
    "MMRP empty list",
    "MMRP frame ended by EndMark",
    "MMRP frame ended without EndMark",
    "MMRP number 4 at version 0",
    "MMRP type 0 at a higher version",
    "MMRP unknown type walked over",
    "MMRP unknown type of several vectors",
    "MMRP unknown type with AttributeLength 0",
    "MMRP unknown type with LeaveAllEvent above 1",
    "MMRP number 6 at version 0",
    "MMRP passed over: service requirement",
    "MMRP passed over: mac",
    "MMRP passed over for its LeaveAllEvent",
    "MMRP passed over for an event octet",
    "MMRP passed over with LeaveAllEvent 1",
    "MMRP passed over with a value past its field",
    "MMRP passed over, with a vector read behind it",
    "MMRP passed over, with addresses past the room",
    "MMRP LeaveAllEvent above 1 that doesn't fit, refused with 3",
    "MMRP fault behind a vector passed over",
    "MMRP last service requirement at 255",
    "MMRP service requirement past 255",
    "MMRP last address at its bound",
    "MMRP address past its bound",
    "address zero registered",
    "address FF-FF-FF-FF-FF-FF registered",
    "single address registered",
    "exactly 64 addresses held by a join",
    "repeated addresses that count once",
    "Lv, In and Mt past the room",
    "Lv of an address that isn't held",
    "number 14 with 64 addresses held",
    "number 14 with fewer held",
    "number 14 with leaving addresses held",
    "number 14 with addresses joined and left at once",
    "number 14 with a LeaveAll in the PDU",
    "LeaveAll of type 1 that leaves addresses",
    "LeaveAll of MSRP's type 1 or 2 beside addresses",
    "LeaveAll of MMRP beside Talkers that aren't leaving",
    "address leaving begun by Lv",
    "address leaving begun by LeaveAll",
    "address leaving begun again, the first time stays",
    "address leaving ended by a join",
    "address removed exactly at the leave time",
    "address removed later",
    "address kept though leaving",
    "column step n",
    "pruned: Advertise",
    "pruned: Failed",
    "pruned: changed",
    "pruned with a Listener",
    "pruned without a Listener",
    "pruned on a port with a second Talker",
    "pruned where there was a column",
    "pruned before 5",
    "pruned before 15",
    "not pruned by a leaving address",
    "no longer pruned, with its age anew",
    "no longer pruned, with its age kept",
    "without the destination, pruning off",
    "inbound port with pruned streams alone",
    "code 5 by a stream that is declared nowhere",
];

/// The greatest address.
const GREATEST: Address = (1 << ADDRESS_BITS) - 1;

/// The bit of group addresses, the lowest of the first octet.
const GROUP: Address = 1 << 40;

fn type_word(attribute_type: MmrpType) -> &'static str {
    match attribute_type {
        MmrpType::ServiceRequirement => "service requirement",
        MmrpType::Mac => "mac",
    }
}

/// An MMRP frame that reached a bridge, on one of its ports.
pub fn received_mmrp(
    counts: &mut Counts,
    (before, after): (Option<&Bridge>, &Bridge),
    port: usize,
    octets: &[u8],
    number: Number,
) {
    let no_length = number == numbers::PDU_LENGTH;
    counts.count_if("MMRP PDU of 0 octets", no_length && octets.is_empty());
    counts.count_if("MMRP PDU of more than 1500 octets", no_length && !octets.is_empty());
    let before = match before {
        Some(before) => before,
        None => return,
    };
    let held = &before.registrations.addresses[port - 1];
    match mmrp::read(octets) {
        Ok(pdu) if number == numbers::ADDRESSES => addresses_past(counts, &pdu, held),
        Ok(pdu) => {
            mmrp_pdu(counts, &pdu);
            mmrp_passed_over(counts, &pdu, held);
            addresses_joined(counts, &pdu, held);
            let is = &after.registrations.addresses[port - 1];
            addresses(counts, (held, is), &pdu, before.clock);
            leaves_talkers(counts, before, port, &pdu);
        }
        Err(fault) => mmrp_refused(counts, octets.first().copied().unwrap_or(0), &fault),
    }
}

fn mmrp_refused(counts: &mut Counts, version: u8, fault: &Fault<MmrpType>) {
    let number = fault.number;
    let by_type = number == numbers::ATTRIBUTE_TYPE;
    counts.count_if("MMRP number 4 at version 0", by_type && version == 0);
    counts.count_if("MMRP type 0 at a higher version", by_type && version > 0);
    counts.count_if("MMRP number 6 at version 0", number == numbers::EVENT && version == 0);
    let unfit = fault.unfit.map_or(false, |leave_all_event| leave_all_event > 1);
    counts.count_if("MMRP LeaveAllEvent above 1 that doesn't fit, refused with 3", unfit);
    let behind = fault.behind_passed_over;
    counts.count_if("MMRP fault behind a vector passed over", behind);
    match fault.vector {
        Some((MmrpType::ServiceRequirement, ..)) => {
            counts.count("MMRP service requirement past 255");
        }
        Some((MmrpType::Mac, ..)) => counts.count("MMRP address past its bound"),
        None => {}
    }
}

fn mmrp_pdu(counts: &mut Counts, pdu: &Pdu) {
    counts.count_if("MMRP PDU of several Messages", pdu.messages.len() > 1);
    counts.count_if("MMRP PDU without Messages", pdu.messages.is_empty());
    counts.count_if("MMRP frame ended by EndMark", pdu.end_mark);
    counts.count_if("MMRP frame ended without EndMark", !pdu.end_mark);
    for message in &pdu.messages {
        match message {
            Message::Known(vectors) => counts.count_if("MMRP empty list", vectors.is_empty()),
            Message::Skipped(vectors) => {
                counts.count("MMRP unknown type walked over");
                counts.count_if("MMRP unknown type of several vectors", vectors.len() > 1);
                for vector in vectors {
                    let short = vector.attribute_length == 0;
                    counts.count_if("MMRP unknown type with AttributeLength 0", short);
                    let strange = vector.leave_all_event > 1;
                    counts.count_if("MMRP unknown type with LeaveAllEvent above 1", strange);
                }
            }
        }
    }
    for vector in pdu.vectors() {
        mmrp_vector(counts, vector);
    }
}

fn mmrp_vector(counts: &mut Counts, vector: &Vector) {
    let word = type_word(vector.attribute_type);
    counts.count_if("MMRP vector of several values", vector.values.len() > 1);
    if vector.leave_all {
        counts.count(&format!("MMRP LeaveAll {word}"));
        counts.count_if("MMRP LeaveAll with 0 values", vector.values.is_empty());
    }
    for (event, _) in &vector.values {
        counts.count(&format!("MMRP {word} {}", event_word(*event)));
    }
    if let Some((_, last)) = vector.values.last() {
        let services = vector.attribute_type == MmrpType::ServiceRequirement;
        counts.count_if("MMRP last service requirement at 255", services && *last == 255);
        counts.count_if("MMRP last address at its bound", !services && *last == GREATEST);
    }
}

/// The vectors that were passed over in an accepted PDU.
fn mmrp_passed_over(counts: &mut Counts, pdu: &Pdu, held: &Addresses) {
    for list in pdu.lists() {
        for (place, vector) in list.iter().enumerate() {
            let vector = match vector {
                VectorRead::PassedOver(vector) => vector,
                VectorRead::Read(_) => continue,
            };
            counts.count(&format!("MMRP passed over: {}", type_word(vector.attribute_type)));
            let (by_leave_all, by_octet) = causes(vector);
            counts.count_if("MMRP passed over for its LeaveAllEvent", by_leave_all);
            counts.count_if("MMRP passed over for an event octet", by_octet);
            let leaves = vector.leave_all_event == 1;
            counts.count_if("MMRP passed over with LeaveAllEvent 1", leaves);
            let values = vector.number_of_values;
            let fits = mmrp::values_fit(&vector.first_value, values);
            counts.count_if("MMRP passed over with a value past its field", !fits);
            let read = |vector: &VectorRead| matches!(vector, VectorRead::Read(_));
            let read_after = list[place + 1..].iter().any(read);
            counts.count_if("MMRP passed over, with a vector read behind it", read_after);
            let is_mac = vector.attribute_type == MmrpType::Mac;
            let no_room = is_mac && held.len() + values > MOST_ADDRESSES;
            counts.count_if("MMRP passed over, with addresses past the room", no_room);
        }
    }
}

/// An accepted frame whose addresses might have been too many.
fn addresses_joined(counts: &mut Counts, pdu: &Pdu, held: &Addresses) {
    let is_new = |address: &Address| !held.contains_key(address);
    let new = pdu.addresses_joined().into_iter().filter(is_new).count();
    let joins = pdu.addresses().filter(|(event, address)| event.is_join() && is_new(address));
    let room = MOST_ADDRESSES - held.len();
    let again = joins.count();
    counts.count_if("repeated addresses that count once", again > room && again > new);
    let others = pdu.addresses().filter(|(event, address)| !event.is_join() && is_new(address));
    counts.count_if("Lv, In and Mt past the room", others.count() > room - new);
    counts.count_if("exactly 64 addresses held by a join", new > 0 && new == room);
}

/// A frame that is refused for its addresses.
fn addresses_past(counts: &mut Counts, pdu: &Pdu, held: &Addresses) {
    let full = held.len() == MOST_ADDRESSES;
    counts.count_if("number 14 with 64 addresses held", full);
    counts.count_if("number 14 with fewer held", !full);
    let leaving = held.values().any(|leaving| leaving.is_some());
    counts.count_if("number 14 with leaving addresses held", leaving);
    let joined = pdu.addresses_joined();
    let left = |(event, address): (Event, Address)| {
        event == Event::Lv && joined.contains(&address) && !held.contains_key(&address)
    };
    counts.count_if("number 14 with addresses joined and left at once", {
        pdu.addresses().any(left)
    });
    let leaves_all = pdu.vectors().any(|vector| vector.leave_all);
    counts.count_if("number 14 with a LeaveAll in the PDU", leaves_all);
}

/// What an accepted frame did to the addresses of its port.
fn addresses(counts: &mut Counts, (was, is): (&Addresses, &Addresses), pdu: &Pdu, clock: u32) {
    let leaves_all = |wanted: MmrpType| {
        pdu.vectors().any(|vector| vector.leave_all && vector.attribute_type == wanted)
    };
    let left_by_all = leaves_all(MmrpType::Mac);
    let by_service = leaves_all(MmrpType::ServiceRequirement) && !left_by_all;
    let untouched = was == is && !was.is_empty();
    counts.count_if("LeaveAll of type 1 that leaves addresses", by_service && untouched);
    for (address, leaving) in is {
        let left = pdu.addresses().any(|event_of| event_of == (Event::Lv, *address));
        let held = match was.get(address) {
            Some(held) => held,
            None => {
                counts.count_if("address zero registered", *address == 0);
                counts.count_if("address FF-FF-FF-FF-FF-FF registered", *address == GREATEST);
                counts.count_if("single address registered", address & GROUP == 0);
                continue;
            }
        };
        let begun = held.is_none() && leaving.is_some();
        counts.count_if("address leaving begun by Lv", begun && !left_by_all);
        counts.count_if("address leaving begun by LeaveAll", begun && !left);
        let ended = held.is_some() && leaving.is_none();
        counts.count_if("address leaving ended by a join", ended);
        let earlier = held.map_or(false, |begun| begun < clock);
        let again = earlier && leaving.is_some() && (left || left_by_all);
        counts.count_if("address leaving begun again, the first time stays", again);
    }
    let unheld =
        |(event, address): (Event, Address)| event == Event::Lv && !is.contains_key(&address);
    counts.count_if("Lv of an address that isn't held", pdu.addresses().any(unheld));
}

/// An accepted MSRP frame whose LeaveAll has the number of an MMRP type.
pub fn leaves_addresses(counts: &mut Counts, before: &Bridge, port: usize, pdu: &pdu::Pdu) {
    let by_talkers = |vector: &pdu::Vector| vector.leave_all && is_talker(vector.attribute_type);
    let stays = |leaving: &Option<u32>| leaving.is_none();
    let beside = before.registrations.addresses[port - 1].values().any(stays);
    let leaves = pdu.vectors().any(by_talkers);
    counts.count_if("LeaveAll of MSRP's type 1 or 2 beside addresses", leaves && beside);
}

/// An accepted MMRP frame whose LeaveAll has the number of an MSRP type.
fn leaves_talkers(counts: &mut Counts, before: &Bridge, port: usize, pdu: &Pdu) {
    let mut on_port = before.registrations.streams.values().map(|ports| &ports[port - 1]);
    let stays = |talker: &TalkerRegistration| talker.leaving.is_none();
    let beside = on_port.any(|on_port| on_port.talker.as_ref().map_or(false, stays));
    let leaves = pdu.vectors().any(|vector| vector.leave_all);
    counts.count_if("LeaveAll of MMRP beside Talkers that aren't leaving", leaves && beside);
    if leaves {
        heard::mmrp_leaves_all(counts, before, port);
    }
}

pub fn addresses_left(counts: &mut Counts, time: u32, before: &Bridge) {
    let leave_time = before.settings.leave_time;
    let addresses = before.registrations.addresses.iter().flat_map(|held| held.values());
    for begun in addresses.flatten() {
        let gone_for = time - begun;
        counts.count_if("address removed exactly at the leave time", gone_for == leave_time);
        counts.count_if("address removed later", gone_for > leave_time);
        counts.count_if("address kept though leaving", gone_for < leave_time);
    }
}

/// A column that was, or could have been, pruned.
pub fn pruned(
    counts: &mut Counts,
    (before, after): (&Bridge, &Bridge),
    stream_id: u64,
    port: usize,
    step: Step,
) {
    let talker = match registered_at(after, stream_id) {
        Some(talker) => talker,
        None => return,
    };
    let address = after.registrations.addresses[port - 1].get(&talker.parameters.destination);
    let pruning = after.settings.pruning;
    let passed = step != Step::A && step != Step::B && step != Step::N;
    let leaving = address.map_or(false, |leaving| leaving.is_some());
    counts.count_if("not pruned by a leaving address", pruning && passed && leaving);
    counts.count_if("without the destination, pruning off", !pruning && address.is_none());
    let settled = before.settled.streams.get(&stream_id);
    let was = settled.map(|settled| &settled.ports[port - 1]);
    let had_column = was.map_or(false, |was| was.column != Column::None);
    // The Talker was settled already, and only an address can have moved its column.
    let was_here = settled.map_or(false, |was| was.parameters == talker.parameters);
    let no_longer = pruning && passed && was_here && !had_column;
    let since = was.and_then(|was| was.entry_since);
    counts.count_if("no longer pruned, with its age anew", no_longer && since.is_none());
    counts.count_if("no longer pruned, with its age kept", no_longer && since.is_some());
    if step == Step::N {
        counts.count_if("pruned where there was a column", had_column);
        one_pruned(counts, after, stream_id, port, talker);
    }
}

/// A column that was pruned.
fn one_pruned(
    counts: &mut Counts,
    after: &Bridge,
    stream_id: u64,
    port: usize,
    talker: &TalkerRegistration,
) {
    counts.count_if("pruned: Advertise", talker.failure.is_none());
    counts.count_if("pruned: Failed", talker.failure.is_some());
    counts.count_if("pruned: changed", talker.changed);
    let on_port = &after.registrations.streams[&stream_id][port - 1];
    counts.count_if("pruned with a Listener", on_port.listener.is_some());
    counts.count_if("pruned without a Listener", on_port.listener.is_none());
    counts.count_if("pruned on a port with a second Talker", on_port.talker.is_some());
    let fan_in = FanIn::of(&after.registrations);
    let shared = fan_in.is_shared(stream_id, &talker.parameters);
    counts.count_if("pruned before 5", shared);
    let at = talker_port(after, stream_id).expect("it has a Talker") + 1;
    let past = !fan_in.may_bring_in(at, after.settings.fan_in_limit);
    counts.count_if("pruned before 15", past);
}

/// Pruned streams that count for 5 and 15.
pub fn pruned_and_counted(counts: &mut Counts, after: &Bridge) {
    if !after.settings.pruning {
        return;
    }
    let ports = 1..=after.settings.ports.len();
    let declared_nowhere = |stream_id: u64| {
        let ports = &after.settled.streams[&stream_id].ports;
        ports.iter().all(|on_port| on_port.column == Column::None)
    };
    let fan_in = FanIn::of(&after.registrations);
    let limit = after.settings.fan_in_limit;
    for port in ports.filter(|port| fan_in.ports.contains(port)) {
        let here = |stream_id: &&u64| talker_port(after, **stream_id) == Some(port - 1);
        let mut streams = after.registrations.streams.keys().filter(here);
        let alone = streams.all(|stream_id| declared_nowhere(*stream_id));
        let next = fan_in.ports.range(port + 1..).next();
        let matters = next.map_or(false, |next| fan_in.below(*next) == usize::from(limit));
        let alone = alone && limit > 0 && matters;
        counts.count_if("inbound port with pruned streams alone", alone);
    }
    for (stream_id, settled) in &after.settled.streams {
        let fails = |code| {
            let has = |column| matches!(column, Column::Failed(one) if one.code == code);
            settled.ports.iter().any(|on_port| has(on_port.column))
        };
        let parameters = |stream_id| registered_at(after, stream_id).map(|t| t.parameters);
        let is_lowest = |lower: &&u64| match (parameters(**lower), parameters(*stream_id)) {
            (Some(one), Some(other)) => {
                (one.destination, one.vlan) == (other.destination, other.vlan)
            }
            _ => false,
        };
        let lowest = after.registrations.streams.keys().find(is_lowest);
        let pruned =
            lowest.map_or(false, |lowest| lowest != stream_id && declared_nowhere(*lowest));
        counts.count_if("code 5 by a stream that is declared nowhere", fails(5) && pruned);
    }
}
