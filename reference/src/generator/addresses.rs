//! What neighbours ask for by MMRP frames.

use super::damage::damaged;
use super::events::{some_events, JOINS, LV};
use super::frames::talkers_frame;
use super::history::History;
use super::newer::of_some_version;
use super::plan::{Group, Plan};
use crate::frame::{FrameDraft, MessageDraft, VectorDraft};
use crate::mmrp::{Address, MmrpType, ADDRESS_BITS};
use crate::pdu::Talker;
use crate::random::Random;
use crate::registrations::MOST_ADDRESSES;

/// The greatest address.
const GREATEST: Address = (1 << ADDRESS_BITS) - 1;

/// The FirstValue of an address.
fn first_value(address: Address) -> Vec<u8> {
    address.to_be_bytes()[2..].to_vec()
}

/// Addresses in a row: the first, and how many. Mostly destinations of a group.
fn some_addresses(random: &mut Random, plan: &Plan) -> (Address, u64) {
    let group = random.one_of(&plan.groups);
    let first = group.first.parameters.destination;
    match random.below(24) {
        0..=13 => (first, group.members),
        14..=16 => (first + random.below(group.members), 1),
        17 => (0, random.between(1, 3)),
        18..=19 => {
            let count = random.between(1, 4);
            (GREATEST - (count - 1), count)
        }
        20 => (GREATEST - random.below(2), random.between(2, 4)),
        21 => (random.bits() & GREATEST >> random.one_of(&[0, 1, 40]), 1),
        22 => (first, random.between(group.members, group.members + 20)),
        _ => (first, 0),
    }
}

/// A vector of values in a row. Without any it has a LeaveAll, since it would be an EndMark else.
fn vector(random: &mut Random, first_value: Vec<u8>, count: u64) -> VectorDraft {
    VectorDraft {
        leave_all_event: u8::from(count == 0 || random.percent(8)),
        first_value,
        events: some_events(random, count, 10),
        spare_event: if random.percent(10) { random.below(6) as u8 } else { 0 },
        ..VectorDraft::default()
    }
}

fn mac_vector(random: &mut Random, plan: &Plan) -> VectorDraft {
    let (first, count) = some_addresses(random, plan);
    vector(random, first_value(first), count)
}

fn service_vector(random: &mut Random) -> VectorDraft {
    let first = random.one_of(&[0, 1, 1, 2, 253, 254, 255]);
    let count = random.one_of(&[0, 1, 1, 1, 2, 2, 3]);
    vector(random, vec![first], count)
}

/// A Message of a type above 2, which only a higher version walks over. Its vectors have whatever
/// events and LeaveAllEvent.
fn unknown_message(random: &mut Random) -> MessageDraft {
    let any = random.below(40) as u8;
    let attribute_length = random.one_of(&[0, 0, 1, 4, 6, any]);
    let vector = |random: &mut Random| VectorDraft {
        leave_all_event: random.one_of(&[0, 1, 2, 7]),
        first_value: random.octets(usize::from(attribute_length)),
        events: vec![0; random.below(12) as usize],
        first_event_octet: Some(random.octet()),
        ..VectorDraft::default()
    };
    let vectors = (0..random.below(4)).map(|_| vector(random)).collect();
    MessageDraft {
        attribute_type: random.one_of(&[3, 3, 4, 100, 255]),
        attribute_length,
        ..MessageDraft::of_mmrp(MmrpType::Mac, vectors)
    }
}

/// A well-formed MMRP frame, but for values that may run past their field.
fn frame(random: &mut Random, plan: &Plan) -> FrameDraft {
    let mut messages = Vec::new();
    for _ in 0..random.one_of(&[0, 1, 1, 1, 1, 1, 1, 2, 2, 3]) {
        let services = random.percent(15);
        let mut vectors = Vec::new();
        while vectors.is_empty() && !random.percent(3) || random.percent(30) {
            vectors.push(match services {
                true => service_vector(random),
                false => mac_vector(random, plan),
            });
        }
        let attribute_type = if services { MmrpType::ServiceRequirement } else { MmrpType::Mac };
        messages.push(MessageDraft::of_mmrp(attribute_type, vectors));
    }
    of_some_version(random, messages, unknown_message)
}

/// A frame of one Message with vectors of addresses.
fn of_vectors(vectors: Vec<VectorDraft>) -> Vec<u8> {
    FrameDraft::new(vec![MessageDraft::of_mmrp(MmrpType::Mac, vectors)]).octets()
}

/// A vector of all destinations of a group, with one event.
fn vector_of_group(group: &Group, event: u8) -> VectorDraft {
    VectorDraft {
        first_value: first_value(group.first.parameters.destination),
        events: vec![event; group.members as usize],
        ..VectorDraft::default()
    }
}

/// Decides whether a bridge prunes: mostly, where neighbours ask for addresses.
pub fn choose_pruning(history: &mut History, plan: &mut Plan) {
    history.asking(|history| plan.settings.pruning = history.random.percent(65));
}

/// The neighbours of most ports ask for the destinations of most groups.
pub fn hear_addresses(history: &mut History, plan: &Plan) {
    history.asking(|history| {
        for port in 1..=plan.ports() {
            let mut vectors = Vec::new();
            for group in &plan.groups {
                if history.random.percent(70) {
                    vectors.push(vector_of_group(group, history.random.one_of(&JOINS)));
                }
            }
            if !vectors.is_empty() {
                history.receive_mmrp(port, &of_vectors(vectors));
            }
        }
    });
}

/// In so many of a hundred cases something that neighbours ask for.
pub fn mmrp_step(history: &mut History, plan: &Plan, percent: u64) {
    history.asking(|history| {
        if history.random.percent(percent) {
            some_mmrp(history, plan);
        }
    });
}

fn some_mmrp(history: &mut History, plan: &Plan) {
    let port = history.port(plan);
    match history.random.below(40) {
        0..=17 => {
            let octets = frame(&mut history.random, plan).octets();
            history.receive_mmrp(port, &octets);
        }
        18..=26 => {
            let frame = frame(&mut history.random, plan);
            let octets = damaged(&mut history.random, frame, unknown_message);
            history.receive_mmrp(port, &octets);
        }
        27 => {
            let port = history.wrong_port(plan);
            let octets = frame(&mut history.random, plan).octets();
            history.receive_mmrp(port, &octets);
        }
        28..=31 => leave_addresses_and_wait(history, plan),
        32..=34 => fill_addresses(history, plan, port),
        35 if history.random.percent(10) => {
            let length = history.random.one_of(&[1_501, 4_096, 4_097]);
            history.receive_mmrp(port, &vec![0; length]);
        }
        36 => share_where_one_asks(history, plan),
        _ => ask_anew(history, plan),
    }
}

/// Addresses held on a port.
fn addresses_held(history: &History, port: u32) -> usize {
    let bridge = history.table.bridge();
    let addresses = bridge
        .and_then(|bridge| bridge.registrations.addresses.get((port as usize).wrapping_sub(1)));
    addresses.map_or(0, |addresses| addresses.len())
}

/// Joins new addresses up to 64 on a port, one less or one more; at times with some again, or with
/// a part that leaves at once.
fn fill_addresses(history: &mut History, plan: &Plan, port: u32) {
    let free = MOST_ADDRESSES - addresses_held(history, port);
    let count = history.random.one_of(&[free, free, free, free + 1, free + 1, 1]).max(1);
    let first = 0x0100_5e00_0000 + history.random.below(1 << 20);
    let mut events = vec![history.random.one_of(&JOINS); count];
    let mut vectors = Vec::new();
    if history.random.percent(15) {
        events.extend([2, 4, LV]); // these need no room
    }
    let joined = VectorDraft { first_value: first_value(first), events, ..VectorDraft::default() };
    if history.random.percent(30) {
        vectors.push(joined.clone());
    }
    if history.random.percent(20) {
        let mut left = joined.clone();
        left.events = vec![LV; count];
        vectors.extend([joined.clone(), left]);
    }
    vectors.push(joined);
    if history.random.percent(25) {
        vectors.push(vector_of_group(&plan.groups[0], JOINS[1]));
    }
    history.receive_mmrp(port, &of_vectors(vectors));
    if history.random.percent(30) {
        let one_more = vector(&mut history.random, first_value(first + 1_000), 1);
        history.receive_mmrp(port, &of_vectors(vec![one_more]));
    }
}

/// A neighbour leaves what it has asked for, by Lv or by LeaveAll.
fn leave_addresses(history: &mut History, port: u32, group: &Group) {
    let vector = vector_of_group(group, LV);
    let pdu = match history.random.below(6) {
        0..=1 => {
            let all = VectorDraft { leave_all_event: 1, events: Vec::new(), ..vector };
            of_vectors(vec![all])
        }
        2 => {
            // That of the other type does nothing.
            let all = VectorDraft { leave_all_event: 1, ..VectorDraft::default() };
            let all = VectorDraft { first_value: vec![0], ..all };
            let message = MessageDraft::of_mmrp(MmrpType::ServiceRequirement, vec![all]);
            FrameDraft::new(vec![message]).octets()
        }
        _ => of_vectors(vec![vector]),
    };
    history.receive_mmrp(port, &pdu);
}

/// Addresses leave; before the leave time is over they leave again, join or do nothing; then time
/// goes to the end of the leave time, counted from the first leaving.
fn leave_addresses_and_wait(history: &mut History, plan: &Plan) {
    let port = history.port(plan);
    let group = history.random.one_of(&plan.groups);
    let begun = history.clock();
    let leave_time = plan.settings.leave_time;
    leave_addresses(history, port, &group);
    let part = history.random.below(u64::from(leave_time)) as u32;
    history.advance(begun.saturating_add(part));
    match history.random.below(6) {
        0..=1 => leave_addresses(history, port, &group),
        2..=3 => history.receive_mmrp(port, &of_vectors(vec![vector_of_group(&group, JOINS[2])])),
        _ => {}
    }
    if history.random.percent(40) {
        history.advance(begun.saturating_add(leave_time - 1));
    }
    if history.random.percent(80) {
        history.advance(begun.saturating_add(leave_time));
    }
}

/// Two streams with one destination, of which the lower comes in on the only port that asks for it:
/// so it is declared nowhere, and the other one shares its address all the same.
fn share_where_one_asks(history: &mut History, plan: &Plan) {
    let asking = history.port(plan);
    let other = asking % plan.ports() + 1;
    let mut talker = Talker::of_the_worked_example(0x0200_0000_00e0_0000);
    talker.parameters.destination = 0x91e0_f000_7700 + history.random.below(4);
    talker.parameters.priority = plan.settings.priority.a;
    for port in [asking, other] {
        talker.stream_id += 1;
        let group = Group { first: talker, members: 1, talker_port: port };
        let frame = talkers_frame(&mut history.random, &group, 0);
        history.receive(port, &frame);
        if port == asking {
            history.receive_mmrp(port, &of_vectors(vec![vector_of_group(&group, JOINS[0])]));
        }
    }
    history.advance(history.clock());
}

/// A neighbour asks for what it wants anew: what it doesn't name again leaves.
fn ask_anew(history: &mut History, plan: &Plan) {
    let port = history.port(plan);
    let mut vectors: Vec<VectorDraft> = Vec::new();
    for group in &plan.groups {
        if history.random.percent(75) {
            vectors.push(vector_of_group(group, history.random.one_of(&JOINS)));
        }
    }
    if let Some(first) = vectors.first_mut() {
        first.leave_all_event = history.random.below(2) as u8;
    }
    history.receive_mmrp(port, &of_vectors(vectors));
    if history.random.percent(50) {
        history.some_advance(plan);
    }
}
