//! What is counted of machines, and of what ports send.

use super::counts::Counts;
use crate::bridge::Bridge;
use crate::leave_all::LEAVE_ALL_TIME;
use crate::mrp::Event;
use crate::pdu::{Attribute, AttributeType, Pdu};
use crate::registrar::State;
use crate::registrations::OnPort;
use crate::sending::{Step, Written};

/// Rows of the table: each entry of the Applicant's table that can be met.
pub const APPLICANTS: &[&str] = &[
    "Applicant VO + Join! = VP",
    "Applicant VP + Join! = VP",
    "Applicant VN + Join! = VN",
    "Applicant AN + Join! = AN",
    "Applicant AA + Join! = AA",
    "Applicant QA + Join! = QA",
    "Applicant LA + Join! = AA",
    "Applicant VN + New! = VN",
    "Applicant AN + New! = AN",
    "Applicant AA + New! = VN",
    "Applicant QA + New! = VN",
    "Applicant LA + New! = VN",
    "Applicant VP + Lv! = VO",
    "Applicant VN + Lv! = LA",
    "Applicant AN + Lv! = LA",
    "Applicant AA + Lv! = LA",
    "Applicant QA + Lv! = LA",
    "Applicant LA + Lv! = LA",
    "Applicant VP + rNew! = VP",
    "Applicant VN + rNew! = VN",
    "Applicant AN + rNew! = AN",
    "Applicant AA + rNew! = AA",
    "Applicant QA + rNew! = QA",
    "Applicant LA + rNew! = LA",
    "Applicant VP + rJoinIn! = VP",
    "Applicant VN + rJoinIn! = VN",
    "Applicant AN + rJoinIn! = AN",
    "Applicant AA + rJoinIn! = QA",
    "Applicant QA + rJoinIn! = QA",
    "Applicant LA + rJoinIn! = LA",
    "Applicant VP + rIn! = VP",
    "Applicant VN + rIn! = VN",
    "Applicant AN + rIn! = AN",
    "Applicant AA + rIn! = QA",
    "Applicant QA + rIn! = QA",
    "Applicant LA + rIn! = LA",
    "Applicant VP + rJoinMt! = VP",
    "Applicant VN + rJoinMt! = VN",
    "Applicant AN + rJoinMt! = AN",
    "Applicant AA + rJoinMt! = AA",
    "Applicant QA + rJoinMt! = AA",
    "Applicant LA + rJoinMt! = LA",
    "Applicant VP + rMt! = VP",
    "Applicant VN + rMt! = VN",
    "Applicant AN + rMt! = AN",
    "Applicant AA + rMt! = AA",
    "Applicant QA + rMt! = AA",
    "Applicant LA + rMt! = LA",
    "Applicant VP + rLv! = VP",
    "Applicant VN + rLv! = VN",
    "Applicant AN + rLv! = VN",
    "Applicant AA + rLv! = VP",
    "Applicant QA + rLv! = VP",
    "Applicant LA + rLv! = LA",
    "Applicant VP + rLA! = VP",
    "Applicant VN + rLA! = VN",
    "Applicant AN + rLA! = VN",
    "Applicant AA + rLA! = VP",
    "Applicant QA + rLA! = VP",
    "Applicant LA + rLA! = LA",
    "Applicant VP + tx! = AA",
    "Applicant VN + tx! = AN",
    "Applicant AN + tx! = QA",
    "Applicant AN + tx! = AA",
    "Applicant AA + tx! = QA",
    "Applicant QA + tx! = QA",
    "Applicant LA + tx! = VO",
    "Applicant VP + txLA! = AA",
    "Applicant VN + txLA! = AN",
    "Applicant AN + txLA! = QA",
    "Applicant AA + txLA! = QA",
    "Applicant QA + txLA! = QA",
    "Applicant LA + txLA! = LO",
    "Applicant VP + txLAF! = VP",
    "Applicant VN + txLAF! = VN",
    "Applicant AN + txLAF! = VN",
    "Applicant AA + txLAF! = VP",
    "Applicant QA + txLAF! = VP",
    "Applicant LA + txLAF! = LO",
];

/// Rows of the table: the entries of the LeaveAll machine, and those of the Registrar where LeaveAll is sent.
pub const OTHER_MACHINES: &[&str] = &[
    "LeaveAll Active + tx!",
    "LeaveAll Active + rLA!",
    "LeaveAll Passive + rLA!",
    "LeaveAll Active + leavealltimer!",
    "LeaveAll Passive + leavealltimer!",
    "LeaveAll timer 999 after its start",
    "LeaveAll timer 1000 after its start",
    "Registrar IN + txLA! of a Talker",
    "Registrar LV + txLA! of a Talker",
    "Registrar IN + txLA! of a Listener",
    "Registrar LV + txLA! of a Listener",
    "Registrar IN + txLA! of a Domain",
    "Registrar LV + txLA! of a Domain",
];

/// Rows of the table: what is written, and what it leaves.
pub const ROWS: &[&str] = &[
    "written New",
    "written JoinIn",
    "written In",
    "written JoinMt",
    "written Mt",
    "written Lv",
    "write with LeaveAll",
    "write with LeaveAll and no values",
    "write with LeaveAll at place = count",
    "write with LeaveAll from a place in the middle",
    "write with LeaveAll that has no room for all",
    "write with LeaveAll of exactly 1500 octets",
    "write of a port with nothing to say",
    "write of a port with nothing to say from here on",
    "next place below the place",
    "next place is the place, though something was written",
    "stream dropped by a write",
    "Advertise and Failed of a stream in one list",
    "Advertise, Failed and Listener of a stream in one list",
    "list of 194 declarations",
    "stream held by an unsent Lv alone",
    "stream that leaves without an Lv",
    "number 8 with a stream held by an unsent Lv alone",
];

fn count_steps(counts: &mut Counts, steps: &[Step]) {
    for Step { state, event, next } in steps {
        counts.count(&format!("Applicant {state:?} + {} = {next:?}", event.name()));
    }
}

/// An accepted PDU on a port.
pub fn received(counts: &mut Counts, before: &Bridge, port: usize, pdu: &Pdu) {
    let mut sending = before.sending.ports[port - 1].clone();
    let state = sending.leave_all.state;
    count_steps(counts, &sending.receive(pdu, before.clock));
    if pdu.vectors().any(|vector| vector.leave_all) {
        counts.count(&format!("LeaveAll {state:?} + rLA!"));
    }
}

/// An advance to a time.
pub fn advanced(counts: &mut Counts, time: u32, before: &Bridge, after: &Bridge) {
    count_steps(counts, &before.sending.clone().declare(&after.settled));
    for port in &before.sending.ports {
        let run = time - port.leave_all.started;
        counts.count_if("LeaveAll timer 999 after its start", run == LEAVE_ALL_TIME - 1);
        counts.count_if("LeaveAll timer 1000 after its start", run == LEAVE_ALL_TIME);
        if run >= LEAVE_ALL_TIME {
            counts.count(&format!("LeaveAll {:?} + leavealltimer!", port.leave_all.state));
        }
    }
    let held = &after.registrations.streams;
    let declared = |stream_id: &u64| {
        let of_stream = |attribute: &Attribute| attribute.key == *stream_id;
        before.sending.ports.iter().any(|port| port.machines.keys().any(of_stream))
    };
    let gone = |stream_id: &&u64| !held.contains_key(*stream_id) && declared(stream_id);
    let without_lv = before.registrations.streams.keys().any(|stream_id| gone(&stream_id));
    counts.count_if("stream that leaves without an Lv", without_lv);
    counts.count_if("stream held by an unsent Lv alone", has_unsent_alone(after));
}

/// Whether a stream is held without a registration.
fn has_unsent_alone(bridge: &Bridge) -> bool {
    let mut streams = bridge.registrations.streams.values();
    streams.any(|ports| !ports.iter().any(OnPort::is_registered))
}

/// A PDU that is refused for its streams.
pub fn streams_past(counts: &mut Counts, before: &Bridge) {
    let unsent = has_unsent_alone(before);
    counts.count_if("number 8 with a stream held by an unsent Lv alone", unsent);
}

/// An accepted write on a port, from a place. Gives what it wrote.
pub fn wrote(
    counts: &mut Counts,
    (before, after): (&Bridge, &Bridge),
    port: usize,
    place: usize,
) -> Written {
    let mut sending = before.sending.ports[port - 1].clone();
    let list: Vec<Attribute> = sending.machines.keys().copied().collect();
    let registrar = |attribute: &Attribute| before.registrations.registrar(port, attribute);
    let written = sending.write(place, before.clock, registrar);
    count_steps(counts, &written.steps);
    for said in &written.said {
        counts.count(&format!("written {:?}", said.event));
    }
    if written.leave_all {
        left_all(counts, before, (port, place), &written);
    }
    let quiet = written.pdu.len() == 3;
    counts.count_if("write of a port with nothing to say", quiet && place == 0 && !list.is_empty());
    let from_here = quiet && place > 0 && place < list.len();
    counts.count_if("write of a port with nothing to say from here on", from_here);
    let next = written.next_place;
    counts.count_if("next place below the place", next < place);
    let stays = next == place && written.said.iter().any(|said| said.event == Event::Lv);
    counts.count_if("next place is the place, though something was written", stays);
    let dropped = after.registrations.streams.len() < before.registrations.streams.len();
    counts.count_if("stream dropped by a write", dropped);
    several_of_one_stream(counts, &list);
    written
}

/// A write with LeaveAll.
fn left_all(
    counts: &mut Counts,
    before: &Bridge,
    (port, place): (usize, usize),
    written: &Written,
) {
    counts.count("LeaveAll Active + tx!");
    counts.count("write with LeaveAll");
    let count = before.sending.ports[port - 1].machines.len();
    counts.count_if("write with LeaveAll and no values", written.said.is_empty());
    counts.count_if("write with LeaveAll at place = count", place == count);
    let middle = place > 0 && place < count;
    counts.count_if("write with LeaveAll from a place in the middle", middle);
    counts.count_if("write with LeaveAll that has no room for all", written.no_room.is_some());
    let full = written.pdu.len() == 1500;
    counts.count_if("write with LeaveAll of exactly 1500 octets", full);
    let state = |leaving: Option<u32>| if leaving.is_none() { State::IN } else { State::LV };
    let mut met = Vec::new();
    for ports in before.registrations.streams.values() {
        let OnPort { talker, listener } = &ports[port - 1];
        met.extend(talker.as_ref().map(|held| (state(held.leaving), "Talker")));
        met.extend(listener.as_ref().map(|held| (state(held.leaving), "Listener")));
    }
    let domains = before.registrations.domains[port - 1].iter().flatten();
    met.extend(domains.map(|held| (state(held.leaving), "Domain")));
    for (state, kind) in met {
        counts.count(&format!("Registrar {state:?} + txLA! of a {kind}"));
    }
}

/// What a list has of one stream beside each other.
fn several_of_one_stream(counts: &mut Counts, list: &[Attribute]) {
    let has = |attribute_type, key| list.contains(&Attribute { attribute_type, key });
    let both = |key: &u64| {
        has(AttributeType::TalkerAdvertise, *key) && has(AttributeType::TalkerFailed, *key)
    };
    let keys: Vec<u64> = list.iter().map(|one| one.key).filter(both).collect();
    counts.count_if("Advertise and Failed of a stream in one list", !keys.is_empty());
    let three = keys.iter().any(|key| has(AttributeType::Listener, *key));
    counts.count_if("Advertise, Failed and Listener of a stream in one list", three);
    counts.count_if("list of 194 declarations", list.len() == 194);
}
