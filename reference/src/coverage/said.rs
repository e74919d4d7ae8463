//! What is counted of declarations by their type: how they change, and with which event they are written.

use super::counts::Counts;
use super::frames::type_word;
use crate::applicant::State;
use crate::bridge::Bridge;
use crate::declarations::{self, Declaration};
use crate::leave_all::{self, LEAVE_ALL_TIME};
use crate::mrp::Event;
use crate::numbers::{self, Number};
use crate::pdu::{Attribute, AttributeType};
use crate::registrar;
use crate::registrations::OnPort;
use crate::sending::{Machine, PortSending, Written};

/// Rows of the table: the events that are written of each type.
pub const WRITTEN: &[&str] = &[
    "written New of talker advertise",
    "written New of talker failed",
    "written New of listener",
    "written JoinIn of talker advertise",
    "written JoinIn of talker failed",
    "written JoinIn of listener",
    "written JoinIn of domain",
    "written In of talker advertise",
    "written In of talker failed",
    "written In of listener",
    "written In of domain",
    "written JoinMt of talker advertise",
    "written JoinMt of talker failed",
    "written JoinMt of listener",
    "written JoinMt of domain",
    "written Mt of talker advertise",
    "written Mt of talker failed",
    "written Mt of listener",
    "written Mt of domain",
    "written Lv of talker advertise",
    "written Lv of talker failed",
    "written Lv of listener",
    "written JoinMt of what is leaving here",
    "written JoinMt of a talker whose other type is registered here",
    "written Lv of what is registered here",
    "write from behind one that has something to say",
    "write with LeaveAll that withdraws a declaration",
    "write with LeaveAll that drops a stream",
    "write with LeaveAll that has New among its values",
    "write 10 with LeaveAll due",
    "write 13 with LeaveAll due",
];

/// Rows of the table: what advances change.
pub const CHANGED: &[&str] = &[
    "other content of talker advertise",
    "other content of talker failed",
    "other content of listener",
    "other content before the first write of talker advertise",
    "other content before the first write of talker failed",
    "other content before the first write of listener",
    "other content of talker advertise, whose Lv is unsent",
    "other content of talker failed, whose Lv is unsent",
    "other content of listener, whose Lv is unsent",
    "Advertise that was written becomes Failed",
    "Failed that was written becomes Advertise",
    "stream withdrawn on several ports in one advance",
    "Lv! and leavealltimer! in one advance",
];

/// An accepted write on a port, from a place.
pub fn written(
    counts: &mut Counts,
    before: &Bridge,
    (port, place): (usize, usize),
    written: &Written,
) {
    for said in &written.said {
        let attribute = said.declaration.attribute();
        let word = type_word(attribute.attribute_type);
        counts.count(&format!("written {:?} of {word}", said.event));
        beside_registration(counts, before, port, (attribute, said.event));
    }
    let machines = &before.sending.ports[port - 1].machines;
    let is_passed = machines.values().take(place).any(|machine| machine.state != State::QA);
    let row = "write from behind one that has something to say";
    counts.count_if(row, is_passed && !written.leave_all);
    if written.leave_all {
        with_leave_all(counts, before, port, written);
    }
}

/// A written value beside what its port has registered.
fn beside_registration(
    counts: &mut Counts,
    before: &Bridge,
    port: usize,
    (attribute, event): (Attribute, Event),
) {
    let registrar = before.registrations.registrar(port, &attribute);
    if event == Event::JoinMt {
        let leaving = registrar == registrar::State::LV;
        counts.count_if("written JoinMt of what is leaving here", leaving);
        let row = "written JoinMt of a talker whose other type is registered here";
        counts.count_if(row, has_other_type(before, port, attribute));
    }
    let registered = event == Event::Lv && registrar == registrar::State::IN;
    counts.count_if("written Lv of what is registered here", registered);
}

fn with_leave_all(counts: &mut Counts, before: &Bridge, port: usize, written: &Written) {
    let sending = &before.sending.ports[port - 1];
    let leaves = sending.machines.values().any(|machine| machine.state == State::LA);
    counts.count_if("write with LeaveAll that withdraws a declaration", leaves);
    let unregistered = |ports: &Vec<OnPort>| !ports.iter().any(OnPort::is_registered);
    let streams = before.registrations.streams.iter().filter(|(_, ports)| unregistered(ports));
    let here_alone = |stream_id: &u64| {
        let others = before.sending.ports.iter().enumerate().filter(|(at, _)| at + 1 != port);
        others.map(|(_, on)| on).all(|on| !on.machines.keys().any(|one| one.key == *stream_id))
    };
    let drops = streams.map(|(stream_id, _)| stream_id).any(here_alone);
    counts.count_if("write with LeaveAll that drops a stream", drops);
    let news = written.said.iter().any(|said| said.event == Event::New);
    counts.count_if("write with LeaveAll that has New among its values", news);
}

/// Whether a Talker of the other type is registered.
fn has_other_type(before: &Bridge, port: usize, attribute: Attribute) -> bool {
    let attribute_type = match attribute.attribute_type {
        AttributeType::TalkerAdvertise => AttributeType::TalkerFailed,
        AttributeType::TalkerFailed => AttributeType::TalkerAdvertise,
        AttributeType::Listener | AttributeType::Domain => return false,
    };
    let other = Attribute { attribute_type, ..attribute };
    before.registrations.registrar(port, &other) == registrar::State::IN
}

/// A refused write on a port of the bridge.
pub fn refused(counts: &mut Counts, bridge: &Bridge, port: usize, number: Number) {
    let due = bridge.sending.ports[port - 1].leave_all.state == leave_all::State::Active;
    counts.count_if("write 10 with LeaveAll due", due && number == numbers::BUFFER);
    counts.count_if("write 13 with LeaveAll due", due && number == numbers::PLACE);
}

/// An advance to a time.
pub fn advanced(counts: &mut Counts, time: u32, before: &Bridge, after: &Bridge) {
    let mut all_left: Vec<u64> = Vec::new();
    for (port, sending) in (1..).zip(&before.sending.ports) {
        let decided = declarations::of_streams(&after.settled, port);
        for declaration in &decided {
            let machine = sending.machines.get(&declaration.attribute());
            let other = machine.filter(|machine| machine.declaration != *declaration);
            if let Some(machine) = other {
                let word = type_word(declaration.attribute_type());
                counts.count(&other_content(word, machine.state));
            }
        }
        let left = withdrawn(sending, &decided);
        becomes_other_type(counts, &decided, &left);
        let fires = time - sending.leave_all.started >= LEAVE_ALL_TIME;
        counts.count_if("Lv! and leavealltimer! in one advance", fires && !left.is_empty());
        all_left.extend(left.iter().map(|one| one.key));
    }
    all_left.sort_unstable();
    let several = all_left.windows(2).any(|two| two[0] == two[1]);
    counts.count_if("stream withdrawn on several ports in one advance", several);
}

/// What a port declared, and is to send an Lv of.
fn withdrawn(sending: &PortSending, decided: &[Declaration]) -> Vec<Attribute> {
    let is_decided = |one: &Attribute| decided.iter().any(|other| other.attribute() == *one);
    let is_left = |(one, machine): &(&Attribute, &Machine)| {
        let was_written = !matches!(machine.state, State::VP | State::LA);
        was_written && one.attribute_type != AttributeType::Domain && !is_decided(one)
    };
    sending.machines.iter().filter(is_left).map(|(one, _)| *one).collect()
}

fn other_content(word: &str, state: State) -> String {
    match state {
        State::VP => format!("other content before the first write of {word}"),
        State::LA => format!("other content of {word}, whose Lv is unsent"),
        _ => format!("other content of {word}"),
    }
}

/// What is withdrawn while the other type is declared.
fn becomes_other_type(counts: &mut Counts, decided: &[Declaration], left: &[Attribute]) {
    for attribute in left {
        let of_stream = |one: &&Declaration| one.attribute().key == attribute.key;
        for declaration in decided.iter().filter(of_stream) {
            let types = (attribute.attribute_type, declaration.attribute_type());
            let (advertise, failed) = (AttributeType::TalkerAdvertise, AttributeType::TalkerFailed);
            let row = "Advertise that was written becomes Failed";
            counts.count_if(row, types == (advertise, failed));
            let row = "Failed that was written becomes Advertise";
            counts.count_if(row, types == (failed, advertise));
        }
    }
}
