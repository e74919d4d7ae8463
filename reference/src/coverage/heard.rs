//! What is counted of values and LeaveAll that ports hear of what they declare.

use super::counts::Counts;
use super::frames::type_word;
use crate::applicant::State;
use crate::bridge::Bridge;
use crate::leave_all;
use crate::mrp::Event;
use crate::pdu::{listener_attribute, Attribute, AttributeType, Pdu, Talker, Value};
use crate::sending::PortSending;

/// Rows of the table: the events, for each type.
pub const ROWS: &[&str] = &[
    "heard New of a declared talker advertise",
    "heard New of a declared talker failed",
    "heard New of a declared listener",
    "heard New of a declared domain",
    "heard JoinIn of a declared talker advertise",
    "heard JoinIn of a declared talker failed",
    "heard JoinIn of a declared listener",
    "heard JoinIn of a declared domain",
    "heard In of a declared talker advertise",
    "heard In of a declared talker failed",
    "heard In of a declared listener",
    "heard In of a declared domain",
    "heard JoinMt of a declared talker advertise",
    "heard JoinMt of a declared talker failed",
    "heard JoinMt of a declared listener",
    "heard JoinMt of a declared domain",
    "heard Mt of a declared talker advertise",
    "heard Mt of a declared talker failed",
    "heard Mt of a declared listener",
    "heard Mt of a declared domain",
    "heard Lv of a declared talker advertise",
    "heard Lv of a declared talker failed",
    "heard Lv of a declared listener",
    "heard Lv of a declared domain",
    "heard LeaveAll of declared talker advertise",
    "heard LeaveAll of declared talker failed",
    "heard LeaveAll of declared listener",
    "heard LeaveAll of declared domain",
    "heard a value behind a LeaveAll of its type",
    "heard a join with other values than those registered",
    "heard Ignore of a declared listener",
    "heard of the other talker type than the declared one",
    "heard of what another port declares",
    "heard of a domain with a priority that isn't declared",
    "heard a LeaveAll while all is quiet",
    "number 8 for a PDU that speaks of what is declared",
    "LeaveAll of MMRP on a port that has its own due",
];

/// An accepted PDU on a port.
pub fn heard(counts: &mut Counts, before: &Bridge, port: usize, pdu: &Pdu) {
    let machines = &before.sending.ports[port - 1].machines;
    for vector in pdu.vectors() {
        let of_type = |one: &Attribute| one.attribute_type == vector.attribute_type;
        let word = type_word(vector.attribute_type);
        if vector.leave_all && machines.keys().any(of_type) {
            counts.count(&format!("heard LeaveAll of declared {word}"));
        }
        for (event, value) in &vector.values {
            let declared = value.attribute().filter(|one| machines.contains_key(one));
            if declared.is_some() {
                counts.count(&format!("heard {event:?} of a declared {word}"));
                counts.count_if("heard a value behind a LeaveAll of its type", vector.leave_all);
            }
            one_value(counts, before, port, (*event, value));
        }
    }
    let quiet = machines.values().all(|machine| machine.state == State::QA) && !machines.is_empty();
    let leaves = pdu.vectors().any(|vector| vector.leave_all);
    counts.count_if("heard a LeaveAll while all is quiet", leaves && quiet);
}

/// A value beside what is declared or registered of the same.
fn one_value(counts: &mut Counts, before: &Bridge, port: usize, (event, value): (Event, &Value)) {
    let is_declared = |on: &PortSending, attribute: Attribute| on.machines.contains_key(&attribute);
    let own = &before.sending.ports[port - 1];
    let declared = value.attribute().map_or(false, |attribute| is_declared(own, attribute));
    let elsewhere =
        value.attribute().filter(|one| before.sending.ports.iter().any(|on| is_declared(on, *one)));
    let of_another = elsewhere.is_some() && !declared;
    counts.count_if("heard of what another port declares", of_another);
    match value {
        Value::Talker(talker) => {
            let other = is_declared(own, other_type(talker)) && !declared;
            counts.count_if("heard of the other talker type than the declared one", other);
            let held = before.registrations.streams.get(&talker.stream_id);
            let held = held.and_then(|ports| ports[port - 1].talker.as_ref());
            let differs = held.map_or(false, |held| held.parameters != talker.parameters);
            let row = "heard a join with other values than those registered";
            counts.count_if(row, declared && event.is_join() && differs);
        }
        Value::Listener(stream_id, None) => {
            let ignored = is_declared(own, listener_attribute(*stream_id));
            counts.count_if("heard Ignore of a declared listener", ignored);
        }
        Value::Listener(_, Some(_)) => {}
        Value::Domain(domain) => {
            let other = (5..=6).contains(&domain.class_id) && !declared;
            counts.count_if("heard of a domain with a priority that isn't declared", other);
        }
    }
}

fn other_type(talker: &Talker) -> Attribute {
    let attribute_type = match talker.failure {
        None => AttributeType::TalkerFailed,
        Some(_) => AttributeType::TalkerAdvertise,
    };
    Attribute { attribute_type, key: talker.stream_id }
}

/// A PDU that is refused for its streams.
pub fn refused(counts: &mut Counts, before: &Bridge, port: usize, pdu: &Pdu) {
    let machines = &before.sending.ports[port - 1].machines;
    let mut values = pdu.vectors().flat_map(|vector| &vector.values);
    let declared =
        |value: &Value| value.attribute().map_or(false, |one| machines.contains_key(&one));
    let speaks = values.any(|(_, value)| declared(value));
    counts.count_if("number 8 for a PDU that speaks of what is declared", speaks);
}

/// A LeaveAll of MMRP.
pub fn mmrp_leaves_all(counts: &mut Counts, before: &Bridge, port: usize) {
    let due = before.sending.ports[port - 1].leave_all.state == leave_all::State::Active;
    counts.count_if("LeaveAll of MMRP on a port that has its own due", due);
}
