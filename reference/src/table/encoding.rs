//! The table of a bridge.

use std::iter::zip;

use super::layout::{cell, domain as domain_record, edge, record, send};
use super::layout::{ADVERTISE, FAILED, FILTER, FORWARD};
use super::layout::{APPLICANTS, CLOCK, EDGES, RECORDS, SENDERS, TABLE_LENGTH};
use crate::bridge::Bridge;
use crate::declarations::{first_value, Declaration, STREAM_TYPES};
use crate::domain::{self, Domains};
use crate::leave_all::State;
use crate::pdu::{Attribute, AttributeType, Domain, Failure, ListenerType, StreamId};
use crate::registrations::{Addresses, OnPort, Registrations};
use crate::sending::{Machine, PortSending, Sending};
use crate::settings::{self, PerClass};
use crate::settled::{Column, Entry, SettledOnPort, SettledStream};

/// The table that holds a bridge.
pub fn encode(bridge: &Bridge) -> Vec<u8> {
    let mut out = Vec::with_capacity(TABLE_LENGTH);
    out.extend(settings::write(&bridge.settings));
    out.resize(CLOCK.start, 0);
    out.extend(bridge.clock.to_be_bytes());
    out.push(bridge.registrations.streams.len() as u8);
    for total in &bridge.settled.totals {
        out.extend(&total.a.to_be_bytes()[3..]);
        out.extend(&total.b.to_be_bytes()[2..]);
    }
    out.resize(EDGES, 0);
    let Registrations { domains, addresses, .. } = &bridge.registrations;
    for ((domains, flags), addresses) in zip(zip(domains, &bridge.settled.boundaries), addresses) {
        put_edge(&mut out, domains, *flags);
        put_addresses(&mut out, addresses);
    }
    out.resize(SENDERS, 0);
    for port in &bridge.sending.ports {
        put_sender(&mut out, port);
    }
    out.resize(RECORDS, 0);
    for (stream_id, on_ports) in &bridge.registrations.streams {
        let settled = bridge.settled.streams.get(stream_id);
        put_record(&mut out, *stream_id, on_ports, settled);
        put_sends(&mut out, &bridge.sending, *stream_id);
    }
    out.resize(TABLE_LENGTH, 0);
    out
}

fn put_edge(out: &mut Vec<u8>, domains: &Domains, flags: PerClass<bool>) {
    for domain in domains {
        let start = out.len();
        if let Some(domain) = domain {
            out.push(1);
            put_leaving(out, domain.leaving);
            out.extend(domain.vlan.to_be_bytes());
        }
        out.resize(start + domain_record::LENGTH, 0);
    }
    out.extend([u8::from(flags.a), u8::from(flags.b)]);
}

fn put_addresses(out: &mut Vec<u8>, addresses: &Addresses) {
    let start = out.len();
    out.push(addresses.len() as u8);
    for (address, leaving) in addresses {
        out.push(1);
        put_leaving(out, *leaving);
        out.extend(&address.to_be_bytes()[2..]);
    }
    out.resize(start + edge::LENGTH - edge::COUNT, 0);
}

fn put_record(
    out: &mut Vec<u8>,
    stream_id: StreamId,
    on_ports: &[OnPort],
    settled: Option<&SettledStream>,
) {
    let start = out.len();
    out.extend(stream_id.to_be_bytes());
    // A stream joined since the last advance has zeros here and in its results.
    if let Some(settled) = settled {
        out.extend(settled.parameters.octets());
    }
    out.resize(start + record::CELLS.start, 0);
    for on_port in on_ports {
        put_cell(out, on_port);
    }
    out.resize(start + record::RESULTS.start, 0);
    for settled_on_port in settled.map_or(&[][..], |settled| &settled.ports) {
        put_result(out, settled_on_port);
    }
    out.resize(start + record::SENDS.start, 0);
}

/// The octet of a machine; 0 where there is none.
fn applicant(machine: Option<&Machine>) -> u8 {
    let place = |machine: &Machine| APPLICANTS.iter().position(|state| *state == machine.state);
    machine.map_or(0, |machine| place(machine).expect("a listed state") as u8)
}

fn put_sender(out: &mut Vec<u8>, port: &PortSending) {
    for class_id in domain::CLASS_IDS {
        for priority in 0..domain::PRIORITIES as u8 {
            let attribute = Domain { class_id, priority, vlan: 0 }.attribute();
            out.push(applicant(port.machines.get(&attribute)));
        }
    }
    out.push(u8::from(port.leave_all.state == State::Active));
    out.extend(port.leave_all.started.to_be_bytes());
}

/// What each port sends of a stream.
fn put_sends(out: &mut Vec<u8>, sending: &Sending, stream_id: StreamId) {
    let start = out.len();
    for port in &sending.ports {
        for attribute_type in STREAM_TYPES {
            let machine = port.machines.get(&Attribute { attribute_type, key: stream_id });
            out.push(applicant(machine));
            put_declared(out, attribute_type, machine);
        }
    }
    out.resize(start + record::SENDS.len(), 0);
}

/// What was last declared, without its StreamID; zeros where there is no machine.
fn put_declared(out: &mut Vec<u8>, attribute_type: AttributeType, machine: Option<&Machine>) {
    let start = out.len();
    match machine.map(|machine| machine.declaration) {
        Some(Declaration::Talker(talker)) => out.extend(&first_value(&talker)[8..]),
        Some(Declaration::Listener(_, says)) => out.push(listener_kind(Some(says))),
        Some(Declaration::Domain(_)) | None => {}
    }
    out.resize(start + declared_length(attribute_type), 0);
}

/// Octets of what was last declared of a stream.
fn declared_length(attribute_type: AttributeType) -> usize {
    match attribute_type {
        AttributeType::TalkerAdvertise => send::ADVERTISE_VALUES.len(),
        AttributeType::TalkerFailed => send::FAILED_VALUES.len(),
        AttributeType::Listener => 1,
        AttributeType::Domain => 0,
    }
}

fn put_cell(out: &mut Vec<u8>, on_port: &OnPort) {
    let start = out.len();
    if let Some(talker) = &on_port.talker {
        out.push(if talker.failure.is_none() { ADVERTISE } else { FAILED });
        out.push(u8::from(talker.changed));
        put_leaving(out, talker.leaving);
        out.extend(talker.parameters.octets());
        out.extend(talker.accumulated_latency.to_be_bytes());
        put_failure(out, talker.failure);
        out.extend(talker.first_latency.to_be_bytes());
    }
    out.resize(start + cell::LISTENER, 0);
    if let Some(listener) = &on_port.listener {
        out.push(listener_kind(Some(listener.listener_type)));
        put_leaving(out, listener.leaving);
    }
    out.resize(start + cell::LENGTH, 0);
}

fn put_leaving(out: &mut Vec<u8>, leaving: Option<u32>) {
    out.push(u8::from(leaving.is_some()));
    out.extend(leaving.unwrap_or(0).to_be_bytes());
}

fn put_failure(out: &mut Vec<u8>, failure: Option<Failure>) {
    let failure = failure.unwrap_or(Failure { bridge_id: 0, code: 0 });
    out.extend(failure.bridge_id.to_be_bytes());
    out.push(failure.code);
}

fn put_result(out: &mut Vec<u8>, settled: &SettledOnPort) {
    let (column, failure) = match settled.column {
        Column::None => (0, None),
        Column::Advertise => (ADVERTISE, None),
        Column::Failed(failure) => (FAILED, Some(failure)),
    };
    out.push(column);
    out.extend(settled.latency_out.to_be_bytes());
    put_failure(out, failure);
    out.push(match settled.entry {
        Entry::None => 0,
        Entry::Filter => FILTER,
        Entry::Forward => FORWARD,
    });
    out.extend(settled.entry_since.unwrap_or(0).to_be_bytes());
    out.push(listener_kind(settled.listener));
}

fn listener_kind(listener: Option<ListenerType>) -> u8 {
    match listener {
        None => 0,
        Some(ListenerType::AskingFailed) => 1,
        Some(ListenerType::Ready) => 2,
        Some(ListenerType::ReadyFailed) => 3,
    }
}
