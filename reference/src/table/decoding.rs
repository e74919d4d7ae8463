//! The bridge that a table holds.

use std::iter::zip;

use super::layout::{address, cell, domain, edge, record, result, send, sender};
use super::layout::{cells, domain_records, edges, results, senders, sends};
use super::layout::{clock, ports, totals};
use super::layout::{used_addresses, used_records};
use super::layout::{ADVERTISE, APPLICANTS, FAILED, FILTER, FORWARD};
use super::rules::keeps_form;
use crate::bridge::Bridge;
use crate::declarations::Declaration;
use crate::domain::{slot, DomainRegistration, Domains, SLOTS};
use crate::leave_all::{LeaveAll, State};
use crate::octets::number_of;
use crate::pdu::{Failure, ListenerType, Parameters, StreamId, Talker, PARAMETERS_LENGTH};
use crate::registrations::{Addresses, ListenerRegistration, OnPort};
use crate::registrations::{Registrations, TalkerRegistration};
use crate::sending::{Machine, PortSending, Sending};
use crate::settings::{self, PerClass};
use crate::settled::{Column, Entry, Settled, SettledOnPort, SettledStream};

/// The bridge that a table holds; nothing where it breaks a form rule.
pub fn decode(table: &[u8]) -> Option<Bridge> {
    if !keeps_form(table) {
        return None;
    }
    let ports = ports(table);
    let settings = settings::read(&table[..settings::length(ports)])?;
    let mut registrations = Registrations::none(ports);
    let mut settled = Settled::empty(ports);
    settled.totals = (0..ports).map(|place| totals(table, place)).collect();
    registrations.domains = edges(table).take(ports).map(domains).collect();
    registrations.addresses = edges(table).take(ports).map(addresses).collect();
    settled.boundaries = edges(table).take(ports).map(flags).collect();
    let mut sending = Sending::begun(&settings);
    for (port, octets) in zip(&mut sending.ports, senders(table)) {
        take_sender(port, octets);
    }
    for record in used_records(table) {
        let stream_id = number_of(&record[record::STREAM_ID]);
        let on_ports = cells(record).take(ports).map(on_port).collect();
        registrations.streams.insert(stream_id, on_ports);
        let settled_stream = SettledStream {
            parameters: Parameters::of(&record[record::PARAMETERS]),
            ports: results(record).take(ports).map(settled_on_port).collect(),
        };
        settled.streams.insert(stream_id, settled_stream);
        for (port, octets) in zip(&mut sending.ports, sends(record)) {
            take_send(port, stream_id, octets);
        }
    }
    Some(Bridge { settings, clock: clock(table), registrations, settled, sending })
}

/// The machines that a port has by itself. Which Domain values it declares follows from the settings.
fn take_sender(port: &mut PortSending, sender: &[u8]) {
    for machine in port.machines.values_mut() {
        if let Declaration::Domain(domain) = machine.declaration {
            let slot = slot(domain.class_id, domain.priority).expect("own values are held");
            machine.state = APPLICANTS[usize::from(sender[slot])];
        }
    }
    let state = if sender[sender::LEAVE_ALL] == 1 { State::Active } else { State::Passive };
    port.leave_all = LeaveAll { state, started: number_of(&sender[sender::STARTED]) as u32 };
}

/// The machines that a port has of a stream.
fn take_send(port: &mut PortSending, stream_id: StreamId, send: &[u8]) {
    let talker = |values: &[u8], failure| {
        let (parameters, latency) = values.split_at(PARAMETERS_LENGTH);
        let accumulated_latency = number_of(&latency[..4]) as u32;
        let parameters = Parameters::of(parameters);
        Declaration::Talker(Talker { stream_id, parameters, accumulated_latency, failure })
    };
    let (bridge_id, code) = send[send::FAILED_VALUES][17..].split_at(8);
    let failure = Failure { bridge_id: number_of(bridge_id), code: code[0] };
    let listener = listener_type(send[send::LISTENER_TYPE]);
    let declared = [
        (send[send::ADVERTISE], Some(talker(&send[send::ADVERTISE_VALUES], None))),
        (send[send::FAILED], Some(talker(&send[send::FAILED_VALUES], Some(failure)))),
        (send[send::LISTENER], listener.map(|says| Declaration::Listener(stream_id, says))),
    ];
    for (applicant, declaration) in declared {
        let state = APPLICANTS[usize::from(applicant)];
        if let Some(declaration) = declaration.filter(|_| state.is_listed()) {
            port.machines.insert(declaration.attribute(), Machine { state, declaration });
        }
    }
}

fn leaving(flag: u8, since: &[u8]) -> Option<u32> {
    (flag == 1).then_some(number_of(since) as u32)
}

fn domains(edge: &[u8]) -> Domains {
    let mut domains = [None; SLOTS];
    for (slot, record) in domains.iter_mut().zip(domain_records(edge)) {
        *slot = (record[domain::REGISTERED] == 1).then(|| DomainRegistration {
            vlan: number_of(&record[domain::VLAN]) as u16,
            leaving: leaving(record[domain::LEAVING], &record[domain::SINCE]),
        });
    }
    domains
}

fn addresses(edge: &[u8]) -> Addresses {
    let held = |record: &[u8]| {
        let leaving = leaving(record[address::LEAVING], &record[address::SINCE]);
        (number_of(&record[address::ADDRESS]), leaving)
    };
    used_addresses(edge).map(held).collect()
}

fn flags(edge: &[u8]) -> PerClass<bool> {
    let flags = &edge[edge::FLAGS];
    PerClass { a: flags[0] == 1, b: flags[1] == 1 }
}

fn on_port(cell: &[u8]) -> OnPort {
    let failure = Failure { bridge_id: number_of(&cell[cell::BRIDGE_ID]), code: cell[cell::CODE] };
    let talker = (cell[cell::TALKER] != 0).then(|| TalkerRegistration {
        parameters: Parameters::of(&cell[cell::PARAMETERS]),
        accumulated_latency: number_of(&cell[cell::LATENCY]) as u32,
        first_latency: number_of(&cell[cell::FIRST_LATENCY]) as u32,
        failure: (cell[cell::TALKER] == FAILED).then_some(failure),
        changed: cell[cell::CHANGED] == 1,
        leaving: leaving(cell[cell::TALKER_LEAVING], &cell[cell::TALKER_SINCE]),
    });
    let listener = listener_type(cell[cell::LISTENER]).map(|listener_type| ListenerRegistration {
        listener_type,
        leaving: leaving(cell[cell::LISTENER_LEAVING], &cell[cell::LISTENER_SINCE]),
    });
    OnPort { talker, listener }
}

fn settled_on_port(result: &[u8]) -> SettledOnPort {
    let failure =
        Failure { bridge_id: number_of(&result[result::BRIDGE_ID]), code: result[result::CODE] };
    let entry = match result[result::ENTRY] {
        FORWARD => Entry::Forward,
        FILTER => Entry::Filter,
        _ => Entry::None,
    };
    SettledOnPort {
        column: match result[result::COLUMN] {
            ADVERTISE => Column::Advertise,
            FAILED => Column::Failed(failure),
            _ => Column::None,
        },
        latency_out: number_of(&result[result::LATENCY]) as u32,
        listener: listener_type(result[result::LISTENER]),
        entry,
        entry_since: (entry != Entry::None).then_some(number_of(&result[result::SINCE]) as u32),
    }
}

fn listener_type(kind: u8) -> Option<ListenerType> {
    match kind {
        1 => Some(ListenerType::AskingFailed),
        2 => Some(ListenerType::Ready),
        3 => Some(ListenerType::ReadyFailed),
        _ => None,
    }
}
