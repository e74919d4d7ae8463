//! Ports that send, what they write and what their machines are in (02, (xiv)).

use crate::helpers::*;
use reference::applicant::State;
use reference::declarations::Declaration;
use reference::lent::Table;
use reference::mrp::Event;
use reference::pdu::{Attribute, AttributeType, Talker};
use reference::written::of_pdu;

pub const ADVERTISE: AttributeType = AttributeType::TalkerAdvertise;
pub const FAILED: AttributeType = AttributeType::TalkerFailed;
pub const LISTENER: AttributeType = AttributeType::Listener;

/// The state of a machine; none where there is none.
pub fn state(table: &Table, port: usize, attribute_type: AttributeType, key: u64) -> Option<State> {
    let machines = &table.bridge().unwrap().sending.ports[port - 1].machines;
    machines.get(&Attribute { attribute_type, key }).map(|machine| machine.state)
}

/// The state of the Advertise of STREAM on port 2.
pub fn advertised(table: &Table) -> Option<State> {
    state(table, 2, ADVERTISE, STREAM)
}

/// What a PDU says, in the order it stands in, without the Domain values.
pub fn said(octets: &[u8]) -> Vec<(AttributeType, u64, Event)> {
    let said = of_pdu(octets).expect("what is written can be read").said;
    let of_streams = said.iter().filter(|one| !matches!(one.declaration, Declaration::Domain(_)));
    of_streams
        .map(|one| {
            let Attribute { attribute_type, key } = one.declaration.attribute();
            (attribute_type, key, one.event)
        })
        .collect()
}

/// A write from place 0, without the Domain values.
pub fn writes(table: &mut Table, port: u32) -> Vec<(AttributeType, u64, Event)> {
    said(&write(table, port, 0).0)
}

/// The PDUs that a port writes from a place by the next places, without the last one, which says nothing.
pub fn pdus_of_pass(table: &mut Table, port: u32, from: u32) -> Vec<Vec<u8>> {
    let mut pdus = Vec::new();
    let mut place = from;
    loop {
        let (octets, next) = write(table, port, place);
        if octets == [0, 0, 0] {
            return pdus;
        }
        pdus.push(octets);
        place = next as u32;
    }
}

/// What they say from place 0 on.
pub fn pass(table: &mut Table, port: u32) -> Vec<(AttributeType, u64, Event)> {
    pass_from(table, port, 0)
}

/// What they say from a place on.
pub fn pass_from(table: &mut Table, port: u32, from: u32) -> Vec<(AttributeType, u64, Event)> {
    pdus_of_pass(table, port, from).iter().flat_map(|pdu| said(pdu)).collect()
}

/// A Talker whose latency can fall and leave it an Advertise.
pub fn source(latency: u32) -> Talker {
    Talker { accumulated_latency: latency, ..talker(STREAM) }
}

/// Port 2 declares the Advertise of a stream, which nobody has written yet.
pub fn one_stream() -> Table {
    let mut table = in_domain(&settings(2));
    join_talker(&mut table, 1, &source(500));
    advance(&mut table, 1);
    table
}

/// The same, written so often.
pub fn written_times(times: usize) -> Table {
    let mut table = one_stream();
    for _ in 0..times {
        write(&mut table, 2, 0);
    }
    table
}

/// The same with another latency, so that it is new, and written so often.
pub fn new_times(times: usize) -> Table {
    let mut table = written_times(2);
    join_and_settle(&mut table, &source(400));
    for _ in 0..times {
        write(&mut table, 2, 0);
    }
    table
}

/// Joins a Talker and advances, time standing still.
pub fn join_and_settle(table: &mut Table, talker: &Talker) {
    join_talker(table, 1, talker);
    let clock = table.bridge().unwrap().clock;
    advance(table, clock);
}

/// The Talker on port 1 leaves, and its leave time ends.
pub fn withdraw(table: &mut Table) {
    accept(table, 1, &talker_frame(&talker(STREAM), &[LV]));
    let clock = table.bridge().unwrap().clock;
    advance(table, clock + 60);
}
