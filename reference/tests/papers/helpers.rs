//! Bridges, frames and declarations that several tests use.

use reference::bridge::ReportAnswer;
use reference::declarations;
use reference::frame::{FrameDraft, MessageDraft, VectorDraft};
use reference::lent::Table;
use reference::mmrp::MmrpType;
use reference::pdu::{AttributeType, Failure, ListenerType, StreamId, Talker};
use reference::settings::{self, PerClass, PortSettings, Settings};
use reference::words;

pub const NEW: u8 = 0;
pub const JOIN_IN: u8 = 1;
pub const IN: u8 = 2;
pub const JOIN_MT: u8 = 3;
pub const MT: u8 = 4;
pub const LV: u8 = 5;

pub const IGNORE: u8 = 0;
pub const ASKING: u8 = 1;
pub const READY: u8 = 2;
pub const READY_FAILED: u8 = 3;

/// A stream of the worked example's Talker.
pub const STREAM: StreamId = 0x0200_0000_0001_0001;

/// A port of the worked example.
pub fn port() -> PortSettings {
    PortSettings::of_the_worked_example()
}

/// Settings of the worked example with so many ports.
pub fn settings(ports: usize) -> Settings {
    Settings {
        bridge_id: 0x8000_0000_0000_0007,
        priority: PerClass { a: 3, b: 2 },
        leave_time: 60,
        pruning: false,
        vlan: 2,
        fan_in_limit: 0,
        ports: vec![port(); ports],
    }
}

pub fn started(settings: &Settings) -> Table {
    let mut table = Table::zeros();
    assert_eq!(table.start(&settings::write(settings)), 0);
    table
}

/// A PDU of a neighbour in the domain of such a bridge: both classes with the bridge's priorities.
pub fn own_domain(settings: &Settings) -> Vec<u8> {
    let PerClass { a, b } = settings.priority;
    let vectors = vec![domain_vector(5, b, &[JOIN_MT]), domain_vector(6, a, &[JOIN_MT])];
    one_message(AttributeType::Domain, vectors)
}

/// A bridge whose neighbours are all in its domain.
pub fn in_domain(settings: &Settings) -> Table {
    let mut table = started(settings);
    for port in 1..=settings.ports.len() as u32 {
        accept(&mut table, port, &own_domain(settings));
    }
    table
}

/// The worked example's Talker, rank 1, for a stream. Its destination follows the StreamID.
pub fn talker(stream_id: StreamId) -> Talker {
    Talker::of_the_worked_example(stream_id)
}

/// The same, failed.
pub fn failed(stream_id: StreamId, code: u8) -> Talker {
    Talker {
        failure: Some(Failure { bridge_id: 0x1111_2222_3333_4444, code }),
        ..talker(stream_id)
    }
}

pub fn type_of(talker: &Talker) -> AttributeType {
    match talker.failure {
        None => AttributeType::TalkerAdvertise,
        Some(_) => AttributeType::TalkerFailed,
    }
}

/// A vector of a Talker and its neighbours, with these events.
pub fn talker_vector(talker: &Talker, events: &[u8]) -> VectorDraft {
    VectorDraft {
        first_value: declarations::first_value(talker),
        events: events.to_vec(),
        ..VectorDraft::default()
    }
}

/// A PDU of one such vector.
pub fn talker_frame(talker: &Talker, events: &[u8]) -> Vec<u8> {
    one_message(type_of(talker), vec![talker_vector(talker, events)])
}

/// A vector of Listeners of a stream and its neighbours, with these events and types.
pub fn listener_vector(stream_id: StreamId, events: &[u8], types: &[u8]) -> VectorDraft {
    VectorDraft {
        first_value: stream_id.to_be_bytes().to_vec(),
        events: events.to_vec(),
        listener_types: types.to_vec(),
        ..VectorDraft::default()
    }
}

/// A PDU of one Listener value.
pub fn listener_frame(stream_id: StreamId, event: u8, listener_type: u8) -> Vec<u8> {
    let vector = listener_vector(stream_id, &[event], &[listener_type]);
    one_message(AttributeType::Listener, vec![vector])
}

/// A vector of Domain values.
pub fn domain_vector(class_id: u8, priority: u8, events: &[u8]) -> VectorDraft {
    VectorDraft {
        first_value: vec![class_id, priority, 0, 2],
        events: events.to_vec(),
        ..VectorDraft::default()
    }
}

/// A PDU of one vector of Domain values.
pub fn domain_frame(class_id: u8, priority: u8, events: &[u8]) -> Vec<u8> {
    one_message(AttributeType::Domain, vec![domain_vector(class_id, priority, events)])
}

/// A vector of an address and its neighbours, with these events.
pub fn mac_vector(address: u64, events: &[u8]) -> VectorDraft {
    VectorDraft {
        first_value: address.to_be_bytes()[2..].to_vec(),
        events: events.to_vec(),
        ..VectorDraft::default()
    }
}

/// An MMRP frame of one such vector.
pub fn mac_frame(address: u64, events: &[u8]) -> Vec<u8> {
    let vectors = vec![mac_vector(address, events)];
    FrameDraft::new(vec![MessageDraft::of_mmrp(MmrpType::Mac, vectors)]).octets()
}

/// A PDU of a LeaveAll without values.
pub fn leave_all(attribute_type: AttributeType) -> Vec<u8> {
    let vector = VectorDraft {
        leave_all_event: 1,
        first_value: vec![0; attribute_type.first_value_length()],
        ..VectorDraft::default()
    };
    one_message(attribute_type, vec![vector])
}

/// A PDU of one Message.
pub fn one_message(attribute_type: AttributeType, vectors: Vec<VectorDraft>) -> Vec<u8> {
    FrameDraft::new(vec![MessageDraft::new(attribute_type, vectors)]).octets()
}

/// Hands a frame over, which is to be accepted.
pub fn accept(table: &mut Table, port: u32, frame: &[u8]) {
    assert_eq!(table.receive(port, frame), 0, "{frame:02x?}");
}

/// Hands an MMRP frame over, which is to be accepted.
pub fn accept_mmrp(table: &mut Table, port: u32, frame: &[u8]) {
    assert_eq!(table.receive_mmrp(port, frame), 0, "{frame:02x?}");
}

/// Registers a Talker on a port.
pub fn join_talker(table: &mut Table, port: u32, talker: &Talker) {
    accept(table, port, &talker_frame(talker, &[JOIN_MT]));
}

/// Registers a Listener on a port.
pub fn join_listener(table: &mut Table, port: u32, stream_id: StreamId, listener_type: u8) {
    accept(table, port, &listener_frame(stream_id, JOIN_MT, listener_type));
}

/// A stream of class A and the next one of class B: Talkers on port 1, Ready Listeners on port 2.
pub fn join_both_classes(table: &mut Table) {
    let mut class_b = talker(STREAM + 1);
    class_b.parameters.priority = 2;
    for talker in [talker(STREAM), class_b] {
        join_talker(table, 1, &talker);
        join_listener(table, 2, talker.stream_id, READY);
    }
}

/// Advances, which is to be accepted.
pub fn advance(table: &mut Table, time: u32) {
    assert_eq!(table.advance(time), 0);
}

/// The report of a stream on a port.
pub fn report(table: &Table, port: u32, stream_id: StreamId) -> ReportAnswer {
    let count = table.report(port, 0).count as u32;
    (0..count)
        .map(|place| table.report(port, place))
        .find(|answer| answer.stream_id == stream_id)
        .expect("the stream is held")
}

/// Column, code, Listener declared and entry of a stream on a port, as the sheet prints them.
pub fn line(table: &Table, port: u32, stream_id: StreamId) -> String {
    let answer = report(table, port, stream_id);
    format!(
        "{} {} {} {}",
        words::column(answer.column),
        answer.code(),
        words::listener(answer.listener),
        words::entry(answer.entry)
    )
}

/// The StreamIDs held, in order.
pub fn held(table: &Table) -> Vec<StreamId> {
    let count = table.report(1, 0).count as u32;
    (0..count).map(|place| table.report(1, place).stream_id).collect()
}

/// The Listener type registered on a port.
pub fn registered_listener(
    table: &Table,
    port: usize,
    stream_id: StreamId,
) -> Option<ListenerType> {
    let bridge = table.bridge()?;
    let on_port = &bridge.registrations.streams.get(&stream_id)?[port - 1];
    on_port.listener.as_ref().map(|listener| listener.listener_type)
}

/// One PDU that a port would write from a place: its octets and the next place. The table stays as it is.
pub fn written(table: &Table, port: u32, place: u32) -> (Vec<u8>, usize) {
    write(&mut table.clone(), port, place)
}

/// One PDU of a port from a place: its octets and the next place.
pub fn write(table: &mut Table, port: u32, place: u32) -> (Vec<u8>, usize) {
    let mut buffer = [0; 1500];
    let answer = table.write(port, place, &mut buffer);
    assert_eq!(answer.number, 0);
    (buffer[..answer.length].to_vec(), answer.next_place)
}
