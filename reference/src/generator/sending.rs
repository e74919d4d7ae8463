//! Ports that send, neighbours that answer, and declarations that change in between.

use super::domains::{domain_pdu, own_domain_vectors};
use super::events::{JOINS, LV, READY};
use super::history::History;
use super::looks;
use super::plan::{roomy_settings, Plan};
use crate::declarations::{self, Declaration};
use crate::frame::{FrameDraft, MessageDraft, VectorDraft};
use crate::leave_all::LEAVE_ALL_TIME;
use crate::pdu::{AttributeType, Failure, StreamId, Talker, ATTRIBUTE_TYPES};
use crate::registrations::{OnPort, MOST_STREAMS};
use crate::settings;

/// In so many of a hundred cases some things that have to do with sending, in the scripts that have them.
pub fn sending_step(history: &mut History, plan: &Plan, percent: u64) {
    history.sending(|history| {
        if history.table.bridge().is_some() && history.random.percent(percent) {
            let port = history.port(plan);
            for _ in 0..history.random.between(1, 8) {
                some_sending(history, port);
            }
        }
    });
}

/// One thing that has to do with what a port sends.
fn some_sending(history: &mut History, port: u32) {
    match history.random.weighted(&[24, 8, 6, 20, 3, 8, 8, 9, 5]) {
        0 => drop(history.write(port, 0, 1500)),
        1 => drop(looks::pass(history, port, 0)),
        2 => write_from_some_place(history, port),
        3 => neighbour_answers(history, port),
        4 => neighbour_leaves_all(history, port),
        5 => content_changes(history),
        6 => registration_leaves(history),
        7 => history.advance(history.clock()),
        _ => leave_all_comes(history, port),
    }
}

fn list_of(history: &History, port: u32) -> Vec<Declaration> {
    let bridge = history.table.bridge();
    let is_port = |ports: usize| (1..=ports).contains(&(port as usize));
    match bridge.filter(|bridge| is_port(bridge.settings.ports.len())) {
        Some(bridge) => bridge.declarations(port as usize),
        None => Vec::new(),
    }
}

fn write_from_some_place(history: &mut History, port: u32) {
    let count = list_of(history, port).len() as u64;
    let any = history.random.below(count + 1);
    let place = history.random.one_of(&[any, any, count / 2, count, count + 1]);
    history.write(port, place as u16, 1500);
}

/// A vector of a declaration and its neighbours, one event for all.
fn vector(declaration: &Declaration, event: u8, count: usize) -> VectorDraft {
    let (first_value, listener_types) = match declaration {
        Declaration::Talker(talker) => (declarations::first_value(talker), Vec::new()),
        Declaration::Listener(stream_id, says) => {
            (stream_id.to_be_bytes().to_vec(), vec![says.number(); count])
        }
        Declaration::Domain(domain) => (domain.octets(), Vec::new()),
    };
    VectorDraft {
        first_value,
        events: vec![event; count],
        listener_types,
        ..VectorDraft::default()
    }
}

/// A PDU of such a vector.
fn pdu(declaration: &Declaration, event: u8, count: usize) -> Vec<u8> {
    let vectors = vec![vector(declaration, event, count)];
    FrameDraft::new(vec![MessageDraft::new(declaration.attribute_type(), vectors)]).octets()
}

/// The neighbour says something of a declaration of the port, rarely with LeaveAll.
fn neighbour_answers(history: &mut History, port: u32) {
    let list = list_of(history, port);
    if list.is_empty() {
        return;
    }
    let declaration = history.random.one_of(&list);
    let mut vector = vector(&declaration, history.random.below(6) as u8, 1);
    vector.leave_all_event = history.random.percent(4).into();
    let message = MessageDraft::new(declaration.attribute_type(), vec![vector]);
    history.receive(port, &FrameDraft::new(vec![message]).octets());
}

fn neighbour_leaves_all(history: &mut History, port: u32) {
    let attribute_type = history.random.one_of(&ATTRIBUTE_TYPES);
    let first_value = vec![0; attribute_type.first_value_length()];
    let vector = VectorDraft { leave_all_event: 1, first_value, ..VectorDraft::default() };
    let message = MessageDraft::new(attribute_type, vec![vector]);
    history.receive(port, &FrameDraft::new(vec![message]).octets());
}

/// Something that is registered: its port, and what joined it.
fn some_registration(history: &mut History) -> Option<(u32, Declaration)> {
    let bridge = history.table.bridge()?;
    let mut found = Vec::new();
    for (stream_id, ports) in &bridge.registrations.streams {
        for (port, on_port) in (1..).zip(ports) {
            found.extend(registered(*stream_id, on_port).into_iter().map(|one| (port, one)));
        }
    }
    (!found.is_empty()).then(|| history.random.one_of(&found))
}

/// What joined what a port holds of a stream.
fn registered(stream_id: StreamId, on_port: &OnPort) -> Vec<Declaration> {
    let talker = on_port.talker.as_ref().map(|held| {
        Declaration::Talker(Talker {
            stream_id,
            parameters: held.parameters,
            accumulated_latency: held.accumulated_latency,
            failure: held.failure,
        })
    });
    let listener = on_port.listener_type().map(|says| Declaration::Listener(stream_id, says));
    talker.into_iter().chain(listener).collect()
}

/// A registration is joined with other content, and time stands still.
fn content_changes(history: &mut History) {
    let (port, declaration) = match some_registration(history) {
        Some(found) => found,
        None => return,
    };
    let random = &mut history.random;
    let mut vector = vector(&declaration, random.one_of(&JOINS), 1);
    let mut attribute_type = declaration.attribute_type();
    if let Declaration::Talker(mut talker) = declaration {
        match random.below(5) {
            0 => talker.failure = talker.failure.xor(Some(Failure { bridge_id: 7, code: 9 })),
            1 => talker.parameters.vlan ^= 1,
            2 => talker.accumulated_latency = talker.accumulated_latency.wrapping_add(1),
            _ => talker.accumulated_latency = talker.accumulated_latency.wrapping_sub(1),
        }
        attribute_type = talker.attribute().attribute_type;
        vector.first_value = declarations::first_value(&talker);
    } else {
        vector.listener_types = vec![random.between(1, 3) as u8];
    }
    let message = MessageDraft::new(attribute_type, vec![vector]);
    history.receive(port, &FrameDraft::new(vec![message]).octets());
    history.advance(history.clock());
}

/// A registration leaves; mostly time goes to the end of the leave time, if that is near.
fn registration_leaves(history: &mut History) {
    if let Some((port, declaration)) = some_registration(history) {
        history.receive(port, &pdu(&declaration, LV, 1));
        let leave_time = history.table.bridge().map_or(0, |bridge| bridge.settings.leave_time);
        if leave_time <= 250 && history.random.percent(75) {
            history.advance(history.clock().saturating_add(leave_time));
        }
    }
}

/// Time goes to where the LeaveAll timer of a port ends, or one off it.
fn leave_all_comes(history: &mut History, port: u32) {
    let ports = history.table.bridge().map(|bridge| &bridge.sending.ports);
    let port = ports.and_then(|ports| ports.get(port as usize - 1));
    let started = port.map_or(0, |port| port.leave_all.started);
    let step = history.random.one_of(&[LEAVE_ALL_TIME - 1, LEAVE_ALL_TIME, LEAVE_ALL_TIME + 1]);
    history.advance(started.saturating_add(step));
}

/// So many Advertise and Failed that with LeaveAll they, or they and one Domain value, or both, take exactly
/// 1,500 octets.
const FULL_WITH_LEAVE_ALL: [(usize, usize); 3] = [(19, 25), (15, 28), (24, 21)];

/// Bridges made for lists: one that is as long as a list can be, or one that fills a PDU with LeaveAll.
pub fn lists(history: &mut History) {
    whole_lists(history);
    history.sending(|history| {
        if history.random.percent(6) {
            full_with_leave_all(history);
        }
    });
}

/// A bridge whose port 2 declares Talkers that fill a PDU with LeaveAll, or one more or less.
fn full_with_leave_all(history: &mut History) {
    start_roomy(history);
    let (advertise, failed) = history.random.one_of(&FULL_WITH_LEAVE_ALL);
    let more = history.random.one_of(&[0, 0, 0, 1]);
    let talker = Talker::of_the_worked_example(0x0200_0000_0001_0000);
    let join = history.random.one_of(&JOINS);
    history.receive(1, &pdu(&Declaration::Talker(talker), join, advertise));
    let failure = Some(Failure { bridge_id: history.random.bits(), code: 9 });
    let stream_id = talker.stream_id + 0x100;
    let other = Talker { failure, ..Talker::of_the_worked_example(stream_id) };
    history.receive(1, &pdu(&Declaration::Talker(other), join, failed + more));
    history.advance(1);
    if history.random.percent(50) {
        looks::pass(history, 2, 0);
    }
    let late = history.random.below(3) as u32;
    history.advance(LEAVE_ALL_TIME + late);
    looks::pass(history, 2, 0);
}

/// A bridge of two ports with room for all streams, whose neighbours are in its domain.
fn start_roomy(history: &mut History) {
    let settings = roomy_settings(&mut history.random);
    history.start(&settings::write(&settings));
    for port in [1, 2] {
        let vectors = own_domain_vectors(&mut history.random, &settings);
        history.receive(port, &domain_pdu(vectors));
    }
}

/// A bridge whose port 2 has, of each of 64 streams, the Lv of an Advertise and of a Failed to send and declares
/// a Listener: 194 declarations with those of the domain. Then its list shrinks. In some scripts that have
/// much sending.
fn whole_lists(history: &mut History) {
    history.sending(|history| {
        if history.random.percent(12) {
            make_whole_list(history);
            let place = history.random.one_of(&[0, 0, 1, 64, 100, 128, 192, 194]);
            if history.random.percent(40) {
                history.advance(LEAVE_ALL_TIME + 100);
            }
            looks::pass(history, 2, place);
            looks::sweep_port(history, 2);
        }
    });
}

/// All 64 streams of a run of StreamIDs, whose list on port 2 grows with each change.
fn make_whole_list(history: &mut History) {
    start_roomy(history);
    let step = history.random.one_of(&[0, 0x100, 0xff00]);
    let mut talker = Talker::of_the_worked_example(0x0200_0000_0001_0000 + step);
    talker.parameters.max_frame_size = 100;
    let advertise = Declaration::Talker(talker);
    let failed = Declaration::Talker(Talker {
        failure: Some(Failure { bridge_id: history.random.bits(), code: 9 }),
        ..talker
    });
    let join = history.random.one_of(&JOINS);
    history.receive(1, &pdu(&advertise, join, MOST_STREAMS));
    history.advance(1);
    looks::pass(history, 2, 0);
    history.receive(1, &pdu(&failed, join, MOST_STREAMS));
    history.advance(2);
    // What stands before this place isn't written: the Lv of each Advertise.
    looks::pass(history, 2, MOST_STREAMS as u16);
    history.receive(1, &pdu(&failed, LV, MOST_STREAMS));
    history.receive(2, &pdu(&advertise, join, MOST_STREAMS));
    history.receive(1, &listeners(talker.stream_id));
    history.advance(100);
}

/// A PDU of 64 Ready Listeners.
fn listeners(stream_id: StreamId) -> Vec<u8> {
    let vector = VectorDraft {
        first_value: stream_id.to_be_bytes().to_vec(),
        events: vec![JOINS[2]; MOST_STREAMS],
        listener_types: vec![READY; MOST_STREAMS],
        ..VectorDraft::default()
    };
    let message = MessageDraft::new(AttributeType::Listener, vec![vector]);
    FrameDraft::new(vec![message]).octets()
}
