//! What happens to a bridge, one thing after another.

use super::damage::damaged;
use super::domains::strange_domain_vectors;
use super::events::{ASKING, JOINS, READY, READY_FAILED};
use super::frames::{frame, listeners_frame, talkers_frame, unknown_message};
use super::history::History;
use super::newer::make_strange;
use super::plan::{Group, Plan, Size};
use super::{borrowing, domains, latencies, leaving};
use crate::declarations;
use crate::frame::{FrameDraft, MessageDraft, VectorDraft};
use crate::pdu::{AttributeType, StreamId};
use crate::random::Random;
use crate::registrations::MOST_STREAMS;

/// What mostly happens first: the neighbours say what domain they are in, and all groups join.
pub fn beginning(history: &mut History, plan: &Plan) {
    if history.random.percent(94) {
        domains::hear_domains(history, plan);
    }
    if history.random.percent(80) {
        opening(history, plan);
    }
}

/// All groups: their Talker on its port and Listeners, mostly Ready, on others; then time. The
/// frames come in any order, or group by group with time in between, so that ages differ.
fn opening(history: &mut History, plan: &Plan) {
    if history.random.percent(4) {
        let leave_time = u64::from(plan.settings.leave_time);
        let before_the_end = history.random.below(500 + 10 * leave_time) as u32;
        history.advance(u32::MAX - before_the_end);
    }
    let mut groups = plan.groups.clone();
    history.random.shuffle(&mut groups);
    let one_by_one = history.random.percent(if plan.rivals { 75 } else { 20 });
    let mut frames = Vec::new();
    for group in &groups {
        frames.extend(joining_frames(history, plan, group));
        if one_by_one {
            receive_all(history, plan, &mut frames);
            // Often within the same second, where the StreamID decides and not the age.
            let most = history.random.one_of(&[25, 25, 160]);
            let time = history.clock().saturating_add(history.random.between(1, most) as u32);
            history.advance(time);
        }
    }
    history.random.shuffle(&mut frames);
    receive_all(history, plan, &mut frames);
    let time = history.clock().saturating_add(history.random.below(200) as u32);
    history.advance(time);
}

/// Hands the frames over, now and then with an advance behind one.
fn receive_all(history: &mut History, plan: &Plan, frames: &mut Vec<(u32, Vec<u8>)>) {
    for (port, frame) in frames.drain(..) {
        history.receive(port, &frame);
        if history.random.percent(4) {
            history.some_advance(plan);
        }
    }
}

/// Frames that join a group's Talker on its port and Listeners on others.
fn joining_frames(history: &mut History, plan: &Plan, group: &Group) -> Vec<(u32, Vec<u8>)> {
    let joins: Vec<u8> = vec![history.random.one_of(&JOINS); group.members as usize];
    let frame = talkers_frame(&mut history.random, group, group.first.accumulated_latency);
    let mut frames = vec![(group.talker_port, frame)];
    for port in 1..=plan.ports() {
        if port != group.talker_port && history.random.percent(75) {
            let listener_type = history.random.one_of(&[READY, READY, READY, READY_FAILED, ASKING]);
            frames.push((port, listeners_frame(group, &joins, listener_type)));
        }
    }
    frames
}

/// Joins new streams up to 64, one less or one more.
fn fill(history: &mut History, plan: &Plan) {
    let free = MOST_STREAMS - history.streams_held().min(MOST_STREAMS);
    let count = history.random.one_of(&[free, free, free + 1, free.saturating_sub(1), 1]);
    let mac = 0x0200_0000_00f0 + history.random.below(16);
    let stream_id: StreamId = mac << 16 | history.random.below(0xff00);
    let port = history.port(plan);
    let events = vec![history.random.one_of(&JOINS); count];
    let mut messages = vec![joining_message(&mut history.random, plan, stream_id, events)];
    if history.random.percent(30) {
        let vectors = strange_domain_vectors(&mut history.random, &plan.settings);
        messages.insert(0, MessageDraft::new(AttributeType::Domain, vectors));
    }
    let mut frame = FrameDraft::new(messages);
    if history.random.percent(15) {
        frame.version = 1;
        for vector in frame.messages.iter_mut().flat_map(|message| &mut message.vectors) {
            make_strange(&mut history.random, vector);
        }
    }
    // With no values the header would be an EndMark, and the list wouldn't end with it.
    history.receive(port, &frame.octets());
}

/// A Message of Listeners, or of Talkers, from a stream on.
fn joining_message(
    random: &mut Random,
    plan: &Plan,
    stream_id: StreamId,
    events: Vec<u8>,
) -> MessageDraft {
    let mut vector = VectorDraft { events, ..VectorDraft::default() };
    if random.percent(50) {
        vector.first_value = stream_id.to_be_bytes().to_vec();
        vector.listener_types = vec![READY; vector.events.len()];
        MessageDraft::new(AttributeType::Listener, vec![vector])
    } else {
        let mut talker = random.one_of(&plan.groups).first;
        talker.stream_id = stream_id;
        talker.parameters.destination = 0x91e0_f000_0000;
        vector.first_value = declarations::first_value(&talker);
        MessageDraft::new(AttributeType::TalkerAdvertise, vec![vector])
    }
}

/// One thing that happens to a bridge: mostly a frame or an advance.
pub fn step(history: &mut History, plan: &Plan) {
    let port = history.port(plan);
    let fill_weight = if plan.size == Size::Full { 8 } else { 1 };
    match history.random.weighted(&[58, 26, 11, 3, 4, 4, 2, 2, fill_weight]) {
        0 => {
            let frame = frame(&mut history.random, plan, port);
            history.receive(port, &frame.octets());
        }
        1 => history.some_advance(plan),
        2 => {
            let frame = frame(&mut history.random, plan, port);
            let octets = damaged(&mut history.random, frame, unknown_message);
            history.receive(port, &octets);
        }
        3 => {
            let port = history.wrong_port(plan);
            let mut octets = frame(&mut history.random, plan, 1).octets();
            if history.random.percent(20) {
                octets.clear();
            }
            history.receive(port, &octets);
        }
        4 => leaving::leave_and_wait(history, plan),
        5 => domains::hear_domain_again(history, plan),
        6 => borrowing::class_a_goes_and_comes(history, plan),
        7 => latencies::path_changes(history, plan),
        _ => fill(history, plan),
    }
}

pub fn steps(history: &mut History, size: Size) -> u64 {
    match size {
        Size::Small => history.random.between(2, 16),
        Size::Middle => history.random.between(12, 60),
        Size::Full => history.random.between(2, 25),
        Size::Large => history.random.between(100, 300),
    }
}

/// A little time at the end, so that what came before is settled.
pub fn closing(history: &mut History) {
    if history.random.percent(85) {
        let step = history.random.one_of(&[0, 1, 30, 100]);
        let time = history.clock().saturating_add(step);
        history.advance(time);
    }
}

/// Ends an input with another octet or with a cut record.
pub fn put_stop(history: &mut History, plan: &Plan, unknown: &[u8]) {
    if history.random.percent(40) {
        let octet = history.random.one_of(unknown);
        history.octets.push(octet);
        let length = history.random.below(12) as usize;
        let octets = history.random.octets(length);
        history.octets.extend(octets);
    } else if history.random.percent(50) {
        history.octets.push(0x20);
        let length = history.random.below(4) as usize;
        let octets = history.random.octets(length);
        history.octets.extend(octets);
    } else {
        let port = history.random.below(16) as u32;
        let pdu = frame(&mut history.random, plan, port).octets();
        let before = history.octets.len();
        history.put_counted(0x10 | port as u8, &pdu);
        let keep = history.random.between(1, 2 + pdu.len() as u64) as usize;
        history.octets.truncate(before + keep);
    }
}
