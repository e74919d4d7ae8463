//! Asking why.

use super::domains::{domain_pdu, own_domain_vectors};
use super::events::{JOINS, READY};
use super::frames::{listeners_frame, talkers_frame};
use super::history::History;
use super::plan::{roomy_settings, Group, Plan, GREATEST_LIMIT};
use crate::pdu::{Parameters, StreamId, Talker};
use crate::registrations::MOST_STREAMS;
use crate::settings::{self, Class, PerClass, PortSettings, CLASSES};
use crate::settling;
use crate::why::LONGEST_LIST;

/// What a Talker's stream takes on a port.
fn demand(port: &PortSettings, class: Class, talker: &Talker) -> u64 {
    let Parameters { max_frame_size, max_interval_frames, .. } = talker.parameters;
    settling::rate(class, settling::demand(port, max_frame_size, max_interval_frames)).0
}

/// A stream that is held, where there is one.
fn held_stream(history: &mut History) -> Option<StreamId> {
    let held: Vec<StreamId> = match history.table.bridge() {
        Some(bridge) => bridge.registrations.streams.keys().copied().collect(),
        None => Vec::new(),
    };
    (!held.is_empty()).then(|| history.random.one_of(&held))
}

/// Why, with any arguments.
pub fn some_why(history: &mut History, plan: &Plan) {
    let port =
        if history.random.percent(92) { history.port(plan) } else { history.wrong_port(plan) };
    let near = history.random.one_of(&plan.groups).first.stream_id;
    let any = near.wrapping_add(history.random.below(20));
    let held = held_stream(history).filter(|_| history.random.percent(90));
    let longest = LONGEST_LIST as u16;
    let any_length = history.random.below(2_100) as u16;
    let buffer_length = history.random.one_of(&[
        longest,
        longest,
        longest,
        longest,
        longest,
        longest + 1,
        longest - 1,
        2_048,
        0,
        65_535,
        any_length,
    ]);
    history.why(port, held.unwrap_or(any), buffer_length);
}

/// Why, of all streams on a port.
pub fn why_of_all(history: &mut History, port: u32) {
    let held: Vec<StreamId> = match history.table.bridge() {
        Some(bridge) => bridge.registrations.streams.keys().copied().collect(),
        None => return,
    };
    for stream_id in held {
        history.why(port, stream_id, LONGEST_LIST as u16);
    }
}

/// A bridge whose port 2 has room for so many of up to 64 streams, all but the last at times, and
/// why those that are past it get code 1. Some join one after another, so that ages differ.
pub fn too_little_room(history: &mut History) {
    let count = history.random.one_of(&[64, 64, 64, 1, 2, 3, 10, 10]);
    let fitting = match history.random.below(4) {
        0 => 0,
        1..=2 => count - 1,
        _ => history.random.below(count),
    };
    let mut settings = roomy_settings(&mut history.random);
    let class = history.random.one_of(&CLASSES);
    let mut first = Talker::of_the_worked_example(0x0200_0000_0001_0001);
    first.parameters.priority = settings.priority.of(class);
    let of_class_a = demand(&settings.ports[1], Class::A, &first);
    let one = demand(&settings.ports[1], class, &first);
    let limit = one * fitting + history.random.one_of(&[0, one - 1, one / 2]);
    // A stream of class A takes a part of what class B may borrow.
    let beside = class == Class::B && count < MOST_STREAMS as u64 && history.random.percent(60);
    let lent = history.random.one_of(&[0, limit, limit / 3]);
    let supports_a = class == Class::A || beside || lent > 0 || history.random.percent(70);
    settings.ports[1].supports.a = supports_a;
    settings.ports[1].limit = match class {
        Class::A => PerClass { a: limit, b: GREATEST_LIMIT },
        Class::B if beside => PerClass { a: lent + of_class_a, b: limit - lent },
        Class::B => PerClass { a: lent, b: limit - lent },
    };
    history.start(&settings::write(&settings));
    for port in [1, 2] {
        let vectors = own_domain_vectors(&mut history.random, &settings);
        history.receive(port, &domain_pdu(vectors));
    }
    if beside {
        let mut talker = Talker::of_the_worked_example(first.stream_id + 0x1000);
        talker.parameters.priority = settings.priority.a;
        join_group(history, talker, 1);
    }
    join_in_turns(history, first, count);
    why_of_all(history, 2);
    history.why(2, first.stream_id + count, LONGEST_LIST as u16);
}

/// So many streams with Talkers on port 1 and Ready Listeners on port 2; at times a part of them
/// a second later than the others, though their StreamIDs are lower, or of another rank. Where
/// there is room, one before them asks for nothing.
fn join_in_turns(history: &mut History, first: Talker, count: u64) {
    if count < MOST_STREAMS as u64 && history.random.percent(40) {
        let mut idle = first;
        idle.stream_id -= 1;
        idle.parameters.destination -= 1;
        idle.parameters.max_interval_frames = 0;
        join_group(history, idle, 1);
    }
    let later = history.random.one_of(&[0, 1, count / 2, count / 2, count]);
    let ranks = history.random.one_of(&[(1, 1), (1, 1), (0, 1), (1, 0)]);
    let parts = [(later, count - later, ranks.0), (0, later, ranks.1)];
    for (time, (skip, members, rank)) in (1..).zip(parts) {
        if members > 0 {
            let mut talker = first;
            talker.stream_id += skip;
            talker.parameters.destination += skip;
            talker.parameters.rank = rank;
            join_group(history, talker, members);
            if history.random.percent(80) {
                history.advance(100 * time);
            }
        }
    }
}

/// A Talker and its neighbours on port 1, and Ready Listeners of all on port 2.
fn join_group(history: &mut History, first: Talker, members: u64) {
    let group = Group { first, members, talker_port: 1 };
    let frame = talkers_frame(&mut history.random, &group, 0);
    history.receive(1, &frame);
    let joins = vec![history.random.one_of(&JOINS); members as usize];
    history.receive(2, &listeners_frame(&group, &joins, READY));
}
