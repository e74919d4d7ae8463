//! Streams whose Listeners a port declares, with gaps that are only just worth filling or not.

use super::domains::{domain_pdu, own_domain_vectors};
use super::events::{JOINS, READY};
use super::history::History;
use super::looks;
use super::plan::{accumulated_latency, roomy_settings};
use crate::declarations;
use crate::frame::{FrameDraft, MessageDraft, VectorDraft};
use crate::mrp::{Event, LONGEST_PDU};
use crate::packing;
use crate::pdu::{AttributeType, Failure, ListenerType, StreamId, Talker};
use crate::random::Random;
use crate::registrations::MOST_STREAMS;
use crate::settings;

/// Unique IDs where a rule for gaps alone cuts wrongly.
const TIGHT: [&[u64]; 6] =
    [&[1, 2, 25], &[1, 22, 25], &[1, 2, 22, 25], &[1, 22], &[1, 22, 45], &[1, 24, 43, 45, 67]];

/// The steps from one StreamID to the next, so many.
fn steps(random: &mut Random, count: u64) -> Vec<u64> {
    let style = random.below(7);
    let same = random.one_of(&[17, 17, 18, 18, 19, 20, 21, 22, 23, 24]);
    let step = |random: &mut Random| match style {
        0 => 1,
        1..=2 => same,
        3 => random.between(19, 25),
        4 => random.one_of(&[1, 20, 21, 22, 23]),
        5 => random.one_of(&[1, 1, 2, 3, 19, 20, 23, 24]),
        _ => random.between(1, 30),
    };
    (0..count).map(|_| step(random)).collect()
}

/// Ascending Unique IDs, at least one and at most so many.
fn unique_ids(random: &mut Random, most: u64) -> Vec<u64> {
    let mut ids = vec![0];
    if random.percent(45) {
        ids = random.one_of(&TIGHT).to_vec();
        ids.truncate(most as usize);
    } else {
        let any = random.below(most);
        let count = random.one_of(&[most - 1, most - 1, any]);
        for step in steps(random, count) {
            ids.push(ids[ids.len() - 1] + step);
        }
    }
    let last = ids[ids.len() - 1];
    let first = match random.below(6) {
        0 => 0,
        1..=2 => 0xffff - last,
        _ => random.below(0xffff - last),
    };
    ids.iter().map(|id| first + id).collect()
}

/// Ascending StreamIDs, at least one and at most so many; of one MAC, or of some that follow each
/// other.
fn stream_ids(random: &mut Random, most: u64) -> Vec<StreamId> {
    let mut mac = 0x0200_0000_0100 + random.below(4);
    let mut ids: Vec<StreamId> = Vec::new();
    loop {
        let room = most - ids.len() as u64;
        ids.extend(unique_ids(random, room).into_iter().map(|id| mac << 16 | id));
        if ids.len() as u64 == most || random.percent(60) {
            return ids;
        }
        mac += random.one_of(&[1, 1, 1, 0x100]);
    }
}

/// The StreamIDs in the gaps between these, at most so many.
fn in_gaps(ids: &[StreamId], most: usize) -> Vec<StreamId> {
    let gaps = ids.windows(2).filter(|two| two[0] >> 16 == two[1] >> 16);
    gaps.flat_map(|two| two[0] + 1..two[1]).take(most).collect()
}

/// Octets of a Message whose vectors have so many; none where there are none.
fn message_length(vectors: u64) -> u64 {
    match vectors {
        0 => 0,
        _ => 6 + vectors,
    }
}

/// How many Advertise and Failed, at most so many together, can stand before these Listeners so that
/// a PDU ends at 1,500 octets, one before or one past it: behind two Domains, one or none.
fn talkers_before(listeners: &[StreamId], most: u64) -> Vec<(u64, u64)> {
    let ready = |stream_id: &StreamId| (*stream_id, ListenerType::Ready, Event::JoinMt);
    let vectors = packing::vectors(&listeners.iter().map(ready).collect::<Vec<_>>()).concat();
    let mut found = Vec::new();
    for advertise in 0..=most {
        for failed in 0..=most - advertise {
            let talkers = message_length(28 * advertise) + message_length(37 * failed);
            let length = 3 + talkers + message_length(vectors.len() as u64);
            let ends = [0, 7, 14].map(|domains| length + message_length(domains));
            if ends.iter().any(|end| end.abs_diff(LONGEST_PDU as u64) <= 1) {
                found.push((advertise, failed));
            }
        }
    }
    found
}

/// A vector for each MAC that joins streams and passes over those in the gaps. The FirstValue is
/// that of the first stream, and what it says of each is by place; Talkers say nothing.
fn joining_vectors(
    random: &mut Random,
    ids: &[StreamId],
    first_value: impl Fn(StreamId) -> Vec<u8>,
    says: Option<&[u8]>,
) -> Vec<VectorDraft> {
    let mut vectors: Vec<(StreamId, VectorDraft)> = Vec::new();
    for (place, stream_id) in ids.iter().enumerate() {
        match vectors.last() {
            Some((first, _)) if first >> 16 == stream_id >> 16 => {}
            _ => {
                let first_value = first_value(*stream_id);
                vectors.push((*stream_id, VectorDraft { first_value, ..VectorDraft::default() }));
            }
        }
        let (first, vector) = vectors.last_mut().expect("one was put there");
        let n = (*stream_id - *first) as usize;
        // In and Mt join nothing.
        vector.events.resize(n, random.one_of(&[2, 4]));
        vector.events.push(random.one_of(&JOINS));
        if let Some(says) = says {
            vector.listener_types.resize(n, 0);
            vector.listener_types.push(says[place]);
        }
    }
    vectors.into_iter().map(|(_, vector)| vector).collect()
}

/// A PDU with a vector for each MAC that joins Listeners, mostly of all kinds.
fn listeners_pdu(random: &mut Random, ids: &[StreamId]) -> Vec<u8> {
    let mixed = random.percent(60);
    let says: Vec<u8> =
        ids.iter().map(|_| if mixed { random.between(1, 3) as u8 } else { READY }).collect();
    let first_value = |stream_id: StreamId| stream_id.to_be_bytes().to_vec();
    let vectors = joining_vectors(random, ids, first_value, Some(&says));
    FrameDraft::new(vec![MessageDraft::new(AttributeType::Listener, vectors)]).octets()
}

/// A bridge whose port 2 declares Listeners with gaps between them, mostly behind so many Talkers
/// that a PDU ends at 1,500 octets or near it.
pub fn packed_listeners(history: &mut History) {
    let settings = roomy_settings(&mut history.random);
    history.start(&settings::write(&settings));
    for port in [1, 2] {
        let vectors = own_domain_vectors(&mut history.random, &settings);
        history.receive(port, &domain_pdu(vectors));
    }
    let most = match history.random.below(10) {
        0..=6 => history.random.between(1, 40),
        _ => MOST_STREAMS as u64,
    };
    let listeners = stream_ids(&mut history.random, most);
    let (advertise, failed) = some_talkers_before(history, &listeners);
    let talkers = talkers_beside(history, &listeners, (advertise + failed) as usize);
    let (advertise, failed) = talkers.split_at(advertise as usize);
    let failure = Failure { bridge_id: history.random.bits(), code: history.random.octet() };
    join_streams(history, 1, advertise, None);
    join_streams(history, 1, failed, Some(failure));
    join_streams(history, 2, &listeners, None);
    history.advance(100);
    for port in [1, 2] {
        looks::sweep_port(history, port);
    }
}

/// How many Advertise and Failed stand before these Listeners. Often the PDU is full with the
/// first of them.
fn some_talkers_before(history: &mut History, listeners: &[StreamId]) -> (u64, u64) {
    let room = (MOST_STREAMS - listeners.len()) as u64;
    let some = history.random.between(1, listeners.len() as u64) as usize;
    let fitting = history.random.one_of(&[some, listeners.len()]);
    let full = talkers_before(&listeners[..fitting], room);
    match full.is_empty() {
        true => (history.random.below(room.min(3) + 1), 0),
        false => history.random.one_of(&full),
    }
}

/// So many other streams, ascending, at times in the gaps between the Listeners.
fn talkers_beside(history: &mut History, listeners: &[StreamId], count: usize) -> Vec<StreamId> {
    let first: StreamId = 0x0200_0000_0001_0000 + history.random.below(1_000);
    let in_gaps = match history.random.percent(30) {
        true => in_gaps(listeners, count),
        false => Vec::new(),
    };
    let apart = (count - in_gaps.len()) as u64;
    (first..first + apart).chain(in_gaps).collect()
}

/// The Talkers of streams on a port, and Listeners of all on the other of two.
fn join_streams(history: &mut History, port: u32, ids: &[StreamId], failure: Option<Failure>) {
    if ids.is_empty() {
        return;
    }
    let accumulated_latency = accumulated_latency(&mut history.random);
    let first_value = |stream_id: StreamId| {
        let mut talker = Talker::of_the_worked_example(stream_id);
        // So that no two have the same, whatever their MAC.
        talker.parameters.destination = 0x91 << 40 | stream_id & 0xff_ffff_ffff;
        talker.parameters.max_frame_size = 100;
        declarations::first_value(&Talker { accumulated_latency, failure, ..talker })
    };
    let attribute_type = match failure {
        None => AttributeType::TalkerAdvertise,
        Some(_) => AttributeType::TalkerFailed,
    };
    let vectors = joining_vectors(&mut history.random, ids, first_value, None);
    let message = MessageDraft::new(attribute_type, vectors);
    history.receive(port, &FrameDraft::new(vec![message]).octets());
    let pdu = listeners_pdu(&mut history.random, ids);
    history.receive(3 - port, &pdu);
}
