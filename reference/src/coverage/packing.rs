//! What is counted of Listeners packed into vectors.

use super::counts::Counts;
use crate::bridge::Bridge;
use crate::declarations::{self, Declaration, Said};
use crate::mrp::{Event, LONGEST_PDU};
use crate::packing::{self, Cutting, Listener, Weight, SHORT_RUN};
use crate::pdu::{listener_attribute, ListenerType, StreamId};
use crate::registrations::MOST_STREAMS;
use crate::sending::Written;

/// Rows of the table.
pub const ROWS: &[&str] = &[
    "Listeners 1, 2, 25",
    "Listeners 1, 22, 25",
    "Listeners 1, 2, 22, 25",
    "Listeners 1, 22",
    "Listeners 1, 22, 45",
    "Listeners 1, 24, 43, 45, 67",
    "Listeners of several MACs",
    "Listeners FFFF and 0000 of the next MAC",
    "Listeners of one MAC in several vectors",
    "many Listeners of one MAC in several vectors",
    "vector of several Listeners",
    "vector of 64 Listeners",
    "vector of Listeners with more than 1000 values",
    "vector of Listeners up to FFFF",
    "vector of all kinds of Listeners",
    "gap filled with Ignore",
    "gap of 19 filled with Ignore",
    "gap of 20 filled with Ignore",
    "gap of 21 filled with Ignore",
    "gap of 22 filled with Ignore",
    "gap of 19 between two vectors",
    "gap of 20 between two vectors",
    "gap of 21 between two vectors",
    "gap of 22 between two vectors",
    "gap of 23 between two vectors",
    "gap of 24 between two vectors",
    "gap of 25 between two vectors",
    "Ignore for a stream that is held",
    "Ignore for a stream declared as Talker",
    "cutting with fewer vectors than another of as many octets",
    "cutting with more values in a vector before",
    "Listener that takes no octet more",
    "Listeners cut anew for the last one",
    "write from a place between Listeners",
    "write that ends between Listeners",
    "write of exactly 1500 octets that ends between Listeners",
    "one more Listener would make 1501 octets",
    "vector of Listeners with several events",
    "vector of Listeners that begins with Lv",
    "vector of Listeners that ends with Lv",
    "Ignore for a quiet Listener",
];

fn listener(said: &Said) -> Option<Listener> {
    match said.declaration {
        Declaration::Listener(stream_id, says) => Some((stream_id, says, said.event)),
        Declaration::Talker(_) | Declaration::Domain(_) => None,
    }
}

fn mac(stream_id: StreamId) -> u64 {
    stream_id >> 16
}

/// What another cutting has in common with the best one of a short run.
fn ties(run: &[StreamId], best: &Cutting) -> (bool, bool) {
    let (octets, vectors, values) = packing::weight(run, best);
    let others = packing::all_cuttings(run).map(|cutting| packing::weight(run, &cutting));
    let alike: Vec<Weight> =
        others.filter(|other| other.0 == octets && other.2 != values).collect();
    (alike.iter().any(|other| other.1 != vectors), alike.iter().any(|other| other.1 == vectors))
}

/// The Listeners of an accepted write on a port, from a place.
pub fn packed(
    counts: &mut Counts,
    before: &Bridge,
    (port, place): (usize, usize),
    written: &Written,
) {
    let listeners: Vec<Listener> = written.said.iter().filter_map(listener).collect();
    let run: Vec<StreamId> = listeners.iter().map(|(stream_id, ..)| *stream_id).collect();
    if run.is_empty() {
        return;
    }
    let cutting = packing::best(&run);
    tight(counts, &run);
    macs(counts, &run, &cutting);
    for part in &cutting {
        packed_vector(counts, before, port, &listeners[part.clone()]);
        events(counts, before, port, &listeners[part.clone()]);
    }
    for two in cutting.windows(2) {
        let (before, behind) = (run[two[1].start - 1], run[two[1].start]);
        let gap = behind - before - 1;
        if mac(before) == mac(behind) && (19..=25).contains(&gap) {
            counts.count(&format!("gap of {gap} between two vectors"));
        }
    }
    if run.len() <= SHORT_RUN {
        let (by_vectors, by_values) = ties(&run, &cutting);
        counts.count_if("cutting with fewer vectors than another of as many octets", by_vectors);
        counts.count_if("cutting with more values in a vector before", by_values);
    }
    last_listener(counts, &run, &cutting);
    ended_between(counts, &before.declarations(port), place, written);
}

/// The events of a vector, and the Listeners that it passes over since they have nothing to say.
fn events(counts: &mut Counts, before: &Bridge, port: usize, part: &[Listener]) {
    let event = |place: usize| part[place].2;
    let last = part.len() - 1;
    let mixed = part.iter().any(|(.., other)| *other != event(0));
    counts.count_if("vector of Listeners with several events", mixed);
    let begins = mixed && event(0) == Event::Lv;
    counts.count_if("vector of Listeners that begins with Lv", begins);
    counts.count_if("vector of Listeners that ends with Lv", mixed && event(last) == Event::Lv);
    let machines = &before.sending.ports[port - 1].machines;
    let is_listed = |stream_id| machines.contains_key(&listener_attribute(stream_id));
    let is_passed = |two: &[Listener]| (two[0].0 + 1..two[1].0).any(is_listed);
    counts.count_if("Ignore for a quiet Listener", part.windows(2).any(is_passed));
}

/// Runs where a rule for gaps alone cuts wrongly.
fn tight(counts: &mut Counts, run: &[StreamId]) {
    let behind: Vec<u64> = run.iter().map(|stream_id| stream_id - run[0]).collect();
    match behind[..] {
        [0, 1, 24] => counts.count("Listeners 1, 2, 25"),
        [0, 21, 24] => counts.count("Listeners 1, 22, 25"),
        [0, 1, 21, 24] => counts.count("Listeners 1, 2, 22, 25"),
        [0, 21] => counts.count("Listeners 1, 22"),
        [0, 21, 44] => counts.count("Listeners 1, 22, 45"),
        [0, 23, 42, 44, 66] => counts.count("Listeners 1, 24, 43, 45, 67"),
        _ => {}
    }
}

fn macs(counts: &mut Counts, run: &[StreamId], cutting: &Cutting) {
    let begins = |part: &std::ops::Range<usize>| mac(run[part.start]);
    let again = cutting.windows(2).any(|two| begins(&two[0]) == begins(&two[1]));
    let several = mac(run[0]) != mac(run[run.len() - 1]);
    counts.count_if("Listeners of several MACs", several);
    counts.count_if("Listeners of one MAC in several vectors", again);
    let long = run.len() > SHORT_RUN;
    counts.count_if("many Listeners of one MAC in several vectors", again && long);
    let meet = |two: &[StreamId]| two[0] + 1 == two[1] && mac(two[0]) != mac(two[1]);
    counts.count_if("Listeners FFFF and 0000 of the next MAC", run.windows(2).any(meet));
}

fn packed_vector(counts: &mut Counts, bridge: &Bridge, port: usize, part: &[Listener]) {
    counts.count_if("vector of several Listeners", part.len() > 1);
    counts.count_if("vector of 64 Listeners", part.len() == MOST_STREAMS);
    let (first, last) = (part[0].0, part[part.len() - 1].0);
    let several = last > first;
    counts.count_if("vector of Listeners with more than 1000 values", last - first >= 1_000);
    counts.count_if("vector of Listeners up to FFFF", several && last & 0xffff == 0xffff);
    let says = |kind| part.iter().any(|(_, listener_type, _)| *listener_type == kind);
    let all = [ListenerType::AskingFailed, ListenerType::Ready, ListenerType::ReadyFailed];
    counts.count_if("vector of all kinds of Listeners", all.into_iter().all(says));
    for two in part.windows(2) {
        let ((before, ..), (behind, ..)) = (two[0], two[1]);
        let gap = behind - before - 1;
        counts.count_if("gap filled with Ignore", gap > 0);
        if (19..=22).contains(&gap) {
            counts.count(&format!("gap of {gap} filled with Ignore"));
        }
        let held = bridge.registrations.streams.range(before + 1..behind).next().is_some();
        counts.count_if("Ignore for a stream that is held", held);
        let is_talker = |declaration: &Declaration| match declaration {
            Declaration::Talker(talker) => (before + 1..behind).contains(&talker.stream_id),
            Declaration::Listener(..) | Declaration::Domain(_) => false,
        };
        let declared = bridge.declarations(port).iter().any(is_talker);
        counts.count_if("Ignore for a stream declared as Talker", held && declared);
    }
}

/// What the last Listener of a PDU does to the cutting of those before it.
fn last_listener(counts: &mut Counts, run: &[StreamId], cutting: &Cutting) {
    let before = &run[..run.len() - 1];
    let shorter = packing::best(before);
    let octets = |run: &[StreamId], cutting: &Cutting| packing::weight(run, cutting).0;
    let no_more = octets(before, &shorter) == octets(run, cutting);
    counts.count_if("Listener that takes no octet more", no_more);
    let cuts = |cutting: &Cutting| {
        cutting.iter().map(|part| part.start).filter(|start| *start + 1 < run.len()).count()
    };
    let anew = cuts(&shorter) != cuts(cutting);
    counts.count_if("Listeners cut anew for the last one", anew);
}

/// A write that ends, or begins, between Listeners.
fn ended_between(counts: &mut Counts, list: &[Declaration], place: usize, written: &Written) {
    let is_listener = |one: &Declaration| matches!(one, Declaration::Listener(..));
    let at = |at: usize| list.get(at).map_or(false, is_listener);
    counts
        .count_if("write from a place between Listeners", place > 0 && at(place - 1) && at(place));
    let last = written.said.last().map_or(false, |said| is_listener(&said.declaration));
    let one_more = match written.no_room {
        Some(said) if last && is_listener(&said.declaration) => said,
        _ => return,
    };
    counts.count("write that ends between Listeners");
    let full = written.pdu.len() == LONGEST_PDU;
    counts.count_if("write of exactly 1500 octets that ends between Listeners", full);
    let said = [&written.said[..], &[one_more]].concat();
    let more = declarations::pdu(&said, written.leave_all).len();
    counts.count_if("one more Listener would make 1501 octets", more == LONGEST_PDU + 1);
}
