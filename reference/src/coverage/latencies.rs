//! What is counted of latencies that grow.

use std::collections::{BTreeMap, BTreeSet};

use super::counts::Counts;
use super::held::{registered_at, talker_port};
use crate::bridge::Bridge;
use crate::pdu::{ListenerType, Pdu, Value};
use crate::registrations::TalkerRegistration;
use crate::settling::Step;

/// Rows of the table.
pub const ROWS: &[&str] = &[
    "latency grown",
    "latency grown by a join while leaving",
    "latency grown with another type",
    "latency grown and fallen back before an advance",
    "latency fallen back to the first",
    "latency fallen below the first",
    "latency fallen, and still above the first",
    "latency from below back to the first",
    "changed join with a larger latency",
    "registration made and grown in one PDU",
    "registration made anew with a larger latency",
    "Talker port moved to a larger first latency",
    "Talker port moved to a latency that has grown",
    "registered failure with a larger latency",
    "code 16 before 7",
    "code 7 for a latency one above the first",
    "code 7 before 4",
    "code 7 before 13",
    "code 7 before 8",
    "code 7 with a Ready listener",
    "code 7 with latency out capped",
    "code 7 with the present latency out",
    "code 4 where the second Talker's latency has grown",
];

/// What has happened to latencies, by stream and port.
#[derive(Default)]
pub struct Latencies {
    /// Those that were larger than the first at some time since the last advance.
    grown: BTreeSet<(u64, usize)>,
    /// The first latency of registrations that are gone.
    gone: BTreeMap<(u64, usize), u32>,
}

/// What a port, port 1 first, has registered as Talker of a stream.
fn talker_on(bridge: &Bridge, stream_id: u64, port: usize) -> Option<&TalkerRegistration> {
    bridge.registrations.streams.get(&stream_id)?[port - 1].talker.as_ref()
}

impl Latencies {
    /// What an accepted PDU did to the latencies of its port.
    pub fn received(
        &mut self,
        counts: &mut Counts,
        (before, after): (&Bridge, &Bridge),
        port: usize,
        pdu: &Pdu,
    ) {
        for stream_id in after.registrations.streams.keys() {
            let is = match talker_on(after, *stream_id, port) {
                Some(is) => is,
                None => continue,
            };
            if is.has_grown() {
                self.grown.insert((*stream_id, port));
            }
            match talker_on(before, *stream_id, port) {
                Some(was) => latency_kept(counts, was, is),
                None => {
                    counts.count_if("registration made and grown in one PDU", is.has_grown());
                    let gone = self.gone.remove(&(*stream_id, port));
                    let larger = gone.map_or(false, |first| is.accumulated_latency > first);
                    let anew = larger && !is.has_grown();
                    counts.count_if("registration made anew with a larger latency", anew);
                }
            }
        }
        changed_joins(counts, before, port, pdu);
    }

    /// What an advance finds of latencies, and which registrations it removes.
    pub fn settled(&mut self, counts: &mut Counts, before: &Bridge, after: &Bridge) {
        for (stream_id, port) in std::mem::take(&mut self.grown) {
            let is_t = talker_port(after, stream_id) == Some(port - 1);
            let back = talker_on(after, stream_id, port).map_or(false, |is| !is.has_grown());
            counts.count_if("latency grown and fallen back before an advance", is_t && back);
        }
        for stream_id in before.registrations.streams.keys() {
            for port in 1..=before.settings.ports.len() {
                let is_gone = talker_on(after, *stream_id, port).is_none();
                if let (Some(was), true) = (talker_on(before, *stream_id, port), is_gone) {
                    self.gone.insert((*stream_id, port), was.first_latency);
                }
            }
            if let (Some(from), Some(to)) =
                (registered_at(before, *stream_id), registered_at(after, *stream_id))
            {
                let larger = to.accumulated_latency > from.accumulated_latency;
                let moved = talker_port(before, *stream_id) != talker_port(after, *stream_id);
                let own = moved && larger && !to.has_grown();
                counts.count_if("Talker port moved to a larger first latency", own);
                let grown = moved && to.has_grown();
                counts.count_if("Talker port moved to a latency that has grown", grown);
            }
        }
    }
}

/// Joins that change a registration, with a larger latency.
fn changed_joins(counts: &mut Counts, before: &Bridge, port: usize, pdu: &Pdu) {
    for (event, value) in pdu.vectors().flat_map(|vector| &vector.values) {
        if let (Value::Talker(joined), true) = (value, event.is_join()) {
            let other = talker_on(before, joined.stream_id, port).map_or(false, |held| {
                held.parameters != joined.parameters
                    && held.accumulated_latency < joined.accumulated_latency
            });
            counts.count_if("changed join with a larger latency", other);
        }
    }
}

fn latency_kept(counts: &mut Counts, was: &TalkerRegistration, is: &TalkerRegistration) {
    let grew = !was.has_grown() && is.has_grown();
    counts.count_if("latency grown", grew);
    let joined = was.leaving.is_some() && is.leaving.is_none();
    counts.count_if("latency grown by a join while leaving", grew && joined);
    let other_type = was.attribute_type() != is.attribute_type();
    counts.count_if("latency grown with another type", grew && other_type);
    let back = was.has_grown() && !is.has_grown();
    let (present, first) = (is.accumulated_latency, is.first_latency);
    counts.count_if("latency fallen back to the first", back && present == first);
    counts.count_if("latency fallen below the first", back && present < first);
    let between = present < was.accumulated_latency && is.has_grown();
    counts.count_if("latency fallen, and still above the first", between);
    let from_below = was.accumulated_latency < first && present == first;
    counts.count_if("latency from below back to the first", from_below);
}

/// A column of a stream whose latency has grown.
pub fn grown(counts: &mut Counts, bridge: &Bridge, stream_id: u64, port: usize, step: Step) {
    let on_port = &bridge.registrations.streams[&stream_id][port - 1];
    let second = on_port.talker.as_ref().map_or(false, TalkerRegistration::has_grown);
    counts.count_if("code 4 where the second Talker's latency has grown", {
        step == Step::E && second
    });
    let talker = match registered_at(bridge, stream_id) {
        Some(talker) if talker.has_grown() => talker,
        _ => return,
    };
    counts.count_if("registered failure with a larger latency", step == Step::C);
    counts.count_if("code 16 before 7", step == Step::D);
    if step != Step::K {
        return;
    }
    let by_one = talker.accumulated_latency - talker.first_latency == 1;
    counts.count_if("code 7 for a latency one above the first", by_one);
    counts.count_if("code 7 before 4", on_port.talker.is_some());
    let class = bridge.settings.class_of(talker.parameters.priority);
    counts.count_if("code 7 before 13", class.is_none());
    let edge = |class| bridge.settled.boundaries[port - 1].of(class);
    counts.count_if("code 7 before 8", class.map_or(false, edge));
    let listener = on_port.listener.as_ref().map(|listener| listener.listener_type);
    let ready = matches!(listener, Some(ListenerType::Ready | ListenerType::ReadyFailed));
    counts.count_if("code 7 with a Ready listener", ready);
    let latency_out = bridge.settled.streams[&stream_id].ports[port - 1].latency_out;
    let added = class.map_or(0, |class| bridge.settings.ports[port - 1].latency.of(class));
    let capped = talker.accumulated_latency.checked_add(added).is_none();
    counts.count_if("code 7 with latency out capped", capped);
    counts.count_if("code 7 with the present latency out", !capped && latency_out > added);
}
