//! What is counted of an advance.

use super::counts::Counts;
use super::held::{decisions, registered_at, talker_of, talker_port};
use super::{addresses, borrowing, domains, fan_in, latencies};
use crate::bridge::Bridge;
use crate::settings::Settings;
use crate::settled::{Column, Entry};
use crate::settling::{Decision, Step};
use crate::words;

/// Rows of the table: columns, Listeners and entries.
pub const COLUMNS: &[&str] = &[
    "column step a",
    "column step b",
    "column step c",
    "column step d",
    "column step k",
    "column step e",
    "column step f",
    "column step j",
    "column step l",
    "column step m",
    "column step g",
    "column step h",
    "column step i",
    "own failure 1",
    "own failure 4",
    "own failure 5",
    "own failure 7",
    "own failure 8",
    "own failure 13",
    "own failure 14",
    "own failure 15",
    "own failure 16",
    "registered failure, code 0",
    "registered failure, code 1 to 254",
    "registered failure, code 255",
    "column none",
    "column advertise",
    "column failed",
    "listener registered asking",
    "listener registered ready",
    "listener registered readyfailed",
    "listener declared none",
    "listener declared asking",
    "listener declared ready",
    "listener declared readyfailed",
    "entry none",
    "entry filter",
    "entry forward",
];

/// Rows of the table: latencies, demands and totals.
pub const ADVANCES: &[&str] = &[
    "advance to the same time",
    "advance to 2^32 - 2 or above",
    "latency summed below 2^32 - 1",
    "latency capped at 2^32 - 1",
    "demand exactly what is left",
    "demand one above what is left",
    "demand 0",
    "admitted without a Ready listener",
    "stream admitted behind one that got 1",
    "rank 0 admitted where rank 1 got 1",
    "older stream admitted before a lower StreamID",
    "class A reserved",
    "class B reserved",
    "class total equal to its limit",
    "reserved on a port that sends twice",
];

/// Rows of the table: Talker ports.
pub const TALKERS: &[&str] = &["Talker port moved", "second Talker on a port above"];

/// What an advance did to the bridge.
pub fn advanced(counts: &mut Counts, time: u32, before: &Bridge, after: &Bridge) {
    counts.count_if("advance to the same time", time == before.clock);
    counts.count_if("advance to 2^32 - 2 or above", time >= u32::MAX - 1);
    for stream_id in before.registrations.streams.keys() {
        let (was, is) = (talker_port(before, *stream_id), talker_port(after, *stream_id));
        let moved = was.is_some() && is.is_some() && was != is;
        counts.count_if("Talker port moved", moved);
    }
    for ((stream_id, port), decision) in decisions(after) {
        column(counts, after, stream_id, port, &decision);
        latency(counts, after, stream_id, port);
        domains::at_the_edge(counts, after, stream_id, port, decision.step);
        borrowing::borrowed(counts, (before, after), stream_id, port, &decision);
        latencies::grown(counts, after, stream_id, port, decision.step);
        fan_in::in_common(counts, (before, after), stream_id, port, decision.step);
        addresses::pruned(counts, (before, after), stream_id, port, decision.step);
    }
    totals(counts, after);
    importance(counts, after);
    borrowing::both_totals(counts, after);
    domains::boundaries(counts, before, after);
    fan_in::inbound(counts, after);
    addresses::pruned_and_counted(counts, after);
}

/// What was decided of a stream on a port.
fn column(counts: &mut Counts, bridge: &Bridge, stream_id: u64, port: usize, decision: &Decision) {
    let settled_on_port = &bridge.settled.streams[&stream_id].ports[port - 1];
    counts.count(&format!("column step {}", words::step(decision.step)));
    counts.count(&format!("column {}", words::column(settled_on_port.column)));
    match (decision.step, settled_on_port.column) {
        (Step::C, Column::Failed(failure)) => counts.count(match failure.code {
            0 => "registered failure, code 0",
            255 => "registered failure, code 255",
            _ => "registered failure, code 1 to 254",
        }),
        (_, Column::Failed(failure)) => counts.count(&format!("own failure {}", failure.code)),
        (_, Column::None | Column::Advertise) => {}
    }
    counts.count(&format!("listener declared {}", words::listener(settled_on_port.listener)));
    counts.count(&format!("entry {}", words::entry(settled_on_port.entry)));
    let on_port = &bridge.registrations.streams[&stream_id][port - 1];
    if on_port.listener.is_some() {
        let listener = words::listener(on_port.listener_type());
        counts.count(&format!("listener registered {listener}"));
    }
    let below = talker_port(bridge, stream_id).map_or(false, |at| at + 1 < port);
    counts.count_if("second Talker on a port above", below && on_port.talker.is_some());
    if let Some(compared) = decision.compared {
        let (demand, left) = (compared.demand.0, compared.left.0);
        counts.count_if("demand exactly what is left", demand == left && demand > 0);
        counts.count_if("demand one above what is left", demand == left + 1);
        counts.count_if("demand 0", demand == 0);
        let idle = decision.step == Step::I && settled_on_port.entry != Entry::Forward;
        counts.count_if("admitted without a Ready listener", idle);
    }
}

/// What each port has reserved.
fn totals(counts: &mut Counts, bridge: &Bridge) {
    for (port, total) in bridge.settings.ports.iter().zip(&bridge.settled.totals) {
        counts.count_if("class A reserved", total.a > 0);
        counts.count_if("class B reserved", total.b > 0);
        let reserved = total.a > 0 || total.b > 0;
        counts.count_if("reserved on a port that sends twice", port.sends_twice && reserved);
        counts.count_if("class total equal to its limit", {
            total.a > 0 && total.a == port.limit.a || total.b > 0 && total.b == port.limit.b
        });
    }
}

/// What the latency that a stream is declared with was made of.
fn latency(counts: &mut Counts, bridge: &Bridge, stream_id: u64, port: usize) {
    let settled = &bridge.settled.streams[&stream_id];
    if settled.ports[port - 1].column == Column::None {
        return;
    }
    let Settings { ports, .. } = &bridge.settings;
    let class = match bridge.settings.class_of(settled.parameters.priority) {
        Some(class) => class,
        None => return,
    };
    let registered = registered_at(bridge, stream_id).expect("a Talker is declared");
    let latency_in = registered.accumulated_latency;
    let added = ports[port - 1].latency.of(class);
    let capped = latency_in.checked_add(added).is_none();
    counts.count_if("latency capped at 2^32 - 1", capped);
    counts.count_if("latency summed below 2^32 - 1", !capped && added > 0 && latency_in > 0);
}

/// Pairs of streams that met at step h on a port, in one class.
fn importance(counts: &mut Counts, bridge: &Bridge) {
    let decisions = decisions(bridge);
    let priority_and_rank = |stream_id: u64| {
        let parameters = talker_of(bridge, stream_id);
        (parameters.priority, parameters.rank)
    };
    for ((admitted, port), decision) in &decisions {
        if decision.step != Step::I {
            continue;
        }
        for ((failed, other_port), other) in &decisions {
            if other.step != Step::H || port != other_port {
                continue;
            }
            let ((class, rank), (other_class, other_rank)) =
                (priority_and_rank(*admitted), priority_and_rank(*failed));
            if class != other_class {
                continue;
            }
            let since = |stream_id: &u64| {
                bridge.settled.streams[stream_id].ports[port - 1].entry_since.expect("an entry")
            };
            let importance = (rank, since(admitted), *admitted);
            let other_importance = (other_rank, since(failed), *failed);
            counts.count_if("stream admitted behind one that got 1", importance > other_importance);
            counts.count_if("rank 0 admitted where rank 1 got 1", rank < other_rank);
            counts.count_if(
                "older stream admitted before a lower StreamID",
                rank == other_rank && since(admitted) < since(failed) && admitted > failed,
            );
        }
    }
}
