//! What is counted of class B's borrowing.

use super::counts::Counts;
use super::held::talker_of;
use crate::bridge::Bridge;
use crate::settings::{Class, PortSettings};
use crate::settled::{Column, Entry};
use crate::settling::{self, Compared, Decision, Step};

/// Rows of the table.
pub const ROWS: &[&str] = &[
    "class A refused where it would fit in both limits",
    "class B admitted by borrowing alone",
    "class B borrows exactly what is left",
    "class B one above what class A leaves",
    "class B borrows with the higher priority",
    "class B refused for what class A reserves",
    "class B of rank 0 gives way to class A of rank 1",
    "class B refused where limit A counts 0",
    "class B admitted where limit A counts 0",
    "class B thrown out where class A grows",
    "class B back where class A shrinks",
    "class B total above its limit",
    "class B total above a limit of 0",
    "both totals equal to the sum of limits",
    "limit in force of 2^40 or above",
    "class B total of 2^40 or above",
];

/// What class A hasn't reserved of its limit on a port.
fn idle(port: &PortSettings, total_a: u64) -> u64 {
    settling::limit_in_force(port, Class::B, total_a).0 - port.limit.b
}

/// A stream that was compared with what is left of the limit in force.
pub fn borrowed(
    counts: &mut Counts,
    (before, after): (&Bridge, &Bridge),
    stream_id: u64,
    port: usize,
    decision: &Decision,
) {
    let (demand, left) = match decision.compared {
        Some(Compared { demand, left }) => (demand.0, left.0),
        None => return,
    };
    let port_settings = &after.settings.ports[port - 1];
    let total_a = after.settled.totals[port - 1].a;
    let admitted = decision.step == Step::I;
    let class = after.settings.class_of(talker_of(after, stream_id).priority);
    if class == Some(Class::A) {
        let would_fit = !admitted && demand <= left + port_settings.limit.b;
        counts.count_if("class A refused where it would fit in both limits", would_fit);
        return;
    }
    // Without borrowing there would be so much less.
    let borrows = demand > left.saturating_sub(idle(port_settings, total_a));
    counts.count_if("class B admitted by borrowing alone", admitted && borrows);
    counts.count_if("class B borrows exactly what is left", admitted && borrows && demand == left);
    let one_above = demand == left + 1 && total_a > 0;
    counts.count_if("class B one above what class A leaves", one_above);
    let higher = after.settings.priority.b > after.settings.priority.a;
    counts.count_if("class B borrows with the higher priority", admitted && borrows && higher);
    let would_fit = !admitted && demand <= left + total_a;
    counts.count_if("class B refused for what class A reserves", would_fit);
    let rank = talker_of(after, stream_id).rank;
    let gives_way = would_fit && rank == 0 && only_rank_1_of_a(after, port);
    counts.count_if("class B of rank 0 gives way to class A of rank 1", gives_way);
    if !port_settings.supports.a && port_settings.limit.a > 0 {
        let would_fit = !admitted && demand <= left + port_settings.limit.a;
        counts.count_if("class B refused where limit A counts 0", would_fit);
        counts.count_if("class B admitted where limit A counts 0", admitted);
    }
    thrown_out(counts, (before, after), stream_id, port, (demand, left));
}

/// Whether all that class A reserves on a port is of rank 1.
fn only_rank_1_of_a(bridge: &Bridge, port: usize) -> bool {
    bridge.settled.streams.values().all(|settled| {
        let forwards = settled.ports[port - 1].entry == Entry::Forward;
        let is_a = settled.parameters.priority == bridge.settings.priority.a;
        !(forwards && is_a) || settled.parameters.rank == 1
    })
}

/// A stream of class B that was admitted before class A grew, and comes back when it shrinks.
fn thrown_out(
    counts: &mut Counts,
    (before, after): (&Bridge, &Bridge),
    stream_id: u64,
    port: usize,
    (demand, left): (u64, u64),
) {
    let was = match before.settled.streams.get(&stream_id) {
        Some(settled) => settled.ports[port - 1].column,
        None => return,
    };
    let total_a = |bridge: &Bridge| bridge.settled.totals[port - 1].a;
    let (grown, shrunk) = (
        total_a(after).saturating_sub(total_a(before)),
        total_a(before).saturating_sub(total_a(after)),
    );
    let out = was == Column::Advertise && demand > left && demand <= left + grown;
    counts.count_if("class B thrown out where class A grows", out);
    let fits_now = demand <= left && demand + shrunk > left;
    let back = matches!(was, Column::Failed(failure) if failure.code == 1) && fits_now;
    counts.count_if("class B back where class A shrinks", back);
}

/// What both classes have reserved on the ports.
pub fn both_totals(counts: &mut Counts, bridge: &Bridge) {
    for (port, total) in bridge.settings.ports.iter().zip(&bridge.settled.totals) {
        let above = total.b > port.limit.b;
        counts.count_if("class B total above its limit", above);
        counts.count_if("class B total above a limit of 0", above && port.limit.b == 0);
        let in_force = settling::limit_in_force(port, Class::B, total.a).0;
        let both = total.a > 0 && total.b > port.limit.b && total.b == in_force;
        counts.count_if("both totals equal to the sum of limits", both);
        let supported = port.supports.b;
        counts.count_if("limit in force of 2^40 or above", supported && in_force >= 1 << 40);
        counts.count_if("class B total of 2^40 or above", total.b >= 1 << 40);
    }
}
