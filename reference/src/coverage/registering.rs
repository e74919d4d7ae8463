//! What is counted of registrations.

use super::counts::Counts;
use super::domains::{domains_of, is_held};
use crate::bridge::Bridge;
use crate::mrp::Event;
use crate::pdu::{AttributeType, Pdu, Value};
use crate::registrations::MOST_STREAMS;

/// Rows of the table.
pub const ROWS: &[&str] = &[
    "tables with exactly 64 streams after a receive",
    "tables with 60 to 63 streams after a receive",
    "tables with exactly 64 streams after an advance",
    "tables with 60 to 63 streams after an advance",
    "number 8 with 64 streams held",
    "number 8 with fewer held",
    "number 8 with a Domain join in the PDU",
    "changed mark set",
    "changed mark cleared",
    "leaving begun by Lv or LeaveAll",
    "leaving begun again, the first time stays",
    "leaving ended by a join",
    "talker type replaced",
    "listener type replaced",
    "registration removed exactly at the leave time",
    "registration removed later",
    "registration kept though leaving",
    "stream dropped",
];

/// A PDU that joins streams.
pub fn more_held(counts: &mut Counts, before: usize, after: usize) {
    if after > before {
        let (full, nearly) = (after == MOST_STREAMS, (60..=63).contains(&after));
        counts.count_if("tables with exactly 64 streams after a receive", full);
        counts.count_if("tables with 60 to 63 streams after a receive", nearly);
    }
}

/// A PDU that is refused for its streams.
pub fn streams_past(counts: &mut Counts, pdu: &Pdu, held_before: usize) {
    counts.count_if("number 8 with 64 streams held", held_before == MOST_STREAMS);
    counts.count_if("number 8 with fewer held", held_before < MOST_STREAMS);
    let joins = domains_of(pdu).any(|(event, domain)| event.is_join() && is_held(domain));
    counts.count_if("number 8 with a Domain join in the PDU", joins);
}

/// What an accepted PDU did to the registrations.
pub fn registrations(counts: &mut Counts, before: &Bridge, after: &Bridge) {
    for (stream_id, ports_before) in &before.registrations.streams {
        let ports_after = &after.registrations.streams[stream_id];
        for (was, is) in ports_before.iter().zip(ports_after) {
            let mut leaving = Vec::new();
            if let (Some(was), Some(is)) = (&was.talker, &is.talker) {
                counts.count_if("changed mark set", !was.changed && is.changed);
                counts.count_if("changed mark cleared", was.changed && !is.changed);
                let replaced = was.attribute_type() != is.attribute_type();
                counts.count_if("talker type replaced", replaced);
                leaving.push((was.leaving, is.leaving));
            }
            if let (Some(was), Some(is)) = (&was.listener, &is.listener) {
                let replaced = was.listener_type != is.listener_type;
                counts.count_if("listener type replaced", replaced);
                leaving.push((was.leaving, is.leaving));
            }
            for (was, is) in leaving {
                let begun = was.is_none() && is.is_some();
                counts.count_if("leaving begun by Lv or LeaveAll", begun);
                counts.count_if("leaving ended by a join", was.is_some() && is.is_none());
            }
        }
    }
}

/// Lv and LeaveAll of what began leaving at an earlier clock.
pub fn left_again(counts: &mut Counts, before: &Bridge, port: usize, pdu: &Pdu) {
    for vector in pdu.vectors() {
        for (stream_id, ports) in &before.registrations.streams {
            let on_port = &ports[port - 1];
            let leaving = match vector.attribute_type {
                AttributeType::Listener => on_port.listener.as_ref().map(|held| held.leaving),
                attribute_type => on_port
                    .talker
                    .as_ref()
                    .filter(|held| held.attribute_type() == attribute_type)
                    .map(|held| held.leaving),
            };
            let earlier = leaving.flatten().map_or(false, |begun| begun < before.clock);
            let left = vector.leave_all
                || vector.values.iter().any(|(event, value)| {
                    let left_stream = match value {
                        Value::Talker(talker) => Some(talker.stream_id),
                        Value::Listener(stream_id, Some(_)) => Some(*stream_id),
                        Value::Listener(_, None) | Value::Domain(_) => None,
                    };
                    *event == Event::Lv && left_stream == Some(*stream_id)
                });
            counts.count_if("leaving begun again, the first time stays", earlier && left);
        }
    }
}

/// What an advance removed.
pub fn removed(counts: &mut Counts, time: u32, before: &Bridge, after: &Bridge) {
    let leave_time = before.settings.leave_time;
    for (stream_id, ports) in &before.registrations.streams {
        let talkers = ports.iter().filter_map(|on_port| on_port.talker.as_ref()?.leaving);
        let listeners = ports.iter().filter_map(|on_port| on_port.listener.as_ref()?.leaving);
        for begun in talkers.chain(listeners) {
            let gone_for = time - begun;
            let exactly = gone_for == leave_time;
            counts.count_if("registration removed exactly at the leave time", exactly);
            counts.count_if("registration removed later", gone_for > leave_time);
            counts.count_if("registration kept though leaving", gone_for < leave_time);
        }
        let dropped = !after.registrations.streams.contains_key(stream_id);
        counts.count_if("stream dropped", dropped);
    }
    let held = after.registrations.streams.len();
    counts.count_if("tables with exactly 64 streams after an advance", held == MOST_STREAMS);
    counts.count_if("tables with 60 to 63 streams after an advance", (60..=63).contains(&held));
}
