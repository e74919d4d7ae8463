//! What is counted of settings.

use super::counts::Counts;
use crate::numbers::{self, Number};
use crate::octets::number_of;
use crate::settings::{self, GREATEST_FAN_IN, MOST_PORTS};
use crate::table::layout::FAN_IN_LIMIT;

/// Rows of the table.
pub const ROWS: &[&str] = &[
    "settings refused: length",
    "settings refused: length 11 + 22 x ports",
    "settings refused: length 13 + 22 x ports",
    "settings refused: no ports",
    "settings refused: ports above 8",
    "settings refused: equal priorities",
    "settings refused: leave time 0",
    "settings refused: zero bits set",
    "settings refused: bits above the VLAN set",
    "settings refused: VLAN 0",
    "settings refused: VLAN 4095",
    "settings refused: limit of inbound ports above 8",
    "limit of inbound ports 0",
    "limit of inbound ports 1",
    "limit of inbound ports 2",
    "limit of inbound ports 3",
    "limit of inbound ports 4",
    "limit of inbound ports 5",
    "limit of inbound ports 6",
    "limit of inbound ports 7",
    "limit of inbound ports 8",
    "limit of inbound ports above the number of ports",
    "start again on a running bridge",
];

/// A start, of a bridge that is running or not.
pub fn started(counts: &mut Counts, octets: &[u8], number: Number, running: bool) {
    let accepted = number == numbers::ACCEPTED;
    counts.count_if("start again on a running bridge", accepted && running);
    match settings::read(octets) {
        Some(settings) if accepted => {
            let limit = settings.fan_in_limit;
            counts.count(&format!("limit of inbound ports {limit}"));
            let above = usize::from(limit) > settings.ports.len();
            counts.count_if("limit of inbound ports above the number of ports", above);
            counts.count(if settings.pruning { "pruning on" } else { "pruning off" });
        }
        None if number == numbers::SETTINGS => refused(counts, octets),
        _ => {}
    }
}

/// Settings that are refused.
fn refused(counts: &mut Counts, octets: &[u8]) {
    let has = |less, ports| octets.len() + less == settings::length(ports);
    match settings::ports_field(octets) {
        Some(0) => counts.count("settings refused: no ports"),
        Some(ports) if ports > MOST_PORTS => counts.count("settings refused: ports above 8"),
        Some(ports) if has(0, ports) => refused_for_a_field(counts, octets, ports),
        Some(ports) if has(3, ports) => counts.count("settings refused: length 11 + 22 x ports"),
        Some(ports) if has(1, ports) => counts.count("settings refused: length 13 + 22 x ports"),
        _ => counts.count("settings refused: length"),
    }
}

/// Settings of the right length that are refused.
fn refused_for_a_field(counts: &mut Counts, octets: &[u8], ports: usize) {
    let leave_time = number_of(&octets[9..11]) & 0x3fff;
    let priority_a = octets[8] >> 1 & 7;
    let priority_b = (octets[8] & 1) << 2 | octets[9] >> 6;
    let zeros = (0..ports).any(|port| octets[settings::length(port)] & 0x1f != 0);
    let pruning = octets[11] & 0x80 != 0;
    let vlan = number_of(&octets[11..13]) & 0x7fff;
    counts.count_if("settings refused with pruning on", pruning);
    counts.count_if("settings refused: equal priorities", priority_a == priority_b);
    counts.count_if("settings refused: leave time 0", leave_time == 0);
    counts.count_if("settings refused: zero bits set", zeros);
    counts.count_if("settings refused: bits above the VLAN set", vlan >> 12 != 0);
    counts.count_if("settings refused: VLAN 0", vlan == 0);
    counts.count_if("settings refused: VLAN 4095", vlan == 4_095);
    let inbound = octets[FAN_IN_LIMIT] > GREATEST_FAN_IN;
    counts.count_if("settings refused: limit of inbound ports above 8", inbound);
}
