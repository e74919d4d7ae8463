//! Places of a table, a table to try the form rules on, and trying them.

use crate::helpers::*;
use reference::lent::Table;
use reference::settings;
use reference::table::layout::{cell, domain, edge, record, result, send, sender};
use reference::table::layout::{EDGES, RECORDS, RECORD_LENGTH, SENDERS};
use reference::table::rules::broken_rules;

pub fn record(place: usize) -> usize {
    RECORDS + RECORD_LENGTH * place
}

pub fn cell(place: usize, port: usize) -> usize {
    record(place) + record::CELLS.start + cell::LENGTH * (port - 1)
}

pub fn result(place: usize, port: usize) -> usize {
    record(place) + record::RESULTS.start + result::LENGTH * (port - 1)
}

/// What a port sends of a stream.
pub fn send(place: usize, port: usize) -> usize {
    record(place) + record::SENDS.start + send::LENGTH * (port - 1)
}

/// What a port sends by itself.
pub fn sender(port: usize) -> usize {
    SENDERS + sender::LENGTH * (port - 1)
}

/// What a port has of the domain.
pub fn edge(port: usize) -> usize {
    EDGES + edge::LENGTH * (port - 1)
}

/// The Domain record of a port for a class ID and priority.
pub fn domain(port: usize, class_id: usize, priority: usize) -> usize {
    edge(port) + domain::LENGTH * (8 * (class_id - 5) + priority)
}

/// Two ports, whose neighbours are in the bridge's domain, and three streams, settled at that clock:
/// one with a Talker Advertise on port 1 and a Ready Listener on port 2, one with a Talker Failed on
/// port 1, one with a Ready Listener on port 2 alone.
pub fn three_streams(clock: u32) -> Table {
    let mut table = in_domain(&settings(2));
    join_talker(&mut table, 1, &talker(STREAM));
    join_listener(&mut table, 2, STREAM, READY);
    join_talker(&mut table, 1, &failed(STREAM + 1, 9));
    join_listener(&mut table, 2, STREAM + 2, READY);
    advance(&mut table, clock);
    table
}

/// The table with these octets stored.
fn with_octets(table: &Table, octets: &[(usize, u8)]) -> Table {
    assert_eq!(broken_rules(table.lent()), []);
    let mut table = table.clone();
    for (place, octet) in octets {
        table.store(*place, *octet);
    }
    table
}

/// Stores one octet so that just this rule breaks.
pub fn breaks(table: &Table, rule: u8, place: usize, octet: u8) {
    breaks_by(table, rule, &[(place, octet)]);
}

/// Stores octets so that just this rule breaks: every call but start is refused with 12 and changes
/// no octet, and start doesn't look.
pub fn breaks_by(table: &Table, rule: u8, octets: &[(usize, u8)]) {
    let mut table = with_octets(table, octets);
    assert_eq!(broken_rules(table.lent()), [rule], "{octets:?}");
    let before = table.clone();
    assert_eq!(table.receive(1, &[0]), 12);
    assert_eq!(table.receive(99, &[]), 12);
    assert_eq!(table.receive_mmrp(1, &[0]), 12);
    assert_eq!(table.receive_mmrp(99, &[]), 12);
    assert_eq!(table.advance(u32::MAX), 12);
    assert_eq!(table.write(1, 0, &mut [0; 1500]).number, 12);
    assert_eq!(table.report(1, 0).number, 12);
    assert_eq!(table, before);
    assert_eq!(table.start(&[]), 11);
    assert_eq!(table, before);
    assert_eq!(table.start(&settings::write(&settings(2))), 0);
    assert_eq!(table, started(&settings(2)));
}

/// Stores one octet that keeps all rules.
pub fn keeps(table: &Table, place: usize, octet: u8) {
    keeps_by(table, &[(place, octet)]);
}

/// Stores octets that keep all rules.
pub fn keeps_by(table: &Table, octets: &[(usize, u8)]) {
    let table = with_octets(table, octets);
    assert_eq!(broken_rules(table.lent()), [], "{octets:?}");
    assert_eq!(table.report(1, 0).number, 0);
}
