//! The lent table (docs/TABLE.md): form rules of requests, on settings and on what a port holds by itself.

use crate::helpers::*;
use crate::table_places::*;
use reference::lent::Table;
use reference::table::layout::SENDERS;
use reference::table::layout::{address, domain, edge};
use reference::table::rules::broken_rules;

#[test]
fn rule_30_the_vlan_setting() {
    let table = three_streams(250);
    assert_eq!(table.lent()[11..13], [0, 2]);
    breaks(&table, 30, 12, 0);
    for bit in 4..7 {
        breaks(&table, 30, 11, 1 << bit);
        breaks(&table, 30, 11, 0x80 | 1 << bit);
    }
    // The top bit is pruning.
    keeps(&table, 11, 0x80);
    let mut last = table.clone();
    last.store(11, 0x0f);
    breaks(&last, 30, 12, 0xff);
    keeps(&last, 12, 0xfe);
    keeps(&table, 12, 1);
}

#[test]
fn rule_31_registered() {
    let table = three_streams(250);
    for place in [domain(1, 5, 2), domain(2, 6, 3), domain(1, 5, 0), domain(2, 6, 7)] {
        breaks(&table, 31, place + domain::REGISTERED, 2);
        breaks(&table, 31, place + domain::REGISTERED, 255);
    }
    keeps(&table, domain(1, 5, 0) + domain::REGISTERED, 1);
    keeps(&table, domain(2, 6, 7) + domain::REGISTERED, 1);
}

#[test]
fn rule_32_a_leaving_domain() {
    let table = three_streams(250);
    let (flag, since) = (domain::LEAVING, domain::SINCE.end - 1);
    let place = domain(2, 6, 3);
    breaks(&table, 32, place + flag, 2);
    breaks(&table, 32, place + flag, 1); // from 0, long before
    breaks(&table, 32, place + since, 250); // not leaving
    let mut leaving = table.clone();
    accept(&mut leaving, 2, &domain_frame(6, 3, &[LV]));
    keeps(&leaving, place + since, 191); // 59 before the clock
    breaks(&leaving, 32, place + since, 190);
    breaks(&leaving, 32, place + since, 251);
    breaks(&leaving, 32, place + flag, 0);
    keeps(&three_streams(59), place + flag, 1);
    breaks(&three_streams(60), 32, place + flag, 1);
}

#[test]
fn rule_33_fields_without_a_domain_registration() {
    let table = three_streams(59);
    for place in [domain(1, 5, 0), domain(1, 6, 2), domain(2, 6, 7)] {
        breaks(&table, 33, place + domain::LEAVING, 1);
        breaks(&table, 33, place + domain::VLAN.start, 1);
        breaks(&table, 33, place + domain::VLAN.end - 1, 1);
    }
    breaks(&table, 33, domain(1, 5, 2) + domain::REGISTERED, 0);
    keeps(&table, domain(1, 5, 2) + domain::VLAN.start, 0xff);
}

#[test]
fn rule_34_boundary_flags() {
    let table = three_streams(250);
    for flag in [edge(1) + 128, edge(1) + 129, edge(2) + 128, edge(2) + 129] {
        breaks(&table, 34, flag, 2);
        // Registrations may have changed since, so no rule ties the flags to them.
        keeps(&table, flag, 1);
    }
}

#[test]
fn rule_35_the_domain_of_no_port() {
    let table = three_streams(250);
    for place in [edge(3), edge(3) + 7, edge(3) + 128, edge(3) + 130, edge(8), SENDERS - 1] {
        breaks(&table, 35, place, 1);
    }
}

#[test]
fn rule_36_the_limit_of_inbound_ports() {
    let table = three_streams(250);
    for limit in [9, 16, 255] {
        breaks(&table, 36, 13, limit);
    }
    for limit in [1, 8] {
        keeps(&table, 13, limit);
    }
}

/// Two ports with these addresses on port 2, at that clock.
fn with_addresses(clock: u32, first: u64, count: usize) -> Table {
    let mut table = three_streams(clock);
    accept_mmrp(&mut table, 2, &mac_frame(first, &vec![JOIN_MT; count]));
    table
}

/// The record of an address of port 2.
fn address_record(place: usize) -> usize {
    edge(2) + edge::ADDRESSES.start + address::LENGTH * place
}

#[test]
fn rule_37_the_number_of_addresses() {
    let table = with_addresses(250, 0x91e0_f000_0000, 64);
    for number in [65, 66, 128, 255] {
        breaks(&table, 37, edge(2) + edge::COUNT, number);
    }
}

#[test]
fn rule_38_registered_addresses() {
    let table = with_addresses(250, 0x91e0_f000_0000, 3);
    for (place, octet) in [(0, 0), (1, 2), (2, 255)] {
        breaks(&table, 38, address_record(place) + address::REGISTERED, octet);
    }
    // One more than are there: it isn't registered, and it is address zero.
    let mut more = table;
    more.store(edge(2) + edge::COUNT, 4);
    assert_eq!(broken_rules(more.lent()), [38, 40]);
}

#[test]
fn rule_39_a_leaving_address() {
    let table = with_addresses(250, 0x91e0_f000_0000, 2);
    let (flag, since) = (address::LEAVING, address::SINCE.end - 1);
    let place = address_record(1);
    breaks(&table, 39, place + flag, 2);
    breaks(&table, 39, place + flag, 1); // from 0, long before
    breaks(&table, 39, place + since, 250); // not leaving
    let mut leaving = table.clone();
    accept_mmrp(&mut leaving, 2, &mac_frame(0x91e0_f000_0001, &[LV]));
    keeps(&leaving, place + since, 191); // 59 before the clock
    breaks(&leaving, 39, place + since, 190);
    breaks(&leaving, 39, place + since, 251);
    breaks(&leaving, 39, place + flag, 0);
    keeps(&with_addresses(59, 0, 2), place + flag, 1);
    breaks(&with_addresses(60, 0, 2), 39, place + flag, 1);
}

#[test]
fn rule_40_the_order_of_addresses() {
    let table = with_addresses(250, 0x91e0_f000_0000, 3);
    let last = address::ADDRESS.end - 1;
    breaks(&table, 40, address_record(1) + last, 0); // equal to the one before
    breaks(&table, 40, address_record(1) + last, 2); // equal to the one behind
    breaks(&table, 40, address_record(0) + address::ADDRESS.start, 0x92);
    keeps(&table, address_record(0) + address::ADDRESS.start, 0);
    keeps(&table, address_record(2) + address::ADDRESS.start, 0xff);
}

#[test]
fn rule_41_what_follows_the_addresses() {
    let table = with_addresses(250, 0, 2);
    for place in [address_record(2), address_record(2) + 11, address_record(63) + 11] {
        breaks(&table, 41, place, 1);
    }
    breaks(&table, 41, edge(2) + edge::COUNT, 1);
    breaks(&table, 41, edge(2) + edge::COUNT, 0);
    breaks(&table, 41, edge(1) + edge::ADDRESSES.start, 1);
}
