//! The lent table (docs/TABLE.md): its form rules.

use crate::helpers::*;
use crate::table_places::*;
use reference::lent::ROOM_LENGTH;
use reference::settings;
use reference::settings::PerClass;
use reference::table::layout::{cell, record, result, send, sender};
use reference::table::layout::{CLOCK, COUNT, TABLE_LENGTH, TOTALS};
use reference::table::rules::broken_rules;

#[test]
fn rule_1_the_length() {
    for length in [0, TABLE_LENGTH - 1, TABLE_LENGTH + 1, ROOM_LENGTH] {
        let mut table = three_streams(250);
        table.lend(length);
        assert_eq!(broken_rules(table.lent()), [1]);
        assert_eq!(table.report(1, 0).number, 12);
        assert_eq!(table.start(&settings::write(&settings(2))), 12);
    }
}

#[test]
fn rule_2_the_ports_field() {
    let table = three_streams(250);
    assert_eq!(table.lent()[8], 0x26);
    breaks(&table, 2, 8, 0x96);
    breaks(&table, 2, 8, 0xf6);
    keeps(&table, 8, 0x86);
    let mut no_ports = table.clone();
    no_ports.store(8, 0x06);
    assert_eq!(broken_rules(no_ports.lent())[0], 2);
}

#[test]
fn rule_3_the_class_priorities() {
    // No port declares a Domain value, so that no machine depends on the priorities.
    let mut settings = settings(2);
    for port in &mut settings.ports {
        port.supports = PerClass { a: false, b: false };
    }
    let table = started(&settings);
    assert_eq!(table.lent()[9], 0x80);
    breaks(&table, 3, 9, 0xc0);
    breaks(&table, 3, 8, 0x24);
    keeps(&table, 9, 0x40);
}

#[test]
fn rule_4_the_leave_time() {
    breaks(&three_streams(250), 4, 10, 0);
    keeps(&three_streams(250), 10, 1);
}

#[test]
fn rule_5_the_zero_bits() {
    for bit in 0..5 {
        breaks(&three_streams(250), 5, 14, 0xc0 | 1 << bit);
        breaks(&three_streams(250), 5, 36, 0xc0 | 1 << bit);
    }
    keeps(&three_streams(250), 14, 0xe0);
}

#[test]
fn rule_6_settings_of_no_port() {
    for place in [58, 59, 189] {
        breaks(&three_streams(250), 6, place, 1);
    }
}

#[test]
fn rule_7_totals() {
    let table = three_streams(250);
    breaks(&table, 7, TOTALS, 1); // limit A needs four octets
    breaks(&table, 7, TOTALS + 5, 1); // both limits too
    breaks(&table, 7, TOTALS + 22, 1); // no port
    breaks(&table, 7, TOTALS + 87, 1);
    // Limit A is 75,000,000, in octets 04 78 68 c0.
    let mut full = table.clone();
    for (place, octet) in [(1, 4), (2, 0x78), (3, 0x68)] {
        full.store(TOTALS + place, octet);
    }
    breaks(&full, 7, TOTALS + 4, 0xc1);
    keeps(&full, TOTALS + 4, 0xc0);
    // Limit B is 0: class B has what class A leaves.
    full.store(TOTALS + 4, 0xbf);
    keeps(&full, TOTALS + 10, 1);
    breaks(&full, 7, TOTALS + 10, 2);
}

#[test]
fn rule_7_both_totals_and_the_limits_of_supported_classes() {
    let mut settings = settings(2);
    settings.ports[0].limit = PerClass { a: 3, b: 4 };
    settings.ports[1].limit = PerClass { a: 3, b: 4 };
    settings.ports[1].supports.a = false;
    let mut table = started(&settings);
    join_listener(&mut table, 1, STREAM, READY);
    // Class A keeps to its limit, whatever class B leaves.
    keeps(&table, TOTALS + 4, 3);
    breaks(&table, 7, TOTALS + 4, 4);
    keeps(&table, TOTALS + 10, 7);
    breaks(&table, 7, TOTALS + 10, 8);
    table.store(TOTALS + 4, 2);
    keeps(&table, TOTALS + 10, 5);
    breaks(&table, 7, TOTALS + 10, 6);
    // On port 2 limit A doesn't count.
    keeps(&table, TOTALS + 21, 4);
    breaks(&table, 7, TOTALS + 21, 5);
}

#[test]
fn rule_8_the_count() {
    let mut table = started(&settings(2));
    for stream_id in STREAM..STREAM + 64 {
        join_listener(&mut table, 1, stream_id, READY);
    }
    breaks(&table, 8, COUNT, 65);
    breaks(&table, 8, COUNT, 255);
}

#[test]
fn rule_9_the_order_of_stream_ids() {
    let table = three_streams(250);
    breaks(&table, 9, record(1) + 7, 1); // equal to the one before
    breaks(&table, 9, record(1) + 7, 3); // equal to the one behind
    breaks(&table, 9, record(0), 3);
    keeps(&table, record(2), 3);
    keeps(&table, record(0), 0);
}

#[test]
fn rule_10_what_follows_the_used_records() {
    let table = three_streams(250);
    for place in [record(3), record(3) + 100, record(63), TABLE_LENGTH - 1] {
        breaks(&table, 10, place, 1);
    }
    let mut fewer = table.clone();
    fewer.store(COUNT, 2);
    assert_eq!(broken_rules(fewer.lent()), [10]);
}

#[test]
fn rule_11_the_settled_priority_octet() {
    let table = three_streams(250);
    for bit in 0..4 {
        breaks(&table, 11, record(0) + record::PRIORITY, 0x70 | 1 << bit);
    }
    keeps(&table, record(0) + record::PRIORITY, 0xf0);
}

#[test]
fn rule_12_a_registration_in_each_record() {
    let mut table = three_streams(250);
    join_listener(&mut table, 1, STREAM + 3, READY);
    breaks(&table, 12, cell(3, 1) + cell::LISTENER, 0);
    // The other registration of the stream is enough.
    join_talker(&mut table, 2, &talker(STREAM + 3));
    keeps(&table, cell(3, 1) + cell::LISTENER, 0);
}

#[test]
fn rule_13_cells_and_results_of_no_port() {
    for place in [cell(0, 3), cell(2, 8) + 42, result(0, 3), result(2, 8) + 19] {
        breaks(&three_streams(250), 13, place, 1);
    }
}

#[test]
fn rule_14_kinds_of_registrations() {
    breaks(&three_streams(250), 14, cell(0, 1) + cell::TALKER, 3);
    breaks(&three_streams(250), 14, cell(0, 2) + cell::LISTENER, 4);
    keeps(&three_streams(250), cell(0, 1) + cell::TALKER, 2);
    keeps(&three_streams(250), cell(0, 2) + cell::LISTENER, 3);
}

#[test]
fn rule_15_the_changed_mark() {
    breaks(&three_streams(250), 15, cell(0, 1) + cell::CHANGED, 2);
    keeps(&three_streams(250), cell(0, 1) + cell::CHANGED, 1);
}

#[test]
fn rule_16_leaving() {
    let table = three_streams(250);
    for (flag, since) in [
        (cell(0, 1) + cell::TALKER_LEAVING, cell(0, 1) + cell::TALKER_SINCE.end - 1),
        (cell(0, 2) + cell::LISTENER_LEAVING, cell(0, 2) + cell::LISTENER_SINCE.end - 1),
    ] {
        breaks(&table, 16, flag, 2);
        breaks(&table, 16, flag, 1); // from 0, long before
        breaks(&table, 16, since, 250); // not leaving
    }
    let mut leaving = table.clone();
    accept(&mut leaving, 2, &listener_frame(STREAM, LV, READY));
    let since = cell(0, 2) + cell::LISTENER_SINCE.end - 1;
    keeps(&leaving, since, 191); // 59 before the clock
    breaks(&leaving, 16, since, 190);
    breaks(&leaving, 16, since, 251);
    breaks(&leaving, 16, cell(0, 2) + cell::LISTENER_LEAVING, 0);
    // A clock far behind, to which the LeaveAll timers were started anew.
    let started = sender::STARTED.start;
    breaks_by(
        &leaving,
        16,
        &[(CLOCK.start, 1), (sender(1) + started, 1), (sender(2) + started, 1)],
    );
    // A leaving may have begun at the clock 0.
    keeps(&three_streams(59), cell(0, 1) + cell::TALKER_LEAVING, 1);
    breaks(&three_streams(60), 16, cell(0, 1) + cell::TALKER_LEAVING, 1);
}

#[test]
fn rule_17_the_registered_priority_octet() {
    for bit in 0..4 {
        breaks(&three_streams(250), 17, cell(0, 1) + cell::PRIORITY, 0x70 | 1 << bit);
    }
    keeps(&three_streams(250), cell(0, 1) + cell::PRIORITY, 0);
}

#[test]
fn rule_18_fields_without_a_registration() {
    let table = three_streams(59);
    for place in [cell::CHANGED, cell::TALKER_LEAVING, cell::PARAMETERS.start, cell::LATENCY.start]
    {
        breaks(&table, 18, cell(0, 2) + place, 1);
    }
    breaks(&table, 18, cell(0, 2) + cell::BRIDGE_ID.start, 1);
    breaks(&table, 18, cell(0, 2) + cell::CODE, 1);
    breaks(&table, 18, cell(0, 2) + cell::FIRST_LATENCY.start, 1);
    breaks(&table, 18, cell(0, 2) + cell::FIRST_LATENCY.end - 1, 1);
    // With a Talker it may be any, larger or smaller than the present one.
    keeps(&table, cell(0, 1) + cell::FIRST_LATENCY.start, 255);
    keeps(&table, cell(1, 1) + cell::FIRST_LATENCY.end - 1, 1);
    breaks(&table, 18, cell(0, 1) + cell::LISTENER_LEAVING, 1);
    let mut joined = table.clone();
    join_talker(&mut joined, 1, &talker(STREAM + 3));
    join_listener(&mut joined, 2, STREAM + 3, READY);
    breaks(&joined, 18, cell(3, 1) + cell::TALKER, 0);
}

#[test]
fn rule_19_the_failure_of_an_advertise() {
    let table = three_streams(250);
    breaks(&table, 19, cell(0, 1) + cell::BRIDGE_ID.start, 1);
    breaks(&table, 19, cell(0, 1) + cell::BRIDGE_ID.end - 1, 1);
    breaks(&table, 19, cell(0, 1) + cell::CODE, 1);
    breaks(&table, 19, cell(1, 1) + cell::TALKER, 1);
    keeps(&table, cell(1, 1) + cell::CODE, 1);
}

#[test]
fn rule_20_kinds_of_results() {
    let mut table = three_streams(250);
    breaks(&table, 20, result(0, 2) + result::ENTRY, 3);
    breaks(&table, 20, result(0, 1) + result::LISTENER, 4);
    keeps(&table, result(0, 1) + result::LISTENER, 3);
    join_talker(&mut table, 1, &talker(STREAM + 3));
    breaks(&table, 20, result(3, 2) + result::COLUMN, 3);
}

#[test]
fn rule_21_latency_without_a_column() {
    let table = three_streams(250);
    breaks(&table, 21, result(0, 1) + result::LATENCY.start, 1);
    breaks(&table, 21, result(0, 1) + result::LATENCY.end - 1, 1);
    keeps(&table, result(0, 2) + result::LATENCY.start, 1);
}

#[test]
fn rule_22_the_failure_of_a_column() {
    let table = three_streams(250);
    for port in [1, 2] {
        breaks(&table, 22, result(0, port) + result::BRIDGE_ID.start, 1);
        breaks(&table, 22, result(0, port) + result::CODE, 1);
    }
    // An Advertise is declared, and the Failed has its Lv to send.
    let machines = [(send(1, 2) + send::ADVERTISE, 1), (send(1, 2) + send::FAILED, 6)];
    breaks_by(&table, 22, &[(result(1, 2) + result::COLUMN, 1), machines[0], machines[1]]);
    keeps(&table, result(1, 2) + result::CODE, 1);
}

#[test]
fn rule_23_entry_and_column() {
    breaks(&three_streams(99), 23, result(0, 2) + result::ENTRY, 0);
    breaks(&three_streams(99), 23, result(1, 2) + result::ENTRY, 0);
    let mut table = three_streams(250);
    join_listener(&mut table, 2, STREAM + 1, READY);
    breaks(&table, 23, result(1, 2) + result::ENTRY, 2);
    breaks(&table, 23, result(2, 2) + result::ENTRY, 2);
    keeps(&table, result(0, 2) + result::ENTRY, 1);
    join_listener(&mut table, 1, STREAM, READY);
    keeps(&table, result(0, 1) + result::ENTRY, 1);
    join_talker(&mut table, 1, &talker(STREAM + 3));
    let advertise = (send(3, 2) + send::ADVERTISE, 1);
    breaks_by(&table, 23, &[(result(3, 2) + result::COLUMN, 1), advertise]);
}

#[test]
fn rule_24_the_age_of_an_entry() {
    let table = three_streams(299);
    breaks(&table, 24, result(0, 1) + result::SINCE.end - 1, 1);
    breaks(&table, 24, result(0, 2) + result::SINCE.end - 1, 3);
    breaks(&table, 24, result(0, 2) + result::SINCE.start, 1);
    breaks(&table, 24, CLOCK.end - 2, 0);
    keeps(&table, result(0, 2) + result::SINCE.end - 1, 0);
}

#[test]
fn rule_25_settled_values_without_a_talker() {
    let mut table = three_streams(250);
    for place in [record::PARAMETERS.start, record::PARAMETERS.end - 2] {
        breaks(&table, 25, record(2) + place, 1);
        keeps(&table, record(0) + place, 1);
    }
    breaks(&table, 25, record(2) + record::PRIORITY, 0x70);
    // A Talker joined since is enough.
    join_talker(&mut table, 2, &talker(STREAM + 2));
    keeps(&table, record(2) + record::PRIORITY, 0x70);
}

#[test]
fn rule_26_columns_without_another_talker() {
    let mut table = three_streams(250);
    // A column has its machine.
    let advertise = [(result(2, 2) + result::COLUMN, 1), (send(2, 2) + send::ADVERTISE, 1)];
    let failed = [(result(2, 2) + result::COLUMN, 2), (send(2, 2) + send::FAILED, 1)];
    breaks_by(&table, 26, &advertise);
    breaks_by(&table, 26, &failed);
    // The port's own Talker is not enough, that of another is.
    join_talker(&mut table, 2, &talker(STREAM + 2));
    breaks_by(&table, 26, &advertise);
    join_talker(&mut table, 1, &talker(STREAM + 2));
    keeps_by(&table, &advertise);
    keeps_by(&table, &failed);
}

/// A Listener declared on a port, with its machine.
fn declared(place: usize, port: usize, listener_type: u8) -> [(usize, u8); 3] {
    let send = send(place, port);
    [
        (result(place, port) + result::LISTENER, listener_type),
        (send + send::LISTENER, 1),
        (send + send::LISTENER_TYPE, listener_type),
    ]
}

#[test]
fn rule_27_the_listener_declared() {
    let mut table = three_streams(250);
    breaks_by(&table, 27, &declared(2, 2, 2)); // no Talker
    join_talker(&mut table, 2, &talker(STREAM));
    breaks_by(&table, 27, &declared(0, 2, 2)); // a column
    join_talker(&mut table, 1, &talker(STREAM + 2));
    join_talker(&mut table, 2, &talker(STREAM + 2));
    keeps_by(&table, &declared(2, 1, 1));
    keeps_by(&table, &declared(2, 2, 1));
    let on_both = [declared(2, 1, 1), declared(2, 2, 1)].concat();
    breaks_by(&table, 27, &on_both); // a second port
}

#[test]
fn rule_28_entries_without_a_listener() {
    let mut table = three_streams(250);
    breaks(&table, 28, result(0, 1) + result::ENTRY, 1);
    breaks(&table, 28, result(2, 1) + result::ENTRY, 1);
    join_listener(&mut table, 1, STREAM, READY);
    keeps(&table, result(0, 1) + result::ENTRY, 1);
    // An Advertise filters without a Listener, and forwards only with one.
    join_talker(&mut table, 1, &talker(STREAM + 3));
    advance(&mut table, 250);
    breaks(&table, 28, result(3, 2) + result::ENTRY, 2);
    join_listener(&mut table, 2, STREAM + 3, ASKING);
    keeps(&table, result(3, 2) + result::ENTRY, 2);
}

#[test]
fn rule_29_totals_of_no_stream() {
    let mut settings = settings(2);
    settings.ports[1].supports.a = false;
    settings.ports[1].limit.b = 1;
    let mut table = started(&settings);
    breaks(&table, 29, TOTALS + 4, 1);
    breaks(&table, 29, TOTALS + 10, 1);
    join_listener(&mut table, 1, STREAM, READY);
    keeps(&table, TOTALS + 4, 1);
    keeps(&table, TOTALS + 10, 1);
    breaks(&table, 29, TOTALS + 15, 1);
    keeps(&table, TOTALS + 21, 1);
}
