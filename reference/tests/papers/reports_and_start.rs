//! Reports and start (01, "What the bridge does").

use crate::helpers::*;
use reference::bridge::ReportAnswer;
use reference::lent::Table;
use reference::settings::{self, PerClass, Settings};
use reference::settled::{Column, Entry};

fn example() -> Table {
    let mut table = in_domain(&settings(2));
    join_talker(&mut table, 1, &talker(STREAM));
    join_listener(&mut table, 2, STREAM, READY);
    advance(&mut table, 100);
    table
}

#[test]
fn report_at_place_equal_to_count_gives_count_totals_and_limits() {
    let expected = ReportAnswer {
        number: 0,
        count: 1,
        totals: PerClass { a: 17_088_000, b: 0 },
        limits: PerClass { a: 75_000_000, b: 0 },
        stream_id: 0,
        column: Column::None,
        listener: None,
        entry: Entry::None,
    };
    assert_eq!(example().report(2, 1), expected);
}

#[test]
fn places_are_by_ascending_stream_id_from_0() {
    let mut table = started(&settings(2));
    for stream_id in [u64::MAX, 5, 0, 0x0200_0000_0001_ffff, 0x0200_0000_0002_0000] {
        join_listener(&mut table, 2, stream_id, READY);
    }
    let ids = [0, 5, 0x0200_0000_0001_ffff, 0x0200_0000_0002_0000, u64::MAX];
    assert_eq!(held(&table), ids);
}

#[test]
fn a_stream_joined_since_the_last_advance_shows_none_0_none_none() {
    let mut table = example();
    join_talker(&mut table, 1, &talker(STREAM - 1));
    join_listener(&mut table, 2, STREAM - 1, READY);
    assert_eq!(held(&table), [STREAM - 1, STREAM]);
    for port in [1, 2] {
        assert_eq!(line(&table, port, STREAM - 1), "none 0 none none");
    }
    // The totals are still those of the advance.
    assert_eq!(table.report(2, 0).totals.a, 17_088_000);
}

#[test]
fn each_field_is_shown_as_it_was_taken_by_the_last_advance() {
    let mut table = example();
    join_talker(&mut table, 1, &failed(STREAM, 55));
    join_listener(&mut table, 2, STREAM, ASKING);
    assert_eq!(line(&table, 1, STREAM), "none 0 ready none");
    assert_eq!(line(&table, 2, STREAM), "advertise 0 none forward");
    advance(&mut table, 100);
    assert_eq!(line(&table, 1, STREAM), "none 0 asking none");
    assert_eq!(line(&table, 2, STREAM), "failed 55 none filter");
    join_talker(&mut table, 1, &failed(STREAM, 56));
    assert_eq!(line(&table, 2, STREAM), "failed 55 none filter");
}

#[test]
fn limits_are_the_configured_ones_also_for_an_unsupported_class() {
    let mut settings = settings(2);
    settings.ports[0].supports = PerClass { a: false, b: false };
    settings.ports[0].limit = PerClass { a: 5, b: (1 << 40) - 1 };
    let answer = started(&settings).report(1, 0);
    assert_eq!(answer.limits, PerClass { a: 5, b: (1 << 40) - 1 });
    assert_eq!(answer.totals, PerClass { a: 0, b: 0 });
}

#[test]
fn a_second_start_empties_all_and_sets_the_clock_to_0() {
    let mut table = example();
    assert_eq!(table.start(&settings::write(&settings(3))), 0);
    assert_eq!(table, started(&settings(3)));
    assert_eq!(table.advance(0), 0);
    assert!(held(&table).is_empty());
}

#[test]
fn a_refused_start_leaves_the_running_bridge_as_it_was() {
    let mut table = example();
    assert_eq!(table.start(&[]), 11);
    assert_eq!(table, example());
}

#[test]
fn start_looks_at_the_tables_length_only() {
    // Whatever the table held before, start leaves the same.
    let mut zeros = Table::zeros();
    let mut other = example();
    let octets = settings::write(&settings(4));
    assert_eq!(zeros.start(&octets), 0);
    assert_eq!(other.start(&octets), 0);
    assert_eq!(zeros, other);
}

#[test]
fn an_accepted_pdu_that_does_nothing_changes_nothing() {
    let mut table = example();
    accept(&mut table, 1, &[0]);
    assert_eq!(table, example());
}

#[test]
fn settings_fields_stand_where_the_paper_says() {
    let mut settings = settings(1);
    settings.bridge_id = 0x0102_0304_0506_0708;
    settings.priority = PerClass { a: 5, b: 6 };
    settings.leave_time = 0x2abc;
    settings.vlan = 0x0def;
    settings.fan_in_limit = 5;
    settings.ports[0].supports = PerClass { a: false, b: true };
    settings.ports[0].sends_twice = true;
    settings.ports[0].overhead = 0x99;
    settings.ports[0].largest_frame = 0x1234;
    settings.ports[0].limit = PerClass { a: 0x01_0203_0405, b: 0xf1_f2f3_f4f5 };
    settings.ports[0].latency = PerClass { a: 0x1122_3344, b: 0x5566_7788 };
    let bits = "0000000100000010000000110000010000000101000001100000011100001000 \
                0001 101 110 10101010111100 0000 110111101111 00000101 \
                0 1 1 00000 10011001 0001001000110100 \
                0000000100000010000000110000010000000101 \
                1111000111110010111100111111010011110101 \
                00010001001000100011001101000100 01010101011001100111011110001000";
    let bits: Vec<u8> = bits.bytes().filter(|c| *c != b' ').map(|c| c - b'0').collect();
    let octets: Vec<u8> =
        bits.chunks(8).map(|eight| eight.iter().fold(0, |octet, bit| octet << 1 | bit)).collect();
    assert_eq!(settings::read(&octets), Some(settings.clone()));
    assert_eq!(settings::write(&settings), octets);
}

#[test]
fn settings_of_1_to_8_ports_are_accepted_with_any_overhead_limit_and_latency() {
    for ports in 1..=8 {
        let mut wide: Settings = settings(ports);
        for port in &mut wide.ports {
            port.overhead = 255;
            port.largest_frame = 0;
            port.limit = PerClass { a: (1 << 40) - 1, b: 0 };
            port.latency = PerClass { a: u32::MAX, b: 0 };
        }
        wide.leave_time = 16_383;
        assert_eq!(settings::write(&wide).len(), 14 + 22 * ports);
        assert_eq!(settings::read(&settings::write(&wide)), Some(wide.clone()));
        assert_eq!(started(&wide).report(ports as u32, 0).number, 0);
    }
}
