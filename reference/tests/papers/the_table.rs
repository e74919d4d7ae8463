//! The lent table (docs/TABLE.md): its octets.

use crate::helpers::*;
use crate::table_places::*;
use reference::lent::Table;
use reference::numbers::Number;
use reference::pdu::AttributeType;
use reference::random::Random;
use reference::records::{Call, Watcher};
use reference::table::decoding::decode;
use reference::table::encoding::encode;
use reference::table::layout::edge;
use reference::table::layout::{CLOCK, COUNT, RECORD_LENGTH, TOTALS};
use reference::table::rules::broken_rules;
use reference::{calls, generator, settings};

#[test]
fn the_octets_of_a_settled_bridge() {
    let mut table = three_streams(250);
    accept(&mut table, 2, &listener_frame(STREAM, LV, READY));
    let octets = table.lent();
    let settings = settings::write(&settings(2));
    assert_eq!(octets[..settings.len()], settings);
    assert_eq!(octets[CLOCK], [0, 0, 0, 250]);
    assert_eq!(octets[COUNT], 3);
    // 17,088,000 in class A on port 2.
    assert_eq!(octets[TOTALS + 11..TOTALS + 22], [0, 1, 4, 0xbe, 0, 0, 0, 0, 0, 0, 0]);
    let parameters = [0x91, 0xe0, 0xf0, 0, 0, 1, 0, 2, 0, 224, 0, 1, 0x70];
    assert_eq!(octets[record(0)..record(0) + 8], STREAM.to_be_bytes());
    assert_eq!(octets[record(0) + 8..record(0) + 21], parameters);
    assert_eq!(octets[cell(0, 1)..cell(0, 1) + 7], [1, 0, 0, 0, 0, 0, 0]);
    assert_eq!(octets[cell(0, 1) + 7..cell(0, 1) + 20], parameters);
    assert_eq!(octets[cell(0, 1) + 20..cell(0, 2)], [0; 23]);
    assert_eq!(octets[cell(0, 2)..cell(0, 2) + 37], [0; 37]);
    assert_eq!(octets[cell(0, 2) + 37..cell(0, 3)], [2, 1, 0, 0, 0, 250]);
    assert_eq!(octets[cell(0, 3)..result(0, 1)], [0; 6 * 43]);
    assert_eq!(octets[result(0, 1)..result(0, 1) + 19], [0; 19]);
    assert_eq!(octets[result(0, 1) + 19], 2);
    let forwarded = [1, 0, 0, 0, 0, 0, 0, 0, 0, 0, 0, 0, 0, 0, 2, 0, 0, 0, 2, 0];
    assert_eq!(octets[result(0, 2)..result(0, 3)], forwarded);
    assert_eq!(octets[record(3)..], [0; 61 * RECORD_LENGTH]);
}

#[test]
fn the_octets_of_failures_marks_and_latencies() {
    let mut settings = settings(2);
    settings.ports[1].latency.a = 0x0100;
    let mut table = started(&settings);
    let mut talker = failed(STREAM, 9);
    talker.accumulated_latency = 0x0203_0405;
    join_talker(&mut table, 1, &talker);
    advance(&mut table, 1_234);
    talker.accumulated_latency = 0x0203_0406;
    join_talker(&mut table, 1, &talker);
    talker.parameters.vlan = 3;
    join_talker(&mut table, 1, &talker);
    accept(&mut table, 1, &talker_frame(&talker, &[LV]));
    let octets = table.lent();
    assert_eq!(octets[cell(0, 1)..cell(0, 1) + 7], [2, 1, 1, 0, 0, 4, 0xd2]);
    let failure = [0x11, 0x11, 0x22, 0x22, 0x33, 0x33, 0x44, 0x44, 9];
    assert_eq!(octets[cell(0, 1) + 20..cell(0, 1) + 24], [2, 3, 4, 6]);
    assert_eq!(octets[cell(0, 1) + 24..cell(0, 1) + 33], failure);
    assert_eq!(octets[cell(0, 1) + 33..cell(0, 1) + 37], [2, 3, 4, 5]);
    assert_eq!(octets[result(0, 2)..result(0, 2) + 5], [2, 2, 3, 5, 5]);
    assert_eq!(octets[result(0, 2) + 5..result(0, 2) + 14], failure);
    assert_eq!(octets[result(0, 2) + 14..result(0, 3)], [1, 0, 0, 0, 12, 0]);
}

#[test]
fn the_parameters_of_the_talker_are_those_that_the_last_advance_took() {
    let parameters = |table: &Table| table.lent()[record(0) + 8..record(0) + 21].to_vec();
    let mut table = started(&settings(1));
    join_talker(&mut table, 1, &talker(STREAM));
    assert_eq!(parameters(&table), [0; 13]);
    // They are taken on a bridge of one port too, where no column has them.
    advance(&mut table, 1);
    assert_eq!(parameters(&table), talker(STREAM).parameters.octets());
    // Without a Talker there are none.
    join_listener(&mut table, 1, STREAM, READY);
    accept(&mut table, 1, &talker_frame(&talker(STREAM), &[LV]));
    advance(&mut table, 60);
    assert_eq!(parameters(&table), talker(STREAM).parameters.octets());
    advance(&mut table, 61);
    assert_eq!(parameters(&table), [0; 13]);
}

#[test]
fn the_octets_of_the_domain() {
    let mut settings = settings(3);
    settings.ports[2].supports.a = false;
    let mut table = started(&settings);
    advance(&mut table, 0x0102_0304);
    // Class B on port 1 with VLAN 2, leaving; class A on port 2 with another priority.
    accept(&mut table, 1, &domain_frame(5, 2, &[JOIN_MT]));
    accept(&mut table, 1, &domain_frame(5, 2, &[LV]));
    let mut other = domain_vector(6, 7, &[JOIN_MT]);
    other.first_value[2..].copy_from_slice(&[0xff, 0xfe]);
    accept(&mut table, 2, &one_message(AttributeType::Domain, vec![other]));
    advance(&mut table, 0x0102_0305);
    let octets = table.lent();
    let mut expected = vec![0; 8 * edge::LENGTH];
    expected[2 * 8..3 * 8].copy_from_slice(&[1, 1, 1, 2, 3, 4, 0, 2]);
    let second = edge::LENGTH;
    expected[second + 15 * 8..second + 16 * 8].copy_from_slice(&[1, 0, 0, 0, 0, 0, 0xff, 0xfe]);
    // The flags of classes A and B: port 1 has no class A, port 2 another one and no class B, port 3
    // doesn't support class A and has no class B.
    for (port, flags) in [[1, 0], [1, 1], [1, 1]].into_iter().enumerate() {
        let at = edge::LENGTH * port + 128;
        expected[at..at + 2].copy_from_slice(&flags);
    }
    assert_eq!(octets[283..7_475], expected);
}

/// Checks that calls leave tables that keep the form, and that octets which do are taken over
/// whole: those that calls have left, and those with an octet stored in them.
struct TakenOver {
    random: Random,
    kept: usize,
    broken: usize,
}

impl TakenOver {
    fn check(&mut self, octets: &[u8]) {
        match decode(octets) {
            Some(bridge) => {
                assert!(encode(&bridge) == octets);
                self.kept += 1;
            }
            None => self.broken += 1,
        }
    }
}

impl Watcher for TakenOver {
    fn called(&mut self, call: &Call, number: Number, table: &Table) {
        let changes = !matches!(call, Call::Write { .. } | Call::Report { .. });
        if number != 0 || !changes {
            return;
        }
        assert_eq!(broken_rules(table.lent()), []);
        self.check(table.lent());
        let mut octets = table.lent().to_vec();
        let used = record(usize::from(octets[COUNT]));
        for _ in 0..8 {
            let place = self.random.below(used as u64) as usize;
            let octet = self.random.octet() >> self.random.below(8);
            let held = std::mem::replace(&mut octets[place], octet);
            self.check(&octets);
            octets[place] = held;
        }
    }
}

#[test]
fn octets_that_keep_the_form_are_taken_over_whole() {
    let mut watcher = TakenOver { random: Random::new(4), kept: 0, broken: 0 };
    for seed in 0..100 {
        calls::run_watched(&generator::calls(seed).octets, &mut watcher);
    }
    assert!(watcher.kept > 5_000 && watcher.broken > 5_000);
}
