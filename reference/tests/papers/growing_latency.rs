//! A stream whose latency grows (02, (v)).

use crate::helpers::*;
use reference::lent::Table;
use reference::pdu::{AttributeType, Failure, Talker};
use reference::registrations::TalkerRegistration;
use reference::settings::PerClass;
use reference::settled::Column;

const HEARD: &str = "advertise 0 none forward";
const GROWN: &str = "failed 7 none filter";

/// The worked example's Talker with this latency.
fn with_latency(latency: u32) -> Talker {
    Talker { accumulated_latency: latency, ..talker(STREAM) }
}

fn failed_with_latency(latency: u32) -> Talker {
    Talker { accumulated_latency: latency, ..failed(STREAM, 9) }
}

/// A bridge of two ports with a Ready Listener on port 2 and the Talker on port 1, settled.
fn heard(latency: u32) -> Table {
    let mut table = in_domain(&settings(2));
    join_talker(&mut table, 1, &with_latency(latency));
    join_listener(&mut table, 2, STREAM, READY);
    advance(&mut table, 100);
    assert_eq!(line(&table, 2, STREAM), HEARD);
    table
}

fn registered(table: &Table, port: usize) -> TalkerRegistration {
    let streams = &table.bridge().unwrap().registrations.streams;
    streams[&STREAM][port - 1].talker.clone().expect("a Talker")
}

/// The first and the present latency on port 1.
fn latencies(table: &Table) -> (u32, u32) {
    let talker = registered(table, 1);
    (talker.first_latency, talker.accumulated_latency)
}

#[test]
fn while_the_latency_is_larger_than_the_first_the_stream_fails_with_7() {
    let mut table = heard(1_000);
    for (latency, expected) in [
        (1_000, HEARD),
        (1_001, GROWN),
        (5_000, GROWN),
        (1_001, GROWN),
        (1_000, HEARD),
        (u32::MAX, GROWN),
        (999, HEARD),
        (0, HEARD),
        (1_000, HEARD),
        (1_001, GROWN),
    ] {
        join_talker(&mut table, 1, &with_latency(latency));
        assert_eq!(latencies(&table), (1_000, latency));
        advance(&mut table, 100);
        assert_eq!(line(&table, 2, STREAM), expected, "latency {latency}");
        let is_heard = expected == HEARD;
        assert_eq!(table.report(2, 0).totals.a, if is_heard { 17_088_000 } else { 0 });
        let passed_on = if is_heard { "none 0 ready none" } else { "none 0 asking none" };
        assert_eq!(line(&table, 1, STREAM), passed_on);
    }
}

#[test]
fn the_failure_is_this_bridges_with_the_present_latency_out() {
    let mut settings = settings(2);
    settings.ports[1].latency = PerClass { a: 500, b: 7 };
    let mut table = in_domain(&settings);
    join_talker(&mut table, 1, &with_latency(1_000));
    advance(&mut table, 1);
    for (latency, expected) in [(1_200, 1_700), (u32::MAX - 499, u32::MAX), (u32::MAX, u32::MAX)] {
        join_talker(&mut table, 1, &with_latency(latency));
        advance(&mut table, 2);
        let settled = table.bridge().unwrap().settled.streams[&STREAM].clone();
        let failure = Failure { bridge_id: settings.bridge_id, code: 7 };
        assert_eq!(settled.ports[1].column, Column::Failed(failure));
        assert_eq!(settled.ports[1].latency_out, expected);
    }
    // The entry is the old one, and its age runs on.
    let settled = table.bridge().unwrap().settled.streams[&STREAM].clone();
    assert_eq!(settled.ports[1].entry_since, Some(0));
}

#[test]
fn the_first_join_is_the_one_that_made_the_registration() {
    for event in [NEW, JOIN_IN, JOIN_MT] {
        for first in [with_latency(7), failed_with_latency(7)] {
            let mut table = in_domain(&settings(2));
            accept(&mut table, 1, &talker_frame(&first, &[event]));
            join_talker(&mut table, 1, &with_latency(8));
            assert_eq!(latencies(&table), (7, 8));
            advance(&mut table, 1);
            assert_eq!(line(&table, 2, STREAM), "failed 7 none filter");
        }
    }
    // Two in one PDU: the first.
    let mut table = in_domain(&settings(2));
    let vectors = [7, 8].map(|latency| talker_vector(&with_latency(latency), &[JOIN_MT]));
    accept(&mut table, 1, &one_message(AttributeType::TalkerAdvertise, vectors.to_vec()));
    assert_eq!(latencies(&table), (7, 8));
}

#[test]
fn each_value_of_a_vector_has_its_own_first_latency() {
    let mut table = in_domain(&settings(2));
    join_talker(&mut table, 1, &with_latency(7));
    accept(&mut table, 1, &talker_frame(&with_latency(8), &[JOIN_MT, JOIN_MT]));
    advance(&mut table, 1);
    assert_eq!(line(&table, 2, STREAM), "failed 7 none filter");
    assert_eq!(line(&table, 2, STREAM + 1), "advertise 0 none filter");
}

#[test]
fn a_join_while_leaving_keeps_it_and_removal_forgets_it() {
    let mut table = heard(1_000);
    accept(&mut table, 1, &talker_frame(&with_latency(1_000), &[LV]));
    advance(&mut table, 159);
    let mut gone = table.clone();
    join_talker(&mut table, 1, &with_latency(2_000));
    assert_eq!(latencies(&table), (1_000, 2_000));
    advance(&mut table, 160);
    assert_eq!(line(&table, 2, STREAM), GROWN);
    advance(&mut gone, 160);
    join_talker(&mut gone, 1, &with_latency(2_000));
    assert_eq!(latencies(&gone), (2_000, 2_000));
    advance(&mut gone, 160);
    assert_eq!(line(&gone, 2, STREAM), HEARD);
    // Lv and join in one PDU: it was never removed.
    let mut table = heard(1_000);
    let vectors = [(1_000, LV), (2_000, NEW)]
        .map(|(latency, event)| talker_vector(&with_latency(latency), &[event]));
    accept(&mut table, 1, &one_message(AttributeType::TalkerAdvertise, vectors.to_vec()));
    assert_eq!(latencies(&table), (1_000, 2_000));
}

#[test]
fn a_change_of_type_keeps_it_and_a_failed_passes_on_its_own_code() {
    let mut table = heard(1_000);
    join_talker(&mut table, 1, &failed_with_latency(3_000));
    assert_eq!(latencies(&table), (1_000, 3_000));
    advance(&mut table, 100);
    assert_eq!(line(&table, 2, STREAM), "failed 9 none filter");
    join_talker(&mut table, 1, &with_latency(3_000));
    advance(&mut table, 100);
    assert_eq!(line(&table, 2, STREAM), GROWN);
}

#[test]
fn a_changed_join_alters_neither_latency() {
    let mut table = heard(1_000);
    let mut changed = with_latency(3_000);
    changed.parameters.vlan = 9;
    join_talker(&mut table, 1, &changed);
    assert_eq!(latencies(&table), (1_000, 1_000));
    advance(&mut table, 100);
    assert_eq!(line(&table, 2, STREAM), "failed 16 none filter");
}

#[test]
fn growth_that_fell_back_before_the_next_advance_leaves_no_trace() {
    let mut table = heard(1_000);
    let mut expected = table.clone();
    for latency in [2_000, 1_000] {
        join_talker(&mut table, 1, &with_latency(latency));
    }
    advance(&mut table, 300);
    advance(&mut expected, 300);
    assert_eq!(table, expected);
}

#[test]
fn each_ports_registration_has_its_own_first_latency() {
    let mut table = in_domain(&settings(3));
    join_talker(&mut table, 1, &with_latency(10));
    join_talker(&mut table, 2, &with_latency(500));
    join_talker(&mut table, 2, &with_latency(500));
    advance(&mut table, 1);
    assert_eq!(line(&table, 3, STREAM), "advertise 0 none filter");
    // The Talker port moves to port 2: larger than what was declared, but not than its own first.
    let mut grown = table.clone();
    accept(&mut table, 1, &talker_frame(&with_latency(10), &[LV]));
    advance(&mut table, 61);
    assert_eq!(line(&table, 3, STREAM), "advertise 0 none filter");
    // That of a second Talker isn't looked at.
    join_talker(&mut grown, 2, &with_latency(501));
    advance(&mut grown, 1);
    assert_eq!(line(&grown, 3, STREAM), "advertise 0 none filter");
    assert_eq!(line(&grown, 2, STREAM), "failed 4 none filter");
    accept(&mut grown, 1, &talker_frame(&with_latency(10), &[LV]));
    advance(&mut grown, 61);
    assert_eq!(line(&grown, 3, STREAM), "failed 7 none filter");
}

#[test]
fn step_7_comes_after_16_and_before_4() {
    let mut table = in_domain(&settings(3));
    join_talker(&mut table, 1, &with_latency(10));
    join_talker(&mut table, 2, &with_latency(0));
    join_talker(&mut table, 1, &with_latency(11));
    advance(&mut table, 1);
    assert_eq!(line(&table, 2, STREAM), "failed 7 none filter");
    assert_eq!(line(&table, 3, STREAM), "failed 7 none filter");
    let mut changed = with_latency(11);
    changed.parameters.rank = 0;
    join_talker(&mut table, 1, &changed);
    advance(&mut table, 1);
    assert_eq!(line(&table, 2, STREAM), "failed 16 none filter");
    // Before 13, and not where the class isn't supported.
    let mut settings = settings(2);
    settings.ports[1].supports.a = false;
    for (priority, expected) in [(4, "failed 7 none filter"), (3, "none 0 none none")] {
        let mut table = in_domain(&settings);
        for latency in [10, 11] {
            let mut talker = with_latency(latency);
            talker.parameters.priority = priority;
            join_talker(&mut table, 1, &talker);
        }
        advance(&mut table, 1);
        assert_eq!(line(&table, 2, STREAM), expected);
    }
}
