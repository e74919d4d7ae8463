//! Inbound ports and shared addresses (02, (x)).

use crate::helpers::*;
use reference::fan_in::FanIn;
use reference::lent::Table;
use reference::pdu::{AttributeType, Failure, StreamId, Talker};
use reference::settings::{self, Settings};
use reference::settled::Column;

const ADVERTISED: &str = "advertise 0 none filter";
const SHARED: &str = "failed 5 none filter";
const PAST: &str = "failed 15 none filter";

/// Settings of so many ports with a limit of inbound ports.
fn limited(ports: usize, fan_in_limit: u8) -> Settings {
    Settings { fan_in_limit, ..settings(ports) }
}

/// A bridge with a Talker, of a stream of its own, on each of these ports; settled.
fn brought_in(settings: &Settings, ports: &[u32]) -> Table {
    let mut table = in_domain(settings);
    for port in ports {
        join_talker(&mut table, *port, &talker(STREAM + u64::from(*port)));
    }
    advance(&mut table, 100);
    table
}

/// The lines of the streams of these ports on a port that has none of their Talkers.
fn lines_of(table: &Table, on: u32, ports: &[u32]) -> Vec<String> {
    ports.iter().map(|port| line(table, on, STREAM + u64::from(*port))).collect()
}

/// A Talker with the destination and VLAN of the first stream's.
fn sharing(stream_id: StreamId) -> Talker {
    let mut sharing = talker(stream_id);
    sharing.parameters.destination = talker(STREAM).parameters.destination;
    sharing
}

// ---- settings ----

#[test]
fn a_limit_of_0_to_8_is_accepted_whatever_the_number_of_ports() {
    for ports in [1, 2, 8] {
        for limit in 0..=8 {
            let table = started(&limited(ports, limit));
            assert_eq!(table.lent()[13], limit);
            assert_eq!(table.bridge().unwrap().settings.fan_in_limit, limit);
        }
    }
}

#[test]
fn the_limit_stands_behind_the_vlan_and_before_the_first_port() {
    let octets = settings::write(&limited(2, 5));
    assert_eq!(octets.len(), 14 + 22 * 2);
    assert_eq!(octets[11..15], [0, 2, 5, 0xc0]);
}

// ---- the limit ----

#[test]
fn a_port_may_bring_streams_in_while_fewer_than_the_limit_are_inbound_below_it() {
    for (limit, inbound) in [(1, 1), (2, 2), (3, 3), (4, 4), (8, 4)] {
        let table = brought_in(&limited(8, limit), &[2, 4, 5, 7]);
        let mut expected = vec![ADVERTISED; inbound];
        expected.resize(4, PAST);
        for on in [1, 3, 8] {
            assert_eq!(lines_of(&table, on, &[2, 4, 5, 7]), expected, "limit {limit}");
        }
    }
}

#[test]
fn limit_0_means_no_limit() {
    let table = brought_in(&limited(8, 0), &[1, 2, 3, 4, 5, 6, 7]);
    assert_eq!(lines_of(&table, 8, &[1, 2, 3, 4, 5, 6, 7]), [ADVERTISED; 7]);
}

#[test]
fn the_port_that_is_tested_is_the_talkers_and_all_its_streams_share_the_answer() {
    let mut table = in_domain(&limited(3, 1));
    for (port, stream_id) in [(1, STREAM), (2, STREAM + 1), (2, STREAM + 2)] {
        join_talker(&mut table, port, &talker(stream_id));
    }
    advance(&mut table, 1);
    // Towards port 1, which is in, and towards port 3, which brings nothing in.
    for on in [1, 3] {
        assert_eq!(lines_of_streams(&table, on, &[STREAM + 1, STREAM + 2]), [PAST, PAST]);
    }
    assert_eq!(line(&table, 2, STREAM), ADVERTISED);
}

fn lines_of_streams(table: &Table, on: u32, stream_ids: &[StreamId]) -> Vec<String> {
    stream_ids.iter().map(|stream_id| line(table, on, *stream_id)).collect()
}

#[test]
fn code_15_is_this_bridges_with_the_latency_out_and_reserves_nothing() {
    let mut settings = limited(3, 1);
    settings.ports[2].latency.a = 9;
    let mut table = in_domain(&settings);
    join_talker(&mut table, 1, &talker(STREAM));
    join_talker(&mut table, 2, &Talker { accumulated_latency: 5, ..talker(STREAM + 1) });
    join_listener(&mut table, 3, STREAM + 1, READY);
    advance(&mut table, 1);
    assert_eq!(line(&table, 3, STREAM + 1), PAST);
    assert_eq!(line(&table, 2, STREAM + 1), "none 0 asking none");
    assert_eq!(table.report(3, 0).totals.a, 0);
    let settled = table.bridge().unwrap().settled.streams[&(STREAM + 1)].clone();
    let failure = Failure { bridge_id: settings.bridge_id, code: 15 };
    assert_eq!(settled.ports[2].column, Column::Failed(failure));
    assert_eq!(settled.ports[2].latency_out, 14);
}

#[test]
fn every_talker_port_is_inbound_and_a_second_talkers_is_not() {
    // On port 1 a Talker that is Failed, leaving, changed, of no class, or of one that is unsupported.
    let joins: [fn(&mut Table); 5] = [
        |table| join_talker(table, 1, &failed(STREAM, 9)),
        |table| {
            join_talker(table, 1, &talker(STREAM));
            accept(table, 1, &talker_frame(&talker(STREAM), &[LV]));
        },
        |table| {
            join_talker(table, 1, &talker(STREAM));
            join_talker(table, 1, &Talker { stream_id: STREAM, ..sharing_none() });
        },
        |table| {
            let mut no_class = talker(STREAM);
            no_class.parameters.priority = 5;
            join_talker(table, 1, &no_class);
        },
        |table| {
            let mut class_b = talker(STREAM);
            class_b.parameters.priority = 2;
            join_talker(table, 1, &class_b);
        },
    ];
    let mut settings = limited(3, 1);
    for port in &mut settings.ports {
        port.supports.b = false;
    }
    for join in joins {
        let mut table = in_domain(&settings);
        join(&mut table);
        join_talker(&mut table, 2, &talker(STREAM + 1));
        advance(&mut table, 1);
        assert_eq!(line(&table, 3, STREAM + 1), PAST);
    }
    // The second Talker of a stream doesn't make port 2 inbound.
    let mut table = in_domain(&limited(4, 2));
    for (port, stream_id) in [(1, STREAM), (2, STREAM), (3, STREAM + 1)] {
        join_talker(&mut table, port, &talker(stream_id));
    }
    advance(&mut table, 1);
    assert_eq!(line(&table, 4, STREAM + 1), ADVERTISED);
    assert_eq!(FanIn::of(&table.bridge().unwrap().registrations).ports, [1, 3].into());
    // A Listener alone brings nothing in.
    let mut table = in_domain(&limited(3, 1));
    join_listener(&mut table, 1, STREAM, READY);
    join_talker(&mut table, 2, &talker(STREAM + 1));
    advance(&mut table, 1);
    assert_eq!(line(&table, 3, STREAM + 1), ADVERTISED);
}

/// A Talker whose parameters are those of no other.
fn sharing_none() -> Talker {
    let mut other = talker(STREAM + 0x77);
    other.parameters.rank = 0;
    other
}

#[test]
fn inbound_ports_are_taken_after_the_removals() {
    let mut table = brought_in(&limited(3, 1), &[1, 2]);
    assert_eq!(line(&table, 3, STREAM + 2), PAST);
    accept(&mut table, 1, &leave_all(AttributeType::TalkerAdvertise));
    advance(&mut table, 159);
    assert_eq!(line(&table, 3, STREAM + 2), PAST);
    advance(&mut table, 160);
    assert_eq!(line(&table, 3, STREAM + 2), ADVERTISED);
}

// ---- shared addresses ----

#[test]
fn of_streams_with_one_address_only_the_lowest_is_spared() {
    let mut table = in_domain(&settings(4));
    for (port, stream_id) in [(3, STREAM + 2), (2, STREAM), (1, STREAM + 1)] {
        join_talker(&mut table, port, &sharing(stream_id));
    }
    advance(&mut table, 1);
    let streams = [STREAM, STREAM + 1, STREAM + 2];
    assert_eq!(lines_of_streams(&table, 4, &streams), [ADVERTISED, SHARED, SHARED]);
    // Where the lowest has column none too, on its own Talker port.
    assert_eq!(line(&table, 2, STREAM + 1), SHARED);
    // When the lowest is gone, the next one is.
    accept(&mut table, 2, &leave_all(AttributeType::TalkerAdvertise));
    advance(&mut table, 60);
    assert_eq!(line(&table, 4, STREAM + 1), SHARED);
    advance(&mut table, 61);
    assert_eq!(lines_of_streams(&table, 4, &streams[1..]), [ADVERTISED, SHARED]);
}

#[test]
fn destination_and_vlan_are_compared_over_all_their_bits() {
    for bit in [0, 15, 16, 47] {
        let mut table = in_domain(&settings(2));
        let mut other = sharing(STREAM + 1);
        other.parameters.destination ^= 1 << bit;
        join_talker(&mut table, 1, &talker(STREAM));
        join_talker(&mut table, 1, &other);
        advance(&mut table, 1);
        assert_eq!(line(&table, 2, STREAM + 1), ADVERTISED);
    }
    for bit in [0, 11, 12, 15] {
        let mut table = in_domain(&settings(2));
        let mut other = sharing(STREAM + 1);
        other.parameters.vlan ^= 1 << bit;
        join_talker(&mut table, 1, &talker(STREAM));
        join_talker(&mut table, 1, &other);
        advance(&mut table, 1);
        assert_eq!(line(&table, 2, STREAM + 1), ADVERTISED);
    }
}

#[test]
fn any_lower_stream_id_with_a_talker_counts() {
    // Failed, leaving, changed, of another class that p doesn't support, of another priority.
    let mut class_b = talker(STREAM);
    class_b.parameters.priority = 2;
    let mut no_class = talker(STREAM);
    no_class.parameters.priority = 7;
    let mut settings = settings(2);
    settings.ports[1].supports.b = false;
    for first in [talker(STREAM), failed(STREAM, 9), class_b, no_class] {
        let mut table = in_domain(&settings);
        join_talker(&mut table, 1, &first);
        join_talker(&mut table, 1, &sharing(STREAM + 1));
        advance(&mut table, 1);
        assert_eq!(line(&table, 2, STREAM + 1), SHARED);
        accept(&mut table, 1, &talker_frame(&first, &[LV]));
        advance(&mut table, 60);
        assert_eq!(line(&table, 2, STREAM + 1), SHARED);
    }
    // A higher one doesn't, nor a Listener alone.
    let mut table = in_domain(&settings);
    join_listener(&mut table, 1, STREAM, READY);
    join_talker(&mut table, 1, &sharing(STREAM + 1));
    advance(&mut table, 1);
    assert_eq!(line(&table, 2, STREAM + 1), ADVERTISED);
}

#[test]
fn what_is_compared_is_held_at_each_ones_own_talker_port() {
    // A refused change of the address is not held.
    let mut table = in_domain(&settings(3));
    join_talker(&mut table, 1, &talker(STREAM));
    let mut changed = talker(STREAM);
    changed.parameters.destination = talker(STREAM + 1).parameters.destination;
    join_talker(&mut table, 1, &changed);
    join_talker(&mut table, 1, &talker(STREAM + 1));
    advance(&mut table, 1);
    assert_eq!(line(&table, 3, STREAM), "failed 16 none filter");
    assert_eq!(line(&table, 3, STREAM + 1), ADVERTISED);
    // Nor is that of a second Talker compared.
    let mut table = in_domain(&settings(3));
    join_talker(&mut table, 1, &talker(STREAM));
    join_talker(&mut table, 2, &changed);
    join_talker(&mut table, 1, &talker(STREAM + 1));
    advance(&mut table, 1);
    assert_eq!(line(&table, 3, STREAM + 1), ADVERTISED);
}

// ---- the order of the steps ----

#[test]
fn the_order_is_13_8_5_15_14() {
    // Port 1 brings STREAM in, port 2 a stream that shares its address; the limit is 1.
    let table_with = |change: fn(&mut Settings, &mut Talker), hears_domain: bool| {
        let mut settings = limited(3, 1);
        let mut second = sharing(STREAM + 1);
        change(&mut settings, &mut second);
        let mut table = started(&settings);
        for port in 1..=if hears_domain { 3 } else { 2 } {
            accept(&mut table, port, &own_domain(&settings));
        }
        join_talker(&mut table, 1, &talker(STREAM));
        join_talker(&mut table, 2, &second);
        advance(&mut table, 1);
        line(&table, 3, STREAM + 1)
    };
    assert_eq!(
        table_with(|_, second| second.parameters.priority = 5, false),
        "failed 13 none filter"
    );
    assert_eq!(table_with(|_, _| {}, false), "failed 8 none filter");
    assert_eq!(table_with(|_, _| {}, true), SHARED);
    assert_eq!(table_with(|_, second| second.parameters.vlan = 3, true), PAST);
    let past_and_large = |_: &mut Settings, second: &mut Talker| {
        second.parameters.vlan = 3;
        second.parameters.max_frame_size = 1_523;
    };
    assert_eq!(table_with(past_and_large, true), PAST);
    let large_alone = |settings: &mut Settings, second: &mut Talker| {
        settings.fan_in_limit = 2;
        second.parameters.vlan = 3;
        second.parameters.max_frame_size = 1_523;
    };
    assert_eq!(table_with(large_alone, true), "failed 14 none filter");
}
