//! Talker pruning (02, (vi); 35.2.4.3.1).

use crate::helpers::*;
use reference::lent::Table;
use reference::settings::{self, Settings};

const ADVERTISED: &str = "advertise 0 none filter";
const NONE: &str = "none 0 none none";

/// Settings of so many ports with pruning on.
fn pruning(ports: usize) -> Settings {
    Settings { pruning: true, ..settings(ports) }
}

fn destination() -> u64 {
    talker(STREAM).parameters.destination
}

/// A bridge of three ports whose neighbours are in its domain, with a Talker on port 1.
fn three_ports(settings: &Settings) -> Table {
    let mut table = in_domain(settings);
    join_talker(&mut table, 1, &talker(STREAM));
    table
}

/// The lines of a stream on ports 2 and 3.
fn lines(table: &Table) -> [String; 2] {
    [2, 3].map(|port| line(table, port, STREAM))
}

#[test]
fn the_setting_is_the_top_bit_before_the_vlan() {
    let octets = settings::write(&pruning(2));
    assert_eq!(octets[11..14], [0x80, 2, 0]);
    assert!(started(&pruning(2)).bridge().unwrap().settings.pruning);
    assert!(!started(&settings(2)).bridge().unwrap().settings.pruning);
    // The Domain declarations have the VLAN without it.
    assert_eq!(written(&started(&pruning(2)), 1, 0), written(&started(&settings(2)), 1, 0));
}

#[test]
fn a_port_without_the_destination_gets_column_none() {
    let mut table = three_ports(&pruning(3));
    accept_mmrp(&mut table, 3, &mac_frame(destination(), &[JOIN_MT]));
    accept_mmrp(&mut table, 2, &mac_frame(destination() + 1, &[JOIN_MT]));
    advance(&mut table, 100);
    assert_eq!(lines(&table), [NONE, ADVERTISED]);
    // Nothing is declared there but the domain.
    assert_eq!(written(&table, 2, 0).1, 2);
    assert_eq!(written(&table, 3, 0).1, 3);
}

#[test]
fn with_pruning_off_addresses_are_held_and_prune_nothing() {
    let mut table = three_ports(&settings(3));
    accept_mmrp(&mut table, 3, &mac_frame(destination(), &[JOIN_MT]));
    advance(&mut table, 100);
    assert_eq!(lines(&table), [ADVERTISED, ADVERTISED]);
    assert!(table.bridge().unwrap().registrations.addresses[2].contains_key(&destination()));
}

#[test]
fn the_talkers_own_port_needs_no_address() {
    let mut table = three_ports(&pruning(3));
    accept_mmrp(&mut table, 2, &mac_frame(destination(), &[JOIN_MT]));
    join_listener(&mut table, 2, STREAM, READY);
    advance(&mut table, 100);
    assert_eq!(line(&table, 1, STREAM), "none 0 ready none");
}

#[test]
fn an_address_counts_from_the_next_advance_to_its_removal() {
    let mut table = three_ports(&pruning(3));
    advance(&mut table, 100);
    accept_mmrp(&mut table, 2, &mac_frame(destination(), &[JOIN_MT]));
    assert_eq!(line(&table, 2, STREAM), NONE);
    advance(&mut table, 100);
    assert_eq!(line(&table, 2, STREAM), ADVERTISED);
    accept_mmrp(&mut table, 2, &mac_frame(destination(), &[LV]));
    advance(&mut table, 159);
    assert_eq!(line(&table, 2, STREAM), ADVERTISED);
    advance(&mut table, 160);
    assert_eq!(line(&table, 2, STREAM), NONE);
}

#[test]
fn the_destination_is_that_held_at_the_talker_port() {
    let mut table = three_ports(&pruning(3));
    // A changed join doesn't move it, nor does a second Talker on another port.
    let mut other = talker(STREAM);
    other.parameters.destination = 0x91e0_f000_0099;
    join_talker(&mut table, 1, &other);
    join_talker(&mut table, 3, &other);
    accept_mmrp(&mut table, 2, &mac_frame(other.parameters.destination, &[JOIN_MT]));
    advance(&mut table, 100);
    assert_eq!(lines(&table), [NONE, NONE]);
    accept_mmrp(&mut table, 2, &mac_frame(destination(), &[JOIN_MT]));
    advance(&mut table, 100);
    assert_eq!(line(&table, 2, STREAM), "failed 16 none filter");
    // The VLAN isn't looked at.
    let mut vlan = talker(STREAM + 1);
    vlan.parameters.vlan = 77;
    join_talker(&mut table, 1, &vlan);
    accept_mmrp(&mut table, 2, &mac_frame(vlan.parameters.destination, &[JOIN_MT]));
    advance(&mut table, 100);
    assert_eq!(line(&table, 2, STREAM + 1), ADVERTISED);
}

#[test]
fn a_failed_stream_is_pruned_too() {
    let mut table = in_domain(&pruning(3));
    join_talker(&mut table, 1, &failed(STREAM, 9));
    accept_mmrp(&mut table, 3, &mac_frame(destination(), &[JOIN_MT]));
    advance(&mut table, 100);
    assert_eq!(lines(&table), [NONE, "failed 9 none filter"]);
}

#[test]
fn pruned_with_a_listener_filters_and_passes_nothing_on() {
    let mut table = three_ports(&pruning(3));
    for port in [2, 3] {
        join_listener(&mut table, port, STREAM, READY);
    }
    accept_mmrp(&mut table, 3, &mac_frame(destination(), &[JOIN_MT]));
    advance(&mut table, 100);
    assert_eq!(lines(&table), ["none 0 none filter", "advertise 0 none forward"]);
    assert_eq!(line(&table, 1, STREAM), "none 0 ready none");
    assert_eq!(report(&table, 2, STREAM).totals.a, 0);
    accept_mmrp(&mut table, 3, &mac_frame(destination(), &[LV]));
    advance(&mut table, 160);
    assert_eq!(lines(&table), ["none 0 none filter", "none 0 none filter"]);
    assert_eq!(line(&table, 1, STREAM), NONE);
}

#[test]
fn without_an_entry_age_starts_anew_when_the_address_comes() {
    let since = |table: &Table, port: usize| {
        table.bridge().unwrap().settled.streams[&STREAM].ports[port - 1].entry_since
    };
    let mut table = three_ports(&pruning(3));
    join_listener(&mut table, 3, STREAM, READY);
    advance(&mut table, 100);
    assert_eq!((since(&table, 2), since(&table, 3)), (None, Some(1)));
    for port in [2, 3] {
        accept_mmrp(&mut table, port, &mac_frame(destination(), &[JOIN_MT]));
    }
    advance(&mut table, 300);
    // A filtering entry for a Listener was there before.
    assert_eq!((since(&table, 2), since(&table, 3)), (Some(3), Some(1)));
    for port in [2, 3] {
        accept_mmrp(&mut table, port, &mac_frame(destination(), &[LV]));
    }
    advance(&mut table, 400);
    assert_eq!((since(&table, 2), since(&table, 3)), (None, Some(1)));
    accept_mmrp(&mut table, 2, &mac_frame(destination(), &[JOIN_MT]));
    advance(&mut table, 500);
    assert_eq!(since(&table, 2), Some(5));
}

#[test]
fn unsupported_classes_come_first_and_all_else_behind() {
    let mut settings = pruning(3);
    settings.ports[1].supports.a = false;
    settings.ports[2].largest_frame = 10;
    let mut table = three_ports(&settings);
    advance(&mut table, 100);
    assert_eq!(lines(&table), [NONE, NONE]);
    for port in [2, 3] {
        accept_mmrp(&mut table, port, &mac_frame(destination(), &[JOIN_MT]));
    }
    advance(&mut table, 100);
    assert_eq!(lines(&table), [NONE, "failed 14 none filter"]);
}

#[test]
fn a_pruned_stream_counts_for_5() {
    // The lower StreamID comes in on port 3, the only one that asks, so it is declared nowhere.
    let mut table = in_domain(&pruning(3));
    let mut sharing = talker(STREAM + 1);
    sharing.parameters.destination = destination();
    join_talker(&mut table, 3, &talker(STREAM));
    join_talker(&mut table, 1, &sharing);
    accept_mmrp(&mut table, 3, &mac_frame(destination(), &[JOIN_MT]));
    advance(&mut table, 100);
    for port in [1, 2, 3] {
        assert_eq!(line(&table, port, STREAM), NONE);
    }
    assert_eq!(line(&table, 2, STREAM + 1), NONE);
    assert_eq!(line(&table, 3, STREAM + 1), "failed 5 none filter");
}

#[test]
fn a_pruned_stream_counts_for_15() {
    let mut settings = pruning(3);
    settings.fan_in_limit = 1;
    let mut table = three_ports(&settings);
    let second = talker(STREAM + 1);
    join_talker(&mut table, 2, &second);
    accept_mmrp(&mut table, 3, &mac_frame(second.parameters.destination, &[JOIN_MT]));
    advance(&mut table, 100);
    assert_eq!(lines(&table), [NONE, NONE]);
    assert_eq!(line(&table, 3, STREAM + 1), "failed 15 none filter");
}

#[test]
fn a_pruned_stream_takes_no_share() {
    // Room for one: the more important one is pruned, so the other gets it.
    let mut settings = pruning(2);
    settings.ports[1].limit.a = 17_088_000;
    let mut table = in_domain(&settings);
    for stream_id in [STREAM, STREAM + 1] {
        join_talker(&mut table, 1, &talker(stream_id));
        join_listener(&mut table, 2, stream_id, READY);
    }
    accept_mmrp(&mut table, 2, &mac_frame(destination() + 1, &[JOIN_MT]));
    advance(&mut table, 100);
    assert_eq!(line(&table, 2, STREAM), "none 0 none filter");
    assert_eq!(line(&table, 2, STREAM + 1), "advertise 0 none forward");
}
