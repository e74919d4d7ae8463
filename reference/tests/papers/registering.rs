//! Registering (01, "Registering"), and number 8's count.

use crate::helpers::*;
use reference::frame::{FrameDraft, MessageDraft};
use reference::lent::Table;
use reference::pdu::{AttributeType, Failure, ListenerType};
use reference::registrations::{OnPort, TalkerRegistration};

fn on_port(table: &Table, port: usize) -> OnPort {
    let bridge = table.bridge().unwrap();
    bridge
        .registrations
        .streams
        .get(&STREAM)
        .map_or(OnPort::default(), |ports| ports[port - 1].clone())
}

fn talker_on(table: &Table, port: usize) -> TalkerRegistration {
    on_port(table, port).talker.expect("a Talker is registered")
}

fn leaving_of_talker(table: &Table) -> Option<u32> {
    talker_on(table, 1).leaving
}

/// A bridge with a Talker Advertise on port 1, at clock 100.
fn with_talker() -> Table {
    let mut table = started(&settings(2));
    advance(&mut table, 100);
    join_talker(&mut table, 1, &talker(STREAM));
    table
}

#[test]
fn joins_register_and_in_mt_and_lv_do_not() {
    for (event, joins) in
        [(NEW, true), (JOIN_IN, true), (IN, false), (JOIN_MT, true), (MT, false), (LV, false)]
    {
        let mut table = started(&settings(2));
        accept(&mut table, 1, &talker_frame(&talker(STREAM), &[event]));
        assert_eq!(held(&table).len(), usize::from(joins));
        let mut table = started(&settings(2));
        accept(&mut table, 1, &listener_frame(STREAM, event, ASKING));
        assert_eq!(held(&table).len(), usize::from(joins));
    }
}

#[test]
fn ignore_does_nothing_with_any_event() {
    for event in [NEW, JOIN_IN, IN, JOIN_MT, MT, LV] {
        let mut table = started(&settings(2));
        join_listener(&mut table, 1, STREAM, READY);
        let before = table.clone();
        accept(&mut table, 1, &listener_frame(STREAM, event, IGNORE));
        accept(&mut table, 1, &listener_frame(STREAM + 1, event, IGNORE));
        assert_eq!(table, before);
    }
}

#[test]
fn a_listener_join_replaces_the_declaration_type_and_ends_leaving() {
    let mut table = started(&settings(2));
    join_listener(&mut table, 1, STREAM, READY);
    accept(&mut table, 1, &listener_frame(STREAM, LV, READY));
    join_listener(&mut table, 1, STREAM, ASKING);
    assert_eq!(registered_listener(&table, 1, STREAM), Some(ListenerType::AskingFailed));
    assert_eq!(on_port(&table, 1).listener.unwrap().leaving, None);
}

#[test]
fn listener_lv_leaves_whatever_its_listener_type_is() {
    for listener_type in [ASKING, READY, READY_FAILED] {
        let mut table = started(&settings(2));
        join_listener(&mut table, 1, STREAM, READY);
        accept(&mut table, 1, &listener_frame(STREAM, LV, listener_type));
        assert_eq!(on_port(&table, 1).listener.unwrap().leaving, Some(0));
        assert_eq!(registered_listener(&table, 1, STREAM), Some(ListenerType::Ready));
    }
}

#[test]
fn lv_of_the_other_talker_type_touches_nothing() {
    let mut table = with_talker();
    accept(&mut table, 1, &talker_frame(&failed(STREAM, 9), &[LV]));
    assert_eq!(leaving_of_talker(&table), None);
    accept(&mut table, 1, &talker_frame(&talker(STREAM), &[LV]));
    assert_eq!(leaving_of_talker(&table), Some(100));
    let mut table = started(&settings(2));
    join_talker(&mut table, 1, &failed(STREAM, 9));
    accept(&mut table, 1, &talker_frame(&talker(STREAM), &[LV]));
    assert_eq!(leaving_of_talker(&table), None);
}

#[test]
fn leave_all_starts_leaving_that_attribute_type_on_that_port_only() {
    let mut table = started(&settings(2));
    for port in [1, 2] {
        join_talker(&mut table, port, &talker(STREAM));
        join_listener(&mut table, port, STREAM, READY);
        join_talker(&mut table, port, &failed(STREAM + 1, 9));
    }
    advance(&mut table, 30);
    accept(&mut table, 1, &leave_all(AttributeType::TalkerAdvertise));
    assert_eq!(talker_on(&table, 1).leaving, Some(30));
    assert_eq!(on_port(&table, 1).listener.unwrap().leaving, None);
    assert_eq!(talker_on(&table, 2).leaving, None);
    let bridge = table.bridge().unwrap();
    let other = bridge.registrations.streams[&(STREAM + 1)][0].talker.clone().unwrap();
    assert_eq!(other.leaving, None);
    accept(&mut table, 1, &leave_all(AttributeType::Listener));
    assert_eq!(on_port(&table, 1).listener.unwrap().leaving, Some(30));
    accept(&mut table, 1, &leave_all(AttributeType::TalkerFailed));
    let bridge = table.bridge().unwrap();
    let other = bridge.registrations.streams[&(STREAM + 1)][0].talker.clone().unwrap();
    assert_eq!(other.leaving, Some(30));
}

#[test]
fn after_a_changed_join_the_held_type_counts_for_lv() {
    let mut table = with_talker();
    let mut changed = failed(STREAM, 9);
    changed.parameters.vlan = 3;
    join_talker(&mut table, 1, &changed);
    accept(&mut table, 1, &talker_frame(&changed, &[LV]));
    assert_eq!(leaving_of_talker(&table), None);
    accept(&mut table, 1, &talker_frame(&talker(STREAM), &[LV]));
    assert_eq!(leaving_of_talker(&table), Some(100));
}

#[test]
fn lv_asks_for_stream_id_and_type_only() {
    let mut other = talker(STREAM);
    other.parameters.destination = 1;
    other.parameters.rank = 0;
    other.parameters.max_frame_size = 9;
    other.accumulated_latency = 77;
    let mut table = with_talker();
    accept(&mut table, 1, &talker_frame(&other, &[LV]));
    assert_eq!(leaving_of_talker(&table), Some(100));
    assert!(!talker_on(&table, 1).changed);
}

#[test]
fn leave_all_acts_before_its_own_vectors_values_and_on_earlier_vectors() {
    // The first vector joins; the second leaves all and joins another.
    let mut second = listener_vector(STREAM + 1, &[JOIN_MT], &[READY]);
    second.leave_all_event = 1;
    let vectors = vec![listener_vector(STREAM, &[JOIN_MT], &[READY]), second];
    let mut table = started(&settings(2));
    accept(&mut table, 1, &one_message(AttributeType::Listener, vectors));
    advance(&mut table, 60);
    assert_eq!(held(&table), [STREAM + 1]);
}

#[test]
fn the_first_time_of_leaving_stays() {
    for (first, second) in [
        (talker_frame(&talker(STREAM), &[LV]), leave_all(AttributeType::TalkerAdvertise)),
        (leave_all(AttributeType::TalkerAdvertise), talker_frame(&talker(STREAM), &[LV])),
        (talker_frame(&talker(STREAM), &[LV]), talker_frame(&talker(STREAM), &[LV])),
    ] {
        let mut table = with_talker();
        accept(&mut table, 1, &first);
        advance(&mut table, 130);
        accept(&mut table, 1, &second);
        assert_eq!(leaving_of_talker(&table), Some(100));
        advance(&mut table, 159);
        assert_eq!(held(&table), [STREAM]);
        advance(&mut table, 160);
        assert!(held(&table).is_empty());
    }
}

#[test]
fn leaving_begins_at_the_clock_of_the_last_accepted_advance() {
    let mut table = with_talker();
    assert_eq!(table.advance(50), 9);
    accept(&mut table, 1, &leave_all(AttributeType::TalkerAdvertise));
    assert_eq!(leaving_of_talker(&table), Some(100));
}

#[test]
fn an_equal_talker_join_replaces_type_latency_and_failure_fields() {
    let mut table = with_talker();
    let mut again = failed(STREAM, 9);
    again.accumulated_latency = 500;
    join_talker(&mut table, 1, &again);
    let held = talker_on(&table, 1);
    assert_eq!(held.failure, Some(Failure { bridge_id: 0x1111_2222_3333_4444, code: 9 }));
    assert_eq!(held.accumulated_latency, 500);
    assert!(!held.changed);
}

#[test]
fn the_last_equal_join_decides_between_advertise_and_failed() {
    let mut table = with_talker();
    join_talker(&mut table, 1, &failed(STREAM, 9));
    join_talker(&mut table, 1, &talker(STREAM));
    assert_eq!(talker_on(&table, 1).attribute_type(), AttributeType::TalkerAdvertise);
    // An Advertise has no failure fields, also where it replaces a Failed.
    assert_eq!(talker_on(&table, 1).failure, None);
    let mut fresh = with_talker();
    join_talker(&mut fresh, 1, &talker(STREAM));
    assert_eq!(table, fresh);
}

#[test]
fn a_changed_talker_join_keeps_held_type_and_values_ends_leaving_and_sets_the_mark() {
    let changes: [fn(&mut reference::pdu::Talker); 6] = [
        |talker| talker.parameters.destination ^= 1 << 47,
        |talker| talker.parameters.vlan ^= 1 << 15,
        |talker| talker.parameters.max_frame_size += 1,
        |talker| talker.parameters.max_interval_frames += 1,
        |talker| talker.parameters.priority = 2,
        |talker| talker.parameters.rank = 0,
    ];
    for change in changes {
        let mut table = with_talker();
        accept(&mut table, 1, &talker_frame(&talker(STREAM), &[LV]));
        let mut changed = failed(STREAM, 9);
        changed.accumulated_latency = 500;
        change(&mut changed);
        join_talker(&mut table, 1, &changed);
        let expected = TalkerRegistration {
            parameters: talker(STREAM).parameters,
            accumulated_latency: 0,
            first_latency: 0,
            failure: None,
            changed: true,
            leaving: None,
        };
        assert_eq!(talker_on(&table, 1), expected);
    }
}

#[test]
fn the_changed_mark_is_cleared_only_by_an_equal_join_or_removal() {
    let mut changed = talker(STREAM);
    changed.parameters.rank = 0;
    let mut table = with_talker();
    join_talker(&mut table, 1, &changed);
    accept(&mut table, 1, &talker_frame(&talker(STREAM), &[LV]));
    accept(&mut table, 1, &leave_all(AttributeType::TalkerAdvertise));
    accept(&mut table, 1, &talker_frame(&talker(STREAM), &[IN, MT]));
    advance(&mut table, 159);
    assert!(talker_on(&table, 1).changed);
    join_talker(&mut table, 1, &talker(STREAM));
    assert!(!talker_on(&table, 1).changed);
    join_talker(&mut table, 1, &changed);
    accept(&mut table, 1, &talker_frame(&talker(STREAM), &[LV]));
    advance(&mut table, 159 + 60);
    join_talker(&mut table, 1, &changed);
    assert!(!talker_on(&table, 1).changed);
    assert_eq!(talker_on(&table, 1).parameters.rank, 0);
}

#[test]
fn latency_and_reserved_bits_are_not_compared_but_all_16_bits_of_the_vlan_are() {
    let mut same = talker(STREAM);
    same.accumulated_latency = 1;
    let mut table = with_talker();
    join_talker(&mut table, 1, &same);
    assert!(!talker_on(&table, 1).changed);
    for bit in 0..16 {
        let mut other = talker(STREAM);
        other.parameters.vlan ^= 1 << bit;
        let mut table = with_talker();
        join_talker(&mut table, 1, &other);
        assert!(talker_on(&table, 1).changed);
    }
}

#[test]
fn the_destination_compared_is_first_values_plus_n() {
    let mut table = with_talker();
    // STREAM as value 1 of a vector that starts one before it.
    accept(&mut table, 1, &talker_frame(&talker(STREAM - 1), &[MT, JOIN_IN]));
    assert!(!talker_on(&table, 1).changed);
    let mut off = talker(STREAM - 1);
    off.parameters.destination += 1;
    accept(&mut table, 1, &talker_frame(&off, &[MT, JOIN_IN]));
    assert!(talker_on(&table, 1).changed);
}

#[test]
fn number_8_counts_different_new_streams_joined_over_the_whole_pdu() {
    let mut table = started(&settings(2));
    let first = |count: usize| {
        let vector = listener_vector(STREAM, &vec![JOIN_MT; count], &vec![READY; count]);
        MessageDraft::new(AttributeType::Listener, vec![vector])
    };
    // 64 different streams, 32 of them named three times, as Listener and as Talker.
    let count = 32;
    let talkers = MessageDraft::new(
        AttributeType::TalkerAdvertise,
        vec![talker_vector(&talker(STREAM), &[JOIN_IN; 32])],
    );
    let frame = FrameDraft::new(vec![first(64), first(count), talkers]);
    accept(&mut table, 1, &frame.octets());
    assert_eq!(held(&table).len(), 64);
}

#[test]
fn number_8_does_not_count_what_does_not_join() {
    let mut table = started(&settings(2));
    let all = listener_vector(STREAM, &[JOIN_MT; 64], &[READY; 64]);
    accept(&mut table, 1, &one_message(AttributeType::Listener, vec![all]));
    let others = STREAM + 100;
    let quiet = listener_vector(
        others,
        &[LV, IN, MT, JOIN_MT, NEW, JOIN_IN],
        &[READY, READY, READY, IGNORE, IGNORE, IGNORE],
    );
    accept(&mut table, 1, &one_message(AttributeType::Listener, vec![quiet]));
    accept(&mut table, 1, &talker_frame(&talker(others), &[LV, IN, MT]));
    let domain = one_message(AttributeType::Domain, vec![domain_vector(1, 1, &[JOIN_MT; 3])]);
    accept(&mut table, 1, &domain);
    assert_eq!(held(&table).len(), 64);
}

#[test]
fn number_8_counts_a_stream_joined_and_left_in_the_same_pdu() {
    let mut table = started(&settings(2));
    let most = listener_vector(STREAM, &[JOIN_MT; 63], &[READY; 63]);
    accept(&mut table, 1, &one_message(AttributeType::Listener, vec![most]));
    let vectors = vec![
        listener_vector(STREAM + 100, &[JOIN_MT], &[READY]),
        listener_vector(STREAM + 100, &[LV], &[READY]),
        listener_vector(STREAM + 101, &[JOIN_MT], &[READY]),
    ];
    assert_eq!(table.receive(1, &one_message(AttributeType::Listener, vectors)), 8);
}

#[test]
fn leaving_streams_are_held_until_an_advance_removes_them() {
    let mut table = started(&settings(2));
    let all = listener_vector(STREAM, &[JOIN_MT; 64], &[READY; 64]);
    accept(&mut table, 1, &one_message(AttributeType::Listener, vec![all]));
    // A PDU can't free room for itself, nor does leaving.
    let mut swap = listener_vector(STREAM + 100, &[JOIN_MT], &[READY]);
    swap.leave_all_event = 1;
    let swap = one_message(AttributeType::Listener, vec![swap]);
    assert_eq!(table.receive(1, &swap), 8);
    accept(&mut table, 1, &leave_all(AttributeType::Listener));
    advance(&mut table, 59);
    assert_eq!(table.receive(1, &swap), 8);
    advance(&mut table, 60);
    assert!(held(&table).is_empty());
    // Room freed by a withdrawal is used again.
    accept(&mut table, 1, &swap);
    assert_eq!(held(&table), [STREAM + 100]);
}

#[test]
fn a_stream_is_held_while_some_port_has_a_registration_of_it() {
    let mut table = with_talker();
    join_listener(&mut table, 2, STREAM, READY);
    accept(&mut table, 1, &talker_frame(&talker(STREAM), &[LV]));
    advance(&mut table, 160);
    assert_eq!(held(&table), [STREAM]);
    accept(&mut table, 2, &listener_frame(STREAM, LV, READY));
    advance(&mut table, 219);
    assert_eq!(held(&table), [STREAM]);
    advance(&mut table, 220);
    assert!(held(&table).is_empty());
}
