//! P1 to P13 of 01, "Marked examples and near misses", with matching Domain joins first (02, (ii)).

use crate::helpers::*;
use reference::lent::Table;
use reference::mrp::{self, Event};
use reference::pdu::{self, ListenerType, Talker};
use reference::settings::{Class, PerClass};
use reference::settling::{self, BitsPerSecond, OctetsPerInterval};

/// A frame of three Talkers whose one ThreePackedEvents octet is given.
fn frame_with_event_octet(octet: u8) -> Vec<u8> {
    let mut vector = talker_vector(&talker(STREAM), &[LV, LV, LV]);
    vector.first_event_octet = Some(octet);
    one_message(pdu::AttributeType::TalkerAdvertise, vec![vector])
}

#[test]
fn p1_event_octet_215_is_three_times_lv() {
    assert_eq!(mrp::three_events(215), [Event::Lv; 3]);
    let read = pdu::read(&frame_with_event_octet(215)).unwrap();
    let events: Vec<Event> =
        read.vectors().flat_map(|vector| &vector.values).map(|(event, _)| *event).collect();
    assert_eq!(events, [Event::Lv; 3]);
    assert_eq!(in_domain(&settings(2)).receive(1, &frame_with_event_octet(215)), 0);
}

#[test]
fn p2_event_octet_216_is_refused_with_6() {
    assert_eq!(in_domain(&settings(2)).receive(1, &frame_with_event_octet(216)), 6);
}

#[test]
fn p3_size_224_overhead_42_one_frame_is_267_octets_and_17088000_in_class_a() {
    assert_eq!(settling::demand(&port(), 224, 1), OctetsPerInterval(267));
    assert_eq!(settling::rate(Class::A, OctetsPerInterval(267)), BitsPerSecond(17_088_000));
}

#[test]
fn p4_the_same_is_8544000_in_class_b() {
    assert_eq!(settling::rate(Class::B, OctetsPerInterval(267)), BitsPerSecond(8_544_000));
    let mut settings = settings(2);
    settings.ports[1].limit = PerClass { a: 0, b: 8_544_000 };
    let mut table = in_domain(&settings);
    let mut class_b = talker(STREAM);
    class_b.parameters.priority = 2;
    join_talker(&mut table, 1, &class_b);
    join_listener(&mut table, 2, STREAM, READY);
    advance(&mut table, 1);
    assert_eq!(table.report(2, 0).totals, PerClass { a: 0, b: 8_544_000 });
}

/// A Talker on port 1 and a Ready Listener on port 2, whose class A limit is given.
fn with_limit(limit: u64) -> Table {
    let mut settings = settings(2);
    settings.ports[1].limit.a = limit;
    let mut table = in_domain(&settings);
    join_talker(&mut table, 1, &talker(STREAM));
    join_listener(&mut table, 2, STREAM, READY);
    advance(&mut table, 100);
    table
}

#[test]
fn p5_limit_17088000_admits() {
    let table = with_limit(17_088_000);
    assert_eq!(line(&table, 2, STREAM), "advertise 0 none forward");
    assert_eq!(table.report(2, 0).totals.a, 17_088_000);
}

#[test]
fn p6_limit_17087999_gives_1() {
    let table = with_limit(17_087_999);
    assert_eq!(line(&table, 2, STREAM), "failed 1 none filter");
    assert_eq!(line(&table, 1, STREAM), "none 0 asking none");
    assert_eq!(table.report(2, 0).totals.a, 0);
}

#[test]
fn p7_ready_with_asking_failed_is_ready_failed() {
    assert_eq!(
        settling::merge(Some(ListenerType::Ready), Some(ListenerType::AskingFailed)),
        Some(ListenerType::ReadyFailed)
    );
    let mut table = in_domain(&settings(3));
    join_talker(&mut table, 1, &talker(STREAM));
    join_listener(&mut table, 2, STREAM, READY);
    join_listener(&mut table, 3, STREAM, ASKING);
    advance(&mut table, 1);
    assert_eq!(line(&table, 1, STREAM), "none 0 readyfailed none");
}

/// Four Talkers of rank 1 on port 1, each with a Ready Listener on port 2.
fn four_ready() -> Table {
    let mut table = in_domain(&settings(2));
    for n in 0..4 {
        join_talker(&mut table, 1, &talker(STREAM + n));
        join_listener(&mut table, 2, STREAM + n, READY);
    }
    advance(&mut table, 100);
    table
}

#[test]
fn p8_four_such_ready_reserve_68352000_of_75000000() {
    let table = four_ready();
    for n in 0..4 {
        assert_eq!(line(&table, 2, STREAM + n), "advertise 0 none forward");
    }
    assert_eq!(table.report(2, 0).totals.a, 68_352_000);
    assert_eq!(table.report(2, 0).limits.a, 75_000_000);
}

#[test]
fn p9_a_less_important_fifth_gets_1() {
    // The fifth is younger, though its StreamID is the lowest.
    let mut table = four_ready();
    join_talker(&mut table, 1, &talker(STREAM - 1));
    join_listener(&mut table, 2, STREAM - 1, READY);
    advance(&mut table, 200);
    assert_eq!(line(&table, 2, STREAM - 1), "failed 1 none filter");
    assert_eq!(table.report(2, 0).totals.a, 68_352_000);
    // Of the same second the highest StreamID is the least important.
    let mut table = in_domain(&settings(2));
    for n in 0..5 {
        join_talker(&mut table, 1, &talker(STREAM + n));
        join_listener(&mut table, 2, STREAM + n, READY);
    }
    advance(&mut table, 100);
    assert_eq!(line(&table, 2, STREAM + 4), "failed 1 none filter");
}

#[test]
fn p10_a_ready_fifth_of_rank_0_is_in_and_the_least_important_of_rank_1_gets_1() {
    let mut table = four_ready();
    let mut fifth = talker(STREAM + 4);
    fifth.parameters.rank = 0;
    join_talker(&mut table, 1, &fifth);
    join_listener(&mut table, 2, STREAM + 4, READY);
    advance(&mut table, 200);
    for n in [0, 1, 2, 4] {
        assert_eq!(line(&table, 2, STREAM + n), "advertise 0 none forward");
    }
    assert_eq!(line(&table, 2, STREAM + 3), "failed 1 none filter");
    assert_eq!(line(&table, 1, STREAM + 3), "none 0 asking none");
    assert_eq!(table.report(2, 0).totals.a, 68_352_000);
}

fn at_the_last_unique_id() -> Talker {
    talker(0x0200_0000_0001_ffff)
}

#[test]
fn p11_unique_id_ffff_with_2_values_is_7() {
    let frame = talker_frame(&at_the_last_unique_id(), &[JOIN_MT, JOIN_MT]);
    assert_eq!(in_domain(&settings(2)).receive(1, &frame), 7);
}

#[test]
fn p12_unique_id_ffff_with_1_value_is_read() {
    let mut table = in_domain(&settings(2));
    assert_eq!(table.receive(1, &talker_frame(&at_the_last_unique_id(), &[JOIN_MT])), 0);
    assert_eq!(held(&table), [0x0200_0000_0001_ffff]);
}

#[test]
fn p13_leave_time_60_begun_at_100_is_held_at_159_and_gone_at_160() {
    for event in [LV, JOIN_MT] {
        let mut table = in_domain(&settings(2));
        join_talker(&mut table, 1, &talker(STREAM));
        advance(&mut table, 100);
        accept(&mut table, 1, &talker_frame(&talker(STREAM), &[event]));
        advance(&mut table, 159);
        assert_eq!(held(&table), [STREAM]);
        advance(&mut table, 160);
        assert_eq!(held(&table).is_empty(), event == LV);
    }
}

#[test]
fn shut_out_ages_as_rounded_difference() {
    // The older stream has the higher StreamID. Entries made at 199 and 200 differ in age, those
    // made at 100 and 199 don't, whatever the time of the deciding advance.
    for (first, second, older_wins) in [(199, 200, true), (100, 199, false)] {
        let mut settings = settings(2);
        settings.ports[1].limit.a = 17_088_000;
        let mut table = in_domain(&settings);
        join_talker(&mut table, 1, &talker(STREAM + 1));
        join_listener(&mut table, 2, STREAM + 1, READY);
        advance(&mut table, first);
        join_talker(&mut table, 1, &talker(STREAM));
        join_listener(&mut table, 2, STREAM, READY);
        advance(&mut table, second);
        for time in [250, 299, 300, 350] {
            advance(&mut table, time);
            let expected =
                if older_wins { "advertise 0 none forward" } else { "failed 1 none filter" };
            assert_eq!(line(&table, 2, STREAM + 1), expected);
        }
    }
}

#[test]
fn shut_out_stopping_at_the_first_stream_that_does_not_fit() {
    let mut settings = settings(2);
    settings.ports[1].limit.a = 17_088_000;
    let mut table = in_domain(&settings);
    let mut large = talker(STREAM);
    large.parameters.max_frame_size = 225;
    join_talker(&mut table, 1, &large);
    join_listener(&mut table, 2, STREAM, READY);
    join_talker(&mut table, 1, &talker(STREAM + 1));
    join_listener(&mut table, 2, STREAM + 1, READY);
    advance(&mut table, 1);
    assert_eq!(line(&table, 2, STREAM), "failed 1 none filter");
    assert_eq!(line(&table, 2, STREAM + 1), "advertise 0 none forward");
}

#[test]
fn shut_out_giving_a_stream_without_ready_listeners_a_share() {
    let mut settings = settings(2);
    settings.ports[1].limit.a = 17_088_000;
    let mut table = in_domain(&settings);
    join_talker(&mut table, 1, &talker(STREAM));
    join_talker(&mut table, 1, &talker(STREAM + 1));
    join_listener(&mut table, 2, STREAM + 1, ASKING);
    join_talker(&mut table, 1, &talker(STREAM + 2));
    join_listener(&mut table, 2, STREAM + 2, READY_FAILED);
    advance(&mut table, 1);
    assert_eq!(line(&table, 2, STREAM), "advertise 0 none filter");
    assert_eq!(line(&table, 2, STREAM + 1), "advertise 0 none filter");
    assert_eq!(line(&table, 2, STREAM + 2), "advertise 0 none forward");
    assert_eq!(table.report(2, 0).totals.a, 17_088_000);
}
