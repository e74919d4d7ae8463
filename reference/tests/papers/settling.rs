//! Settling (01, "Settling").

use crate::helpers::*;
use reference::lent::Table;
use reference::pdu::{Failure, ListenerType, Talker};
use reference::settings::{Class, PerClass, Settings};
use reference::settled::{Column, SettledStream};
use reference::settling::{self, BitsPerSecond, OctetsPerInterval};

/// Port 1 has the Talker, port 2 a Ready Listener; settled.
fn settled_with(settings: &Settings, talker: &Talker) -> Table {
    let mut table = in_domain(settings);
    join_talker(&mut table, 1, talker);
    join_listener(&mut table, 2, talker.stream_id, READY);
    advance(&mut table, 100);
    table
}

/// What the last advance has taken down of the stream.
fn settled(table: &Table) -> SettledStream {
    table.bridge().unwrap().settled.streams[&STREAM].clone()
}

#[test]
fn column_a_none_without_a_talker_and_on_the_talker_port() {
    let mut table = in_domain(&settings(3));
    join_listener(&mut table, 2, STREAM, READY);
    advance(&mut table, 1);
    assert_eq!(line(&table, 1, STREAM), "none 0 none none");
    assert_eq!(line(&table, 2, STREAM), "none 0 none filter");
    join_talker(&mut table, 3, &talker(STREAM));
    advance(&mut table, 2);
    assert_eq!(line(&table, 1, STREAM), "advertise 0 none filter");
    assert_eq!(line(&table, 2, STREAM), "advertise 0 none forward");
    assert_eq!(line(&table, 3, STREAM), "none 0 ready none");
}

#[test]
fn the_talker_port_is_the_lowest_with_a_talker_registration() {
    let mut table = in_domain(&settings(3));
    join_talker(&mut table, 3, &talker(STREAM));
    join_talker(&mut table, 2, &failed(STREAM, 77));
    advance(&mut table, 1);
    assert_eq!(line(&table, 1, STREAM), "failed 77 none filter");
    assert_eq!(line(&table, 2, STREAM), "none 0 none none");
    assert_eq!(line(&table, 3, STREAM), "failed 77 none filter");
}

#[test]
fn column_b_none_where_the_class_is_not_supported_before_all_failures() {
    let mut settings = settings(2);
    settings.ports[1].supports.a = false;
    for talker in [talker(STREAM), failed(STREAM, 9)] {
        let table = settled_with(&settings, &talker);
        assert_eq!(line(&table, 2, STREAM), "none 0 none filter");
        assert_eq!(line(&table, 1, STREAM), "none 0 none none");
    }
    // The other class is not meant.
    settings.ports[1].supports = PerClass { a: true, b: false };
    let table = settled_with(&settings, &talker(STREAM));
    assert_eq!(line(&table, 2, STREAM), "advertise 0 none forward");
}

#[test]
fn column_c_registered_failed_keeps_its_bridge_id_and_code() {
    let table = settled_with(&settings(2), &failed(STREAM, 0));
    assert_eq!(line(&table, 2, STREAM), "failed 0 none filter");
    assert_eq!(line(&table, 1, STREAM), "none 0 asking none");
    let failure = Failure { bridge_id: 0x1111_2222_3333_4444, code: 0 };
    assert_eq!(settled(&table).ports[1].column, Column::Failed(failure));
}

#[test]
fn column_d_changed_mark_at_t_gives_16_with_this_bridge_id() {
    let mut table = settled_with(&settings(2), &talker(STREAM));
    let mut changed = talker(STREAM);
    changed.parameters.vlan = 9;
    join_talker(&mut table, 1, &changed);
    advance(&mut table, 101);
    assert_eq!(line(&table, 2, STREAM), "failed 16 none filter");
    let failure = Failure { bridge_id: settings(2).bridge_id, code: 16 };
    assert_eq!(settled(&table).ports[1].column, Column::Failed(failure));
    assert_eq!(settled(&table).parameters, talker(STREAM).parameters);
}

#[test]
fn column_e_a_second_talker_gives_4_on_its_port_only_and_d_comes_first() {
    let mut table = in_domain(&settings(3));
    join_talker(&mut table, 1, &talker(STREAM));
    // The second one's values, type and mark don't matter.
    let mut second = failed(STREAM, 99);
    second.parameters.priority = 5;
    join_talker(&mut table, 2, &second);
    second.parameters.vlan = 77;
    join_talker(&mut table, 2, &second);
    join_listener(&mut table, 3, STREAM, READY);
    advance(&mut table, 1);
    assert_eq!(line(&table, 2, STREAM), "failed 4 none filter");
    assert_eq!(line(&table, 3, STREAM), "advertise 0 none forward");
    let mut changed = talker(STREAM);
    changed.parameters.vlan = 9;
    join_talker(&mut table, 1, &changed);
    advance(&mut table, 2);
    assert_eq!(line(&table, 2, STREAM), "failed 16 none filter");
    assert_eq!(line(&table, 3, STREAM), "failed 16 none filter");
}

#[test]
fn c_comes_before_d_and_e() {
    let mut table = settled_with(&settings(2), &failed(STREAM, 8));
    let mut changed = failed(STREAM, 9);
    changed.parameters.vlan = 9;
    join_talker(&mut table, 1, &changed);
    join_talker(&mut table, 2, &talker(STREAM));
    advance(&mut table, 101);
    assert_eq!(line(&table, 2, STREAM), "failed 8 none filter");
}

#[test]
fn column_f_priority_that_is_no_class_gives_13_after_4() {
    let mut no_class = talker(STREAM);
    no_class.parameters.priority = 4;
    no_class.parameters.max_frame_size = 65_535;
    let mut settings = settings(2);
    settings.ports[1].supports = PerClass { a: false, b: false };
    let mut table = settled_with(&settings, &no_class);
    assert_eq!(line(&table, 2, STREAM), "failed 13 none filter");
    join_talker(&mut table, 2, &no_class);
    advance(&mut table, 101);
    assert_eq!(line(&table, 2, STREAM), "failed 4 none filter");
}

#[test]
fn column_g_max_frame_size_alone_above_the_largest_gives_14() {
    for (size, expected) in [(1522, "failed 1 none filter"), (1523, "failed 14 none filter")] {
        let mut large = talker(STREAM);
        large.parameters.max_frame_size = size;
        let table = settled_with(&settings(2), &large);
        assert_eq!(line(&table, 2, STREAM), expected);
    }
}

#[test]
fn column_h_a_demand_equal_to_what_is_left_is_admitted() {
    let mut settings = settings(2);
    for (limit, expected) in
        [(2 * 17_088_000, "advertise 0 none forward"), (2 * 17_088_000 - 1, "failed 1 none filter")]
    {
        settings.ports[1].limit.a = limit;
        let mut table = in_domain(&settings);
        for stream_id in [STREAM, STREAM + 1] {
            join_talker(&mut table, 1, &talker(stream_id));
            join_listener(&mut table, 2, stream_id, READY);
        }
        advance(&mut table, 1);
        assert_eq!(line(&table, 2, STREAM + 1), expected);
    }
}

#[test]
fn streams_without_a_ready_listener_are_tested_against_what_the_more_important_left() {
    let mut settings = settings(2);
    settings.ports[1].limit.a = 17_088_000;
    let mut table = in_domain(&settings);
    join_talker(&mut table, 1, &talker(STREAM));
    join_listener(&mut table, 2, STREAM, READY);
    join_talker(&mut table, 1, &talker(STREAM + 1));
    advance(&mut table, 1);
    assert_eq!(line(&table, 2, STREAM + 1), "failed 1 none filter");
    join_listener(&mut table, 2, STREAM, ASKING);
    advance(&mut table, 2);
    assert_eq!(line(&table, 2, STREAM + 1), "advertise 0 none filter");
}

#[test]
fn demand_0_always_fits() {
    let mut settings = settings(2);
    settings.ports[1].limit.a = 0;
    let mut nothing = talker(STREAM);
    nothing.parameters.max_interval_frames = 0;
    let table = settled_with(&settings, &nothing);
    assert_eq!(line(&table, 2, STREAM), "advertise 0 none forward");
    assert_eq!(table.report(2, 0).totals.a, 0);
}

#[test]
fn each_class_has_its_own_limit() {
    let mut settings = settings(2);
    settings.ports[1].limit = PerClass { a: 17_088_000, b: 8_544_000 };
    let mut table = in_domain(&settings);
    join_both_classes(&mut table);
    advance(&mut table, 1);
    assert_eq!(line(&table, 2, STREAM), "advertise 0 none forward");
    assert_eq!(line(&table, 2, STREAM + 1), "advertise 0 none forward");
    assert_eq!(table.report(2, 0).totals, PerClass { a: 17_088_000, b: 8_544_000 });
}

#[test]
fn doubling_applies_to_the_whole_product_and_is_the_outgoing_ports() {
    let mut settings = settings(2);
    settings.ports[0].sends_twice = true;
    settings.ports[0].overhead = 200;
    let table = settled_with(&settings, &talker(STREAM));
    assert_eq!(table.report(2, 0).totals.a, 17_088_000);
    settings.ports[0].sends_twice = false;
    settings.ports[1].sends_twice = true;
    let table = settled_with(&settings, &talker(STREAM));
    assert_eq!(table.report(2, 0).totals.a, 2 * 17_088_000);
    assert_eq!(settling::demand(&settings.ports[1], 224, 3), OctetsPerInterval(2 * 3 * 267));
}

#[test]
fn the_largest_demand_is_exact() {
    let mut large = port();
    large.sends_twice = true;
    large.overhead = 255;
    let demand = settling::demand(&large, 65_535, 65_535);
    assert_eq!(demand, OctetsPerInterval(2 * 65_791 * 65_535));
    let rate = settling::rate(Class::A, demand);
    assert_eq!(rate, BitsPerSecond(2 * 65_791 * 65_535 * 64_000));
    assert!(rate.0 < 1 << 49 && rate.0 >= 1 << 48);
}

#[test]
fn rank_comes_before_age_and_age_before_stream_id() {
    let mut settings = settings(2);
    settings.ports[1].limit.a = 17_088_000;
    let mut table = in_domain(&settings);
    // Old, rank 1, high StreamID.
    join_talker(&mut table, 1, &talker(STREAM + 9));
    join_listener(&mut table, 2, STREAM + 9, READY);
    advance(&mut table, 100);
    // Young, rank 1, low StreamID: age decides.
    join_talker(&mut table, 1, &talker(STREAM));
    join_listener(&mut table, 2, STREAM, READY);
    advance(&mut table, 200);
    assert_eq!(line(&table, 2, STREAM + 9), "advertise 0 none forward");
    assert_eq!(line(&table, 2, STREAM), "failed 1 none filter");
    // Youngest, rank 0, highest StreamID: rank decides.
    let mut emergency = talker(STREAM + 10);
    emergency.parameters.rank = 0;
    join_talker(&mut table, 1, &emergency);
    join_listener(&mut table, 2, STREAM + 10, READY);
    advance(&mut table, 300);
    assert_eq!(line(&table, 2, STREAM + 10), "advertise 0 none forward");
    assert_eq!(line(&table, 2, STREAM + 9), "failed 1 none filter");
    assert_eq!(table.report(2, 0).totals.a, 17_088_000);
}

#[test]
fn age_is_counted_from_the_whole_second_of_the_advance_that_first_made_an_entry() {
    let mut table = in_domain(&settings(2));
    let since = |table: &Table, port: usize| settled(table).ports[port - 1].entry_since;
    join_talker(&mut table, 1, &talker(STREAM));
    advance(&mut table, 199);
    assert_eq!(since(&table, 1), None);
    assert_eq!(since(&table, 2), Some(1));
    advance(&mut table, 200);
    assert_eq!(since(&table, 2), Some(1));
    // A Listener on t makes a filtering entry there, from this advance.
    join_listener(&mut table, 1, STREAM, READY);
    advance(&mut table, 345);
    assert_eq!(line(&table, 1, STREAM), "none 0 none filter");
    assert_eq!(since(&table, 1), Some(3));
}

#[test]
fn age_is_forgotten_when_the_entry_goes_and_runs_on_while_it_stays() {
    let mut table = in_domain(&settings(2));
    let since = |table: &Table| settled(table).ports[1].entry_since;
    // A Listener without a Talker has an entry already.
    join_listener(&mut table, 2, STREAM, READY);
    advance(&mut table, 100);
    assert_eq!(since(&table), Some(1));
    join_talker(&mut table, 1, &talker(STREAM));
    advance(&mut table, 200);
    assert_eq!(line(&table, 2, STREAM), "advertise 0 none forward");
    assert_eq!(since(&table), Some(1));
    // Port 2 becomes t (port 1 leaves): the Listener there keeps the entry.
    join_talker(&mut table, 2, &talker(STREAM));
    accept(&mut table, 1, &talker_frame(&talker(STREAM), &[LV]));
    advance(&mut table, 300);
    assert_eq!(line(&table, 2, STREAM), "none 0 none filter");
    assert_eq!(since(&table), Some(1));
    // Without the Listener the entry goes, and with it its age.
    accept(&mut table, 2, &listener_frame(STREAM, LV, READY));
    advance(&mut table, 400);
    assert_eq!(since(&table), None);
    join_listener(&mut table, 2, STREAM, READY);
    advance(&mut table, 500);
    assert_eq!(since(&table), Some(5));
}

#[test]
fn an_entry_made_by_this_advance_counts_from_this_advance() {
    let mut settings = settings(2);
    settings.ports[1].limit.a = 17_088_000;
    let mut table = in_domain(&settings);
    join_talker(&mut table, 1, &talker(STREAM + 1));
    advance(&mut table, 100);
    // Same second: the lower StreamID wins, though its entry is younger.
    join_talker(&mut table, 1, &talker(STREAM));
    join_listener(&mut table, 2, STREAM, READY);
    join_listener(&mut table, 2, STREAM + 1, READY);
    let mut same_second = table.clone();
    advance(&mut same_second, 199);
    assert_eq!(line(&same_second, 2, STREAM), "advertise 0 none forward");
    advance(&mut table, 200);
    assert_eq!(line(&table, 2, STREAM), "failed 1 none filter");
}

#[test]
fn the_entries_of_table_35_12() {
    let mut settings = settings(4);
    settings.ports[3].largest_frame = 0;
    for (listener, advertise, failed, none) in [
        (None, "advertise 0 none filter", "failed 14 none filter", "none 0 none none"),
        (Some(ASKING), "advertise 0 none filter", "failed 14 none filter", "none 0 none filter"),
        (Some(READY), "advertise 0 none forward", "failed 14 none filter", "none 0 none filter"),
        (
            Some(READY_FAILED),
            "advertise 0 none forward",
            "failed 14 none filter",
            "none 0 none filter",
        ),
    ] {
        let mut settings = settings.clone();
        settings.ports[2].supports.a = false;
        let mut table = in_domain(&settings);
        join_talker(&mut table, 1, &talker(STREAM));
        for port in [2, 3, 4] {
            if let Some(listener) = listener {
                join_listener(&mut table, port, STREAM, listener);
            }
        }
        advance(&mut table, 1);
        assert_eq!(line(&table, 2, STREAM), advertise);
        assert_eq!(line(&table, 3, STREAM), none);
        assert_eq!(line(&table, 4, STREAM), failed);
    }
}

#[test]
fn listeners_merge_as_table_35_14_says() {
    use ListenerType::{AskingFailed, Ready, ReadyFailed};
    let all = [None, Some(AskingFailed), Some(Ready), Some(ReadyFailed)];
    for one in all {
        for other in all {
            let expected = match (one, other) {
                (None, x) | (x, None) => x,
                (Some(x), Some(y)) if x == y => Some(x),
                _ => Some(ReadyFailed),
            };
            assert_eq!(settling::merge(one, other), expected);
            for third in all {
                assert_eq!(
                    settling::merge(settling::merge(one, other), third),
                    settling::merge(one, settling::merge(other, third))
                );
            }
        }
    }
}

#[test]
fn the_listener_passed_on_follows_the_column() {
    // Ports 2 and 3 Ready, port 3 fails with 14: Ready and Asking Failed merge.
    let mut settings = settings(4);
    settings.ports[2].largest_frame = 0;
    settings.ports[3].supports.a = false;
    let mut table = in_domain(&settings);
    join_talker(&mut table, 1, &talker(STREAM));
    join_listener(&mut table, 2, STREAM, READY);
    advance(&mut table, 1);
    assert_eq!(line(&table, 1, STREAM), "none 0 ready none");
    join_listener(&mut table, 3, STREAM, READY);
    advance(&mut table, 2);
    assert_eq!(line(&table, 1, STREAM), "none 0 readyfailed none");
    accept(&mut table, 2, &listener_frame(STREAM, LV, READY));
    advance(&mut table, 62);
    assert_eq!(line(&table, 1, STREAM), "none 0 asking none");
    // Column none passes nothing on.
    accept(&mut table, 3, &listener_frame(STREAM, LV, READY));
    join_listener(&mut table, 4, STREAM, READY);
    advance(&mut table, 122);
    assert_eq!(line(&table, 1, STREAM), "none 0 none none");
    assert_eq!(line(&table, 4, STREAM), "none 0 none filter");
}

#[test]
fn a_listener_registered_on_t_passes_nothing_on() {
    let mut table = in_domain(&settings(2));
    join_talker(&mut table, 1, &talker(STREAM));
    join_listener(&mut table, 1, STREAM, ASKING);
    join_listener(&mut table, 2, STREAM, READY);
    advance(&mut table, 1);
    assert_eq!(line(&table, 1, STREAM), "none 0 ready filter");
    assert_eq!(line(&table, 2, STREAM), "advertise 0 none forward");
}

#[test]
fn a_leaving_registration_counts_as_registered_until_removed() {
    let mut table = settled_with(&settings(2), &talker(STREAM));
    accept(&mut table, 1, &talker_frame(&talker(STREAM), &[LV]));
    accept(&mut table, 2, &listener_frame(STREAM, LV, READY));
    advance(&mut table, 159);
    assert_eq!(line(&table, 1, STREAM), "none 0 ready none");
    assert_eq!(line(&table, 2, STREAM), "advertise 0 none forward");
    assert_eq!(table.report(2, 0).totals.a, 17_088_000);
    advance(&mut table, 160);
    assert!(held(&table).is_empty());
    assert_eq!(table.report(2, 0).totals.a, 0);
}

#[test]
fn a_time_equal_to_the_clock_settles_again() {
    let mut table = in_domain(&settings(2));
    join_talker(&mut table, 1, &talker(STREAM));
    assert_eq!(line(&table, 2, STREAM), "none 0 none none");
    advance(&mut table, 0);
    assert_eq!(line(&table, 2, STREAM), "advertise 0 none filter");
}

#[test]
fn the_leave_time_near_the_clocks_end() {
    let mut table = in_domain(&settings(2));
    join_talker(&mut table, 1, &talker(STREAM));
    advance(&mut table, u32::MAX - 60);
    accept(&mut table, 1, &talker_frame(&talker(STREAM), &[LV]));
    advance(&mut table, u32::MAX - 1);
    assert_eq!(held(&table), [STREAM]);
    advance(&mut table, u32::MAX);
    assert!(held(&table).is_empty());
}

#[test]
fn latency_out_is_given_to_all_columns_and_capped() {
    let mut settings = settings(2);
    settings.ports[1].latency = PerClass { a: 1_000, b: 70 };
    let latency = |talker: &Talker| {
        let table = settled_with(&settings, talker);
        assert_ne!(settled(&table).ports[1].column, Column::None);
        settled(&table).ports[1].latency_out
    };
    let mut talker = talker(STREAM);
    talker.accumulated_latency = 5;
    assert_eq!(latency(&talker), 1_005);
    talker.accumulated_latency = u32::MAX - 1_000;
    assert_eq!(latency(&talker), u32::MAX);
    talker.accumulated_latency = u32::MAX - 999;
    assert_eq!(latency(&talker), u32::MAX);
    // Own and registered failures too; nothing is added without a class.
    talker.accumulated_latency = 5;
    talker.parameters.max_frame_size = 2_000;
    assert_eq!(latency(&talker), 1_005);
    talker.failure = Some(Failure { bridge_id: 1, code: 1 });
    assert_eq!(latency(&talker), 1_005);
    talker.parameters.priority = 2;
    assert_eq!(latency(&talker), 75);
    talker.parameters.priority = 7;
    assert_eq!(latency(&talker), 5);
}

#[test]
fn rank_and_values_are_those_of_the_talker_port() {
    // The second Talker on port 3 has rank 0; the one on port 1 has rank 1 and counts.
    let mut settings = settings(3);
    settings.ports[1].limit.a = 17_088_000;
    let mut table = in_domain(&settings);
    let mut second = talker(STREAM + 1);
    second.parameters.rank = 0;
    join_talker(&mut table, 1, &talker(STREAM));
    join_talker(&mut table, 1, &talker(STREAM + 1));
    join_talker(&mut table, 3, &second);
    join_listener(&mut table, 2, STREAM, READY);
    join_listener(&mut table, 2, STREAM + 1, READY);
    advance(&mut table, 1);
    assert_eq!(line(&table, 2, STREAM), "advertise 0 none forward");
    assert_eq!(line(&table, 2, STREAM + 1), "failed 1 none filter");
}
