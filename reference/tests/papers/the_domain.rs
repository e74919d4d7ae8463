//! The edge of the reservation domain (02, (ii)).

use crate::helpers::*;
use reference::declarations::Declaration;
use reference::domain::{self, DomainRegistration};
use reference::frame::{FrameDraft, MessageDraft};
use reference::lent::Table;
use reference::pdu::{AttributeType, Domain, Failure};
use reference::settings::PerClass;
use reference::settled::Column;
use reference::table::layout::{EDGES, RECORDS};

/// What a port holds of a class ID and priority.
fn held_domain(
    table: &Table,
    port: usize,
    class_id: u8,
    priority: u8,
) -> Option<DomainRegistration> {
    let slot = domain::slot(class_id, priority).expect("in range");
    table.bridge().unwrap().registrations.domains[port - 1][slot]
}

/// The class IDs and priorities that a port holds.
fn held_domains(table: &Table, port: usize) -> Vec<(u8, u8)> {
    let all = [5, 6].into_iter().flat_map(|class_id| (0..8).map(move |p| (class_id, p)));
    all.filter(|(class_id, p)| held_domain(table, port, *class_id, *p).is_some()).collect()
}

fn flags(table: &Table, port: usize) -> PerClass<bool> {
    table.bridge().unwrap().settled.boundaries[port - 1]
}

const NEITHER: PerClass<bool> = PerClass { a: false, b: false };
const A: PerClass<bool> = PerClass { a: true, b: false };
const B: PerClass<bool> = PerClass { a: false, b: true };
const BOTH: PerClass<bool> = PerClass { a: true, b: true };

// ---- registering ----

#[test]
fn joins_register_each_class_id_and_priority() {
    for class_id in [5, 6] {
        for priority in 0..8 {
            for (event, joins) in [(NEW, true), (JOIN_IN, true), (JOIN_MT, true)]
                .into_iter()
                .chain([(IN, false), (MT, false), (LV, false)])
            {
                let mut table = started(&settings(2));
                accept(&mut table, 1, &domain_frame(class_id, priority, &[event]));
                let expected = if joins { vec![(class_id, priority)] } else { vec![] };
                assert_eq!(held_domains(&table, 1), expected);
                assert!(held_domains(&table, 2).is_empty());
            }
        }
    }
}

#[test]
fn values_out_of_range_are_dropped_one_by_one() {
    for (class_id, priority, values, expected) in [
        (4, 1, 4, vec![(5, 2), (6, 3)]),
        (5, 7, 2, vec![(5, 7)]),
        (4, 6, 3, vec![(5, 7)]),
        (6, 7, 2, vec![(6, 7)]),
        (0, 0, 256, vec![(5, 5), (6, 6)]),
        (7, 0, 1, vec![]),
        (4, 0, 1, vec![]),
        (5, 8, 1, vec![]),
        (6, 255, 1, vec![]),
        (255, 3, 1, vec![]),
    ] {
        let mut table = started(&settings(2));
        accept(&mut table, 1, &domain_frame(class_id, priority, &vec![JOIN_MT; values]));
        assert_eq!(held_domains(&table, 1), expected);
        // What isn't held cannot leave; its neighbours in the vector do.
        accept(&mut table, 1, &domain_frame(class_id, priority, &vec![LV; values]));
        advance(&mut table, 60);
        assert!(held_domains(&table, 1).is_empty());
    }
}

#[test]
fn the_vlan_is_that_of_the_last_join_and_lv_does_not_look_at_it() {
    let frame = |vlan: u16, event| {
        let mut vector = domain_vector(6, 3, &[event]);
        vector.first_value[2..].copy_from_slice(&vlan.to_be_bytes());
        one_message(AttributeType::Domain, vec![vector])
    };
    let mut table = started(&settings(2));
    for vlan in [2, 0, 4_095, 0xffff] {
        accept(&mut table, 1, &frame(vlan, JOIN_IN));
        let expected = DomainRegistration { vlan, leaving: None };
        assert_eq!(held_domain(&table, 1, 6, 3), Some(expected));
    }
    accept(&mut table, 1, &frame(7, LV));
    let expected = DomainRegistration { vlan: 0xffff, leaving: Some(0) };
    assert_eq!(held_domain(&table, 1, 6, 3), Some(expected));
}

#[test]
fn lv_goes_by_class_id_and_priority() {
    let mut table = started(&settings(2));
    accept(&mut table, 1, &domain_frame(5, 2, &[JOIN_MT, JOIN_MT]));
    accept(&mut table, 1, &domain_frame(5, 3, &[LV]));
    accept(&mut table, 1, &domain_frame(6, 2, &[LV]));
    accept(&mut table, 2, &domain_frame(5, 2, &[LV]));
    advance(&mut table, 60);
    assert_eq!(held_domains(&table, 1), [(5, 2), (6, 3)]);
}

#[test]
fn a_domain_is_held_up_to_the_leave_time() {
    let mut table = started(&settings(2));
    accept(&mut table, 1, &domain_frame(6, 3, &[JOIN_MT]));
    advance(&mut table, 100);
    accept(&mut table, 1, &domain_frame(6, 3, &[LV]));
    advance(&mut table, 130);
    // The first time stays, and a join ends the leaving.
    let mut again = table.clone();
    accept(&mut table, 1, &leave_all(AttributeType::Domain));
    accept(&mut again, 1, &domain_frame(6, 3, &[NEW]));
    advance(&mut table, 159);
    assert_eq!(held_domains(&table, 1), [(6, 3)]);
    advance(&mut table, 160);
    assert!(held_domains(&table, 1).is_empty());
    advance(&mut again, 1_000);
    assert_eq!(held_domains(&again, 1), [(6, 3)]);
}

#[test]
fn leave_all_of_type_4_leaves_all_domains_of_its_port_and_nothing_else() {
    let mut table = in_domain(&settings(2));
    accept(&mut table, 1, &domain_frame(6, 7, &[JOIN_MT]));
    join_talker(&mut table, 1, &talker(STREAM));
    for attribute_type in
        [AttributeType::TalkerAdvertise, AttributeType::TalkerFailed, AttributeType::Listener]
    {
        accept(&mut table, 2, &leave_all(attribute_type));
    }
    accept(&mut table, 1, &leave_all(AttributeType::Domain));
    advance(&mut table, 60);
    assert!(held_domains(&table, 1).is_empty());
    assert_eq!(held_domains(&table, 2), [(5, 2), (6, 3)]);
    assert_eq!(held(&table), [STREAM]);
}

#[test]
fn leave_all_acts_before_its_values_also_where_they_are_dropped() {
    let mut table = in_domain(&settings(2));
    let mut vector = domain_vector(6, 3, &[JOIN_MT]);
    vector.leave_all_event = 1;
    accept(&mut table, 1, &one_message(AttributeType::Domain, vec![vector]));
    let mut vector = domain_vector(7, 8, &[JOIN_MT]);
    vector.leave_all_event = 1;
    accept(&mut table, 2, &one_message(AttributeType::Domain, vec![vector]));
    advance(&mut table, 60);
    assert_eq!(held_domains(&table, 1), [(6, 3)]);
    assert!(held_domains(&table, 2).is_empty());
}

#[test]
fn number_8_counts_no_domain_and_a_pdu_refused_with_it_registers_none() {
    let listeners = |count: usize| {
        let vector = listener_vector(STREAM, &vec![JOIN_MT; count], &vec![READY; count]);
        MessageDraft::new(AttributeType::Listener, vec![vector])
    };
    let domains =
        MessageDraft::new(AttributeType::Domain, vec![domain_vector(4, 1, &[JOIN_MT; 4])]);
    let mut table = started(&settings(2));
    let before = table.clone();
    let refused = FrameDraft::new(vec![domains.clone(), listeners(65)]).octets();
    assert_eq!(table.receive(1, &refused), 8);
    assert_eq!(table, before);
    accept(&mut table, 1, &FrameDraft::new(vec![listeners(64), domains]).octets());
    assert_eq!(held(&table).len(), 64);
    assert_eq!(held_domains(&table, 1), [(5, 2), (6, 3)]);
    // With 64 streams a Domain is still registered.
    accept(&mut table, 1, &domain_frame(5, 0, &[JOIN_MT]));
    assert_eq!(held_domains(&table, 1), [(5, 0), (5, 2), (6, 3)]);
}

#[test]
fn a_frame_of_domain_values_changes_nothing_of_streams() {
    let mut table = in_domain(&settings(2));
    join_talker(&mut table, 1, &talker(STREAM));
    join_listener(&mut table, 2, STREAM, READY);
    advance(&mut table, 100);
    let before = table.lent().to_vec();
    accept(&mut table, 2, &leave_all(AttributeType::Domain));
    accept(&mut table, 2, &domain_frame(6, 7, &[JOIN_MT]));
    let after = table.lent();
    assert_ne!(after[EDGES..RECORDS], before[EDGES..RECORDS]);
    assert_eq!(after[..EDGES], before[..EDGES]);
    assert_eq!(after[RECORDS..], before[RECORDS..]);
    // No flag either, before the next advance.
    assert_eq!(flags(&table, 2), NEITHER);
    assert_eq!(line(&table, 2, STREAM), "advertise 0 none forward");
    advance(&mut table, 100);
    assert_eq!(flags(&table, 2), A);
    assert_eq!(line(&table, 2, STREAM), "failed 8 none filter");
}

// ---- flags ----

#[test]
fn flags_are_clear_at_start_and_set_by_the_first_advance_where_nothing_is_heard() {
    let mut table = started(&settings(2));
    assert_eq!([flags(&table, 1), flags(&table, 2)], [NEITHER, NEITHER]);
    accept(&mut table, 1, &own_domain(&settings(2)));
    assert_eq!([flags(&table, 1), flags(&table, 2)], [NEITHER, NEITHER]);
    advance(&mut table, 0);
    assert_eq!([flags(&table, 1), flags(&table, 2)], [NEITHER, BOTH]);
    assert_eq!(table.start(&reference::settings::write(&settings(2))), 0);
    assert_eq!([flags(&table, 1), flags(&table, 2)], [NEITHER, NEITHER]);
}

#[test]
fn a_supported_class_needs_a_registration_and_none_with_another_priority() {
    for (joined, expected) in [
        (vec![], BOTH),
        (vec![(6, 3)], B),
        (vec![(5, 2)], A),
        (vec![(5, 2), (6, 3)], NEITHER),
        (vec![(5, 3), (6, 2)], BOTH),
        (vec![(5, 2), (6, 4)], A),
        (vec![(5, 2), (6, 3), (6, 4)], A),
        (vec![(5, 0), (5, 2), (6, 3)], B),
        (vec![(5, 0), (5, 2), (6, 3), (6, 7)], BOTH),
    ] {
        let mut table = started(&settings(2));
        for (class_id, priority) in &joined {
            accept(&mut table, 1, &domain_frame(*class_id, *priority, &[JOIN_MT]));
        }
        advance(&mut table, 1);
        assert_eq!(flags(&table, 1), expected, "{joined:?}");
        assert_eq!(flags(&table, 2), BOTH);
    }
}

#[test]
fn the_bridges_own_priorities_are_those_of_its_settings() {
    let mut settings = settings(1);
    settings.priority = PerClass { a: 0, b: 7 };
    let mut table = in_domain(&settings);
    advance(&mut table, 1);
    assert_eq!(held_domains(&table, 1), [(5, 7), (6, 0)]);
    assert_eq!(flags(&table, 1), NEITHER);
}

#[test]
fn an_unsupported_class_is_a_boundary_where_another_port_supports_it() {
    for (supports, expected) in [
        ([BOTH, A, B, NEITHER], [NEITHER, B, A, BOTH]),
        ([A, A, NEITHER, NEITHER], [NEITHER, NEITHER, A, A]),
        ([NEITHER, NEITHER, NEITHER, NEITHER], [NEITHER, NEITHER, NEITHER, NEITHER]),
    ] {
        let mut settings = settings(4);
        for (port, supports) in settings.ports.iter_mut().zip(supports) {
            port.supports = supports;
        }
        let mut table = in_domain(&settings);
        advance(&mut table, 1);
        assert_eq!([1, 2, 3, 4].map(|port| flags(&table, port)), expected);
        // Values of a class that a port doesn't support are held all the same.
        assert_eq!(held_domains(&table, 4), [(5, 2), (6, 3)]);
    }
}

#[test]
fn a_neighbour_that_changes_its_priority_is_outside_until_the_old_value_has_expired() {
    let mut table = started(&settings(2));
    accept(&mut table, 2, &domain_frame(6, 5, &[JOIN_MT]));
    accept(&mut table, 2, &domain_frame(5, 2, &[JOIN_MT]));
    advance(&mut table, 100);
    assert_eq!(flags(&table, 2), A);
    accept(&mut table, 2, &domain_frame(6, 5, &[LV]));
    accept(&mut table, 2, &domain_frame(6, 3, &[JOIN_MT]));
    advance(&mut table, 159);
    assert_eq!(flags(&table, 2), A);
    // Flags are decided after the removals.
    advance(&mut table, 160);
    assert_eq!(flags(&table, 2), NEITHER);
}

#[test]
fn the_last_value_of_a_class_expires_into_a_boundary() {
    let mut table = in_domain(&settings(2));
    advance(&mut table, 100);
    accept(&mut table, 1, &domain_frame(5, 2, &[LV]));
    advance(&mut table, 159);
    assert_eq!(flags(&table, 1), NEITHER);
    advance(&mut table, 160);
    assert_eq!(flags(&table, 1), B);
}

// ---- columns ----

/// A Talker on port 1 and Ready Listeners on ports 2 and 3. Port 3 hears no Domain.
fn with_an_office_switch() -> Table {
    let mut table = started(&settings(3));
    for port in [1, 2] {
        accept(&mut table, port, &own_domain(&settings(3)));
    }
    join_talker(&mut table, 1, &talker(STREAM));
    join_listener(&mut table, 2, STREAM, READY);
    join_listener(&mut table, 3, STREAM, READY);
    table
}

#[test]
fn an_advertise_towards_a_boundary_port_fails_with_8() {
    let mut table = with_an_office_switch();
    advance(&mut table, 100);
    assert_eq!(line(&table, 1, STREAM), "none 0 readyfailed none");
    assert_eq!(line(&table, 2, STREAM), "advertise 0 none forward");
    assert_eq!(line(&table, 3, STREAM), "failed 8 none filter");
    assert_eq!(table.report(3, 0).totals.a, 0);
    let bridge_id = settings(3).bridge_id;
    let failed = Column::Failed(Failure { bridge_id, code: 8 });
    assert_eq!(report(&table, 3, STREAM).column, failed);
}

#[test]
fn latency_out_is_given_with_8_and_the_entrys_age_runs_on() {
    let mut settings = settings(2);
    settings.ports[1].latency.a = 1_000;
    let mut table = started(&settings);
    join_talker(&mut table, 1, &talker(STREAM));
    advance(&mut table, 100);
    accept(&mut table, 2, &own_domain(&settings));
    advance(&mut table, 900);
    assert_eq!(line(&table, 2, STREAM), "advertise 0 none filter");
    let settled = table.bridge().unwrap().settled.streams[&STREAM].clone();
    assert_eq!(settled.ports[1].latency_out, 1_000);
    assert_eq!(settled.ports[1].entry_since, Some(1));
}

#[test]
fn the_flag_is_that_of_p_and_of_the_streams_class() {
    // Port 1, where the Talker is, is a boundary port; port 2 is one for class B alone.
    let mut table = started(&settings(2));
    accept(&mut table, 2, &domain_frame(6, 3, &[JOIN_MT]));
    let mut class_b = talker(STREAM + 1);
    class_b.parameters.priority = 2;
    class_b.parameters.max_interval_frames = 0;
    join_talker(&mut table, 1, &talker(STREAM));
    join_talker(&mut table, 1, &class_b);
    advance(&mut table, 1);
    assert_eq!([flags(&table, 1), flags(&table, 2)], [BOTH, B]);
    assert_eq!(line(&table, 2, STREAM), "advertise 0 none filter");
    assert_eq!(line(&table, 2, STREAM + 1), "failed 8 none filter");
}

#[test]
fn step_8_comes_after_13_and_before_14() {
    let on_port_3 = |change: fn(&mut Table)| {
        let mut table = with_an_office_switch();
        change(&mut table);
        advance(&mut table, 100);
        line(&table, 3, STREAM)
    };
    let changed = |change: fn(&mut reference::pdu::Talker)| {
        let mut table = started(&settings(2));
        let mut talker = talker(STREAM);
        change(&mut talker);
        join_talker(&mut table, 1, &talker);
        advance(&mut table, 1);
        line(&table, 2, STREAM)
    };
    // c, d and e
    assert_eq!(
        on_port_3(|table| join_talker(table, 1, &failed(STREAM, 99))),
        "failed 99 none filter"
    );
    assert_eq!(
        on_port_3(|table| {
            let mut other = talker(STREAM);
            other.parameters.vlan = 9;
            join_talker(table, 1, &other);
        }),
        "failed 16 none filter"
    );
    assert_eq!(on_port_3(|table| join_talker(table, 3, &talker(STREAM))), "failed 4 none filter");
    // f: a priority that is no class
    assert_eq!(changed(|talker| talker.parameters.priority = 5), "failed 13 none filter");
    // g and h
    assert_eq!(changed(|talker| talker.parameters.max_frame_size = 2_000), "failed 8 none filter");
    assert_eq!(
        changed(|talker| talker.parameters.max_interval_frames = 10_000),
        "failed 8 none filter"
    );
}

#[test]
fn a_stream_with_8_takes_no_share() {
    let mut settings = settings(2);
    settings.ports[1].limit = PerClass { a: 17_088_000, b: 8_544_000 };
    let mut table = started(&settings);
    accept(&mut table, 2, &domain_frame(5, 2, &[JOIN_MT]));
    join_both_classes(&mut table);
    advance(&mut table, 1);
    assert_eq!(line(&table, 2, STREAM), "failed 8 none filter");
    assert_eq!(line(&table, 2, STREAM + 1), "advertise 0 none forward");
    assert_eq!(table.report(2, 0).totals, PerClass { a: 0, b: 8_544_000 });
}

#[test]
fn where_the_class_is_not_supported_nothing_is_declared() {
    let mut settings = settings(2);
    settings.ports[1].supports.a = false;
    let mut table = started(&settings);
    join_talker(&mut table, 1, &talker(STREAM));
    advance(&mut table, 1);
    assert_eq!(flags(&table, 2), BOTH);
    assert_eq!(line(&table, 2, STREAM), "none 0 none none");
}

// ---- declarations ----

#[test]
fn each_port_declares_the_classes_that_it_supports_from_start_on() {
    let mut settings = settings(4);
    settings.priority = PerClass { a: 1, b: 6 };
    settings.vlan = 4_094;
    for (port, supports) in settings.ports.iter_mut().zip([BOTH, A, B, NEITHER]) {
        port.supports = supports;
    }
    let class_a = Declaration::Domain(Domain { class_id: 6, priority: 1, vlan: 4_094 });
    let class_b = Declaration::Domain(Domain { class_id: 5, priority: 6, vlan: 4_094 });
    let expected = [vec![class_b, class_a], vec![class_a], vec![class_b], vec![]];
    let mut table = started(&settings);
    for time in 0..3 {
        for port in 1..=4 {
            let declared = table.bridge().unwrap().declarations(port as usize);
            assert_eq!(declared, expected[port as usize - 1]);
        }
        // What is heard alters nothing of it.
        accept(&mut table, 1, &domain_frame(4, 2, &[JOIN_MT; 4]));
        accept(&mut table, 2, &own_domain(&settings));
        advance(&mut table, time);
    }
    let expected = [0, 4, 4, 0, 9, 0, 1, 5, 6, 0x0f, 0xfe, 0x6c, 0, 0, 0, 0];
    assert_eq!(written(&table, 3, 0), (expected.to_vec(), 1));
    assert_eq!(written(&table, 4, 0), (vec![0, 0, 0], 0));
    assert_eq!(table.write(4, 1, &mut [0; 1500]).number, 13);
}

#[test]
fn places_of_a_report_are_streams_alone() {
    let mut table = started(&settings(1));
    assert_eq!(table.report(1, 0).count, 0);
    assert_eq!(table.report(1, 1).number, 13);
    join_listener(&mut table, 1, STREAM, READY);
    assert_eq!(table.report(1, 1).number, 0);
    assert_eq!(table.report(1, 2).number, 13);
}

#[test]
fn two_bridges_that_hear_each_other_are_inside() {
    let mut one = started(&settings(2));
    let mut other = started(&settings(2));
    for _ in 0..3 {
        let (from_one, from_other) = (written(&one, 2, 0).0, written(&other, 1, 0).0);
        accept(&mut other, 1, &from_one);
        accept(&mut one, 2, &from_other);
        advance(&mut one, 1);
        advance(&mut other, 1);
        assert_eq!([flags(&one, 1), flags(&one, 2)], [BOTH, NEITHER]);
        assert_eq!([flags(&other, 1), flags(&other, 2)], [NEITHER, BOTH]);
        assert_eq!(held_domains(&one, 2), [(5, 2), (6, 3)]);
        join_talker(&mut one, 1, &talker(STREAM));
    }
    // The stream has come over the link, and no further.
    assert_eq!(line(&other, 1, STREAM), "none 0 none none");
    assert_eq!(line(&other, 2, STREAM), "failed 8 none filter");
}
