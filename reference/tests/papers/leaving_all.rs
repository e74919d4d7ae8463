//! LeaveAll that ports receive and send, by Table 10-5 (02, (xiv)).

use crate::helpers::*;
use crate::senders::*;
use reference::applicant::State::{LA, QA, VP};
use reference::leave_all;
use reference::lent::Table;
use reference::mrp::Event;
use reference::pdu::{Attribute, AttributeType};
use reference::registrar;
use reference::written::of_pdu;

#[test]
fn r9_any_leave_all_restarts_the_ports_timer_and_moves_its_type() {
    let mut table = written_times(2);
    advance(&mut table, 1_000);
    let machine = |table: &Table, port: usize| {
        let sending = &table.bridge().unwrap().sending;
        (sending.ports[port - 1].leave_all.state, sending.ports[port - 1].leave_all.started)
    };
    assert_eq!(machine(&table, 2), (leave_all::State::Active, 1_000));
    advance(&mut table, 1_100);
    accept(&mut table, 2, &leave_all(AttributeType::Domain));
    assert_eq!(machine(&table, 2), (leave_all::State::Passive, 1_100));
    assert_eq!(machine(&table, 1), (leave_all::State::Active, 1_000));
    assert_eq!(advertised(&table), Some(QA));
    assert_eq!(state(&table, 2, AttributeType::Domain, 6 << 8 | 3), Some(VP));
    accept(&mut table, 2, &leave_all(ADVERTISE));
    assert_eq!(advertised(&table), Some(VP));
}

#[test]
fn r13_leave_all_comes_after_1000_hundredths() {
    let mut table = written_times(3);
    advance(&mut table, 999);
    assert_eq!(written(&table, 2, 0).0, [0, 0, 0]);
    advance(&mut table, 1_000);
    assert!(of_pdu(&written(&table, 2, 0).0).unwrap().leave_all);
    // Sending doesn't restart it.
    advance(&mut table, 1_500);
    write(&mut table, 2, 0);
    advance(&mut table, 1_999);
    assert!(!of_pdu(&written(&table, 2, 0).0).unwrap().leave_all);
    advance(&mut table, 2_000);
    assert!(of_pdu(&written(&table, 2, 0).0).unwrap().leave_all);
}

#[test]
fn r14_leave_all_alone_has_106_octets_and_four_messages() {
    let mut table = in_domain(&settings(2));
    advance(&mut table, 1_000);
    let (octets, next) = write(&mut table, 1, 2);
    assert_eq!((octets.len(), next), (106, 2));
    assert_eq!(octets[..7], [0, 1, 25, 0, 29, 0x20, 0]);
    let taken = of_pdu(&octets).unwrap();
    assert_eq!((taken.leave_all, taken.said.len()), (true, 0));
    assert!(!of_pdu(&written(&table, 1, 2).0).unwrap().leave_all);
}

#[test]
fn r15_and_16_leave_all_answered_and_not_answered() {
    let mut table = in_domain(&settings(2));
    join_talker(&mut table, 1, &talker(STREAM));
    join_listener(&mut table, 2, STREAM, READY);
    advance(&mut table, 1);
    for port in [1, 2, 1, 2] {
        pass(&mut table, port);
    }
    advance(&mut table, 1_000);
    let leave_all = of_pdu(&write(&mut table, 2, 0).0).unwrap();
    assert!(leave_all.leave_all);
    // QA joins in the same PDU; the Registrar is found as it was before.
    let events: Vec<Event> = leave_all.said.iter().map(|said| said.event).collect();
    assert_eq!(events, [Event::JoinMt, Event::JoinIn, Event::JoinIn]);
    let domain = Attribute { attribute_type: AttributeType::Domain, key: 6 << 8 | 3 };
    let listener = Attribute { attribute_type: LISTENER, key: STREAM };
    let registrar = |table: &Table, attribute: &Attribute| {
        table.bridge().unwrap().registrations.registrar(2, attribute)
    };
    assert_eq!(registrar(&table, &domain), registrar::State::LV);
    assert_eq!(registrar(&table, &listener), registrar::State::LV);
    // A neighbour that answers stays.
    let mut answered = table.clone();
    join_listener(&mut answered, 2, STREAM, READY);
    accept(&mut answered, 2, &own_domain(&settings(2)));
    advance(&mut answered, 1_060);
    assert_eq!(line(&answered, 2, STREAM), "advertise 0 none forward");
    // One that doesn't is gone.
    advance(&mut table, 1_059);
    assert_eq!(line(&table, 2, STREAM), "advertise 0 none forward");
    advance(&mut table, 1_060);
    assert_eq!(line(&table, 2, STREAM), "failed 8 none filter");
    assert_eq!(registrar(&table, &domain), registrar::State::MT);
}

#[test]
fn r15_all_others_of_the_port_begin_anew_and_lv_goes_with_leave_all() {
    let mut table = written_times(2);
    join_talker(&mut table, 1, &talker(STREAM + 1));
    advance(&mut table, 2);
    write(&mut table, 2, 0);
    accept(&mut table, 1, &talker_frame(&talker(STREAM + 1), &[LV]));
    advance(&mut table, 62);
    assert_eq!(state(&table, 2, ADVERTISE, STREAM + 1), Some(LA));
    advance(&mut table, 1_001);
    // From the place behind the Advertises: these find no place in the PDU.
    let (octets, next) = write(&mut table, 2, 2);
    assert_eq!(said(&octets), []);
    // The LeaveAll withdraws the one with the unsent Lv, which stood before the place.
    assert_eq!(next, 3);
    assert_eq!(advertised(&table), Some(VP));
    assert_eq!((state(&table, 2, ADVERTISE, STREAM + 1), held(&table)), (None, vec![STREAM]));
}

#[test]
fn r15_a_first_write_with_leave_all_joins_nothing() {
    let mut table = in_domain(&settings(2));
    join_talker(&mut table, 1, &talker(STREAM));
    advance(&mut table, 1_000);
    assert_eq!(writes(&mut table, 2), [(ADVERTISE, STREAM, Event::Mt)]);
    assert_eq!(writes(&mut table, 2), [(ADVERTISE, STREAM, Event::JoinMt)]);
    assert_eq!(writes(&mut table, 2), []);
}
