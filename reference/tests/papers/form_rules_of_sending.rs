//! The lent table (docs/TABLE.md): form rules on what ports send (02, (xiv)).

use crate::helpers::*;
use crate::table_places::*;
use reference::lent::Table;
use reference::table::layout::{cell, result, send, sender, CLOCK, RECORDS};
use reference::table::rules::broken_rules;

/// The Applicant octets.
const VP: u8 = 1;
const VN: u8 = 2;
const AN: u8 = 3;
const AA: u8 = 4;
const QA: u8 = 5;
const LA: u8 = 6;

/// The Applicants of Advertise, Failed and Listener.
const APPLICANTS: [usize; 3] = [send::ADVERTISE, send::FAILED, send::LISTENER];

/// The three streams at that clock, all written once. The Advertise of the first one and the Listener of
/// it have their Lv to send, since its Talker left.
fn with_unsent_lv() -> Table {
    let mut table = three_streams(100);
    for port in [1, 2] {
        write(&mut table, port, 0);
    }
    accept(&mut table, 1, &talker_frame(&talker(STREAM), &[LV]));
    advance(&mut table, 160);
    table
}

#[test]
fn machines_stand_where_the_layout_says() {
    let table = three_streams(250);
    let octet = |place: usize| table.lent()[place];
    assert_eq!(octet(send(0, 2) + send::ADVERTISE), VP);
    assert_eq!(octet(send(1, 2) + send::FAILED), VP);
    assert_eq!(octet(send(0, 1) + send::LISTENER), VP);
    assert_eq!(octet(send(0, 1) + send::LISTENER_TYPE), READY);
    let values = send(1, 2) + send::FAILED_VALUES.start;
    assert_eq!(table.lent()[values..][..6], [0x91, 0xe0, 0xf0, 0, 0, 2]);
    assert_eq!(octet(values + 25), 9);
    // Class B with priority 2 and class A with priority 3.
    let sender = sender(1);
    let applicants: Vec<usize> = (0..16).filter(|at| octet(sender + at) == VP).collect();
    assert_eq!(applicants, [2, 8 + 3]);
    let unsent = with_unsent_lv();
    assert_eq!(unsent.lent()[send(0, 2) + send::ADVERTISE], LA);
    assert_eq!(unsent.lent()[send(0, 1) + send::LISTENER], LA);
}

#[test]
fn rule_12_an_unsent_lv_holds_a_record() {
    // The Listener of the first stream leaves too, and its Advertise and Listener have an Lv to send.
    let mut table = with_unsent_lv();
    accept(&mut table, 2, &listener_frame(STREAM, LV, READY));
    advance(&mut table, 220);
    assert_eq!(table.lent()[cell(0, 2) + cell::LISTENER], 0);
    let listener = [(send(0, 1) + send::LISTENER, 0), (send(0, 1) + send::LISTENER_TYPE, 0)];
    keeps_by(&table, &listener);
    let mut zeros = listener.to_vec();
    zeros.extend((0..18).map(|at| (send(0, 2) + send::ADVERTISE + at, 0)));
    breaks_by(&table, 12, &zeros);
}

#[test]
fn rule_42_applicants_of_streams() {
    let table = with_unsent_lv();
    for octet in [7, 8, 255] {
        breaks(&table, 42, send(0, 2) + send::ADVERTISE, octet);
        breaks(&table, 42, send(0, 1) + send::LISTENER, octet);
        // Where none is, the values behind it may be any.
        breaks(&table, 42, send(2, 1) + send::FAILED, octet);
    }
    for state in [VP, VN, AN, AA, QA] {
        keeps(&table, send(1, 2) + send::FAILED, state);
    }
}

#[test]
fn rule_43_values_without_a_machine() {
    let table = with_unsent_lv();
    let of_none = send(2, 1);
    for place in [
        send::ADVERTISE_VALUES.start,
        send::ADVERTISE_VALUES.end - 1,
        send::FAILED_VALUES.start,
        send::FAILED_VALUES.end - 1,
        send::LISTENER_TYPE,
    ] {
        breaks(&table, 43, of_none + place, 1);
    }
    breaks(&table, 43, send(0, 2) + send::ADVERTISE, 0);
    breaks(&table, 43, send(0, 1) + send::LISTENER, 0);
    // With a machine they may be any, also others than the settled ones.
    keeps(&table, send(1, 2) + send::FAILED_VALUES.start, 1);
    keeps(&table, send(1, 2) + send::FAILED_VALUES.end - 1, 255);
    keeps(&table, send(0, 2) + send::ADVERTISE_VALUES.end - 1, 255);
}

#[test]
fn rule_44_priority_octets() {
    let table = with_unsent_lv();
    for bit in 0..4 {
        breaks(&table, 44, send(0, 2) + send::ADVERTISE_PRIORITY, 0x70 | 1 << bit);
        breaks(&table, 44, send(1, 2) + send::FAILED_PRIORITY, 0x70 | 1 << bit);
    }
    keeps(&table, send(0, 2) + send::ADVERTISE_PRIORITY, 0xf0);
    keeps(&table, send(1, 2) + send::FAILED_PRIORITY, 0);
}

#[test]
fn rule_45_the_declaration_type() {
    for table in [three_streams(250), with_unsent_lv()] {
        for octet in [0, 4, 255] {
            breaks(&table, 45, send(0, 1) + send::LISTENER_TYPE, octet);
        }
        // It need not be the settled one.
        for octet in [1, 3] {
            keeps(&table, send(0, 1) + send::LISTENER_TYPE, octet);
        }
    }
}

#[test]
fn rule_46_machines_of_what_is_declared() {
    let table = three_streams(250);
    // Declared, and no machine, or one that withdraws it.
    breaks(&table, 46, send(0, 2) + send::ADVERTISE, LA);
    breaks(&table, 46, send(1, 2) + send::FAILED, LA);
    breaks(&table, 46, send(0, 1) + send::LISTENER, LA);
    let none: Vec<_> = (0..18).map(|at| (send(0, 2) + send::ADVERTISE + at, 0)).collect();
    breaks_by(&table, 46, &none);
    // Not declared, and a machine that declares it. One that withdraws it may be there.
    for state in [VP, VN, AN, AA, QA] {
        breaks(&table, 46, send(2, 1) + send::ADVERTISE, state);
        breaks(&table, 46, send(0, 2) + send::FAILED, state);
        let listener =
            [(send(2, 1) + send::LISTENER, state), (send(2, 1) + send::LISTENER_TYPE, 1)];
        breaks_by(&table, 46, &listener);
        keeps(&table, send(0, 2) + send::ADVERTISE, state);
    }
    keeps(&table, send(2, 1) + send::ADVERTISE, LA);
    keeps(&table, send(0, 2) + send::FAILED, LA);
    // A column that goes and leaves its machine.
    let column = [(result(0, 2) + result::COLUMN, 0), (result(0, 2) + result::ENTRY, 1)];
    breaks_by(&table, 46, &column);
}

#[test]
fn rule_47_what_no_port_sends() {
    let table = three_streams(250);
    let places = [send(0, 3), send(0, 8) + send::LENGTH - 1, send(2, 3) + send::LISTENER_TYPE];
    for place in places.into_iter().chain([sender(3), sender(3) + 16, sender(8), RECORDS - 1]) {
        breaks(&table, 47, place, 1);
    }
    for applicant in APPLICANTS {
        breaks(&table, 47, send(1, 3) + applicant, LA);
    }
}

#[test]
fn rule_48_applicants_of_domain_values() {
    let table = three_streams(250);
    for port in [1, 2] {
        for own in [sender(port) + 2, sender(port) + 8 + 3] {
            for octet in [0, VN, AN, LA, 7, 255] {
                breaks(&table, 48, own, octet);
            }
            keeps(&table, own, AA);
            keeps(&table, own, QA);
        }
        for other in [0, 1, 3, 8 + 2, 15] {
            breaks(&table, 48, sender(port) + other, VP);
            breaks(&table, 48, sender(port) + other, LA);
        }
    }
    // A class that the port doesn't support isn't declared.
    let mut settings = settings(1);
    settings.ports[0].supports.a = false;
    let table = started(&settings);
    breaks(&table, 48, sender(1) + 8 + 3, VP);
    breaks(&table, 48, sender(1) + 2, 0);
    // With the bridge's priority its machine moves too.
    breaks(&table, 48, 9, 0x40);
    keeps_by(&table, &[(9, 0x40), (sender(1) + 2, 0), (sender(1) + 1, VP)]);
}

#[test]
fn rule_49_the_leave_all_flag() {
    let table = three_streams(250);
    for octet in [2, 255] {
        breaks(&table, 49, sender(1) + sender::LEAVE_ALL, octet);
        breaks(&table, 49, sender(2) + sender::LEAVE_ALL, octet);
    }
    keeps(&table, sender(2) + sender::LEAVE_ALL, 1);
}

#[test]
fn rule_50_the_leave_all_timer() {
    // The clock is 1,250, in octets 00 00 04 e2, and the timers were started at 1,250 too.
    let table = three_streams(1_250);
    let last = |port| sender(port) + sender::STARTED.end - 1;
    assert_eq!(table.lent()[last(1) - 3..=last(1)], [0, 0, 4, 0xe2]);
    breaks(&table, 50, last(1), 0xe3);
    keeps(&table, last(1), 0);
    // 999 and 1,000 before the clock.
    keeps_by(&table, &[(last(2) - 1, 0), (last(2), 251)]);
    breaks_by(&table, 50, &[(last(2) - 1, 0), (last(2), 250)]);
    breaks(&table, 50, sender(1) + sender::STARTED.start, 1);
    // Nothing leaves and no age is counted, so that a clock far behind breaks this rule alone.
    let table = started(&settings(2));
    breaks(&table, 50, CLOCK.start, 1);
    breaks_by(&table, 50, &[(CLOCK.end - 2, 0x03), (CLOCK.end - 1, 0xe8)]);
    keeps_by(&table, &[(CLOCK.end - 2, 0x03), (CLOCK.end - 1, 0xe7)]);
    assert_eq!(broken_rules(table.lent()), []);
}
