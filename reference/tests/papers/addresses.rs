//! MMRP frames and the addresses that ports hold (02, (vi)).

use std::fs;
use std::path::Path;

use crate::helpers::*;
use reference::frame::{FrameDraft, MessageDraft, VectorDraft};
use reference::lent::Table;
use reference::mmrp::{self, Message, MmrpType};
use reference::numbers::Number;
use reference::pdu::AttributeType;
use reference::table::layout::{address, edge, EDGES};

const ADDRESS: u64 = 0x91e0_f000_fe00;

/// The addresses of a port, and since when each is leaving.
fn addresses(table: &Table, port: usize) -> Vec<(u64, Option<u32>)> {
    let held = &table.bridge().unwrap().registrations.addresses[port - 1];
    held.iter().map(|(address, leaving)| (*address, *leaving)).collect()
}

/// A Message of MMRP at a version.
fn at_version(version: u8, attribute_type: MmrpType, vectors: Vec<VectorDraft>) -> Vec<u8> {
    let message = MessageDraft::of_mmrp(attribute_type, vectors);
    FrameDraft { version, ..FrameDraft::new(vec![message]) }.octets()
}

/// A LeaveAll without values.
fn leave_all_of(attribute_type: MmrpType) -> Vec<u8> {
    let first_value = vec![0; attribute_type.first_value_length()];
    let vector = VectorDraft { leave_all_event: 1, first_value, ..VectorDraft::default() };
    at_version(0, attribute_type, vec![vector])
}

fn services(first: u8, events: &[u8]) -> Vec<u8> {
    let first_value = vec![first];
    let vector = VectorDraft { first_value, events: events.to_vec(), ..VectorDraft::default() };
    at_version(0, MmrpType::ServiceRequirement, vec![vector])
}

/// A started bridge of two ports, and the number that it gives for a frame on port 1; it changes
/// nothing where the frame is refused.
fn number(frame: &[u8]) -> Number {
    let mut table = started(&settings(2));
    let before = table.clone();
    let number = table.receive_mmrp(1, frame);
    assert!(number == 0 || table == before);
    number
}

// ---- reading ----

/// Each stored PDU is answered with its number.
#[test]
fn stored_pdus_have_their_numbers() {
    let folder = Path::new(env!("CARGO_MANIFEST_DIR")).join("../tests/mmrp");
    let pdus = fs::read_to_string(folder.join("stdin")).expect("the PDUs");
    let mut printed = String::new();
    for (name, octets) in pdus.lines().filter_map(|line| line.split_once(':')) {
        let octet = |digits| u8::from_str_radix(digits, 16).expect("an octet");
        let pdu: Vec<u8> = octets.split_whitespace().map(octet).collect();
        printed.push_str(&format!("{name}: {}\n", number(&pdu)));
    }
    assert_eq!(printed, fs::read_to_string(folder.join("stdout")).expect("the numbers"));
}

#[test]
fn a_frame_of_both_types_in_octets() {
    let service = VectorDraft {
        first_value: vec![1],
        events: vec![JOIN_IN],
        leave_all_event: 1,
        ..VectorDraft::default()
    };
    let messages = vec![
        MessageDraft::of_mmrp(MmrpType::ServiceRequirement, vec![service]),
        MessageDraft::of_mmrp(MmrpType::Mac, vec![mac_vector(ADDRESS, &[JOIN_MT; 4])]),
    ];
    let expected = [
        0, 1, 1, 0x20, 1, 1, 36, 0, 0, 2, 6, 0, 4, 0x91, 0xe0, 0xf0, 0, 0xfe, 0, 129, 108, 0, 0, 0,
        0,
    ];
    let frame = FrameDraft::new(messages).octets();
    assert_eq!(frame, expected);
    let mut table = started(&settings(2));
    accept_mmrp(&mut table, 2, &frame);
    assert_eq!(addresses(&table, 1), []);
    let held: Vec<u64> = addresses(&table, 2).into_iter().map(|(address, _)| address).collect();
    assert_eq!(held, [ADDRESS, ADDRESS + 1, ADDRESS + 2, ADDRESS + 3]);
}

#[test]
fn unknown_types_are_walked_and_dropped() {
    let vector = VectorDraft {
        leave_all_event: 7,
        first_value: vec![9, 9],
        events: vec![0; 4],
        first_event_octet: Some(255),
        ..VectorDraft::default()
    };
    let unknown = MessageDraft {
        attribute_type: 3,
        attribute_length: 2,
        ..MessageDraft::of_mmrp(MmrpType::Mac, vec![vector.clone(), vector])
    };
    let mac = MessageDraft::of_mmrp(MmrpType::Mac, vec![mac_vector(ADDRESS, &[JOIN_MT])]);
    let frame = FrameDraft::new(vec![unknown, mac]);
    assert_eq!(number(&frame.octets()), 4);
    let frame = FrameDraft { version: 1, ..frame }.octets();
    let pdu = mmrp::read(&frame).expect("it is read");
    assert!(matches!(&pdu.messages[0], Message::Skipped(walked) if walked.len() == 2));
    let mut table = started(&settings(2));
    accept_mmrp(&mut table, 1, &frame);
    assert_eq!(addresses(&table, 1), [(ADDRESS, None)]);
}

#[test]
fn a_strange_vector_is_passed_over_whole_above_version_0() {
    for leave_all_event in [1, 2] {
        let strange = VectorDraft {
            leave_all_event,
            first_event_octet: Some(216),
            ..mac_vector(ADDRESS + 8, &[JOIN_MT; 4])
        };
        let vectors = vec![mac_vector(ADDRESS, &[JOIN_MT]), strange, mac_vector(0, &[NEW])];
        let mut table = started(&settings(2));
        assert_eq!(number(&at_version(0, MmrpType::Mac, vectors.clone())), 6);
        accept_mmrp(&mut table, 1, &at_version(1, MmrpType::Mac, vectors));
        // Its LeaveAll does nothing either.
        assert_eq!(addresses(&table, 1), [(0, None), (ADDRESS, None)]);
    }
}

// ---- refusals ----

#[test]
fn the_table_comes_first_then_the_port_then_the_length() {
    let mut table = started(&settings(2));
    for port in [0, 3, 9, 15, u32::MAX] {
        assert_eq!(table.receive_mmrp(port, &[]), 1);
    }
    for pdu in [vec![], vec![0; 1501], vec![0; 4096]] {
        assert_eq!(table.receive_mmrp(1, &pdu), 2);
    }
    assert_eq!(Table::zeros().receive_mmrp(0, &[]), 12);
    table.lend(0);
    assert_eq!(table.receive_mmrp(0, &[]), 12);
}

#[test]
fn number_14_where_a_port_would_need_a_65th_address() {
    let mut table = started(&settings(2));
    accept_mmrp(&mut table, 1, &mac_frame(ADDRESS, &[JOIN_MT; 64]));
    let full = table.clone();
    assert_eq!(table.receive_mmrp(1, &mac_frame(ADDRESS + 64, &[NEW])), 14);
    // Joined and left at once it counts, and what else the frame has isn't applied.
    let vectors = vec![
        VectorDraft { leave_all_event: 1, ..mac_vector(ADDRESS, &[LV]) },
        mac_vector(0, &[JOIN_IN]),
        mac_vector(0, &[LV]),
    ];
    assert_eq!(table.receive_mmrp(1, &at_version(0, MmrpType::Mac, vectors)), 14);
    assert_eq!(table, full);
    // Those that are held, Lv, In, Mt and Service Requirements need no room; nor has port 2 any less.
    accept_mmrp(&mut table, 1, &mac_frame(ADDRESS, &[JOIN_MT; 64]));
    accept_mmrp(&mut table, 1, &mac_frame(ADDRESS + 64, &[LV, IN, MT]));
    accept_mmrp(&mut table, 1, &services(0, &[JOIN_MT; 200]));
    assert_eq!(table, full);
    accept_mmrp(&mut table, 2, &mac_frame(ADDRESS + 64, &[JOIN_MT; 64]));
    // A leaving one is held until an advance removes it.
    accept_mmrp(&mut table, 1, &mac_frame(ADDRESS, &[LV]));
    advance(&mut table, 59);
    assert_eq!(table.receive_mmrp(1, &mac_frame(ADDRESS + 64, &[NEW])), 14);
    advance(&mut table, 60);
    accept_mmrp(&mut table, 1, &mac_frame(ADDRESS + 64, &[NEW]));
    assert_eq!(table.receive_mmrp(1, &mac_frame(ADDRESS, &[NEW])), 14);
}

#[test]
fn different_addresses_count_once() {
    let mut table = started(&settings(2));
    let vectors = vec![mac_vector(ADDRESS, &[JOIN_MT; 40]), mac_vector(ADDRESS + 24, &[NEW; 40])];
    accept_mmrp(&mut table, 1, &at_version(0, MmrpType::Mac, vectors.clone()));
    assert_eq!(addresses(&table, 1).len(), 64);
    let mut table = started(&settings(2));
    let one_more = vec![vectors[0].clone(), mac_vector(ADDRESS + 24, &[NEW; 41])];
    assert_eq!(table.receive_mmrp(1, &at_version(0, MmrpType::Mac, one_more)), 14);
    assert_eq!(addresses(&table, 1), []);
}

#[test]
fn the_walk_comes_before_14() {
    let mut table = started(&settings(2));
    accept_mmrp(&mut table, 1, &mac_frame(ADDRESS, &[JOIN_MT; 64]));
    let mut frame = mac_frame(0, &[JOIN_MT]);
    frame.truncate(frame.len() - 3);
    assert_eq!(table.receive_mmrp(1, &frame), 3);
    assert_eq!(table.receive_mmrp(1, &mac_frame((1 << 48) - 1, &[JOIN_MT; 2])), 7);
}

// ---- registering ----

#[test]
fn joins_register_and_in_and_mt_do_nothing() {
    for event in [NEW, JOIN_IN, JOIN_MT] {
        let mut table = started(&settings(2));
        accept_mmrp(&mut table, 2, &mac_frame(ADDRESS, &[event]));
        assert_eq!(addresses(&table, 2), [(ADDRESS, None)]);
        assert_eq!(addresses(&table, 1), []);
    }
    let mut table = started(&settings(2));
    let before = table.clone();
    accept_mmrp(&mut table, 2, &mac_frame(ADDRESS, &[IN, MT, LV]));
    assert_eq!(table, before);
}

#[test]
fn any_48_bits_are_an_address() {
    let mut table = started(&settings(2));
    for address in [(1 << 48) - 1, 0x0200_0000_0001, 0, 0x0100_5e00_0001] {
        accept_mmrp(&mut table, 1, &mac_frame(address, &[JOIN_MT]));
    }
    let held: Vec<u64> = addresses(&table, 1).into_iter().map(|(address, _)| address).collect();
    assert_eq!(held, [0, 0x0100_5e00_0001, 0x0200_0000_0001, (1 << 48) - 1]);
}

#[test]
fn an_address_is_held_up_to_the_leave_time() {
    for all in [false, true] {
        let mut table = started(&settings(2));
        advance(&mut table, 100);
        accept_mmrp(&mut table, 1, &mac_frame(ADDRESS, &[JOIN_MT]));
        let leave = || match all {
            true => leave_all_of(MmrpType::Mac),
            false => mac_frame(ADDRESS, &[LV]),
        };
        accept_mmrp(&mut table, 1, &leave());
        assert_eq!(addresses(&table, 1), [(ADDRESS, Some(100))]);
        // The first time stays.
        advance(&mut table, 130);
        accept_mmrp(&mut table, 1, &leave());
        advance(&mut table, 159);
        assert_eq!(addresses(&table, 1), [(ADDRESS, Some(100))]);
        let mut joined = table.clone();
        advance(&mut table, 160);
        assert_eq!(addresses(&table, 1), []);
        // A join ends it.
        accept_mmrp(&mut joined, 1, &mac_frame(ADDRESS, &[JOIN_IN]));
        advance(&mut joined, 500);
        assert_eq!(addresses(&joined, 1), [(ADDRESS, None)]);
    }
}

#[test]
fn leave_all_is_of_its_own_port_type_and_protocol() {
    let mut table = started(&settings(2));
    for port in [1, 2] {
        accept_mmrp(&mut table, port, &mac_frame(ADDRESS, &[JOIN_MT; 2]));
    }
    let before = table.clone();
    accept_mmrp(&mut table, 1, &leave_all_of(MmrpType::ServiceRequirement));
    for attribute_type in [AttributeType::TalkerAdvertise, AttributeType::TalkerFailed] {
        accept(&mut table, 1, &leave_all(attribute_type));
    }
    assert_eq!(table, before);
    accept_mmrp(&mut table, 1, &leave_all_of(MmrpType::Mac));
    assert_eq!(addresses(&table, 1), [(ADDRESS, Some(0)), (ADDRESS + 1, Some(0))]);
    assert_eq!(addresses(&table, 2), [(ADDRESS, None), (ADDRESS + 1, None)]);
}

#[test]
fn leave_all_acts_before_its_own_vectors_values() {
    let mut table = started(&settings(2));
    accept_mmrp(&mut table, 1, &mac_frame(ADDRESS, &[JOIN_MT; 3]));
    let vector = VectorDraft { leave_all_event: 1, ..mac_vector(ADDRESS + 1, &[JOIN_MT]) };
    accept_mmrp(&mut table, 1, &at_version(0, MmrpType::Mac, vec![vector]));
    let leaving: Vec<Option<u32>> = addresses(&table, 1).into_iter().map(|(_, at)| at).collect();
    assert_eq!(leaving, [Some(0), None, Some(0)]);
}

#[test]
fn addresses_need_no_stream_and_are_never_declared() {
    let mut table = started(&settings(2));
    let before = written(&table, 1, 0);
    accept_mmrp(&mut table, 2, &mac_frame(ADDRESS, &[JOIN_MT; 64]));
    advance(&mut table, 1);
    assert_eq!(held(&table), []);
    for port in [1, 2] {
        assert_eq!(written(&table, port, 0), before);
    }
}

#[test]
fn start_forgets_all_addresses() {
    let mut table = started(&settings(2));
    accept_mmrp(&mut table, 1, &mac_frame(ADDRESS, &[JOIN_MT; 64]));
    assert_eq!(table.start(&reference::settings::write(&settings(2))), 0);
    assert_eq!(table, started(&settings(2)));
}

#[test]
fn the_octets_of_addresses() {
    let mut table = started(&settings(3));
    advance(&mut table, 0x0102_0304);
    accept_mmrp(&mut table, 2, &mac_frame(ADDRESS, &[JOIN_MT; 2]));
    accept_mmrp(&mut table, 2, &mac_frame(0, &[JOIN_MT]));
    accept_mmrp(&mut table, 2, &mac_frame(ADDRESS, &[LV]));
    let mut expected = vec![0; edge::LENGTH - edge::COUNT];
    expected[0] = 3;
    expected[1..13].copy_from_slice(&[1, 0, 0, 0, 0, 0, 0, 0, 0, 0, 0, 0]);
    expected[13..25].copy_from_slice(&[1, 1, 1, 2, 3, 4, 0x91, 0xe0, 0xf0, 0, 0xfe, 0]);
    expected[25..37].copy_from_slice(&[1, 0, 0, 0, 0, 0, 0x91, 0xe0, 0xf0, 0, 0xfe, 1]);
    let at = EDGES + edge::LENGTH;
    assert_eq!(table.lent()[at + edge::COUNT..at + edge::LENGTH], expected);
    assert_eq!((edge::COUNT, edge::ADDRESSES.start, address::LENGTH), (130, 131, 12));
    assert_eq!(at, 1_182);
}
