//! Vectors of newer versions that are passed over (02, (iv)).

use std::fs;
use std::path::Path;

use crate::helpers::*;
use reference::frame::{FrameDraft, MessageDraft, VectorDraft};
use reference::mmrp;
use reference::pdu::{self, AttributeType, ATTRIBUTE_TYPES};

/// A PDU of one Message at a version.
fn at_version(version: u8, attribute_type: AttributeType, vectors: Vec<VectorDraft>) -> Vec<u8> {
    let message = MessageDraft::new(attribute_type, vectors);
    FrameDraft { version, ..FrameDraft::new(vec![message]) }.octets()
}

/// The number that a bridge of two ports gives back for a PDU on port 1.
fn number(pdu: &[u8]) -> u8 {
    in_domain(&settings(2)).receive(1, pdu)
}

/// A vector of one type with these events, from Unique ID 1 or class ID 5 and priority 2 on.
fn vector_of(attribute_type: AttributeType, events: &[u8]) -> VectorDraft {
    match attribute_type {
        AttributeType::TalkerAdvertise => talker_vector(&talker(STREAM), events),
        AttributeType::TalkerFailed => talker_vector(&failed(STREAM, 9), events),
        AttributeType::Listener => listener_vector(STREAM, events, &vec![READY; events.len()]),
        AttributeType::Domain => domain_vector(5, 2, events),
    }
}

/// The ways in which a vector is strange to this version: its LeaveAllEvent, or one of its octets.
fn strange(vector: &VectorDraft) -> Vec<VectorDraft> {
    let leave_all = |leave_all_event| VectorDraft { leave_all_event, ..vector.clone() };
    let octet = |octet| VectorDraft { first_event_octet: Some(octet), ..vector.clone() };
    let mut all: Vec<VectorDraft> = (2..=7).map(leave_all).collect();
    if !vector.events.is_empty() {
        all.extend([216, 217, 255].map(octet));
        let both = VectorDraft { leave_all_event: 1, ..octet(216) };
        all.extend([both, VectorDraft { last_event_octet: Some(216), ..vector.clone() }]);
    }
    all
}

#[test]
fn strange_vectors_are_6_at_version_0_and_passed_over_at_every_higher_one() {
    for attribute_type in ATTRIBUTE_TYPES {
        for events in [&[][..], &[JOIN_MT], &[JOIN_MT; 3], &[JOIN_MT; 4]] {
            for vector in strange(&vector_of(attribute_type, events)) {
                let frame = |version| at_version(version, attribute_type, vec![vector.clone()]);
                assert_eq!(number(&frame(0)), 6);
                for version in [1, 2, 128, 255] {
                    let mut table = in_domain(&settings(2));
                    let before = table.clone();
                    accept(&mut table, 1, &frame(version));
                    assert_eq!(table, before);
                }
            }
        }
    }
}

#[test]
fn the_vectors_around_one_that_is_passed_over_are_read() {
    for strange in strange(&vector_of(AttributeType::Listener, &[JOIN_MT; 5])) {
        let vector = |stream_id| listener_vector(stream_id, &[JOIN_MT], &[READY]);
        let vectors = vec![vector(STREAM + 10), strange.clone(), vector(STREAM + 20), strange];
        let mut table = in_domain(&settings(2));
        accept(&mut table, 1, &at_version(1, AttributeType::Listener, vectors));
        assert_eq!(held(&table), [STREAM + 10, STREAM + 20]);
    }
}

#[test]
fn a_later_message_is_read_too() {
    let mut strange = talker_vector(&talker(STREAM), &[JOIN_MT]);
    strange.leave_all_event = 2;
    let messages = vec![
        MessageDraft::new(AttributeType::TalkerAdvertise, vec![strange]),
        MessageDraft::new(AttributeType::Domain, vec![domain_vector(6, 7, &[JOIN_MT])]),
    ];
    let mut table = started(&settings(2));
    accept(&mut table, 1, &FrameDraft { version: 3, ..FrameDraft::new(messages) }.octets());
    assert!(held(&table).is_empty());
    let slot = reference::domain::slot(6, 7).unwrap();
    assert!(table.bridge().unwrap().registrations.domains[0][slot].is_some());
}

#[test]
fn a_vector_is_passed_over_whole() {
    // Its LeaveAll, and the values of good octets beside the bad one, do nothing.
    let mut table = in_domain(&settings(2));
    join_listener(&mut table, 1, STREAM, READY);
    let before = table.clone();
    let mut vector = listener_vector(STREAM, &[LV, LV, LV, JOIN_MT, JOIN_MT, JOIN_MT], &[READY; 6]);
    vector.leave_all_event = 1;
    vector.last_event_octet = Some(216);
    accept(&mut table, 1, &at_version(1, AttributeType::Listener, vec![vector.clone()]));
    assert_eq!(table, before);
    vector.last_event_octet = None;
    accept(&mut table, 1, &at_version(1, AttributeType::Listener, vec![vector]));
    assert_ne!(table, before);
}

#[test]
fn only_three_packed_events_have_a_bound() {
    // A FourPackedEvents octet of FF is four times Ready Failed.
    let vector = listener_vector(STREAM, &[JOIN_MT; 4], &[READY_FAILED; 4]);
    let mut table = in_domain(&settings(2));
    accept(&mut table, 1, &at_version(1, AttributeType::Listener, vec![vector]));
    assert_eq!(held(&table).len(), 4);
}

#[test]
fn whether_it_fits_is_still_checked() {
    for attribute_type in ATTRIBUTE_TYPES {
        for events in [&[][..], &[JOIN_MT], &[JOIN_MT; 4], &[JOIN_MT; 5]] {
            let mut vector = vector_of(attribute_type, events);
            vector.leave_all_event = 2;
            let values = events.len() as u16;
            for version in [0, 1] {
                // With as many values as need one octet more, the list has one octet too few.
                vector.number_of_values = Some((values + 2) / 3 * 3 + 1);
                let message = MessageDraft {
                    list_end_mark: false,
                    ..MessageDraft::new(attribute_type, vec![vector.clone()])
                };
                let frame = FrameDraft { version, ..FrameDraft::new(vec![message]) }.octets();
                assert_eq!(number(&frame), if version == 0 { 6 } else { 3 });
            }
        }
    }
    // An event octet is looked at only where the vector fits.
    let vector =
        VectorDraft { first_event_octet: Some(216), ..talker_vector(&talker(STREAM), &[JOIN_MT]) };
    let mut message = MessageDraft::new(AttributeType::TalkerAdvertise, vec![vector]);
    message.vectors[0].number_of_values = Some(10);
    for version in [0, 1] {
        let frame = FrameDraft { version, ..FrameDraft::new(vec![message.clone()]) };
        assert_eq!(number(&frame.octets()), 3);
    }
}

#[test]
fn its_values_are_not_checked() {
    let last = STREAM | 0xffff;
    for vector in strange(&listener_vector(last, &[JOIN_MT; 2], &[READY; 2])) {
        assert_eq!(number(&at_version(1, AttributeType::Listener, vec![vector])), 0);
    }
    let past = listener_vector(last, &[JOIN_MT; 2], &[READY; 2]);
    assert_eq!(number(&at_version(1, AttributeType::Listener, vec![past])), 7);
}

#[test]
fn its_streams_are_not_counted() {
    let mut strange = listener_vector(STREAM, &[JOIN_MT; 64], &[READY; 64]);
    strange.leave_all_event = 2;
    let new = listener_vector(STREAM + 100, &[JOIN_MT; 64], &[READY; 64]);
    let mut table = in_domain(&settings(2));
    accept(&mut table, 1, &at_version(1, AttributeType::Listener, vec![strange, new]));
    assert_eq!(held(&table).len(), 64);
}

#[test]
fn a_later_fault_refuses_the_whole_pdu() {
    let good = listener_vector(STREAM, &[JOIN_MT], &[READY]);
    let strange = VectorDraft { leave_all_event: 7, ..good.clone() };
    let past = listener_vector(STREAM | 0xffff, &[JOIN_MT; 2], &[READY; 2]);
    let vectors = vec![good, strange, past];
    assert_eq!(number(&at_version(1, AttributeType::Listener, vectors)), 7);
    // 4 and 5 are as before.
    assert_eq!(number(&[1, 0, 1, 0, 2, 0, 0]), 4);
    assert_eq!(number(&[1, 1, 24, 0, 2, 0, 0]), 5);
}

/// The PDUs that the proved reader is run on, with the numbers expected of it.
#[test]
fn the_stored_pdus_of_the_reader() {
    let folder = Path::new(env!("CARGO_MANIFEST_DIR")).join("../crates/readvectors");
    let stored = fs::read_to_string(folder.join("stdin")).expect("stored PDUs");
    let mut printed = String::new();
    for line in stored.lines() {
        if let Some((name, octets)) = line.split_once(':') {
            let octet = |octet: &str| u8::from_str_radix(octet, 16).expect("an octet");
            let octets: Vec<u8> = octets.split_whitespace().map(octet).collect();
            let number = if name.starts_with("mmrp") {
                mmrp::read(&octets).err().map_or(0, |fault| fault.number)
            } else {
                pdu::read(&octets).err().map_or(0, |fault| fault.number)
            };
            printed.push_str(&format!("{name}: {number}\n"));
        }
    }
    assert_eq!(printed, fs::read_to_string(folder.join("stdout")).expect("their numbers"));
}
