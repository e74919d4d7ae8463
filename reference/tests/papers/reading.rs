//! Reading the PDU (01, "The PDU").

use crate::helpers::*;
use reference::frame::{FrameDraft, MessageDraft, VectorDraft};
use reference::lent::Table;
use reference::mrp::{self, Event};
use reference::pdu::{self, AttributeType, Domain, ListenerType, Message, Value};

fn number(frame: &[u8]) -> u8 {
    started(&settings(2)).receive(1, frame)
}

fn listener_message(vectors: Vec<VectorDraft>) -> MessageDraft {
    MessageDraft::new(AttributeType::Listener, vectors)
}

#[test]
fn every_event_octet_is_three_events_in_base_six() {
    for e1 in 0..6 {
        for e2 in 0..6 {
            for e3 in 0..6 {
                let octet = (e1 * 6 + e2) * 6 + e3;
                let events = [e1, e2, e3].map(|event| mrp::EVENTS[usize::from(event)]);
                assert_eq!(mrp::three_events(octet), events);
            }
        }
    }
    assert_eq!(mrp::three_events(0x6c), [Event::JoinMt, Event::New, Event::New]);
}

#[test]
fn four_packed_events_are_two_bits_each_first_highest() {
    let all = [
        None,
        Some(ListenerType::AskingFailed),
        Some(ListenerType::Ready),
        Some(ListenerType::ReadyFailed),
    ];
    assert_eq!(pdu::four_listener_types(0b00_01_10_11), all);
}

#[test]
fn spare_positions_are_not_looked_at_though_the_octets_bound_counts() {
    // Spare positions of a Listener vector hold joins of streams that aren't registered.
    let mut vector = listener_vector(STREAM, &[JOIN_MT], &[READY]);
    vector.spare_event = JOIN_IN;
    vector.spare_listener_type = READY;
    let mut table = started(&settings(2));
    accept(&mut table, 1, &one_message(AttributeType::Listener, vec![vector.clone()]));
    assert_eq!(held(&table), [STREAM]);
    // The one event Lv with spare positions that bring the octet above 215.
    vector.first_event_octet = Some(216);
    assert_eq!(number(&one_message(AttributeType::Listener, vec![vector])), 6);
}

#[test]
fn the_pdu_may_end_right_after_a_message() {
    let mut frame = talker_frame(&talker(STREAM), &[JOIN_MT]);
    frame.truncate(frame.len() - 2);
    let mut table = started(&settings(2));
    accept(&mut table, 1, &frame);
    assert_eq!(held(&table), [STREAM]);
}

#[test]
fn octets_after_the_end_mark_are_ignored() {
    let mut frame = talker_frame(&talker(STREAM), &[JOIN_MT]);
    frame.extend(talker_frame(&talker(STREAM + 1), &[JOIN_MT]));
    frame.extend([0xff; 9]);
    let mut table = started(&settings(2));
    accept(&mut table, 1, &frame);
    assert_eq!(held(&table), [STREAM]);
}

#[test]
fn a_pdu_without_messages_does_nothing() {
    for frame in [&[0][..], &[7], &[0, 0, 0], &[7, 0, 0], &[0, 0, 0, 1, 2, 3]] {
        let mut table = started(&settings(2));
        let before = table.clone();
        accept(&mut table, 1, frame);
        assert_eq!(table, before);
    }
}

#[test]
fn one_octet_left_where_a_message_could_stand_is_3() {
    assert_eq!(number(&[0, 0]), 3);
    assert_eq!(number(&[0, 1]), 3);
    let mut frame = talker_frame(&talker(STREAM), &[JOIN_MT]);
    frame.truncate(frame.len() - 1);
    assert_eq!(number(&frame), 3);
}

#[test]
fn the_end_mark_is_looked_for_before_the_header() {
    assert_eq!(number(&[0, 0, 0]), 0);
    assert_eq!(number(&[0, 0, 1]), 3);
    assert_eq!(number(&[0, 0, 1, 0]), 3);
    assert_eq!(number(&[0, 0, 1, 0, 0]), 4);
    assert_eq!(number(&[3, 0, 1, 0, 0]), 4);
}

#[test]
fn the_order_of_a_messages_checks() {
    // Header (3) before type (4), type before length (5), length before list within PDU (3).
    assert_eq!(number(&[0, 9, 9, 9]), 3);
    assert_eq!(number(&[0, 9, 9, 9, 9]), 4);
    assert_eq!(number(&[0, 1, 9, 9, 9]), 5);
    assert_eq!(number(&[0, 1, 25, 9, 9]), 3);
    assert_eq!(number(&[1, 9, 9, 9, 9]), 3);
}

#[test]
fn unknown_types_at_a_higher_version_are_skipped_by_their_list_length() {
    let known = MessageDraft::new(
        AttributeType::TalkerAdvertise,
        vec![talker_vector(&talker(STREAM), &[JOIN_MT])],
    );
    for attribute_type in [5, 255] {
        for octets in [vec![], vec![0xff], vec![0xff; 40]] {
            let mut skipped = MessageDraft::new(AttributeType::Domain, vec![]);
            skipped.attribute_type = attribute_type;
            skipped.attribute_length = 99;
            skipped.list_end_mark = false;
            skipped.after_list_end_mark = octets;
            let mut frame = FrameDraft::new(vec![skipped, known.clone()]);
            frame.version = 1;
            let mut table = started(&settings(2));
            accept(&mut table, 1, &frame.octets());
            assert_eq!(held(&table), [STREAM]);
            let read = pdu::read(&frame.octets()).unwrap();
            assert_eq!(read.messages[0], Message::Skipped(()));
            frame.version = 0;
            assert_eq!(number(&frame.octets()), 4);
        }
    }
    assert_eq!(number(&[1, 5, 0, 0, 1]), 3);
    assert_eq!(number(&[1, 5, 0, 0, 1, 0]), 0);
}

#[test]
fn known_types_at_a_higher_version_are_read_as_at_version_0_but_for_number_6() {
    for (version, octet, expected) in [(0, 215, 0), (0, 216, 6), (200, 215, 0), (200, 216, 0)] {
        let mut vector = talker_vector(&talker(STREAM), &[LV, LV, LV]);
        vector.first_event_octet = Some(octet);
        let message = MessageDraft::new(AttributeType::TalkerAdvertise, vec![vector]);
        let mut frame = FrameDraft::new(vec![message]);
        frame.version = version;
        assert_eq!(number(&frame.octets()), expected);
    }
    assert_eq!(number(&[1, 1, 24, 0, 2, 0, 0]), 5);
}

#[test]
fn a_list_of_only_its_end_mark_does_nothing_and_a_shorter_one_is_3() {
    for attribute_type in 1..=4 {
        let length = [25, 34, 8, 4][usize::from(attribute_type) - 1];
        assert_eq!(number(&[0, attribute_type, length, 0, 2, 0, 0]), 0);
        assert_eq!(number(&[0, attribute_type, length, 0, 1, 0, 0]), 3);
        assert_eq!(number(&[0, attribute_type, length, 0, 0, 0, 0]), 3);
    }
}

#[test]
fn in_one_vector_leave_all_event_comes_before_fits() {
    // 6 before 3: the vector doesn't fit, and its LeaveAllEvent is 2.
    assert_eq!(number(&[0, 3, 8, 0, 2, 0x40, 1]), 6);
    assert_eq!(number(&[0, 3, 8, 0, 2, 0x20, 1]), 3);
}

#[test]
fn in_one_vector_fits_comes_before_event_octets_and_those_before_values() {
    let mut vector = listener_vector(0x0200_0000_0001_ffff, &[LV; 4], &[READY; 4]);
    assert_eq!(number(&one_message(AttributeType::Listener, vec![vector.clone()])), 7);
    vector.first_event_octet = Some(255);
    assert_eq!(number(&one_message(AttributeType::Listener, vec![vector.clone()])), 6);
    vector.number_of_values = Some(100);
    assert_eq!(number(&one_message(AttributeType::Listener, vec![vector])), 3);
}

#[test]
fn the_first_fault_met_wins_and_nothing_of_the_pdu_is_applied() {
    let good = listener_vector(STREAM, &[JOIN_MT], &[READY]);
    let past = listener_vector(0x0200_0000_0001_ffff, &[MT, MT], &[READY, READY]);
    let mut event = good.clone();
    event.first_event_octet = Some(216);
    let orders = [
        (vec![listener_message(vec![good.clone(), past.clone(), event.clone()])], 7),
        (vec![listener_message(vec![good.clone(), event.clone(), past.clone()])], 6),
        (vec![listener_message(vec![good.clone(), past]), listener_message(vec![event])], 7),
    ];
    for (messages, expected) in orders {
        let mut table = started(&settings(2));
        assert_eq!(table.receive(1, &FrameDraft::new(messages).octets()), expected);
        assert!(held(&table).is_empty());
    }
    // A later Message's list length that runs past is met after an earlier Message's faults.
    let mut cut = FrameDraft::new(vec![listener_message(vec![good])]).octets();
    cut.truncate(cut.len() - 2);
    cut.extend([3, 8, 1, 0]);
    let mut table = started(&settings(2));
    assert_eq!(table.receive(1, &cut), 3);
    assert!(held(&table).is_empty());
}

#[test]
fn every_number_of_values_counts_for_7_whatever_its_event() {
    for event in [NEW, JOIN_IN, IN, JOIN_MT, MT, LV] {
        for listener_type in [IGNORE, ASKING, READY, READY_FAILED] {
            let vector = listener_vector(0x0200_0000_0001_ffff, &[event; 2], &[listener_type; 2]);
            assert_eq!(number(&one_message(AttributeType::Listener, vec![vector])), 7);
        }
        assert_eq!(number(&talker_frame(&talker(0xffff), &[event; 2])), 7);
    }
}

#[test]
fn spare_positions_are_no_values_for_7() {
    for values in 1..=3 {
        let last = 0x0200_0000_0001_ffff - values as u64 + 1;
        let vector = listener_vector(last, &vec![MT; values], &vec![READY; values]);
        assert_eq!(number(&one_message(AttributeType::Listener, vec![vector])), 0);
    }
}

#[test]
fn destination_runs_past_at_48_bits() {
    let mut at_bound = talker(STREAM);
    at_bound.parameters.destination = (1 << 48) - 2;
    assert_eq!(number(&talker_frame(&at_bound, &[JOIN_MT; 2])), 0);
    assert_eq!(number(&talker_frame(&at_bound, &[JOIN_MT; 3])), 7);
}

#[test]
fn unique_id_does_not_carry_into_the_mac_but_may_reach_ffff() {
    let vector = talker_vector(&talker(0x0200_0000_0001_fffe), &[JOIN_MT; 2]);
    let mut table = started(&settings(2));
    accept(&mut table, 1, &one_message(AttributeType::TalkerAdvertise, vec![vector]));
    assert_eq!(held(&table), [0x0200_0000_0001_fffe, 0x0200_0000_0001_ffff]);
}

#[test]
fn domain_octets_run_past_at_8_bits_each() {
    let domain = |class_id, priority, values: usize| {
        let vector = domain_vector(class_id, priority, &vec![JOIN_MT; values]);
        number(&one_message(AttributeType::Domain, vec![vector]))
    };
    assert_eq!(domain(255, 0, 1), 0);
    assert_eq!(domain(255, 0, 2), 7);
    assert_eq!(domain(0, 255, 2), 7);
    // 3 bits of priority are no bound.
    assert_eq!(domain(6, 7, 2), 0);
    assert_eq!(domain(6, 250, 6), 0);
    assert_eq!(domain(6, 250, 7), 7);
    assert_eq!(domain(0, 0, 256), 0);
    assert_eq!(domain(0, 0, 257), 7);
}

#[test]
fn value_n_of_a_domain_adds_n_to_class_id_and_priority() {
    let read = pdu::read(&domain_frame(4, 1, &[JOIN_MT, MT, LV])).unwrap();
    let values: Vec<Value> =
        read.vectors().flat_map(|vector| &vector.values).map(|(_, value)| *value).collect();
    let expected = [(4, 1), (5, 2), (6, 3)]
        .map(|(class_id, priority)| Value::Domain(Domain { class_id, priority, vlan: 2 }));
    assert_eq!(values, expected);
}

#[test]
fn leave_all_with_0_values_needs_first_value_and_takes_effect() {
    // FirstValue FFFF.. would run past with more than one value; it isn't looked at.
    let vector =
        VectorDraft { leave_all_event: 1, first_value: vec![0xff; 8], ..VectorDraft::default() };
    let mut table = started(&settings(2));
    join_listener(&mut table, 1, STREAM, READY);
    let frame = one_message(AttributeType::Listener, vec![vector.clone()]);
    accept(&mut table, 1, &frame);
    advance(&mut table, 60);
    assert!(held(&table).is_empty());
    for length in 0..8 {
        let mut short = vector.clone();
        short.first_value.truncate(length);
        assert_eq!(number(&one_message(AttributeType::Listener, vec![short])), 3);
    }
}

#[test]
fn header_0000_is_always_the_end_mark() {
    let zero = VectorDraft { first_value: vec![0; 8], ..VectorDraft::default() };
    assert_eq!(number(&one_message(AttributeType::Listener, vec![zero])), 3);
}

#[test]
fn value_n_adds_n_to_unique_id_and_destination() {
    let frame = talker_frame(&talker(STREAM), &[JOIN_MT, MT, JOIN_IN, NEW]);
    let read = pdu::read(&frame).unwrap();
    let values: Vec<Value> =
        read.vectors().flat_map(|vector| &vector.values).map(|(_, value)| *value).collect();
    let expected: Vec<Value> = (0..4).map(|n| Value::Talker(talker(STREAM + n))).collect();
    assert_eq!(values, expected);
}

#[test]
fn reserved_bits_are_ignored() {
    let mut vector = talker_vector(&talker(STREAM), &[JOIN_MT]);
    vector.first_value[20] |= 0x0f;
    let mut table = started(&settings(2));
    accept(&mut table, 1, &one_message(AttributeType::TalkerAdvertise, vec![vector]));
    let mut plain = started(&settings(2));
    join_talker(&mut plain, 1, &talker(STREAM));
    assert_eq!(table, plain);
}

#[test]
fn every_vector_of_every_message_is_applied() {
    let messages = vec![
        MessageDraft::new(
            AttributeType::TalkerAdvertise,
            vec![
                talker_vector(&talker(STREAM), &[JOIN_MT]),
                talker_vector(&talker(STREAM + 1), &[JOIN_MT]),
            ],
        ),
        listener_message(vec![listener_vector(STREAM + 2, &[JOIN_MT], &[READY])]),
        MessageDraft::new(
            AttributeType::TalkerAdvertise,
            vec![talker_vector(&talker(STREAM + 3), &[JOIN_MT])],
        ),
    ];
    let mut table: Table = started(&settings(2));
    accept(&mut table, 1, &FrameDraft::new(messages).octets());
    assert_eq!(held(&table), [STREAM, STREAM + 1, STREAM + 2, STREAM + 3]);
}

#[test]
fn the_largest_vectors_that_fit_are_read() {
    let count = 4398;
    let vector = talker_vector(&talker(STREAM), &vec![MT; count]);
    let frame = one_message(AttributeType::TalkerAdvertise, vec![vector]);
    assert_eq!(frame.len(), 1502);
    assert_eq!(number(&frame), 2);
    // Without the PDU's EndMark it is 1,500 octets.
    assert_eq!(number(&frame[..1500]), 0);
}
