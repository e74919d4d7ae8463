//! Each number given back, and the order among them (01, "Numbers given back").

use crate::helpers::*;
use reference::bridge::{ReportAnswer, WriteAnswer};
use reference::frame::{FrameDraft, MessageDraft};
use reference::lent::Table;
use reference::pdu::AttributeType;
use reference::settings;
use reference::settled::{Column, Entry};
use reference::table::layout::TABLE_LENGTH;

/// A bridge with a stream, settled.
fn running() -> Table {
    let mut table = in_domain(&settings(2));
    join_talker(&mut table, 1, &talker(STREAM));
    join_listener(&mut table, 2, STREAM, READY);
    advance(&mut table, 100);
    table
}

/// A refused receive gives its number and changes nothing.
fn refuses(frame: &[u8], number: u8) {
    let mut table = running();
    let before = table.clone();
    assert_eq!(table.receive(1, frame), number, "{frame:02x?}");
    assert_eq!(table, before);
}

#[test]
fn number_0_accepted() {
    let mut table = running();
    assert_eq!(table.start(&settings::write(&settings(2))), 0);
    assert_eq!(table.receive(1, &talker_frame(&talker(STREAM), &[NEW])), 0);
    assert_eq!(table.advance(1), 0);
    assert_eq!(table.write(1, 0, &mut [0; 1500]).number, 0);
    assert_eq!(table.report(1, 0).number, 0);
}

#[test]
fn number_1_port_0_or_above_the_bridges_ports() {
    let mut table = running();
    let before = table.clone();
    for port in [0, 3, 8, 9, 15, 16, 256, 257, 0x0001_0001, u32::MAX] {
        assert_eq!(table.receive(port, &[0]), 1);
        assert_eq!(table.write(port, 0, &mut [0; 1500]).number, 1);
        assert_eq!(table.report(port, 0).number, 1);
    }
    assert_eq!(table, before);
}

#[test]
fn number_2_pdu_of_0_octets_or_more_than_1500() {
    refuses(&[], 2);
    refuses(&[0; 1501], 2);
    refuses(&[0; 4096], 2);
    accept(&mut running(), 1, &[0; 1500]);
}

#[test]
fn number_3_a_field_runs_past() {
    let frame = talker_frame(&talker(STREAM), &[JOIN_MT]);
    // A cut right after the version or the Message leaves a PDU without EndMark.
    let message_end = frame.len() - 2;
    for length in 1..frame.len() {
        if length == 1 || length == message_end {
            accept(&mut running(), 1, &frame[..length]);
        } else {
            refuses(&frame[..length], 3);
        }
    }
}

#[test]
fn number_3_the_lists_end_mark_is_not_its_last_two_octets() {
    let vector = talker_vector(&talker(STREAM), &[JOIN_MT]);
    for after in [vec![0], vec![0, 0], vec![0, 1], vec![1]] {
        let mut message = MessageDraft::new(AttributeType::TalkerAdvertise, vec![vector.clone()]);
        message.after_list_end_mark = after;
        refuses(&FrameDraft::new(vec![message]).octets(), 3);
    }
    let mut message = MessageDraft::new(AttributeType::TalkerAdvertise, vec![vector]);
    message.list_end_mark = false;
    refuses(&FrameDraft::new(vec![message]).octets(), 3);
}

#[test]
fn number_4_attribute_type_0_or_above_4_at_version_0() {
    for (version, attribute_type, number) in
        [(0, 0, 4), (1, 0, 4), (255, 0, 4), (0, 5, 4), (0, 255, 4), (1, 5, 0), (255, 255, 0)]
    {
        let frame = [version, attribute_type, 9, 0, 0];
        assert_eq!(running().receive(1, &frame), number);
    }
}

#[test]
fn number_5_attribute_length_not_that_of_the_type() {
    for attribute_type in 1..=4 {
        for attribute_length in 0..=255 {
            let right = [25, 34, 8, 4][usize::from(attribute_type) - 1];
            let frame = [0, attribute_type, attribute_length, 0, 2, 0, 0, 0, 0];
            let number = if attribute_length == right { 0 } else { 5 };
            assert_eq!(running().receive(1, &frame), number);
        }
    }
}

#[test]
fn number_6_leave_all_event_above_1() {
    for leave_all_event in 0..=7 {
        let mut vector = talker_vector(&talker(STREAM), &[JOIN_MT]);
        vector.leave_all_event = leave_all_event;
        let frame = one_message(AttributeType::TalkerAdvertise, vec![vector]);
        let number = if leave_all_event > 1 { 6 } else { 0 };
        assert_eq!(running().receive(1, &frame), number);
    }
}

#[test]
fn number_6_event_octet_above_215() {
    for octet in 0..=255 {
        let mut vector = talker_vector(&talker(STREAM), &[JOIN_MT]);
        vector.first_event_octet = Some(octet);
        let frame = one_message(AttributeType::TalkerAdvertise, vec![vector]);
        assert_eq!(running().receive(1, &frame), if octet > 215 { 6 } else { 0 });
    }
}

#[test]
fn number_7_a_value_runs_past_its_field() {
    let last = 0x0200_0000_0001_fffe;
    let listeners = |count: usize| {
        let vector = listener_vector(last, &vec![MT; count], &vec![READY; count]);
        one_message(AttributeType::Listener, vec![vector])
    };
    accept(&mut running(), 1, &listeners(2));
    refuses(&listeners(3), 7);
}

#[test]
fn number_8_streams_held_plus_new_ones_joined_exceed_64() {
    let listeners = |first: u64, count: usize| {
        let vector = listener_vector(first, &vec![JOIN_MT; count], &vec![READY; count]);
        one_message(AttributeType::Listener, vec![vector])
    };
    // One stream is held, so 63 are free.
    refuses(&listeners(STREAM + 1, 64), 8);
    refuses(&listeners(STREAM, 65), 8);
    let mut table = running();
    accept(&mut table, 1, &listeners(STREAM, 64));
    assert_eq!(held(&table).len(), 64);
    let before = table.clone();
    assert_eq!(table.receive(2, &listeners(STREAM + 64, 1)), 8);
    assert_eq!(table.receive(2, &talker_frame(&talker(STREAM - 1), &[JOIN_MT])), 8);
    assert_eq!(table, before);
    // Nothing new is never refused.
    accept(&mut table, 2, &listeners(STREAM, 64));
}

#[test]
fn number_9_time_below_the_held_clock() {
    let mut table = running();
    let before = table.clone();
    assert_eq!(table.advance(99), 9);
    assert_eq!(table.advance(0), 9);
    assert_eq!(table, before);
    assert_eq!(table.advance(100), 0);
    assert_eq!(table.advance(u32::MAX), 0);
    assert_eq!(table.advance(u32::MAX - 1), 9);
    assert_eq!(table.advance(u32::MAX), 0);
}

#[test]
fn number_10_output_buffer_shorter_than_1500() {
    let mut table = running();
    let before = table.clone();
    for length in [0, 1, 3, 37, 1499] {
        let mut buffer = vec![0xa5; length];
        let refused = WriteAnswer { number: 10, length: 0, next_place: 0 };
        assert_eq!(table.write(2, 0, &mut buffer), refused);
        assert_eq!(buffer, vec![0xa5; length]);
        assert_eq!(table, before);
    }
}

#[test]
fn number_11_settings_not_as_laid_out() {
    let good = settings::write(&settings(2));
    let mut wrong = Vec::new();
    for length in (0..good.len()).chain([good.len() + 1, good.len() + 22]) {
        let mut octets = good.clone();
        octets.resize(length, 0);
        wrong.push(octets);
    }
    for ports in [0, 1, 3, 8, 9, 15] {
        let mut octets = good.clone();
        octets[8] = ports << 4 | octets[8] & 0x0f;
        wrong.push(octets.clone());
        if ports == 0 || ports > 8 {
            octets.resize(settings::length(usize::from(ports)), 0);
            wrong.push(octets);
        }
    }
    for priority in 0..8 {
        let mut equal = settings(2);
        equal.priority.a = priority;
        equal.priority.b = priority;
        wrong.push(settings::write(&equal));
    }
    let mut no_leave_time = settings(2);
    no_leave_time.leave_time = 0;
    wrong.push(settings::write(&no_leave_time));
    for bit in 0..5 {
        for port in 0..2 {
            let mut octets = good.clone();
            octets[settings::length(port)] |= 1 << bit;
            wrong.push(octets);
        }
    }
    for octets in wrong {
        start_refuses(&octets);
    }
}

/// A refused start gives 11 and changes nothing.
fn start_refuses(settings: &[u8]) {
    let mut table = running();
    let before = table.clone();
    assert_eq!(table.start(settings), 11, "{settings:02x?}");
    assert_eq!(table, before);
}

#[test]
fn number_11_the_vlan_setting() {
    let with_vlan = |vlan: u16| {
        let mut octets = settings::write(&settings(2));
        octets[11..13].copy_from_slice(&vlan.to_be_bytes());
        octets
    };
    for vlan in [0, 4_095, 0x1002, 0x2002, 0x4002, 0xc002, 0xf002, 0x1000, 0xffff, 0x8000, 0x8fff] {
        start_refuses(&with_vlan(vlan));
    }
    for vlan in [1, 2, 0x0800, 4_094, 0x8001, 0x8ffe] {
        assert_eq!(running().start(&with_vlan(vlan)), 0);
    }
}

#[test]
fn number_11_the_limit_of_inbound_ports() {
    for limit in 9..=255 {
        let mut octets = settings::write(&settings(2));
        octets[13] = limit;
        start_refuses(&octets);
    }
}

#[test]
fn number_11_settings_of_earlier_lengths() {
    for ports in 1..=8 {
        // Without the limit of inbound ports.
        let mut octets = settings::write(&settings(ports));
        octets.remove(13);
        assert_eq!(octets.len(), 13 + 22 * ports);
        start_refuses(&octets);
        // Nor with a VLAN.
        octets.drain(11..13);
        assert_eq!(octets.len(), 11 + 22 * ports);
        start_refuses(&octets);
    }
}

#[test]
fn number_12_wrong_table_length_or_no_bridge() {
    let good = settings::write(&settings(2));
    let mut zeros = Table::zeros();
    assert_eq!(zeros.receive(1, &[0]), 12);
    assert_eq!(zeros.advance(0), 12);
    assert_eq!(zeros.write(1, 0, &mut [0; 1500]).number, 12);
    assert_eq!(zeros.report(1, 0).number, 12);
    assert_eq!(zeros, Table::zeros());
    for length in [0, 1, TABLE_LENGTH - 1, TABLE_LENGTH + 1, TABLE_LENGTH + 64] {
        let mut table = running();
        table.lend(length);
        let before = table.clone();
        assert_eq!(table.start(&good), 12);
        assert_eq!(table.start(&[]), 12);
        assert_eq!(table.receive(1, &[0]), 12);
        assert_eq!(table.advance(100), 12);
        assert_eq!(table.write(1, 0, &mut [0; 1500]).number, 12);
        assert_eq!(table.report(1, 0).number, 12);
        assert_eq!(table, before);
    }
}

#[test]
fn number_13_place_above_declarations_or_streams_held() {
    let mut table = running();
    // A Listener and two Domains are declared on port 1, and one stream is held.
    for (place, write, report) in
        [(1, 0, 0), (2, 0, 13), (3, 0, 13), (4, 13, 13), (65_535, 13, 13), (u32::MAX, 13, 13)]
    {
        assert_eq!(table.write(1, place, &mut [0; 1500]).number, write);
        assert_eq!(table.report(1, place).number, report);
    }
}

#[test]
fn a_refusal_gives_zero_for_every_other_part() {
    let refused = |number| ReportAnswer {
        number,
        count: 0,
        totals: settings::PerClass { a: 0, b: 0 },
        limits: settings::PerClass { a: 0, b: 0 },
        stream_id: 0,
        column: Column::None,
        listener: None,
        entry: Entry::None,
    };
    assert_eq!(running().report(3, 0), refused(1));
    assert_eq!(running().report(2, 2), refused(13));
    assert_eq!(Table::zeros().report(2, 2), refused(12));
}

#[test]
fn the_table_comes_before_the_rest_then_the_port() {
    let mut table = Table::zeros();
    assert_eq!(table.receive(0, &[]), 12);
    assert_eq!(table.write(0, 9, &mut []).number, 12);
    assert_eq!(table.report(0, 9).number, 12);
    let mut table = running();
    assert_eq!(table.receive(0, &[]), 1);
    assert_eq!(table.write(0, 9, &mut []).number, 1);
    assert_eq!(table.report(0, 9).number, 1);
}

#[test]
fn write_refuses_with_10_then_13() {
    assert_eq!(running().write(1, 9, &mut [0; 1499]).number, 10);
    assert_eq!(running().write(1, 9, &mut [0; 1500]).number, 13);
}

#[test]
fn the_walk_comes_before_8() {
    let count = 65;
    let vector = listener_vector(STREAM + 1, &vec![JOIN_MT; count], &vec![READY; count]);
    let mut frame = one_message(AttributeType::Listener, vec![vector]);
    refuses(&frame, 8);
    let end = frame.len() - 2;
    frame.truncate(end);
    frame.extend([9, 9, 9, 9]);
    refuses(&frame, 4);
}
