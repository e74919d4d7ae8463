//! The console for the six calls, srpcalls.

use crate::helpers::*;
use reference::lent::ROOM_LENGTH;
use reference::table::layout::TABLE_LENGTH;
use reference::{calls, settings};

fn counted(first: u8, octets: &[u8]) -> Vec<u8> {
    let mut record = vec![first];
    record.extend((octets.len() as u16).to_be_bytes());
    record.extend(octets);
    record
}

fn start() -> Vec<u8> {
    counted(0x00, &settings::write(&settings(2)))
}

fn lend(length: usize) -> Vec<u8> {
    [vec![0x51], (length as u16).to_be_bytes().to_vec()].concat()
}

fn lines(records: &[Vec<u8>]) -> Vec<String> {
    calls::run(&records.concat()).lines().map(String::from).collect()
}

const REPORT_12: &str = "report 12 0 0 0 0 0 0000000000000000 none 0 none none";

#[test]
fn calls_before_a_start_are_answered_with_12() {
    let records = [
        counted(0x11, &[0]),
        vec![0x20, 0, 0, 0, 1],
        vec![0x31, 0, 0, 5, 220],
        vec![0x41, 0, 0],
        counted(0x00, &[]),
        vec![0x41, 0, 0],
    ];
    let expected =
        ["receive 12", "advance 12", "write 12 0 0 kept", REPORT_12, "start 11", REPORT_12];
    assert_eq!(lines(&records), expected);
}

#[test]
fn refused_calls_print_zeros_and_none() {
    let records = [
        start(),
        vec![0x31, 0, 0, 5, 219],
        vec![0x33, 0, 0, 5, 220],
        vec![0x31, 0, 3, 5, 220],
        vec![0x4f, 0, 0],
        vec![0x41, 0, 1],
    ];
    let expected = [
        "start 0",
        "write 10 0 0 kept",
        "write 1 0 0 kept",
        "write 13 0 0 kept",
        "report 1 0 0 0 0 0 0000000000000000 none 0 none none",
        "report 13 0 0 0 0 0 0000000000000000 none 0 none none",
    ];
    assert_eq!(lines(&records), expected);
}

/// A record of why, of the worked example's stream.
fn why(port: u8, stream_id: u64, buffer_length: u16) -> Vec<u8> {
    let mut record = vec![0x80 | port];
    record.extend(stream_id.to_be_bytes());
    record.extend(buffer_length.to_be_bytes());
    record
}

#[test]
fn why_prints_step_count_limit_shortfall_and_the_list() {
    let mut settings = settings(2);
    settings.ports[1].limit.a = 17_088_001;
    let mut records = vec![why(1, STREAM, 1_008), counted(0x00, &settings::write(&settings))];
    for port in [1, 2] {
        records.push(counted(0x10 | port, &own_domain(&settings)));
    }
    for stream_id in [STREAM, STREAM + 1] {
        records.push(counted(0x11, &talker_frame(&talker(stream_id), &[JOIN_MT])));
        records.push(counted(0x12, &listener_frame(stream_id, JOIN_MT, READY)));
    }
    records.push(why(2, STREAM, 1_008));
    records.push(why(2, STREAM + 1, 65_535));
    records.push(why(3, STREAM, 1_008));
    records.push(why(2, STREAM + 2, 0));
    records.push(why(2, STREAM, 1_007));
    let expected = [
        "why 12 none 0 0 0 kept",
        "why 0 i 0 0 0 kept",
        "why 0 h 1 17088001 17087999 kept 0200000000010001000000000104be00",
        "why 1 none 0 0 0 kept",
        "why 15 none 0 0 0 kept",
        "why 10 none 0 0 0 kept",
    ];
    let printed: Vec<String> =
        lines(&records).into_iter().filter(|line| line.starts_with("why")).collect();
    assert_eq!(printed, expected);
}

#[test]
fn a_buffer_length_above_2048_counts_as_2048() {
    for length in [1500_u16, 1501, 2048, 2049, 65_535] {
        let write = [vec![0x31, 0, 0], length.to_be_bytes().to_vec()].concat();
        let domains = "0004040010000105020002 6c000106030002 6c00000000".replace(' ', "");
        let expected = format!("write 0 23 2 kept {domains}");
        assert_eq!(lines(&[start(), write])[1], expected);
    }
}

#[test]
fn a_wrong_table_length_makes_every_call_12_until_the_right_one_is_lent() {
    for length in [0, 1, TABLE_LENGTH - 1, TABLE_LENGTH + 1, TABLE_LENGTH + 64, 65_535] {
        let records = [
            start(),
            counted(0x12, &listener_frame(STREAM, JOIN_MT, READY)),
            lend(length),
            start(),
            counted(0x00, &[]),
            counted(0x11, &[0]),
            vec![0x20, 0, 0, 0, 1],
            vec![0x30, 0, 0, 0, 0],
            vec![0x40, 0, 0],
            lend(TABLE_LENGTH),
            vec![0x41, 0, 0],
        ];
        let expected = [
            "start 0",
            "receive 0",
            "start 12",
            "start 12",
            "receive 12",
            "advance 12",
            "write 12 0 0 kept",
            REPORT_12,
            "report 0 1 0 75000000 0 0 0200000000010001 none 0 none none",
        ];
        assert_eq!(lines(&records), expected);
    }
}

fn store(place: usize, octet: u8) -> Vec<u8> {
    let mut record = vec![0x50];
    record.extend((place as u16).to_be_bytes());
    record.push(octet);
    record
}

#[test]
fn storing_behind_the_table_prints_nothing_and_changes_nothing() {
    let records = [start(), store(TABLE_LENGTH, 0xff), store(0xffff, 1), vec![0x20, 0, 0, 0, 1]];
    assert_eq!(lines(&records), ["start 0", "advance 0"]);
}

#[test]
fn storing_in_the_table_changes_what_calls_find() {
    let report = vec![0x41, 0, 0];
    let records = [
        start(),
        store(18, 1), // limit A of port 1
        report.clone(),
        store(8, 0),
        report.clone(),
        store(8, 0x26),
        report,
    ];
    let changed = "report 0 0 0 4369967296 0 0 0000000000000000 none 0 none none";
    assert_eq!(lines(&records), ["start 0", changed, REPORT_12, changed]);
}

#[test]
fn the_sum_is_adler_32() {
    assert_eq!(calls::adler_32(b""), 1);
    assert_eq!(calls::adler_32(b"Wikipedia"), 0x11e6_0398);
    assert_eq!(calls::adler_32(&[0; TABLE_LENGTH]), 0xff1b_0001);
    // Octets 255 up to the greatest length, with a remainder taken at each.
    let octets = [255; ROOM_LENGTH];
    let (mut sum, mut sum_of_sums) = (1_u64, 0_u64);
    for octet in octets {
        sum = (sum + octet) % 65_521;
        sum_of_sums = (sum_of_sums + sum) % 65_521;
    }
    let expected = sum_of_sums << 16 | sum;
    assert_eq!(u64::from(calls::adler_32(&[255; ROOM_LENGTH])), expected);
}

#[test]
fn sum_and_octets_are_those_that_calls_are_lent() {
    let (sum, octets) = (vec![0x60], vec![0x61]);
    let records = [
        sum.clone(),
        octets.clone(),
        store(TABLE_LENGTH, 0xab),
        sum.clone(),
        lend(TABLE_LENGTH + 1),
        octets.clone(),
        lend(2),
        store(1, 0x0c),
        sum.clone(),
        octets.clone(),
        lend(0),
        sum,
        octets.clone(),
        lend(65_535),
        octets,
    ];
    let zeros = |octets: usize| "00".repeat(octets);
    let table = TABLE_LENGTH;
    let expected = [
        "table ff1b0001".to_string(),
        format!("octets {}", zeros(table)),
        "table ff1b0001".to_string(),
        format!("octets {}ab", zeros(table)),
        "table 000e000d".to_string(),
        "octets 000c".to_string(),
        "table 00000001".to_string(),
        "octets".to_string(),
        format!("octets 000c{}ab{}", zeros(table - 2), zeros(63)),
    ];
    assert_eq!(lines(&records), expected);
}

#[test]
fn start_leaves_the_room_behind_the_table() {
    let records = [store(ROOM_LENGTH - 1, 7), start(), lend(ROOM_LENGTH), vec![0x61]];
    assert!(lines(&records)[1].ends_with("0007"));
}

#[test]
fn settings_and_pdus_longer_than_what_a_call_is_handed_are_read_whole() {
    for length in [4_096, 4_097, 65_535] {
        let octets = vec![0; length];
        let records = [start(), counted(0x00, &octets), counted(0x11, &octets), start()];
        assert_eq!(lines(&records), ["start 0", "start 11", "receive 2", "start 0"]);
        assert_eq!(lines(&[start(), counted(0x71, &octets)]), ["start 0", "mmrp 2"]);
    }
}

#[test]
fn another_octet_stops_the_run() {
    let known =
        |octet: u8| matches!(octet, 0 | 0x10..=0x20 | 0x30..=0x51 | 0x60 | 0x61 | 0x70..=0x8f);
    for octet in (0..=255).filter(|octet| !known(*octet)) {
        assert_eq!(lines(&[start(), vec![octet], start()]), ["start 0", "stop"]);
    }
    for octet in 0x52..=0x5f {
        assert_eq!(lines(&[vec![octet]]), ["stop"]);
    }
}

#[test]
fn a_cut_record_stops_the_run() {
    for record in [
        start(),
        counted(0x11, &[0, 0, 0]),
        counted(0x71, &[0, 0, 0]),
        vec![0x20, 0, 0, 0, 1],
        vec![0x31, 0, 0, 5, 220],
        vec![0x41, 0, 0],
        vec![0x50, 0xff, 0xff, 0],
        lend(0),
        why(1, STREAM, 1_008),
    ] {
        for length in 1..record.len() {
            assert_eq!(lines(&[start(), record[..length].to_vec()]), ["start 0", "stop"]);
        }
    }
}

#[test]
fn an_input_that_ends_between_records_prints_nothing_more() {
    assert_eq!(calls::run(&[]), "");
    assert_eq!(calls::run(&start()), "start 0\n");
}

#[test]
fn an_input_may_be_longer_than_65536_octets() {
    let records = [start(), [0x20, 0, 0, 0, 1].repeat(20_000)];
    let lines = lines(&records);
    assert_eq!(lines.len(), 20_001);
    assert!(lines[1..].iter().all(|line| line == "advance 0"));
}
