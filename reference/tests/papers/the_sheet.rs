//! The printed sheet (01, "The printed sheet").

use crate::helpers::*;
use reference::{settings, sheet};

const PORTS: &str = "port 1 A 0/75000000 B 0/0\nport 2 A 0/75000000 B 0/0\n";

fn head() -> Vec<u8> {
    settings::write(&settings(2))
}

fn pdu_record(port: u8, pdu: &[u8]) -> Vec<u8> {
    let mut record = vec![0x10 | port];
    record.extend((pdu.len() as u16).to_be_bytes());
    record.extend(pdu);
    record
}

fn advance_record(time: u32) -> Vec<u8> {
    [vec![0x20], time.to_be_bytes().to_vec()].concat()
}

/// The sheet of accepted settings and these records.
fn sheet_of(records: &[Vec<u8>]) -> String {
    sheet::run(&[head(), records.concat()].concat())
}

#[test]
fn refused_settings_print_stop_alone() {
    let mut wrong = head();
    wrong[10] = 0;
    wrong[9] &= 0xc0;
    assert_eq!(sheet::run(&wrong), "stop\n");
    wrong.extend(advance_record(5));
    assert_eq!(sheet::run(&wrong), "stop\n");
}

#[test]
fn the_report_comes_once_after_the_last_record_or_stop() {
    assert_eq!(sheet_of(&[]), PORTS);
    assert_eq!(sheet_of(&[advance_record(1), advance_record(2)]), PORTS);
    assert_eq!(sheet_of(&[vec![0x00]]), format!("stop\n{PORTS}"));
    let refused = pdu_record(1, &[]);
    let printed = sheet_of(&[refused, vec![0xff], advance_record(0)]);
    assert_eq!(printed, format!("refused 2\nstop\n{PORTS}"));
}

#[test]
fn any_hex_digit_is_a_port_and_wrong_ones_are_refused_with_1() {
    for port in 0..16 {
        let expected =
            if port == 1 || port == 2 { PORTS.to_string() } else { format!("refused 1\n{PORTS}") };
        assert_eq!(sheet_of(&[pdu_record(port, &[0])]), expected);
    }
}

#[test]
fn a_cut_record_stops_and_its_call_is_not_made() {
    let stopped = format!("stop\n{PORTS}");
    let pdu = listener_frame(STREAM, JOIN_MT, READY);
    for record in [pdu_record(1, &pdu), pdu_record(9, &pdu), advance_record(100)] {
        for length in 1..record.len() {
            assert_eq!(sheet_of(&[record[..length].to_vec()]), stopped);
        }
    }
}

#[test]
fn a_whole_record_of_length_0_or_above_1500_is_refused_with_2() {
    for length in [0, 1501, 5000, 20_000] {
        let record = pdu_record(1, &vec![0; length]);
        assert_eq!(sheet_of(&[record]), format!("refused 2\n{PORTS}"));
    }
}

#[test]
fn another_octet_stops_the_reading() {
    for octet in (0..=255_u8).filter(|octet| !(0x10..=0x20).contains(octet)) {
        let records = [vec![octet], pdu_record(1, &listener_frame(STREAM, JOIN_MT, READY))];
        assert_eq!(sheet_of(&records), format!("stop\n{PORTS}"));
    }
}

#[test]
fn octets_past_65536_are_not_read() {
    // So many octets of records that do nothing, none shorter than 4.
    let filler = |total: usize| {
        let mut records = Vec::new();
        while records.len() < total {
            let to_go = total - records.len();
            let length = if to_go < 1_504 { to_go } else { 1_000 };
            records.extend(pdu_record(1, &vec![0; length - 3]));
        }
        records
    };
    let join = pdu_record(1, &listener_frame(STREAM, JOIN_MT, READY));
    let room = 65_536 - head().len() - join.len();
    let stream_lines = "0200000000010001 1 none 0 none none\n0200000000010001 2 none 0 none none\n";
    let whole = [filler(room), join.clone()].concat();
    assert_eq!(sheet_of(&[whole.clone(), vec![]]), format!("{PORTS}{stream_lines}"));
    // What follows octet 65,536 is as if absent.
    assert_eq!(sheet_of(&[whole, vec![0xff; 9]]), format!("{PORTS}{stream_lines}"));
    // One octet later the record crosses the boundary and is cut.
    let crossing = [filler(room + 1), join].concat();
    assert_eq!(sheet_of(&[crossing]), format!("stop\n{PORTS}"));
}

#[test]
fn settings_are_as_long_as_their_ports_field_says_or_what_there_is() {
    for length in 0..head().len() {
        assert_eq!(sheet::run(&head()[..length]), "stop\n");
    }
    for ports in [0, 9, 15] {
        let mut wrong = head();
        wrong[8] = ports << 4 | wrong[8] & 0x0f;
        wrong.resize(400, 0x20);
        assert_eq!(sheet::run(&wrong), "stop\n");
    }
    assert_eq!(sheet::run(&[]), "stop\n");
}

#[test]
fn a_refused_advance_prints_refused_9_and_goes_on_with_the_old_clock() {
    let records = [advance_record(10), advance_record(9), advance_record(10)];
    assert_eq!(sheet_of(&records), format!("refused 9\n{PORTS}"));
}

#[test]
fn streams_joined_after_the_last_advance_are_shown() {
    let records = [advance_record(10), pdu_record(2, &listener_frame(STREAM, JOIN_MT, READY))];
    assert_eq!(
        sheet_of(&records),
        format!(
            "{PORTS}0200000000010001 1 none 0 none none\n0200000000010001 2 none 0 none none\n"
        )
    );
}

#[test]
fn a_failed_registered_with_any_code_prints_failed_and_that_code() {
    for code in [0, 1, 77, 255] {
        let records =
            [pdu_record(1, &talker_frame(&failed(STREAM, code), &[NEW])), advance_record(0)];
        let lines = format!(
            "0200000000010001 1 none 0 none none\n0200000000010001 2 failed {code} none filter\n"
        );
        assert_eq!(sheet_of(&records), format!("{PORTS}{lines}"));
    }
}

#[test]
fn the_port_line_shows_configured_limits_of_unsupported_classes() {
    let mut settings = settings(1);
    settings.ports[0].supports = settings::PerClass { a: false, b: false };
    settings.ports[0].limit = settings::PerClass { a: 7, b: 1_099_511_627_775 };
    let printed = sheet::run(&settings::write(&settings));
    assert_eq!(printed, "port 1 A 0/7 B 0/1099511627775\n");
}

#[test]
fn every_refused_call_prints_its_line_and_the_reading_goes_on() {
    let mut event = listener_vector(STREAM, &[JOIN_MT], &[READY]);
    event.first_event_octet = Some(216);
    let records = [
        pdu_record(3, &[0]),
        pdu_record(1, &[]),
        pdu_record(1, &[0, 1]),
        pdu_record(1, &[0, 9, 0, 0, 0]),
        pdu_record(1, &[0, 1, 0, 0, 0]),
        pdu_record(1, &one_message(reference::pdu::AttributeType::Listener, vec![event])),
        pdu_record(1, &talker_frame(&talker(0xffff), &[MT, MT])),
        pdu_record(1, &talker_frame(&talker(0), &[NEW; 65])),
        advance_record(1),
        advance_record(0),
        pdu_record(1, &talker_frame(&talker(STREAM), &[NEW])),
    ];
    let expected = "refused 1\nrefused 2\nrefused 3\nrefused 4\nrefused 5\nrefused 6\nrefused 7\n\
                    refused 8\nrefused 9\n";
    assert_eq!(
        sheet_of(&records),
        format!(
            "{expected}{PORTS}0200000000010001 1 none 0 none none\n\
             0200000000010001 2 none 0 none none\n"
        )
    );
}

#[test]
fn an_input_that_ends_between_two_records_prints_no_stop() {
    assert!(!sheet_of(&[advance_record(1)]).contains("stop"));
}

#[test]
fn lines_are_by_stream_and_within_it_by_port() {
    let records = [
        pdu_record(2, &listener_frame(9, JOIN_MT, READY)),
        pdu_record(1, &listener_frame(0xabcd_0000_0000_0000, JOIN_MT, READY)),
        advance_record(1),
    ];
    let lines = "0000000000000009 1 none 0 none none\n0000000000000009 2 none 0 none filter\n\
                 abcd000000000000 1 none 0 none filter\nabcd000000000000 2 none 0 none none\n";
    assert_eq!(sheet_of(&records), format!("{PORTS}{lines}"));
}
