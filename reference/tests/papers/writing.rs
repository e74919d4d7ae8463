//! Writing (01, "Writing"; 02, (ii), (xi)), and reading back what is written.

use crate::helpers::*;
use reference::bridge::{Bridge, WriteAnswer};
use reference::declarations::{self, Declaration, Said};
use reference::generator;
use reference::lent::Table;
use reference::mrp::EVENTS;
use reference::pdu::{self, Attribute, AttributeType, StreamId};
use reference::records::{Call, Watcher};
use reference::script::{records, Program};
use reference::sending::Written;
use reference::settings::PerClass;
use reference::written::{declarations_of, of_pdu, taken_apart, TakenApart};
use reference::{calls, numbers};

/// The declarations that a PDU carries.
fn read_back(octets: &[u8]) -> Vec<Declaration> {
    declarations_of(octets).expect("what is written can be read")
}

/// All PDUs of a port, following the next places.
fn all_pdus(table: &Table, port: u32) -> Vec<Vec<u8>> {
    let mut pdus = Vec::new();
    let mut place = 0;
    loop {
        let (octets, next) = written(table, port, place);
        if next as u32 == place {
            assert_eq!(octets, [0, 0, 0]);
            return pdus;
        }
        pdus.push(octets);
        place = next as u32;
    }
}

fn declared(table: &Table, port: usize) -> Vec<Declaration> {
    table.bridge().unwrap().declarations(port)
}

fn count(table: &Table, port: usize) -> usize {
    declared(table, port).len()
}

/// Talkers on port 1, so many of them Advertise and so many Failed, and Listeners of others on
/// port 1 whose Talkers are on port 2.
fn crowd(advertise: usize, failing: usize, listening: usize) -> Table {
    let mut settings = settings(2);
    settings.ports[1].limit.a = (1 << 40) - 1;
    settings.ports[0].limit.a = (1 << 40) - 1;
    let mut table = in_domain(&settings);
    let mut stream_id: StreamId = STREAM;
    for n in 0..advertise + failing {
        let talker = if n % 2 == 0 && n / 2 < failing || n >= 2 * advertise {
            failed(stream_id, 9)
        } else {
            talker(stream_id)
        };
        join_talker(&mut table, 1, &talker);
        stream_id += 1;
    }
    for _ in 0..listening {
        join_talker(&mut table, 2, &talker(stream_id));
        join_listener(&mut table, 1, stream_id, READY);
        stream_id += 1;
    }
    advance(&mut table, 1);
    table
}

#[test]
fn what_is_written_reads_back_as_the_declarations_in_order() {
    let table = crowd(30, 5, 20);
    for port in [1, 2] {
        let read: Vec<Declaration> =
            all_pdus(&table, port).iter().flat_map(|octets| read_back(octets)).collect();
        assert_eq!(read, declared(&table, port as usize));
    }
}

#[test]
fn declarations_stand_by_type_then_stream_id_or_class_id() {
    let table = crowd(6, 4, 5);
    let (octets, next) = written(&table, 2, 0);
    assert_eq!(next, count(&table, 2));
    let order: Vec<(AttributeType, u64)> = read_back(&octets)
        .iter()
        .map(|declaration| match declaration {
            Declaration::Talker(talker) => (declaration.attribute_type(), talker.stream_id),
            Declaration::Listener(stream_id, _) => (declaration.attribute_type(), *stream_id),
            Declaration::Domain(domain) => (AttributeType::Domain, u64::from(domain.class_id)),
        })
        .collect();
    let mut sorted = order.clone();
    sorted.sort();
    assert_eq!(order, sorted);
    let of = |attribute_type| order.iter().filter(|(a, _)| *a == attribute_type).count();
    assert_eq!(of(AttributeType::TalkerAdvertise), 6);
    assert_eq!(of(AttributeType::TalkerFailed), 4);
    assert_eq!(of(AttributeType::Listener), 5);
    assert_eq!(order[15..], [(AttributeType::Domain, 5), (AttributeType::Domain, 6)]);
    // One Message per type.
    assert_eq!(pdu::read(&octets).unwrap().messages.len(), 4);
}

#[test]
fn as_many_as_fit_in_1500_octets_whole() {
    // Version, Message header, list EndMark and EndMark are 9 octets, an Advertise vector 28:
    // 53 of them make 1,493.
    let table = crowd(53, 0, 0);
    let (octets, next) = written(&table, 2, 0);
    assert_eq!((octets.len(), next), (1493, 53));
    let table = crowd(54, 0, 0);
    let (octets, next) = written(&table, 2, 0);
    assert_eq!((octets.len(), next), (1493, 53));
    // With the last one the Domain Message of 20 octets.
    let (octets, next) = written(&table, 2, 53);
    assert_eq!((octets.len(), next), (37 + 20, 56));
}

#[test]
fn a_pdu_may_have_exactly_1500_octets() {
    // 3 + (6 + 20 x 28) + (6 + 25 x 37)
    let table = crowd(20, 25, 0);
    let (octets, next) = written(&table, 2, 0);
    assert_eq!((octets.len(), next), (1500, 45));
    let table = crowd(20, 26, 0);
    let (octets, next) = written(&table, 2, 0);
    assert_eq!((octets.len(), next), (1500, 45));
    // 3 + (6 + 5 x 28) + (6 + 35 x 37) + (6 + 10 + 8 + 6) + (6 + 2 x 7)
    let (octets, next) = written(&crowd(5, 35, 24), 2, 0);
    assert_eq!((octets.len(), next), (1500, 66));
}

#[test]
fn a_pdu_may_end_before_the_domain_message_or_within_it() {
    // 53 Advertise leave 7 octets: a Domain's vector has 7, and its Message 6 more.
    let table = crowd(53, 0, 0);
    assert_eq!(written(&table, 2, 0).1, 53);
    let (octets, next) = written(&table, 2, 53);
    assert_eq!((octets.len(), next), (3 + 20, 55));
    // 3 + (6 + 12 x 28) + (6 + 30 x 37) + (6 + 10 + 6 + 4) + (6 + 7)
    let table = crowd(12, 30, 16);
    let (octets, next) = written(&table, 2, 0);
    assert_eq!((octets.len(), next), (1500, 59));
    let (octets, next) = written(&table, 2, 59);
    assert_eq!((octets.len(), next), (3 + 13, 60));
    assert_eq!(read_back(&octets), declared(&table, 2)[59..]);
}

#[test]
fn the_first_that_does_not_fit_ends_the_pdu_though_a_shorter_one_would() {
    // 52 Advertise leave 1,500 - 1,465 = 35 octets: a Failed needs 43, a Listener 18.
    let table = crowd(52, 1, 1);
    assert_eq!(count(&table, 2), 56);
    let (octets, next) = written(&table, 2, 0);
    assert_eq!((octets.len(), next), (1465, 52));
    let (octets, next) = written(&table, 2, 52);
    assert_eq!((octets.len(), next), (3 + 43 + 18 + 20, 56));
}

#[test]
fn a_new_message_needs_room_for_its_own_header_and_end_mark() {
    // 53 Advertise leave 7 octets; a Listener takes 12 in its own Message of 18.
    let table = crowd(53, 0, 2);
    let (octets, next) = written(&table, 2, 0);
    assert_eq!((octets.len(), next), (1493, 53));
    // 52 leave 35: one Message with three Listeners takes 18, and a Domain's of 13 goes behind it.
    let table = crowd(52, 0, 3);
    let (octets, next) = written(&table, 2, 0);
    assert_eq!((octets.len(), next), (1496, 56));
}

#[test]
fn from_a_place_in_the_middle() {
    let table = crowd(3, 2, 2);
    let expected = declared(&table, 2);
    for place in 0..=expected.len() {
        let (octets, next) = written(&table, 2, place as u32);
        assert_eq!(next, expected.len());
        assert_eq!(read_back(&octets), expected[place..]);
    }
}

#[test]
fn place_equal_to_count_gives_the_empty_pdu() {
    let mut table = crowd(3, 2, 2);
    assert_eq!(written(&table, 2, 9), (vec![0, 0, 0], 9));
    let mut buffer = [0; 1500];
    assert_eq!(table.write(2, 10, &mut buffer).number, 13);
    // Start leaves the settled state empty, and the Domain declarations.
    let mut table = started(&settings(2));
    assert_eq!(written(&table, 1, 0).1, 2);
    assert_eq!(written(&table, 1, 2), (vec![0, 0, 0], 2));
    assert_eq!(table.write(1, 3, &mut buffer).number, 13);
}

#[test]
fn octets_past_the_length_stay_and_a_longer_buffer_changes_nothing() {
    let table = crowd(54, 0, 0);
    let mut answers = Vec::new();
    for length in [1500, 1501, 2048, 4000] {
        let mut buffer = vec![0xa5; length];
        let answer = table.clone().write(2, 0, &mut buffer);
        assert!(buffer[answer.length..].iter().all(|octet| *octet == 0xa5));
        answers.push((answer, buffer[..answer.length].to_vec()));
    }
    assert!(answers.iter().all(|answer| *answer == answers[0]));
}

#[test]
fn reports_and_refused_writes_change_nothing_in_the_table() {
    let mut table = crowd(3, 2, 2);
    let before = table.clone();
    table.report(2, 0);
    table.report(9, 9);
    table.write(9, 0, &mut [0; 1500]);
    table.write(2, 0, &mut [0; 10]);
    table.write(2, 10, &mut [0; 1500]);
    assert_eq!(table, before);
    table.write(2, 0, &mut [0; 1500]);
    assert_ne!(table, before);
}

#[test]
fn the_octets_of_each_type() {
    let mut settings = settings(2);
    settings.ports[1].latency = PerClass { a: 0x0102, b: 0 };
    settings.ports[1].largest_frame = 300;
    settings.vlan = 0x0abc;
    let mut table = in_domain(&settings);
    let mut advertise = talker(STREAM);
    advertise.accumulated_latency = 0x0a00_0000;
    advertise.parameters.vlan = 0xf123;
    let mut large = talker(STREAM + 1);
    large.parameters.max_frame_size = 301;
    large.parameters.rank = 0;
    join_talker(&mut table, 1, &advertise);
    join_talker(&mut table, 1, &large);
    join_talker(&mut table, 2, &talker(STREAM + 2));
    join_listener(&mut table, 1, STREAM + 2, READY_FAILED);
    advance(&mut table, 1);
    let (octets, next) = written(&table, 2, 0);
    assert_eq!(next, 5);
    let mut expected: Vec<u8> = vec![0];
    expected.extend([1, 25, 0, 30, 0, 1, 2, 0, 0, 0, 0, 1, 0, 1]);
    expected.extend([0x91, 0xe0, 0xf0, 0, 0, 1, 0xf1, 0x23, 0, 224, 0, 1, 0x70]);
    expected.extend([0x0a, 0, 0x01, 0x02, 0x6c, 0, 0]);
    expected.extend([2, 34, 0, 39, 0, 1, 2, 0, 0, 0, 0, 1, 0, 2]);
    expected.extend([0x91, 0xe0, 0xf0, 0, 0, 2, 0, 2, 1, 0x2d, 0, 1, 0x60]);
    expected.extend([0, 0, 0x01, 0x02, 0x80, 0, 0, 0, 0, 0, 0, 7, 14, 0x6c, 0, 0]);
    expected.extend([3, 8, 0, 14, 0, 1, 2, 0, 0, 0, 0, 1, 0, 3, 0x6c, 0xc0, 0, 0]);
    // The neighbour has joined the domain: JoinIn.
    expected.extend([4, 4, 0, 16, 0, 1, 5, 2, 0x0a, 0xbc, 0x24]);
    expected.extend([0, 1, 6, 3, 0x0a, 0xbc, 0x24, 0, 0]);
    expected.extend([0, 0]);
    assert_eq!(octets, expected);
}

#[test]
fn reserved_bits_are_written_0() {
    let mut vector = talker_vector(&talker(STREAM), &[JOIN_MT]);
    vector.first_value[20] |= 0x0f;
    let mut table = in_domain(&settings(2));
    accept(&mut table, 1, &one_message(AttributeType::TalkerAdvertise, vec![vector]));
    advance(&mut table, 1);
    let (octets, _) = written(&table, 2, 0);
    assert_eq!(octets[1 + 4 + 2 + 20], 0x70);
}

#[test]
fn written_declarations_show_the_last_settled_state() {
    let mut table = in_domain(&settings(3));
    join_talker(&mut table, 2, &talker(STREAM));
    join_listener(&mut table, 3, STREAM, READY);
    advance(&mut table, 1);
    let before: Vec<_> = (1..=3).map(|port| declared(&table, port)).collect();
    // Latency, type, Listener and a lower Talker port since then change nothing.
    let mut later = failed(STREAM, 5);
    later.accumulated_latency = 99;
    join_talker(&mut table, 2, &later);
    join_talker(&mut table, 1, &talker(STREAM));
    join_talker(&mut table, 1, &talker(STREAM + 1));
    join_listener(&mut table, 3, STREAM, ASKING);
    let after: Vec<_> = (1..=3).map(|port| declared(&table, port)).collect();
    assert_eq!(before, after);
    advance(&mut table, 2);
    let settled: Vec<_> = (1..=3).map(|port| declared(&table, port)).collect();
    assert_ne!(before, settled);
}

/// Checks each accepted write of generated scripts.
#[derive(Default)]
struct WritesReadBack {
    checked: usize,
    before: Option<Bridge>,
}

impl Watcher for WritesReadBack {
    fn called(&mut self, call: &Call, number: numbers::Number, table: &Table) {
        if let (Call::Write { port, place, answer }, 0, Some(before)) = (call, number, &self.before)
        {
            writes_read_back(before, *port as usize, *place as usize, *answer);
            self.checked += 1;
        }
        self.stored(table);
    }

    fn stored(&mut self, table: &Table) {
        if let Some(bridge) = table.bridge() {
            self.before = Some(bridge.clone());
        }
    }
}

/// The PDU of an accepted write reads back as what was said, and one more would not fit.
fn writes_read_back(before: &Bridge, port: usize, place: usize, answer: WriteAnswer) {
    let mut sending = before.sending.ports[port - 1].clone();
    let registrar = |attribute: &Attribute| before.registrations.registrar(port, attribute);
    let Written { said, no_room, pdu, next_place, leave_all, .. } =
        sending.write(place, before.clock, registrar);
    assert_eq!(answer, WriteAnswer { number: 0, length: pdu.len(), next_place });
    assert_eq!(of_pdu(&pdu), Ok(TakenApart { leave_all, said: said.clone() }));
    assert!(pdu.len() <= 1500);
    if let Some(one_more) = no_room {
        assert!(declarations::pdu(&[said, vec![one_more]].concat(), leave_all).len() > 1500);
    }
}

#[test]
fn all_writes_of_generated_scripts_read_back() {
    let mut watcher = WritesReadBack::default();
    for seed in 0..300 {
        calls::run_watched(&generator::calls(seed).octets, &mut watcher);
    }
    assert!(watcher.checked > 1_000);
}

/// PDUs in hex, one to a line.
fn in_hex(pdus: &[Vec<u8>]) -> String {
    let line = |pdu: &Vec<u8>| pdu.iter().map(|octet| format!("{octet:02x}")).collect::<String>();
    pdus.iter().map(line).collect::<Vec<String>>().join("\n")
}

#[test]
fn pdus_are_taken_apart_into_the_words_of_a_text() {
    let pdus = all_pdus(&crowd(53, 2, 9), 2);
    let printed = taken_apart(&in_hex(&pdus)).expect("they are as 01 says");
    let (lengths, words): (Vec<&str>, Vec<&str>) =
        printed.lines().partition(|line| line.starts_with("pdu"));
    let expected = [
        "pdu 1493 advertise 53 failed 0 listener 0 domain 0",
        "pdu 125 advertise 0 failed 2 listener 9 domain 2",
    ];
    assert_eq!(lengths, expected);
    let declared: Vec<Declaration> = pdus.iter().flat_map(|pdu| read_back(pdu)).collect();
    assert_eq!(words.len(), declared.len());
    for (words, declaration) in words.iter().zip(declared) {
        let record = records(&format!("on 1 {words}"), Program::Calls).expect("a record");
        assert_eq!(read_back(&record[3..]), [declaration]);
    }
}

#[test]
fn events_and_leave_all_are_taken_apart_into_words() {
    let declared = declared(&crowd(1, 1, 1), 2);
    assert_eq!(declared.len(), 5);
    for event in EVENTS {
        let said: Vec<Said> =
            declared.iter().map(|declaration| Said { declaration: *declaration, event }).collect();
        for leave_all in [false, true] {
            let pdu = declarations::pdu(&said, leave_all);
            let printed = taken_apart(&in_hex(&[pdu])).expect("it is as 01 says");
            assert_eq!(printed.lines().next().unwrap().ends_with(" leaveall"), leave_all);
            for (words, said) in printed.lines().skip(1).zip(&said) {
                let record = records(&format!("on 1 {words}"), Program::Calls).expect("a record");
                assert_eq!(of_pdu(&record[3..]).unwrap().said, [*said]);
            }
        }
    }
}

#[test]
fn pdus_that_are_not_as_01_says_are_refused() {
    let pdus = all_pdus(&crowd(53, 2, 9), 2);
    let spare_event = in_hex(&pdus).replacen("6c", "6d", 1);
    let said = of_pdu(&pdus[1]).unwrap().said;
    let not_full = [declarations::pdu(&said[..1], false), declarations::pdu(&said[1..], false)];
    let swapped = in_hex(&[pdus[1].clone(), pdus[0].clone()]);
    let past_the_end = in_hex(&[pdus[0].clone(), pdus[1].clone(), vec![0, 0, 0]]);
    for (text, fault) in [
        (spare_event.as_str(), "a PDU isn't laid out as it is written"),
        (in_hex(&not_full).as_str(), "PDU 1 could have taken one more"),
        (swapped.as_str(), "the declarations are out of order"),
        (past_the_end.as_str(), "PDU 3 says nothing"),
        ("000", "000 isn't pairs of hexadecimal digits"),
        ("0000", "a PDU is refused: 3"),
    ] {
        assert!(taken_apart(text).expect_err(text).starts_with(fault), "{text}");
    }
}
