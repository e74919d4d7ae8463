//! Worked examples of what ports send, octet by octet (02, (xiv)).

use crate::helpers::*;
use crate::table_places;
use reference::lent::Table;
use reference::pdu::AttributeType;
use reference::settings::PerClass;
use reference::table::layout::{send, sender};

/// Octets that are written in hexadecimal digits, with spaces among them.
fn octets(hex: &str) -> Vec<u8> {
    let digits: Vec<char> = hex.chars().filter(|digit| !digit.is_whitespace()).collect();
    let octet = |two: &[char]| u8::from_str_radix(&two.iter().collect::<String>(), 16).unwrap();
    digits.chunks(2).map(octet).collect()
}

/// A write from place 0 gives these octets and this next place.
fn assert_writes(table: &mut Table, port: u32, hex: &str, next_place: usize) {
    assert_writes_from(table, port, 0, hex, next_place);
}

fn assert_writes_from(table: &mut Table, port: u32, place: u32, hex: &str, next_place: usize) {
    let (written, next) = write(table, port, place);
    assert_eq!((hex_of(&written), next), (hex_of(&octets(hex)), next_place));
}

fn hex_of(octets: &[u8]) -> String {
    octets.iter().map(|octet| format!("{octet:02x}")).collect()
}

/// A bridge of two ports that support class A alone, so that each declares one Domain value; its neighbours
/// have joined it. The Domain values have been said twice, and are quiet.
fn quiet_domains() -> Table {
    let mut settings = settings(2);
    for port in &mut settings.ports {
        port.supports = PerClass { a: true, b: false };
    }
    let mut table = started(&settings);
    for port in [1, 2] {
        accept(&mut table, port, &domain_frame(6, 3, &[JOIN_IN]));
        let domain = "00 04040009 0001 06030002 24 0000 0000";
        assert_writes(&mut table, port, domain, 1);
        assert_writes(&mut table, port, domain, 1);
        assert_writes(&mut table, port, NOTHING, 1);
    }
    table
}

/// The PDU that says nothing.
const NOTHING: &str = "00 0000";

/// The FirstValue of the Advertise of STREAM: StreamID, destination, VLAN 2, MaxFrameSize 224,
/// MaxIntervalFrames 1, priority 3 and rank 1, latency 0.
const ADVERTISED: &str = "0200000000010001 91e0f0000001 0002 00e0 0001 70 00000000";

/// A PDU of the Advertise of STREAM with one event: 36 for JoinIn, 108 for JoinMt, 180 for Lv.
fn advertise(event: u8) -> String {
    format!("00 0119001e 0001 {ADVERTISED} {event:02x} 0000 0000")
}

/// A PDU of a Listener of STREAM with one event and declaration type.
fn listener(event: u8, declaration_type: u8) -> String {
    format!("00 0308000e 0001 0200000000010001 {event:02x} {:02x} 0000 0000", declaration_type << 6)
}

const JOIN_MT_OCTET: u8 = 3 * 36;
const NEW_OCTET: u8 = 0;
const LV_OCTET: u8 = 5 * 36;

/// A Talker on port 1, which port 2 advertises, at clock 100.
fn one_talker() -> Table {
    let mut table = quiet_domains();
    join_talker(&mut table, 1, &talker(STREAM));
    advance(&mut table, 100);
    table
}

#[test]
fn a_frame_lost_and_joined_again() {
    let mut table = one_talker();
    // The first one is lost; the second says the same, and a third isn't needed.
    assert_writes(&mut table, 2, &advertise(JOIN_MT_OCTET), 2);
    assert_writes(&mut table, 2, &advertise(JOIN_MT_OCTET), 2);
    assert_writes(&mut table, 2, NOTHING, 2);
    // A neighbour that has registered it says JoinIn between the two: no second one is sent.
    let mut table = one_talker();
    assert_writes(&mut table, 2, &advertise(JOIN_MT_OCTET), 2);
    accept(&mut table, 2, &talker_frame(&talker(STREAM), &[JOIN_IN]));
    assert_writes(&mut table, 2, NOTHING, 2);
    // One that says JoinMt hasn't: it is joined once more, as JoinIn now.
    accept(&mut table, 2, &talker_frame(&talker(STREAM), &[JOIN_MT]));
    assert_writes(&mut table, 2, &advertise(36), 2);
    assert_writes(&mut table, 2, NOTHING, 2);
}

#[test]
fn a_talker_withdrawn_and_its_lv() {
    let mut table = one_talker();
    for _ in 0..2 {
        assert_writes(&mut table, 2, &advertise(JOIN_MT_OCTET), 2);
    }
    accept(&mut table, 1, &talker_frame(&talker(STREAM), &[LV]));
    advance(&mut table, 159);
    assert_writes(&mut table, 2, NOTHING, 2);
    advance(&mut table, 160);
    // It is in the list until the Lv is sent, with what was declared last, and goes with it.
    assert_eq!(held(&table), [STREAM]);
    assert_eq!(table.write(2, 3, &mut [0; 1500]).number, 13);
    assert_writes(&mut table, 2, &advertise(LV_OCTET), 1);
    assert_eq!(held(&table), []);
    assert_writes(&mut table, 2, NOTHING, 1);
    assert_eq!(table.write(2, 2, &mut [0; 1500]).number, 13);
}

#[test]
fn a_change_of_listener_kind() {
    let mut table = quiet_domains();
    join_talker(&mut table, 1, &talker(STREAM));
    join_listener(&mut table, 2, STREAM, READY);
    advance(&mut table, 100);
    assert_writes(&mut table, 1, &listener(JOIN_MT_OCTET, READY), 2);
    assert_writes(&mut table, 1, &listener(JOIN_MT_OCTET, READY), 2);
    assert_writes(&mut table, 1, NOTHING, 2);
    join_listener(&mut table, 2, STREAM, ASKING);
    advance(&mut table, 200);
    // New twice, and a Join, since port 1 has no Listener registered.
    assert_writes(&mut table, 1, &listener(NEW_OCTET, ASKING), 2);
    assert_writes(&mut table, 1, &listener(NEW_OCTET, ASKING), 2);
    assert_writes(&mut table, 1, &listener(JOIN_MT_OCTET, ASKING), 2);
    assert_writes(&mut table, 1, NOTHING, 2);
}

/// A Talker on port 1 and a Ready Listener on port 2, all said twice, and LeaveAll due on both ports.
fn leave_all_due() -> Table {
    let mut table = quiet_domains();
    join_talker(&mut table, 1, &talker(STREAM));
    join_listener(&mut table, 2, STREAM, READY);
    advance(&mut table, 100);
    for port in [1, 2, 1, 2] {
        write(&mut table, port, 0);
    }
    advance(&mut table, 999);
    assert_writes(&mut table, 1, NOTHING, 2);
    assert_writes(&mut table, 2, NOTHING, 2);
    advance(&mut table, 1_000);
    table
}

/// LeaveAll of port 2, with the Advertise joined, and the Domain value as its Registrar was found: IN.
fn leave_all_of_port_2() -> String {
    let zeros = |octets: usize| "00".repeat(octets);
    let advertise = format!("0119001e 2001 {ADVERTISED} 6c 0000");
    let failed = format!("02220026 2000 {} 0000", zeros(34));
    let listener = format!("0308000c 2000 {} 0000", zeros(8));
    format!("00 {advertise} {failed} {listener} 04040009 2001 06030002 24 0000 0000")
}

#[test]
fn leave_all_at_10_s_answered() {
    let mut table = leave_all_due();
    assert_writes(&mut table, 2, &leave_all_of_port_2(), 2);
    assert_writes(&mut table, 2, NOTHING, 2);
    // The neighbour declares what it has again, the domain too.
    join_listener(&mut table, 2, STREAM, READY);
    accept(&mut table, 2, &domain_frame(6, 3, &[JOIN_IN]));
    advance(&mut table, 1_060);
    assert_eq!(line(&table, 2, STREAM), "advertise 0 none forward");
    assert_writes(&mut table, 2, NOTHING, 2);
    // On port 1 LeaveAll is due since 10 s. It comes with the first write, from any place.
    let alone = format!(
        "00 0119001d 2000 {} 0000 02220026 2000 {} 0000 0308000c 2000 {} 0000 04040008 2000 {} 0000 0000",
        "00".repeat(25),
        "00".repeat(34),
        "00".repeat(8),
        "00".repeat(4),
    );
    assert_eq!(octets(&alone).len(), 106);
    assert_writes_from(&mut table, 1, 2, &alone, 2);
    // All begins anew: joined twice.
    let joined = "00 0308000e 0001 0200000000010001 6c 80 0000 04040009 0001 06030002 6c 0000 0000";
    assert_writes(&mut table, 1, joined, 2);
    assert_writes(&mut table, 1, joined, 2);
    assert_writes(&mut table, 1, NOTHING, 2);
}

#[test]
fn leave_all_at_10_s_not_answered() {
    let mut table = leave_all_due();
    assert_writes(&mut table, 2, &leave_all_of_port_2(), 2);
    advance(&mut table, 1_059);
    assert_eq!(line(&table, 2, STREAM), "advertise 0 none forward");
    // The Listener and the domain of the neighbour are gone: the Advertise becomes a Failed of code 8.
    advance(&mut table, 1_060);
    assert_eq!(line(&table, 2, STREAM), "failed 8 none filter");
    let lv = format!("0119001e 0001 {ADVERTISED} b4 0000");
    let failed = format!("02220027 0001 {ADVERTISED} 8000000000000007 08 6c 0000");
    assert_writes(&mut table, 2, &format!("00 {lv} {failed} 0000"), 2);
    let failed = format!("00 {failed} 0000");
    assert_writes(&mut table, 2, &failed, 2);
    assert_writes(&mut table, 2, NOTHING, 2);
}

#[test]
fn a_stream_with_an_unsent_lv_still_counts_for_8() {
    let mut table = one_talker();
    assert_writes(&mut table, 2, &advertise(JOIN_MT_OCTET), 2);
    accept(&mut table, 1, &talker_frame(&talker(STREAM), &[LV]));
    advance(&mut table, 160);
    // No registration, and LA with the octets last declared.
    let place = table_places::send(0, 2);
    let mut send = vec![6];
    send.extend(&octets(ADVERTISED)[8..]);
    send.resize(send::LENGTH, 0);
    assert_eq!(table.lent()[place..][..send::LENGTH], send);
    let many = listener_vector(STREAM + 1, &[JOIN_MT; 64], &[READY; 64]);
    let frame = one_message(AttributeType::Listener, vec![many]);
    let before = table.clone();
    assert_eq!(table.receive(2, &frame), 8);
    assert_eq!(table, before);
    // A refused write sends nothing, and so makes no room.
    assert_eq!(table.write(2, 0, &mut [0; 1499]).number, 10);
    assert_eq!(table.write(2, 3, &mut [0; 1500]).number, 13);
    assert_eq!(table.write(3, 0, &mut [0; 1500]).number, 1);
    assert_eq!(table, before);
    assert_writes(&mut table, 2, &advertise(LV_OCTET), 1);
    assert_eq!(table.receive(2, &frame), 0);
    assert_eq!(held(&table).len(), 64);
}

#[test]
fn the_octets_of_what_a_port_sends_by_itself() {
    let table = leave_all_due();
    // Class ID 6 with priority 3 in QA, LeaveAll due, its timer started anew at 1,000.
    let mut expected = vec![0; sender::LENGTH];
    expected[8 + 3] = 5;
    expected[sender::LEAVE_ALL] = 1;
    expected[sender::STARTED].copy_from_slice(&1_000_u32.to_be_bytes());
    assert_eq!(table.lent()[table_places::sender(2)..][..sender::LENGTH], expected);
}
