//! What ports send, by the machines of 802.1Q clause 10.7 (02, (xiv)).

use crate::helpers::*;
use crate::senders::*;
use reference::applicant::State::{AA, AN, LA, QA, VN, VP};
use reference::declarations::Declaration;
use reference::mrp::Event;
use reference::pdu::AttributeType;
use reference::written::of_pdu;

#[test]
fn r1_a_declaration_is_born_in_vp() {
    let table = one_stream();
    assert_eq!(advertised(&table), Some(VP));
    let domain = |class_id: u64, priority: u64| {
        state(&started(&settings(1)), 1, AttributeType::Domain, class_id << 8 | priority)
    };
    assert_eq!([domain(5, 2), domain(6, 3), domain(6, 2)], [Some(VP), Some(VP), None]);
}

#[test]
fn a_lost_frame_is_joined_again() {
    let mut table = one_stream();
    // Whichever of the two is lost, the other says the same.
    for _ in 0..2 {
        assert_eq!(writes(&mut table, 2), [(ADVERTISE, STREAM, Event::JoinMt)]);
    }
    assert_eq!(writes(&mut table, 2), []);
    assert_eq!(advertised(&table), Some(QA));
}

#[test]
fn r2_a_talker_withdrawn_sends_its_lv_once() {
    for times in [1, 2, 3] {
        let mut table = written_times(times);
        withdraw(&mut table);
        assert_eq!(advertised(&table), Some(LA));
        assert_eq!(held(&table), [STREAM]);
        let place = table.bridge().unwrap().declarations(2).len();
        assert_eq!(place, 3);
        let (octets, next) = write(&mut table, 2, 0);
        assert_eq!(said(&octets), [(ADVERTISE, STREAM, Event::Lv)]);
        assert_eq!(next, 2);
        assert_eq!((advertised(&table), held(&table)), (None, vec![]));
    }
}

#[test]
fn r2_what_was_never_written_leaves_without_an_lv() {
    let mut table = one_stream();
    withdraw(&mut table);
    assert_eq!((advertised(&table), held(&table)), (None, vec![]));
    // So too after a LeaveAll or an Lv of the neighbour.
    for frame in [leave_all(ADVERTISE), talker_frame(&talker(STREAM), &[LV])] {
        let mut table = written_times(2);
        accept(&mut table, 2, &frame);
        assert_eq!(advertised(&table), Some(VP));
        withdraw(&mut table);
        assert_eq!(held(&table), []);
    }
}

#[test]
fn r3_other_content_is_new_twice() {
    let mut table = new_times(0);
    assert_eq!(advertised(&table), Some(VN));
    assert_eq!(writes(&mut table, 2), [(ADVERTISE, STREAM, Event::New)]);
    assert_eq!(advertised(&table), Some(AN));
    assert_eq!(writes(&mut table, 2), [(ADVERTISE, STREAM, Event::New)]);
    // Note 8: the Registrar isn't IN, so a Join follows.
    assert_eq!(advertised(&table), Some(AA));
    assert_eq!(writes(&mut table, 2), [(ADVERTISE, STREAM, Event::JoinMt)]);
    assert_eq!(writes(&mut table, 2), []);
    // Where it is IN, none does.
    let mut table = new_times(1);
    join_talker(&mut table, 2, &source(0));
    write(&mut table, 2, 0);
    assert_eq!(advertised(&table), Some(QA));
    // Changed again between its two writes it is new once more.
    let mut table = new_times(1);
    join_and_settle(&mut table, &source(300));
    assert_eq!(advertised(&table), Some(AN));
}

#[test]
fn r3_other_content_before_the_first_write_is_just_taken() {
    let mut table = one_stream();
    join_and_settle(&mut table, &source(400));
    assert_eq!(advertised(&table), Some(VP));
    let (octets, _) = write(&mut table, 2, 0);
    let said = of_pdu(&octets).unwrap().said[0];
    assert_eq!((said.declaration, said.event), (Declaration::Talker(source(400)), Event::JoinMt));
}

#[test]
fn r3_a_change_of_listener_kind() {
    let mut table = in_domain(&settings(2));
    join_talker(&mut table, 1, &talker(STREAM));
    join_listener(&mut table, 2, STREAM, READY);
    advance(&mut table, 1);
    assert_eq!(pass(&mut table, 1), [(LISTENER, STREAM, Event::JoinMt)]);
    join_listener(&mut table, 2, STREAM, ASKING);
    advance(&mut table, 2);
    assert_eq!(state(&table, 1, LISTENER, STREAM), Some(VN));
    let (octets, _) = write(&mut table, 1, 0);
    let new = of_pdu(&octets).unwrap().said[0];
    let asking = Declaration::Listener(STREAM, reference::pdu::ListenerType::AskingFailed);
    assert_eq!((new.declaration, new.event), (asking, Event::New));
    // Withdrawn before the second write it still sends its Lv, with what was said last.
    accept(&mut table, 2, &listener_frame(STREAM, LV, READY));
    advance(&mut table, 62);
    let (octets, _) = write(&mut table, 1, 0);
    let lv = of_pdu(&octets).unwrap().said[0];
    assert_eq!((lv.declaration, lv.event), (asking, Event::Lv));
}

#[test]
fn r4_advertise_and_failed_are_two_declarations() {
    let mut table = written_times(2);
    join_talker(&mut table, 1, &failed(STREAM, 9));
    advance(&mut table, 2);
    assert_eq!(advertised(&table), Some(LA));
    assert_eq!(state(&table, 2, FAILED, STREAM), Some(VP));
    let expected = [(ADVERTISE, STREAM, Event::Lv), (FAILED, STREAM, Event::JoinMt)];
    assert_eq!(writes(&mut table, 2), expected);
    assert_eq!(writes(&mut table, 2), [(FAILED, STREAM, Event::JoinMt)]);
}

#[test]
fn r4_three_of_one_stream_and_194_declarations() {
    let mut settings = settings(2);
    settings.ports[1].limit.a = (1 << 40) - 1;
    let mut table = in_domain(&settings);
    let (all, first) = ([JOIN_MT; 64], talker(STREAM));
    accept(&mut table, 1, &talker_frame(&first, &all));
    advance(&mut table, 1);
    pass(&mut table, 2);
    accept(&mut table, 1, &talker_frame(&failed(STREAM, 9), &all));
    advance(&mut table, 2);
    // What stands before this place isn't written: the Lv of each Advertise.
    pass_from(&mut table, 2, 64);
    accept(&mut table, 1, &talker_frame(&failed(STREAM, 9), &[LV; 64]));
    accept(&mut table, 2, &talker_frame(&first, &all));
    let listeners = listener_vector(STREAM, &all, &[READY; 64]);
    accept(&mut table, 1, &one_message(LISTENER, vec![listeners]));
    advance(&mut table, 62);
    assert_eq!(table.bridge().unwrap().declarations(2).len(), 194);
    assert_eq!(table.write(2, 195, &mut [0; 1500]).number, 13);
    let said = pass(&mut table, 2);
    let lv = said.iter().filter(|(.., event)| *event == Event::Lv).count();
    assert_eq!((said.len(), lv), (192, 128));
    assert_eq!(table.bridge().unwrap().declarations(2).len(), 66);
}

#[test]
fn r6_a_quiet_port_writes_three_octets() {
    let mut table = written_times(2);
    let before = table.clone();
    for place in 0..=3 {
        assert_eq!(write(&mut table, 2, place), (vec![0, 0, 0], 3));
    }
    assert_eq!(table, before);
    // A change among several sends that one alone.
    join_talker(&mut table, 1, &talker(STREAM + 1));
    advance(&mut table, 2);
    assert_eq!(writes(&mut table, 2), [(ADVERTISE, STREAM + 1, Event::JoinMt)]);
}

#[test]
fn r7_join_in_by_the_present_registration_of_that_type() {
    let mut table = one_stream();
    join_talker(&mut table, 2, &talker(STREAM));
    assert_eq!(said(&written(&table, 2, 0).0), [(ADVERTISE, STREAM, Event::JoinIn)]);
    // Leaving isn't IN, and a Failed isn't an Advertise.
    let mut leaving = table.clone();
    accept(&mut leaving, 2, &talker_frame(&talker(STREAM), &[LV]));
    assert_eq!(said(&written(&leaving, 2, 0).0), [(ADVERTISE, STREAM, Event::JoinMt)]);
    join_talker(&mut table, 2, &failed(STREAM, 9));
    assert_eq!(said(&written(&table, 2, 0).0), [(ADVERTISE, STREAM, Event::JoinMt)]);
}

#[test]
fn r8_received_events_go_by_type_and_key() {
    let cases = [
        (1, JOIN_IN, Some(QA)),
        (1, IN, Some(QA)),
        (1, JOIN_MT, Some(AA)),
        (1, NEW, Some(AA)),
        (1, LV, Some(VP)),
        (2, JOIN_IN, Some(QA)),
        (2, JOIN_MT, Some(AA)),
        (2, MT, Some(AA)),
        (2, NEW, Some(QA)),
        (2, LV, Some(VP)),
    ];
    for (times, event, expected) in cases {
        let mut table = written_times(times);
        // Another destination: the registration doesn't take it, the machine does.
        let mut other = talker(STREAM);
        other.parameters.destination += 7;
        other.parameters.vlan = 9;
        accept(&mut table, 2, &talker_frame(&other, &[event]));
        assert_eq!(advertised(&table), expected, "{event} after {times}");
        let before = written_times(times);
        let mut table = before.clone();
        accept(&mut table, 2, &talker_frame(&failed(STREAM, 9), &[event]));
        accept(&mut table, 1, &talker_frame(&talker(STREAM), &[IN]));
        assert_eq!(advertised(&table), advertised(&before));
    }
}

#[test]
fn r11_a_stream_with_an_unsent_lv_counts_for_8() {
    let mut table = written_times(1);
    withdraw(&mut table);
    let report = report(&table, 2, STREAM);
    assert_eq!(report.count, 1);
    assert_eq!(line(&table, 2, STREAM), "none 0 none none");
    let mut buffer = [0; 1008];
    let why = table.why(2, STREAM, &mut buffer);
    assert_eq!((why.number, why.step), (0, Some(reference::settling::Step::A)));
    let many = listener_vector(STREAM + 1, &[JOIN_MT; 64], &[READY; 64]);
    let frame = one_message(LISTENER, vec![many]);
    assert_eq!(table.receive(1, &frame), 8);
    // The write that sends the Lv makes room.
    write(&mut table, 2, 0);
    assert_eq!(table.receive(1, &frame), 0);
    assert_eq!(table.bridge().unwrap().registrations.streams.len(), 64);
}

#[test]
fn r17_the_next_place_counts_in_the_list_as_it_is_left() {
    let mut settings = settings(2);
    settings.ports[1].limit.a = (1 << 40) - 1;
    let mut table = in_domain(&settings);
    accept(&mut table, 1, &talker_frame(&talker(STREAM), &[JOIN_MT; 60]));
    advance(&mut table, 1);
    pass(&mut table, 2);
    accept(&mut table, 1, &talker_frame(&talker(STREAM), &[LV; 60]));
    advance(&mut table, 61);
    // 53 Lv fit; the next one stands at 0 again.
    let (octets, next) = write(&mut table, 2, 0);
    assert_eq!((said(&octets).len(), next), (53, 0));
    let (octets, next) = write(&mut table, 2, 0);
    assert_eq!((said(&octets).len(), next), (7, 2));
    assert_eq!(held(&table), []);
}

#[test]
fn r18_events_mix_in_a_vector_and_a_quiet_listener_is_a_gap() {
    let mut table = in_domain(&settings(2));
    for n in 0..4 {
        join_talker(&mut table, 1, &talker(STREAM + n));
        if n != 2 {
            join_listener(&mut table, 2, STREAM + n, READY);
        }
    }
    advance(&mut table, 1);
    pass(&mut table, 1);
    pass(&mut table, 1);
    // The first changes, the second stays quiet, the third is born, the last leaves.
    join_listener(&mut table, 2, STREAM, ASKING);
    join_listener(&mut table, 2, STREAM + 2, READY);
    accept(&mut table, 2, &listener_frame(STREAM + 3, LV, READY));
    advance(&mut table, 61);
    let (octets, _) = write(&mut table, 1, 0);
    // New 0, Ignore 0, JoinMt 3; Lv 5. Asking Failed, Ignore, Ready, Ready.
    let expected = [0, 4, 2, 0, 0, 0, 0, 1, 0, 1, 3, 5 * 36, 0x4a];
    assert_eq!(octets[5..18], expected);
    // The domain was said twice before and is quiet.
    assert_eq!(octets[18..], [0, 0, 0, 0]);
}

#[test]
fn a_withdrawn_declaration_that_comes_back_is_joined_or_new() {
    for (latency, expected) in [(500, AA), (400, VN)] {
        let mut table = written_times(2);
        withdraw(&mut table);
        join_and_settle(&mut table, &source(latency));
        assert_eq!(advertised(&table), Some(expected));
    }
}

#[test]
fn what_is_new_stays_new_until_it_is_written_twice() {
    for (times, event, expected) in [(0, LV, VN), (1, LV, VN), (0, JOIN_IN, VN), (1, MT, AN)] {
        let mut table = new_times(times);
        accept(&mut table, 2, &talker_frame(&source(0), &[event]));
        assert_eq!(advertised(&table), Some(expected), "{event} after {times}");
    }
    for times in [0, 1] {
        let mut table = new_times(times);
        accept(&mut table, 2, &leave_all(ADVERTISE));
        assert_eq!(advertised(&table), Some(VN));
        withdraw(&mut table);
        assert_eq!(advertised(&table), Some(LA));
    }
}
