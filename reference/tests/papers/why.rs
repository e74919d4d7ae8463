//! Why a stream has its column on a port (02, (ix)). A stream of the worked example takes 17,088,000
//! bit/s in class A and 8,544,000 in class B.

use crate::helpers::*;
use reference::bridge::WhyAnswer;
use reference::lent::Table;
use reference::pdu::StreamId;
use reference::records::{Call, Watcher};
use reference::settings::{PerClass, Settings};
use reference::settled::Column;
use reference::settling::Step;
use reference::why::LONGEST_LIST;
use reference::{calls, generator, numbers};

const OF_A: u64 = 17_088_000;
const OF_B: u64 = 8_544_000;

const FILLING: u8 = 0xa5;

/// The answer for a stream on a port, and its list. Octets past the list stay.
fn why(table: &Table, port: u32, stream_id: StreamId) -> (WhyAnswer, Vec<(StreamId, u64)>) {
    let mut buffer = [FILLING; LONGEST_LIST];
    let answer = table.why(port, stream_id, &mut buffer);
    let (list, past) = buffer.split_at(16 * answer.count);
    assert!(past.iter().all(|octet| *octet == FILLING));
    let number = |octets: &[u8]| u64::from_be_bytes(octets.try_into().unwrap());
    let listed = list.chunks(16).map(|one| (number(&one[..8]), number(&one[8..]))).collect();
    (answer, listed)
}

/// The step alone, where nothing is listed.
fn step(table: &Table, port: u32, stream_id: StreamId) -> Step {
    let (answer, list) = why(table, port, stream_id);
    let WhyAnswer { number, step, count, limit, shortfall } = answer;
    assert_eq!((number, count, limit, shortfall, list.len()), (0, 0, 0, 0, 0));
    step.expect("accepted")
}

/// Talkers on port 1, with a Ready Listener of each on port 2; settled after each.
fn joined(settings: &Settings, streams: &[(StreamId, u8, u8)]) -> Table {
    let mut table = in_domain(settings);
    for (time, (stream_id, priority, rank)) in (1..).zip(streams) {
        let mut talker = talker(*stream_id);
        talker.parameters.priority = *priority;
        talker.parameters.rank = *rank;
        join_talker(&mut table, 1, &talker);
        join_listener(&mut table, 2, *stream_id, READY);
        advance(&mut table, 100 * time);
    }
    table
}

fn limits(a: u64, b: u64) -> Settings {
    let mut settings = settings(2);
    settings.ports[1].limit = PerClass { a, b };
    settings
}

#[test]
fn the_more_important_streams_are_listed_by_importance() {
    // The last one joined is of rank 0, the first one is the oldest of rank 1, and has the highest
    // StreamID; the youngest of rank 1 is refused.
    let streams = [(STREAM + 9, 3, 1), (STREAM + 5, 3, 1), (STREAM + 7, 3, 1), (STREAM + 8, 3, 0)];
    let table = joined(&limits(3 * OF_A + 88_000, 0), &streams);
    let (answer, list) = why(&table, 2, STREAM + 7);
    assert_eq!(list, [(STREAM + 8, OF_A), (STREAM + 9, OF_A), (STREAM + 5, OF_A)]);
    let expected = WhyAnswer {
        number: 0,
        step: Some(Step::H),
        count: 3,
        limit: 3 * OF_A + 88_000,
        shortfall: OF_A - 88_000,
    };
    assert_eq!(answer, expected);
    for (stream_id, _) in list {
        assert_eq!(step(&table, 2, stream_id), Step::I);
        assert_eq!(step(&table, 1, stream_id), Step::A);
    }
}

#[test]
fn a_shortfall_of_1() {
    let table = joined(&limits(2 * OF_A - 1, 0), &[(STREAM, 3, 1), (STREAM + 1, 3, 1)]);
    let (answer, list) = why(&table, 2, STREAM + 1);
    assert_eq!((answer.shortfall, list), (1, vec![(STREAM, OF_A)]));
    // Without any more important one the list is empty, and yet there is a shortfall.
    let table = joined(&limits(OF_A - 1, 0), &[(STREAM, 3, 1)]);
    let (answer, list) = why(&table, 2, STREAM);
    assert_eq!((answer.step, answer.limit, answer.shortfall), (Some(Step::H), OF_A - 1, 1));
    assert_eq!(list, []);
}

#[test]
fn streams_that_reserve_nothing_are_not_listed() {
    let mut settings = limits(OF_A, 0);
    settings.ports[0].limit.a = OF_A;
    let mut table = joined(&settings, &[(STREAM, 3, 0), (STREAM + 1, 3, 1), (STREAM + 2, 3, 1)]);
    // More important, and only asking; less important; and one that asks for nothing at all.
    join_listener(&mut table, 2, STREAM, ASKING);
    let mut idle = talker(STREAM + 3);
    idle.parameters.max_interval_frames = 0;
    idle.parameters.rank = 0;
    join_talker(&mut table, 1, &idle);
    join_listener(&mut table, 2, idle.stream_id, READY_FAILED);
    let (answer, list) = why(&table, 2, STREAM + 2);
    assert_eq!(list, [(STREAM + 3, 0), (STREAM + 1, OF_A)]);
    assert_eq!((answer.limit, answer.shortfall), (OF_A, OF_A));
}

#[test]
fn sixty_three_are_listed() {
    let mut table = in_domain(&limits(63 * OF_A, 0));
    for stream_id in STREAM..STREAM + 64 {
        join_talker(&mut table, 1, &talker(stream_id));
        join_listener(&mut table, 2, stream_id, READY);
    }
    let (answer, list) = why(&table, 2, STREAM + 63);
    let all: Vec<(StreamId, u64)> = (STREAM..STREAM + 63).map(|id| (id, OF_A)).collect();
    assert_eq!((answer.count, list), (63, all));
}

#[test]
fn class_b_has_what_class_a_leaves_in_its_limit() {
    let streams = [(STREAM, 3, 1), (STREAM + 1, 2, 1), (STREAM + 2, 2, 1)];
    let table = joined(&limits(OF_A + OF_B, 1), &streams);
    // A's stream isn't listed, and its demand isn't in the limit.
    let (answer, list) = why(&table, 2, STREAM + 2);
    assert_eq!(list, [(STREAM + 1, OF_B)]);
    assert_eq!((answer.limit, answer.shortfall), (OF_B + 1, OF_B - 1));
    // Where the port doesn't support A, its limit counts 0.
    let mut settings = limits(OF_A, OF_B);
    settings.ports[1].supports.a = false;
    let table = joined(&settings, &[(STREAM + 1, 2, 1), (STREAM + 2, 2, 1)]);
    assert_eq!(why(&table, 2, STREAM + 2).0.limit, OF_B);
}

#[test]
fn the_steps_by_their_letters() {
    let mut settings = settings(3);
    settings.fan_in_limit = 1;
    settings.ports[1].supports.b = false;
    settings.ports[2].largest_frame = 100;
    let mut table = in_domain(&settings);
    join_talker(&mut table, 1, &talker(STREAM));
    assert_eq!(step(&table, 1, STREAM), Step::A);
    assert_eq!(step(&table, 2, STREAM), Step::I);
    assert_eq!(step(&table, 3, STREAM), Step::G);
    let mut class_b = talker(STREAM + 1);
    class_b.parameters.priority = 2;
    join_talker(&mut table, 1, &class_b);
    assert_eq!(step(&table, 2, STREAM + 1), Step::B);
    // A Failed with code 1 isn't this bridge's own.
    join_talker(&mut table, 1, &failed(STREAM + 2, 1));
    assert_eq!(step(&table, 2, STREAM + 2), Step::C);
    join_talker(&mut table, 1, &talker(STREAM + 3));
    let mut changed = talker(STREAM + 3);
    changed.parameters.vlan = 3;
    join_talker(&mut table, 1, &changed);
    assert_eq!(step(&table, 2, STREAM + 3), Step::D);
    let mut grown = talker(STREAM + 4);
    join_talker(&mut table, 1, &grown);
    grown.accumulated_latency = 1;
    join_talker(&mut table, 1, &grown);
    assert_eq!(step(&table, 2, STREAM + 4), Step::K);
    join_talker(&mut table, 1, &talker(STREAM + 5));
    join_talker(&mut table, 2, &talker(STREAM + 5));
    assert_eq!(step(&table, 2, STREAM + 5), Step::E);
    let mut no_class = talker(STREAM + 6);
    no_class.parameters.priority = 7;
    join_talker(&mut table, 1, &no_class);
    assert_eq!(step(&table, 2, STREAM + 6), Step::F);
    let mut shares = talker(STREAM + 7);
    shares.parameters.destination = talker(STREAM).parameters.destination;
    join_talker(&mut table, 1, &shares);
    assert_eq!(step(&table, 2, STREAM + 7), Step::L);
    join_talker(&mut table, 2, &talker(STREAM + 8));
    assert_eq!(step(&table, 3, STREAM + 8), Step::M);
    // A Listener alone is held.
    join_listener(&mut table, 2, STREAM + 9, READY);
    assert_eq!(step(&table, 2, STREAM + 9), Step::A);
    // Port 2 hears another priority of class A.
    accept(&mut table, 2, &domain_frame(6, 5, &[JOIN_MT]));
    assert_eq!(step(&table, 2, STREAM), Step::J);
}

#[test]
fn a_pruned_stream_has_step_n_until_its_address_is_asked_for() {
    let mut settings = settings(3);
    settings.pruning = true;
    settings.ports[2].supports.a = false;
    let mut table = in_domain(&settings);
    join_talker(&mut table, 1, &talker(STREAM));
    join_talker(&mut table, 1, &failed(STREAM + 1, 1));
    assert_eq!(step(&table, 1, STREAM), Step::A);
    assert_eq!(step(&table, 3, STREAM), Step::B);
    assert_eq!(step(&table, 2, STREAM), Step::N);
    assert_eq!(step(&table, 2, STREAM + 1), Step::N);
    let destination = talker(STREAM).parameters.destination;
    accept_mmrp(&mut table, 2, &mac_frame(destination, &[JOIN_MT, JOIN_MT]));
    assert_eq!(step(&table, 2, STREAM), Step::I);
    assert_eq!(step(&table, 2, STREAM + 1), Step::C);
}

#[test]
fn it_is_decided_anew_and_nothing_is_kept() {
    let mut table = joined(&limits(OF_A, 0), &[(STREAM, 3, 1), (STREAM + 1, 3, 1)]);
    assert_eq!(why(&table, 2, STREAM + 1).1, [(STREAM, OF_A)]);
    // A stream of rank 0 that joined since is listed, though the last advance knows nothing of it.
    let mut newcomer = talker(STREAM + 2);
    newcomer.parameters.rank = 0;
    join_talker(&mut table, 1, &newcomer);
    join_listener(&mut table, 2, STREAM + 2, READY);
    let before = table.clone();
    assert_eq!(line(&table, 2, STREAM), "advertise 0 none forward");
    assert_eq!(why(&table, 2, STREAM).1, [(STREAM + 2, OF_A)]);
    assert_eq!(why(&table, 2, STREAM + 1).1, [(STREAM + 2, OF_A)]);
    assert_eq!(step(&table, 2, STREAM + 2), Step::I);
    assert_eq!(table, before);
}

#[test]
fn refused_with_12_then_1_then_15_then_10() {
    let table = joined(&limits(OF_A, 0), &[(STREAM, 3, 1)]);
    let number = |table: &Table, port, stream_id, length| {
        let mut buffer = vec![FILLING; length];
        let answer = table.why(port, stream_id, &mut buffer);
        assert!(answer.number == 0 || buffer.iter().all(|octet| *octet == FILLING));
        let nothing = WhyAnswer { number: answer.number, ..WhyAnswer::default() };
        assert!(answer.number == 0 || answer == nothing);
        answer.number
    };
    assert_eq!(number(&Table::zeros(), 9, 0, 0), 12);
    assert_eq!(number(&table, 3, 0, 0), 1);
    assert_eq!(number(&table, 0, 0, 0), 1);
    assert_eq!(number(&table, 2, STREAM + 1, 0), 15);
    // Whatever the step would be.
    assert_eq!(number(&table, 1, STREAM, 1_007), 10);
    assert_eq!(number(&table, 2, STREAM, 1_007), 10);
    assert_eq!(number(&table, 2, STREAM, 1_008), 0);
    assert_eq!(number(&table, 2, STREAM, 2_048), 0);
}

/// Holds each accepted answer to what an advance to the held clock then takes down.
struct AnswersHeldToAdvance {
    checked: usize,
    listed: usize,
}

impl Watcher for AnswersHeldToAdvance {
    fn called(&mut self, call: &Call, number: numbers::Number, table: &Table) {
        let (port, stream_id) = match (call, number) {
            (Call::Why { port, stream_id, .. }, 0) => (*port, *stream_id),
            _ => return,
        };
        let (answer, list) = why(table, port, stream_id);
        let mut advanced = table.clone();
        assert_eq!(advanced.advance(table.bridge().unwrap().clock), 0);
        let report = report(&advanced, port, stream_id);
        let own_code = match report.column {
            Column::Failed(failure)
                if failure.bridge_id == table.bridge().unwrap().settings.bridge_id =>
            {
                Some(failure.code)
            }
            _ => None,
        };
        let expected = match answer.step.unwrap() {
            Step::A | Step::B | Step::N => (Column::None, None),
            Step::I => (Column::Advertise, None),
            Step::C => (report.column, own_code),
            Step::D => (report.column, Some(16)),
            Step::K => (report.column, Some(7)),
            Step::E => (report.column, Some(4)),
            Step::F => (report.column, Some(13)),
            Step::J => (report.column, Some(8)),
            Step::L => (report.column, Some(5)),
            Step::M => (report.column, Some(15)),
            Step::G => (report.column, Some(14)),
            Step::H => (report.column, Some(1)),
        };
        assert_eq!((report.column, own_code), expected);
        // What is listed forwards, and makes up what was left to this stream.
        for (listed, _) in &list {
            let entry = reference::settled::Entry::Forward;
            assert_eq!(self::report(&advanced, port, *listed).entry, entry);
        }
        let sum: u64 = list.iter().map(|(_, demand)| demand).sum();
        let reserved = report.totals.a.max(report.totals.b);
        assert!(list.is_empty() || sum <= reserved);
        self.checked += 1;
        self.listed += list.len();
    }
}

#[test]
fn all_answers_of_generated_scripts_are_those_of_an_advance() {
    let mut watcher = AnswersHeldToAdvance { checked: 0, listed: 0 };
    for seed in 0..150 {
        calls::run_watched(&generator::calls(seed).octets, &mut watcher);
    }
    assert!(watcher.checked > 500 && watcher.listed > 100);
}
