//! Listeners packed into vectors (02, (xi)).

use crate::helpers::*;
use reference::declarations::{self, Declaration, Said};
use reference::lent::Table;
use reference::mrp::EVENTS;
use reference::packing::{all_cuttings, best, best_from_the_end, best_of_all, weight, Cutting};
use reference::pdu::{self, ListenerType, StreamId};
use reference::random::Random;
use reference::written::declarations_of;

/// A run of StreamIDs by their Unique IDs.
fn run(unique_ids: &[u64]) -> Vec<StreamId> {
    unique_ids.iter().map(|id| STREAM & !0xffff | id).collect()
}

/// The Unique IDs of a cutting's parts, first and last, and its octets.
fn parts(run: &[StreamId], cutting: &Cutting) -> (Vec<(u64, u64)>, u64) {
    let id = |place: usize| run[place] & 0xffff;
    let ends = cutting.iter().map(|part| (id(part.start), id(part.end - 1))).collect();
    (ends, weight(run, cutting).0)
}

#[test]
fn runs_where_a_rule_for_gaps_alone_cuts_wrongly() {
    let cases: [(&[u64], &[(u64, u64)], u64); 10] = [
        (&[1, 2, 25], &[(1, 2), (25, 25)], 24),
        (&[1, 22, 25], &[(1, 1), (22, 25)], 25),
        (&[1, 2, 22, 25], &[(1, 2), (22, 25)], 25),
        (&[1, 22], &[(1, 22)], 24),
        (&[1, 23], &[(1, 23)], 24),
        (&[1, 24], &[(1, 24)], 24),
        (&[1, 25], &[(1, 1), (25, 25)], 24),
        (&[1, 22, 45], &[(1, 22), (45, 45)], 36),
        (&[1, 24, 43, 45, 67], &[(1, 1), (24, 67)], 48),
        (&[7], &[(7, 7)], 12),
    ];
    for (ids, expected, octets) in cases {
        let run = run(ids);
        for cutting in [best_of_all(&run), best_from_the_end(&run), best(&run)] {
            assert_eq!(parts(&run, &cutting), (expected.to_vec(), octets), "{ids:?}");
        }
    }
}

#[test]
fn fewest_octets_go_before_fewest_vectors_and_these_before_values() {
    let run = run(&[1, 24, 43, 45, 67]);
    let three = vec![0..2, 2..4, 4..5];
    let two = vec![0..1, 1..5];
    assert_eq!(weight(&run, &three).0, weight(&run, &two).0);
    assert!(weight(&run, &two) < weight(&run, &three));
}

#[test]
fn no_run_has_a_cutting_at_all_where_it_has_none() {
    assert_eq!(best_of_all(&[]), Cutting::new());
    assert_eq!(best_from_the_end(&[]), Cutting::new());
}

/// Ascending StreamIDs with gaps around those that are only just worth filling, at times of a next
/// MAC.
fn some_run(random: &mut Random, count: usize) -> Vec<StreamId> {
    let mut run = vec![STREAM | random.below(0x10000)];
    while run.len() < count {
        let last = run[run.len() - 1];
        let step = match random.below(4) {
            0 => random.between(1, 4),
            1..=2 => random.between(19, 25),
            _ => random.between(1, 40),
        };
        run.push(if random.percent(6) { (last | 0xffff) + 1 } else { last + step });
    }
    run
}

#[test]
fn the_best_from_the_end_is_the_best_of_all() {
    let mut random = Random::new(11);
    for turn in 0..6_000 {
        let run = some_run(&mut random, 1 + turn % 12);
        assert_eq!(best_from_the_end(&run), best_of_all(&run), "{run:x?}");
    }
}

#[test]
fn all_runs_of_few_steps_around_the_tight_ones() {
    let steps = [1, 2, 19, 20, 21, 22, 23, 24];
    for code in 0..8usize.pow(5) {
        let mut run = vec![STREAM];
        for place in 0..5 {
            run.push(run[place] + steps[code >> (3 * place) & 7]);
        }
        assert_eq!(best_from_the_end(&run), best_of_all(&run), "{run:x?}");
    }
}

#[test]
fn long_runs_take_no_more_octets_than_with_another_cut() {
    let mut random = Random::new(12);
    for _ in 0..300 {
        let run = some_run(&mut random, 64);
        let best = best_from_the_end(&run);
        // Each part for itself is the best of all that a few neighbours allow, and so is each two.
        for two in best.windows(2) {
            let both = &run[two[0].start..two[1].end];
            if both.len() <= 12 {
                let cut = two[0].len();
                let as_cut: Cutting = vec![0..cut, cut..both.len()];
                assert_eq!(best_of_all(both), as_cut, "{both:x?}");
            }
        }
        let alone: Cutting = (0..run.len()).map(|place| place..place + 1).collect();
        assert!(weight(&run, &best) <= weight(&run, &alone));
    }
}

#[test]
fn one_declaration_less_never_takes_more_octets() {
    let mut random = Random::new(13);
    for turn in 0..2_000 {
        let run = some_run(&mut random, 2 + turn % 20);
        let octets = weight(&run, &best(&run)).0;
        for left_out in 0..run.len() {
            let mut fewer = run.clone();
            fewer.remove(left_out);
            assert!(weight(&fewer, &best(&fewer)).0 <= octets, "{run:x?}");
        }
    }
}

#[test]
fn a_gap_of_more_than_22_is_never_filled() {
    let mut random = Random::new(14);
    for _ in 0..1_000 {
        let run = some_run(&mut random, 64);
        for part in best(&run) {
            for two in run[part].windows(2) {
                assert!(two[1] - two[0] <= 23, "{run:x?}");
            }
        }
    }
}

#[test]
fn no_vector_goes_over_two_macs() {
    let run = [STREAM | 0xfffe, STREAM | 0xffff, (STREAM | 0xffff) + 1, (STREAM | 0xffff) + 2];
    assert_eq!(best(&run), [0..2, 2..4]);
    let cuttings: Vec<Cutting> = all_cuttings(&run).collect();
    assert_eq!(cuttings.len(), 4);
    assert!(cuttings.iter().all(|cutting| cutting.iter().any(|part| part.start == 2)));
}

/// A bridge whose port 1 declares Listeners with these Unique IDs, each as it is asked for.
fn listening(ids: &[u64], kinds: &[u8]) -> Table {
    let mut settings = settings(2);
    settings.ports[1].limit.a = (1 << 40) - 1;
    let mut table = in_domain(&settings);
    for (id, kind) in ids.iter().zip(kinds.iter().cycle()) {
        let stream_id = STREAM & !0xffff | id;
        join_talker(&mut table, 1, &talker(stream_id));
        join_listener(&mut table, 2, stream_id, *kind);
    }
    advance(&mut table, 1);
    table
}

/// The Listener Message's list of the PDU that port 1 writes.
fn list(table: &Table) -> Vec<u8> {
    let (octets, _) = written(table, 1, 0);
    assert_eq!(octets[..3], [0, 3, 8]);
    let length = usize::from(octets[3]) << 8 | usize::from(octets[4]);
    octets[5..5 + length].to_vec()
}

#[test]
fn the_octets_of_packed_vectors() {
    let vector = |values: u8, first: u8, packed: &[u8]| {
        let mut octets = vec![0, values, 2, 0, 0, 0, 0, 1, 0, first];
        octets.extend(packed);
        octets
    };
    let cases: [(&[u64], &[u8], Vec<Vec<u8>>); 6] = [
        (&[1], &[READY], vec![vector(1, 1, &[0x6c, 0x80])]),
        (&[1, 2, 3], &[READY], vec![vector(3, 1, &[0x81, 0xa8])]),
        // The event at an Ignore is 0, New.
        (&[1, 3], &[READY], vec![vector(3, 1, &[0x6f, 0x88])]),
        (&[1, 4], &[READY], vec![vector(4, 1, &[0x6c, 0x6c, 0x82])]),
        (
            &[1, 2, 3, 5],
            &[ASKING, READY, READY_FAILED],
            vec![vector(5, 1, &[0x81, 0x12, 0x6c, 0x40])],
        ),
        (
            &[1, 2, 25],
            &[ASKING, READY_FAILED],
            vec![vector(2, 1, &[0x7e, 0x70]), vector(1, 25, &[0x6c, 0x40])],
        ),
    ];
    for (ids, kinds, vectors) in cases {
        let mut expected = vectors.concat();
        expected.extend([0, 0]);
        assert_eq!(list(&listening(ids, kinds)), expected, "{ids:?}");
    }
}

#[test]
fn sixty_four_neighbours_stand_in_one_vector() {
    let ids: Vec<u64> = (1..=64).collect();
    let table = listening(&ids, &[READY]);
    // 10 + 22 + 16 octets, and the list's EndMark.
    assert_eq!(list(&table).len(), 48 + 2);
    let (octets, next) = written(&table, 1, 0);
    assert_eq!((octets.len(), next), (3 + 6 + 48 + 20, 66));
    let declared = declarations_of(&octets).expect("it is laid out as it is written");
    assert_eq!(declared, table.bridge().unwrap().declarations(1));
}

#[test]
fn the_cutting_depends_on_the_declarations_of_the_pdu_alone() {
    let table = listening(&[1, 22, 25], &[READY]);
    let vectors = |place: u32| {
        let (octets, _) = written(&table, 1, place);
        let pdu = pdu::read(&octets).unwrap();
        let listeners = pdu.vectors().filter(|vector| vector.attribute_type.octet() == 3);
        listeners.map(|vector| vector.values.len()).collect::<Vec<usize>>()
    };
    assert_eq!(vectors(0), [1, 4]);
    assert_eq!(vectors(1), [4]);
    assert_eq!(vectors(2), [1]);
    let two = listening(&[1, 22], &[READY]);
    assert_eq!(list(&two)[..2], [0, 22]);
}

#[test]
fn a_stream_in_a_gap_that_is_no_listener_is_ignored() {
    let mut table = listening(&[1, 5], &[READY]);
    // A Talker from the other port is declared as such, a Listener without a Talker isn't.
    join_talker(&mut table, 2, &talker(STREAM + 1));
    join_listener(&mut table, 2, STREAM + 2, READY);
    advance(&mut table, 2);
    let declared = table.bridge().unwrap().declarations(1);
    assert!(matches!(declared[0], Declaration::Talker(talker) if talker.stream_id == STREAM + 1));
    let (octets, _) = written(&table, 1, 0);
    let pdu = pdu::read(&octets).unwrap();
    let vector = pdu.vectors().nth(1).unwrap();
    let ready = Some(ListenerType::Ready);
    let values: Vec<Option<ListenerType>> = vector
        .values
        .iter()
        .map(|(_, value)| match value {
            pdu::Value::Listener(_, says) => *says,
            _ => panic!("a Listener vector"),
        })
        .collect();
    assert_eq!(values, [ready, None, None, None, ready]);
}

#[test]
fn a_reader_takes_the_same_from_packed_and_single_vectors() {
    let mut random = Random::new(15);
    let kinds = [ListenerType::AskingFailed, ListenerType::Ready, ListenerType::ReadyFailed];
    for _ in 0..200 {
        let run = some_run(&mut random, 30);
        let said = |id: &StreamId| Said {
            declaration: Declaration::Listener(*id, random.one_of(&kinds)),
            event: random.one_of(&EVENTS),
        };
        let listeners: Vec<Said> = run.iter().map(said).collect();
        let mut tables = [started(&settings(2)), started(&settings(2))];
        accept(&mut tables[0], 1, &declarations::pdu(&listeners, false));
        for listener in &listeners {
            accept(&mut tables[1], 1, &declarations::pdu(&[*listener], false));
        }
        assert_eq!(tables[0], tables[1]);
    }
}
