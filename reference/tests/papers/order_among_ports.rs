//! Demand 3: the order among ports never matters.

use crate::helpers::*;
use reference::lent::Table;
use reference::pdu::{self, StreamId};
use reference::random::Random;
use reference::records::{Call, Watcher};
use reference::registrations::{streams_joined, MOST_STREAMS};
use reference::{calls, generator, numbers};
use std::collections::BTreeSet;

/// A frame that comes in on a port, by one of two protocols.
#[derive(Clone)]
struct Frame {
    port: u32,
    is_mmrp: bool,
    pdu: Vec<u8>,
}

type Frames = Vec<Frame>;

/// Another order of the frames that keeps each port's own order.
fn shuffled(random: &mut Random, frames: &Frames) -> Vec<usize> {
    let mut ports: Vec<u32> = frames.iter().map(|frame| frame.port).collect();
    random.shuffle(&mut ports);
    let mut next = [0; 16];
    let mut order = Vec::new();
    for port in ports {
        let of_port: Vec<usize> = (0..frames.len()).filter(|n| frames[*n].port == port).collect();
        order.push(of_port[next[port as usize]]);
        next[port as usize] += 1;
    }
    order
}

/// Hands the frames over in an order, then settles. Gives each frame's answer and the table.
fn hand_over(table: &Table, frames: &Frames, order: &[usize], time: u32) -> (Vec<u8>, Table) {
    let mut table = table.clone();
    let mut answers = vec![0; frames.len()];
    for n in order {
        let Frame { port, is_mmrp, pdu } = &frames[*n];
        answers[*n] = match is_mmrp {
            true => table.receive_mmrp(*port, pdu),
            false => table.receive(*port, pdu),
        };
    }
    assert_eq!(table.advance(time), 0);
    (answers, table)
}

/// The streams held, together with all those that any well-formed frame asks to join.
fn streams(table: &Table, frames: &Frames) -> BTreeSet<StreamId> {
    let bridge = table.bridge().unwrap();
    let mut streams: BTreeSet<StreamId> = bridge.registrations.streams.keys().copied().collect();
    for frame in frames.iter().filter(|frame| !frame.is_mmrp) {
        if let Ok(pdu) = pdu::read(&frame.pdu) {
            streams.extend(streams_joined(&pdu));
        }
    }
    streams
}

/// Takes the runs of receives between settled states out of generated scripts.
#[derive(Default)]
struct Runs {
    settled: Option<Table>,
    frames: Frames,
    runs: Vec<(Table, Frames, u32)>,
}

impl Watcher for Runs {
    fn called(&mut self, call: &Call, number: numbers::Number, table: &Table) {
        match call {
            Call::Receive(port, pdu) | Call::ReceiveMmrp(port, pdu) if number != numbers::TABLE => {
                let is_mmrp = matches!(call, Call::ReceiveMmrp(..));
                self.frames.push(Frame { port: *port, is_mmrp, pdu: pdu.to_vec() });
            }
            Call::Start(_) | Call::Advance(_) if number == numbers::ACCEPTED => {
                if let (Call::Advance(time), Some(settled)) = (call, self.settled.take()) {
                    self.runs.push((settled, std::mem::take(&mut self.frames), *time));
                }
                self.settled = Some(table.clone());
                self.frames.clear();
            }
            _ => {}
        }
    }

    /// Octets stored among the frames end a run.
    fn stored(&mut self, _: &Table) {
        self.settled = None;
    }
}

#[test]
fn frames_in_any_order_that_keeps_each_ports_own_give_the_same_answers_and_table() {
    let mut random = Random::new(3);
    let (mut compared, mut with_mmrp) = (0, 0);
    for seed in 10_000..10_300 {
        let mut runs = Runs::default();
        calls::run_watched(&generator::calls(seed).octets, &mut runs);
        for (settled, frames, time) in runs.runs {
            if frames.len() < 2 || streams(&settled, &frames).len() > MOST_STREAMS {
                continue;
            }
            let in_order: Vec<usize> = (0..frames.len()).collect();
            let expected = hand_over(&settled, &frames, &in_order, time);
            for _ in 0..3 {
                let order = shuffled(&mut random, &frames);
                assert_eq!(hand_over(&settled, &frames, &order, time), expected);
                compared += 1;
                with_mmrp += usize::from(frames.iter().any(|frame| frame.is_mmrp));
            }
            let bridge = expected.1.bridge().unwrap();
            for (port, total) in bridge.settings.ports.iter().zip(&bridge.settled.totals) {
                // 02, (i): A's total within limit A, and both totals within the sum of limits.
                assert!(total.a <= port.limit.a);
                assert!(total.a + total.b <= port.limit.a + port.limit.b);
            }
        }
    }
    assert!(compared > 1_000 && with_mmrp > 300, "{compared}, {with_mmrp} with MMRP frames");
}

#[test]
fn above_64_streams_the_order_may_matter() {
    // The premise of demand 3 is needed: two ports ask for 33 different streams each.
    let mut table = started(&settings(2));
    let mut frames = Frames::new();
    for port in [1, 2] {
        let first = STREAM + 100 * u64::from(port);
        let vector = listener_vector(first, &[JOIN_MT; 33], &[READY; 33]);
        let pdu = one_message(pdu::AttributeType::Listener, vec![vector]);
        frames.push(Frame { port, is_mmrp: false, pdu });
    }
    advance(&mut table, 1);
    assert_eq!(streams(&table, &frames).len(), 66);
    assert_eq!(hand_over(&table, &frames, &[0, 1], 1).0, [0, 8]);
    assert_eq!(hand_over(&table, &frames, &[1, 0], 1).0, [8, 0]);
}
