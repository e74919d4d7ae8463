//! Writes, reports and questions why.

use super::history::History;
use super::plan::Plan;
use super::why;

/// The PDU that says nothing: the port has nothing to send. A refused write has no octet.
const NOTHING: usize = 3;

/// All PDUs of a port from a place on, following the next places; gives the last one.
pub fn pass(history: &mut History, port: u32, from: u16) -> u16 {
    let mut place = from;
    loop {
        let buffer_length = history.random.one_of(&[1500, 1500, 1500, 1501, 2048, 65_535]);
        let answer = history.write(port, place, buffer_length);
        place = answer.next_place as u16;
        if answer.length <= NOTHING {
            return place;
        }
    }
}

/// All PDUs of a port, and all its reports.
pub fn sweep_port(history: &mut History, port: u32) {
    let place = pass(history, port, 0);
    if history.random.percent(30) {
        history.write(port, place + 1, 1500);
    }
    let past = u16::from(history.random.percent(30));
    for place in 0..=history.streams_held() as u16 + past {
        history.report(port, place);
    }
    if history.random.percent(12) {
        why::why_of_all(history, port);
    }
}

pub fn sweep(history: &mut History, plan: &Plan) {
    for port in 1..=plan.ports() {
        sweep_port(history, port);
    }
}

/// A write, report or why with any arguments.
pub fn some_look(history: &mut History, plan: &Plan) {
    if history.random.percent(35) {
        why::some_why(history, plan);
        return;
    }
    let port =
        if history.random.percent(88) { history.port(plan) } else { history.wrong_port(plan) };
    if history.random.percent(50) {
        let count = match history.table.bridge() {
            Some(bridge) if (1..=bridge.settings.ports.len()).contains(&(port as usize)) => {
                bridge.declarations(port as usize).len() as u16
            }
            _ => 0,
        };
        let place = some_place(history, count);
        let any = history.random.below(2_100) as u16;
        let buffer_length = history
            .random
            .one_of(&[1500, 1500, 1500, 1500, 1499, 1499, 1501, 2048, 0, 65_535, any]);
        history.write(port, place, buffer_length);
    } else {
        let place = some_place(history, history.streams_held() as u16);
        history.report(port, place);
    }
}

fn some_place(history: &mut History, count: u16) -> u16 {
    match history.random.below(12) {
        0..=3 => 0,
        4..=5 => count / 2,
        6..=7 => count,
        8..=9 => count + 1,
        10 => history.random.below(u64::from(count) + 1) as u16,
        _ => history.random.bits() as u16,
    }
}
