//! Inputs of srpsheet.

use super::frames::frame;
use super::history::History;
use super::plan::{Plan, Size};
use super::planning::{plan, size};
use super::steps::{self, put_stop};
use super::wrong_settings::wrong_settings;
use crate::mrp::LONGEST_PDU;
use crate::random::Random;
use crate::settings;
use crate::sheet;

/// An input of srpsheet.
pub fn sheet(seed: u64) -> Vec<u8> {
    let mut random = Random::new(seed.wrapping_mul(2));
    let size = size(&mut random);
    let mut plan = plan(&mut random, size);
    plan.settings.pruning = Random::new(seed ^ 0x88f6).percent(4);
    let mut history = History::new(random);
    if history.random.percent(5) {
        history.octets = wrong_settings(&mut history.random, &plan.settings);
        if history.random.percent(50) {
            return history.octets;
        }
    } else {
        history.octets = settings::write(&plan.settings);
        history.table.start(&history.octets.clone());
    }
    steps::beginning(&mut history, &plan);
    for _ in 0..steps::steps(&mut history, size) {
        steps::step(&mut history, &plan);
    }
    if size == Size::Large {
        pass_the_longest_input(&mut history, &plan);
    }
    steps::closing(&mut history);
    if history.random.percent(8) {
        let unknown =
            [0x00, 0x01, 0x0f, 0x21, 0x2f, 0x30, 0x41, 0x50, 0x51, 0x60, 0x71, 0x80, 0xff];
        put_stop(&mut history, &plan, &unknown);
    }
    history.octets
}

/// Makes a sheet longer than 65,536 octets; often with a record that ends there, one octet
/// before or one past it.
fn pass_the_longest_input(history: &mut History, plan: &Plan) {
    let end = sheet::LONGEST_INPUT;
    while history.octets.len() + 2_000 < end {
        steps::step(history, plan);
        let port = history.port(plan);
        let mut pdu = frame(&mut history.random, plan, port).octets();
        pdu.resize(pdu.len().max(LONGEST_PDU), 0);
        history.receive(port, &pdu);
    }
    let off = history.random.one_of(&[0, 0, 1, 2]);
    while history.octets.len() + 3 < end - 1 {
        let length = (end - 1 + off - history.octets.len() - 3).min(LONGEST_PDU);
        let port = history.port(plan);
        let mut pdu = frame(&mut history.random, plan, port).octets();
        pdu.truncate(length);
        pdu.resize(length, 0);
        history.receive(port, &pdu);
    }
}
