//! Inputs of srpcalls.

use super::history::History;
use super::plan::Plan;
use super::planning::{plan, size};
use super::steps::{self, put_stop};
use super::wrong_settings::wrong_settings;
use super::{addresses, listeners, looks, sending, why};
use crate::lent::ROOM_LENGTH;
use crate::random::Random;
use crate::settings;
use crate::stored;
use crate::table::layout::TABLE_LENGTH;

/// An input of srpcalls.
#[derive(Clone, Debug, PartialEq, Eq)]
pub struct Script {
    pub octets: Vec<u8>,
    /// Whether it ends with another octet or a cut record.
    pub stops: bool,
}

/// Stores an octet in the table's room behind the table, or past the room.
fn store_behind(history: &mut History) {
    let place = match history.random.below(4) {
        0 => TABLE_LENGTH,
        1 => ROOM_LENGTH - 1,
        2 => ROOM_LENGTH + history.random.below(2) as usize,
        _ => history.random.between(TABLE_LENGTH as u64, 0xffff) as usize,
    };
    let octet = history.random.octet();
    history.store(place, octet);
}

/// Stores octets in the table and goes on with some calls. Where they are refused, mostly the octets
/// that stood there are stored again.
fn store_and_go_on(history: &mut History, plan: &Plan) {
    let octets = stored::some_octets(&mut history.random, history.table.lent());
    let mut held = Vec::new();
    for (place, octet) in octets {
        held.push((place, history.table.lent()[place]));
        history.store(place, octet);
    }
    for _ in 0..history.random.between(1, 4) {
        some_call(history, plan);
    }
    if history.table.bridge().is_none() {
        match history.random.below(100) {
            0..=91 => held.iter().for_each(|(place, octet)| history.store(*place, *octet)),
            92..=95 => history.start(&settings::write(&plan.settings)),
            _ => {}
        }
    }
}

/// Any of the calls.
fn some_call(history: &mut History, plan: &Plan) {
    addresses::mmrp_step(history, plan, 20);
    match history.random.below(10) {
        0..=4 => steps::step(history, plan),
        5..=8 => looks::some_look(history, plan),
        _ => {
            let settings = wrong_settings(&mut history.random, &plan.settings);
            history.start(&settings);
        }
    }
}

/// Calls that are lent a table of the wrong length.
fn wrong_length(history: &mut History, plan: &Plan) {
    let any = history.random.below(0x10000) as usize;
    let length = history.random.one_of(&[
        0,
        1,
        TABLE_LENGTH - 1,
        TABLE_LENGTH + 1,
        ROOM_LENGTH,
        ROOM_LENGTH + 1,
        65_535,
        any,
    ]);
    history.lend(length);
    for _ in 0..history.random.between(1, 6) {
        some_call(history, plan);
    }
    if history.random.percent(40) {
        let settings = settings::write(&plan.settings);
        history.start(&settings);
    }
    history.lend(TABLE_LENGTH);
}

/// Settings or a PDU longer than what a call is handed.
fn too_long(history: &mut History) {
    let length = history.random.one_of(&[4_095, 4_096, 4_097, 6_000]);
    let octets = history.random.octets(length);
    if history.random.percent(50) {
        history.start(&octets);
    } else {
        history.receive(1, &octets);
    }
}

/// One thing in a script: mostly a step of the bridge's history.
fn script_step(history: &mut History, plan: &Plan) {
    match history.random.below(108) {
        0..=79 => steps::step(history, plan),
        80..=91 => looks::some_look(history, plan),
        92..=94 => {
            let port = history.port(plan);
            looks::sweep_port(history, port);
        }
        95 => {
            let settings = wrong_settings(&mut history.random, &plan.settings);
            history.start(&settings);
        }
        96..=97 => wrong_length(history, plan),
        98 => store_behind(history),
        100..=107 => store_and_go_on(history, plan),
        _ if history.random.percent(30) => too_long(history),
        _ => steps::step(history, plan),
    }
}

/// The random numbers of MMRP frames, which half of the scripts have.
fn asks(seed: u64) -> Option<Random> {
    let mut random = Random::new(seed ^ 0x88f6);
    random.percent(50).then_some(random)
}

/// The random numbers of sending, which half of the scripts have much of.
fn sends(seed: u64) -> Option<Random> {
    let mut random = Random::new(seed ^ 0x22ea << 16);
    random.percent(50).then_some(random)
}

/// A script of calls.
pub fn calls(seed: u64) -> Script {
    let mut random = Random::new(seed.wrapping_mul(2).wrapping_add(1));
    let size = size(&mut random);
    let mut plan = plan(&mut random, size);
    let mut history = History::new(random);
    history.looks = Some(Random::new(!seed));
    history.asks = asks(seed);
    history.sends = sends(seed);
    addresses::choose_pruning(&mut history, &mut plan);
    before_the_start(&mut history, &plan);
    // A few scripts have no start of their own: alone they get 12 for all, in a batch they go on
    // with the bridge that the scripts before have left.
    let starts = history.random.weighted(&[3, 85, 9, 3]);
    for turn in 0..starts.max(1) {
        if turn > 0 && history.random.percent(60) {
            plan = another_plan(&mut history);
        }
        one_bridge(&mut history, &plan, starts > 0);
    }
    steps::closing(&mut history);
    if history.random.percent(90) {
        looks::sweep(&mut history, &plan);
    }
    let stops = history.random.percent(7);
    if stops {
        let unknown = [0x01, 0x0f, 0x21, 0x2f, 0x52, 0x5f, 0x62, 0x6f, 0x90, 0xff];
        put_stop(&mut history, &plan, &unknown);
    }
    Script { octets: history.octets, stops }
}

fn another_plan(history: &mut History) -> Plan {
    let size = size(&mut history.random);
    let mut plan = plan(&mut history.random, size);
    addresses::choose_pruning(history, &mut plan);
    plan
}

/// What may come before the bridge of a script: calls on no bridge, and bridges made for one request.
fn before_the_start(history: &mut History, plan: &Plan) {
    if history.random.percent(12) {
        for _ in 0..history.random.between(1, 5) {
            some_call(history, plan);
        }
    }
    if history.random.percent(30) {
        listeners::packed_listeners(history);
    }
    if history.random.percent(16) {
        why::too_little_room(history);
    }
    sending::lists(history);
}

/// A bridge from its start on, or one that goes on without one.
fn one_bridge(history: &mut History, plan: &Plan, starts: bool) {
    if history.random.percent(6) {
        let settings = wrong_settings(&mut history.random, &plan.settings);
        history.start(&settings);
    }
    if starts {
        let settings = settings::write(&plan.settings);
        history.start(&settings);
    }
    if history.random.percent(10) {
        looks::sweep(history, plan);
    }
    addresses::hear_addresses(history, plan);
    steps::beginning(history, plan);
    for _ in 0..steps::steps(history, plan.size) {
        script_step(history, plan);
        addresses::mmrp_step(history, plan, 40);
        sending::sending_step(history, plan, 40);
    }
    if history.random.percent(25) {
        looks::sweep(history, plan);
    }
}

/// So many seeds from the first on.
pub fn seeds(first: u64, count: u64) -> impl Iterator<Item = u64> {
    (0..count).map(move |n| first.wrapping_add(n))
}

/// The scripts of several seeds as one input. One that stops would hide those behind it, so it
/// is left out unless it is the last.
pub fn calls_batch(first: u64, count: u64) -> Vec<u8> {
    let left_out = left_out_of_batch(first, count);
    let taken = seeds(first, count).filter(|seed| !left_out.contains(seed));
    taken.flat_map(|seed| calls(seed).octets).collect()
}

/// The seeds whose scripts a batch leaves out.
pub fn left_out_of_batch(first: u64, count: u64) -> Vec<u64> {
    let not_last = seeds(first, count.saturating_sub(1));
    not_last.filter(|seed| calls(*seed).stops).collect()
}
