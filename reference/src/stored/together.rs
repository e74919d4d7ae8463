//! Edits of a table that take several octets: what a form rule reads stands beside the machine of it.

use crate::domain::{class_id, slot};
use crate::random::Random;
use crate::settings::{Class, CLASSES};
use crate::table::layout::{self, record, result, send, sender};

/// A state of a machine that declares: VP.
const DECLARES: u8 = 1;

/// The form rules that such an edit may break alone.
pub const RULES: [u8; 3] = [3, 26, 27];

/// A table with an edit that may break that form rule and no other.
pub fn edited(random: &mut Random, table: &[u8], rule: u8) -> Vec<u8> {
    let mut stored = table.to_vec();
    match rule {
        3 => give_priority(random, &mut stored),
        26 => declare_talker(random, &mut stored),
        _ => declare_listener(random, &mut stored),
    }
    stored
}

/// The places where two tables differ, with the octets of the second.
pub fn differences(table: &[u8], stored: &[u8]) -> Vec<(usize, u8)> {
    let places = 0..table.len();
    places.filter(|at| table[*at] != stored[*at]).map(|at| (at, stored[at])).collect()
}

/// A class gets another priority, mostly that of the other class. The machines of its Domain value go with
/// it.
fn give_priority(random: &mut Random, table: &mut [u8]) {
    let class = random.one_of(&CLASSES);
    let held = layout::priorities(table);
    let (own, other) = match class {
        Class::A => (held.a, held.b),
        Class::B => (held.b, held.a),
    };
    let any = random.below(8) as u8;
    let priority = random.one_of(&[other, other, any]);
    match class {
        Class::A => table[8] = table[8] & 0xf1 | priority << 1,
        Class::B => {
            table[8] = table[8] & 0xfe | priority >> 2;
            table[9] = table[9] & 0x3f | priority << 6;
        }
    }
    let machine = |priority| slot(class_id(class), priority).expect("priorities are below 8");
    for port in 0..layout::ports(table) {
        let sender = layout::SENDERS + sender::LENGTH * port;
        let state = std::mem::take(&mut table[sender + machine(own)]);
        table[sender + machine(priority)] = state;
    }
}

/// Where result and machines of some stream on some port stand.
fn some_place(random: &mut Random, table: &[u8]) -> Option<(usize, usize)> {
    let (used, ports) = (layout::used(table) as u64, layout::ports(table) as u64);
    if used == 0 || ports == 0 {
        return None;
    }
    let start = layout::RECORDS + layout::RECORD_LENGTH * random.below(used) as usize;
    let port = random.below(ports) as usize;
    let result = start + record::RESULTS.start + result::LENGTH * port;
    Some((result, start + record::SENDS.start + send::LENGTH * port))
}

/// A column where there is none, with its entry and machine.
fn declare_talker(random: &mut Random, table: &mut [u8]) {
    let kinds = [(layout::ADVERTISE, send::ADVERTISE), (layout::FAILED, send::FAILED)];
    let (column, machine) = random.one_of(&kinds);
    if let Some((result, send)) = some_place(random, table) {
        if table[result + result::COLUMN] == 0 {
            table[result + result::COLUMN] = column;
            table[result + result::ENTRY] = layout::FILTER;
            table[send + machine] = DECLARES;
        }
    }
}

/// A Listener where none is declared, with its machine.
fn declare_listener(random: &mut Random, table: &mut [u8]) {
    let kind = random.between(1, 3) as u8;
    if let Some((result, send)) = some_place(random, table) {
        table[result + result::LISTENER] = kind;
        table[send + send::LISTENER] = DECLARES;
        table[send + send::LISTENER_TYPE] = kind;
    }
}
