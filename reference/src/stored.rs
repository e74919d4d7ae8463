//! Octets to store in a table: places and values that break one form rule and no other, or that
//! keep them all.

mod together;

use std::ops::Range;

use crate::domain::SLOTS;
use crate::random::Random;
use crate::registrations::{MOST_ADDRESSES, MOST_STREAMS};
use crate::settings::{self, MOST_PORTS};
use crate::table::layout::TABLE_LENGTH;
use crate::table::layout::{self, address, cell, domain, edge, record, result, send, sender};
use crate::table::rules::{broken_rules, keeps_form};

/// What an octet is stored for.
#[derive(Clone, Copy, Debug, PartialEq, Eq)]
enum Aim {
    /// This form rule is broken and no other.
    Breaks(u8),
    /// No form rule is broken.
    Keeps,
    /// Whatever comes of it, at a place that this form rule looks at.
    Any(u8),
}

/// How often a place and a value are drawn to meet the aim; the last draw is taken as it is.
const MOST_DRAWS: usize = 16;

/// Places of the table and octets for them: mostly one place, else some that go together.
pub fn some_octets(random: &mut Random, table: &[u8]) -> Vec<(usize, u8)> {
    if table.len() == TABLE_LENGTH && random.percent(8) {
        let rule = random.one_of(&together::RULES);
        let stored = together::edited(random, table, rule);
        let broken = broken_rules(&stored);
        if broken.is_empty() || broken == [rule] {
            return together::differences(table, &stored);
        }
    }
    vec![some_octet(random, table)]
}

/// A place of the table and an octet for it: mostly one that breaks a form rule and no other, else
/// one that keeps them all, or any.
fn some_octet(random: &mut Random, table: &[u8]) -> (usize, u8) {
    let full = layout::used(table) == MOST_STREAMS;
    let rule = match full_port(table) {
        _ if full && random.percent(20) => 8,
        Some(_) if random.percent(20) => 37,
        _ => random.between(2, 50) as u8,
    };
    let aim = match random.below(20) {
        0..=12 => Aim::Breaks(rule),
        13..=18 => Aim::Keeps,
        _ => Aim::Any(rule),
    };
    let mut stored = table.to_vec();
    let mut draws = 0;
    loop {
        let (place, octet) = draw(random, table, aim);
        stored[place] = octet;
        draws += 1;
        if draws == MOST_DRAWS || octet != table[place] && meets(&stored, aim) {
            return (place, octet);
        }
        stored[place] = table[place];
    }
}

fn meets(stored: &[u8], aim: Aim) -> bool {
    match aim {
        Aim::Breaks(rule) => broken_rules(stored) == [rule],
        Aim::Keeps => keeps_form(stored),
        Aim::Any(_) => true,
    }
}

fn draw(random: &mut Random, table: &[u8], aim: Aim) -> (usize, u8) {
    let fields = match aim {
        Aim::Breaks(rule) | Aim::Any(rule) => field_of_rule(random, table, rule),
        Aim::Keeps => field_in_use(random, table),
    };
    let place = random.between(fields.start as u64, fields.end as u64 - 1) as usize;
    let held = table[place];
    let any = random.octet();
    let (above, below) = (held.wrapping_add(1), held.wrapping_sub(1));
    (place, random.one_of(&[0, 1, 2, 3, 4, 5, 6, above, below, held ^ 1 << (any % 8), any]))
}

/// The first port, from 0, that has all its address records in use.
fn full_port(table: &[u8]) -> Option<usize> {
    layout::addresses_used_at(table)
        .take(layout::ports(table))
        .position(|used| used == MOST_ADDRESSES)
}

fn one(place: usize) -> Range<usize> {
    place..place + 1
}

/// A field that a form rule looks at.
fn field_of_rule(random: &mut Random, table: &[u8], rule: u8) -> Range<usize> {
    let ports = layout::ports(table);
    let port = random.below(ports.max(1) as u64) as usize;
    let past_used = layout::RECORDS + layout::RECORD_LENGTH * layout::used(table);
    match rule {
        2 => one(8),
        3 => 8..10,
        4 => 9..11,
        5 => one(settings::length(port)),
        6 => settings::length(ports.min(MOST_PORTS - 1))..layout::CLOCK.start,
        7 => layout::TOTALS..layout::EDGES,
        29 => layout::TOTALS..layout::TOTALS + layout::TOTALS_LENGTH * ports.max(1),
        8 => one(layout::COUNT),
        30 => 11..13,
        36 => one(layout::FAN_IN_LIMIT),
        31..=35 => field_of_edge(random, table, rule, port),
        37..=41 => field_of_addresses(random, table, rule, port),
        42..=46 => field_of_send(random, table, rule),
        47..=50 => field_of_sender(random, table, rule, port),
        10 if past_used < TABLE_LENGTH && random.percent(30) => one(past_used),
        10 if past_used < TABLE_LENGTH => past_used..TABLE_LENGTH,
        _ => field_of_record(random, table, rule, port),
    }
}

/// A field that a form rule on the domain looks at: of a Domain record, the flags, or those of
/// places that are no port.
fn field_of_edge(random: &mut Random, table: &[u8], rule: u8, port: usize) -> Range<usize> {
    let start = layout::EDGES + edge::LENGTH * port;
    let past = layout::EDGES + edge::LENGTH * layout::ports(table).min(MOST_PORTS - 1);
    let records = (0..SLOTS).map(|slot| start + domain::LENGTH * slot);
    let is_registered = |record: &usize| table[record + domain::REGISTERED] != 0;
    let (held, free): (Vec<usize>, Vec<usize>) = records.partition(is_registered);
    let takes_free = rule == 33 && !free.is_empty() || held.is_empty();
    let wanted = if takes_free { free } else { held };
    let record = random.one_of(&wanted);
    match rule {
        31 => one(record + domain::REGISTERED),
        32 => record + domain::LEAVING..record + domain::SINCE.end,
        33 => record..record + domain::LENGTH,
        34 => start + edge::FLAGS.start..start + edge::FLAGS.end,
        _ => past..layout::SENDERS,
    }
}

/// A field that a form rule on the addresses of a port looks at: their number, a part of a used
/// record, or what is behind the last one.
fn field_of_addresses(random: &mut Random, table: &[u8], rule: u8, port: usize) -> Range<usize> {
    let used: Vec<usize> = layout::addresses_used_at(table).collect();
    let is_wanted = |port: &usize| used[*port] > usize::from(rule == 40);
    let wanted: Vec<usize> = (0..layout::ports(table)).filter(is_wanted).collect();
    let port = match (rule, full_port(table)) {
        (37, Some(full)) => full,
        (38..=40, _) if !wanted.is_empty() => random.one_of(&wanted),
        _ => port,
    };
    let start = layout::EDGES + edge::LENGTH * port;
    let records = start + edge::ADDRESSES.start;
    let last = used[port].max(1) as u64 - 1;
    let record = records + address::LENGTH * random.below(last + 1) as usize;
    let past = records + address::LENGTH * used[port];
    match rule {
        37 => one(start + edge::COUNT),
        38 => one(record + address::REGISTERED),
        39 => record + address::LEAVING..record + address::SINCE.end,
        40 => record + address::ADDRESS.start..record + address::ADDRESS.end,
        _ if used[port] < MOST_ADDRESSES => past..start + edge::LENGTH,
        _ => one(start + edge::COUNT),
    }
}

/// A field of a used record that a form rule looks at; the count where no record is used.
fn field_of_record(random: &mut Random, table: &[u8], rule: u8, port: usize) -> Range<usize> {
    let used = layout::used(table) as u64;
    if used == 0 {
        return one(layout::COUNT);
    }
    let start = layout::RECORDS + layout::RECORD_LENGTH * random.below(used) as usize;
    let cells = start + record::CELLS.start;
    let results = start + record::RESULTS.start;
    let past = layout::ports(table).min(MOST_PORTS - 1);
    let (part, field) = match rule {
        9 => (start, record::STREAM_ID),
        11 if random.percent(60) => (start, one(record::PRIORITY)),
        11 | 25 => (start, record::PARAMETERS),
        13 if random.percent(50) => (cells, cell::LENGTH * past..record::CELLS.len()),
        13 => (results, result::LENGTH * past..record::RESULTS.len()),
        20..=28 => (results + result::LENGTH * port, field_of_result(random, rule)),
        _ => (cells + cell::LENGTH * port, field_of_cell(random, rule)),
    };
    part + field.start..part + field.end
}

/// A field of a cell that a form rule looks at.
fn field_of_cell(random: &mut Random, rule: u8) -> Range<usize> {
    match rule {
        12 | 14 => one(random.one_of(&[cell::TALKER, cell::LISTENER])),
        15 => one(cell::CHANGED),
        16 if random.percent(50) => cell::TALKER_LEAVING..cell::TALKER_SINCE.end,
        16 => cell::LISTENER_LEAVING..cell::LISTENER_SINCE.end,
        17 => one(cell::PRIORITY),
        19 => cell::BRIDGE_ID.start..cell::CODE + 1,
        _ => 0..cell::LENGTH,
    }
}

/// A field of a result that a form rule looks at.
fn field_of_result(random: &mut Random, rule: u8) -> Range<usize> {
    match rule {
        20 => one(random.one_of(&[result::COLUMN, result::ENTRY, result::LISTENER])),
        21 => result::LATENCY,
        22 => result::BRIDGE_ID.start..result::CODE + 1,
        23 => one(random.one_of(&[result::COLUMN, result::ENTRY])),
        26 => one(result::COLUMN),
        27 => one(result::LISTENER),
        28 => one(result::ENTRY),
        _ => result::SINCE,
    }
}

/// A field that a form rule looks at of what ports send of streams, mostly where there is a machine.
fn field_of_send(random: &mut Random, table: &[u8], rule: u8) -> Range<usize> {
    let (machine, field) = match rule {
        44 => random.one_of(&[
            (send::ADVERTISE, one(send::ADVERTISE_PRIORITY)),
            (send::FAILED, one(send::FAILED_PRIORITY)),
        ]),
        45 => (send::LISTENER, one(send::LISTENER_TYPE)),
        43 => (send::LENGTH, 0..send::LENGTH),
        _ => {
            let machine = random.one_of(&[send::ADVERTISE, send::FAILED, send::LISTENER]);
            (machine, one(machine))
        }
    };
    let starts = (0..layout::used(table)).flat_map(|place| {
        let sends = layout::RECORDS + layout::RECORD_LENGTH * place + record::SENDS.start;
        (0..layout::ports(table)).map(move |port| sends + send::LENGTH * port)
    });
    let has_machine = |start: &usize| machine == send::LENGTH || table[start + machine] != 0;
    let (with, without): (Vec<usize>, Vec<usize>) = starts.partition(has_machine);
    let wanted = match with.is_empty() || rule == 42 && random.percent(50) {
        true => without,
        false => with,
    };
    if wanted.is_empty() {
        return one(layout::COUNT);
    }
    let start = random.one_of(&wanted);
    start + field.start..start + field.end
}

/// A field that a form rule looks at of what a port sends by itself, or what places that are no port send.
fn field_of_sender(random: &mut Random, table: &[u8], rule: u8, port: usize) -> Range<usize> {
    let start = layout::SENDERS + sender::LENGTH * port;
    let past = layout::ports(table).min(MOST_PORTS - 1);
    let used = layout::used(table) as u64;
    match rule {
        47 if used > 0 && random.percent(50) => {
            let place = layout::RECORDS + layout::RECORD_LENGTH * random.below(used) as usize;
            let sends = place + record::SENDS.start;
            sends + send::LENGTH * past..place + record::SENDS.end
        }
        47 => layout::SENDERS + sender::LENGTH * past..layout::RECORDS,
        48 => start..start + sender::APPLICANTS.end,
        49 => one(start + sender::LEAVE_ALL),
        _ => start + sender::STARTED.start..start + sender::STARTED.end,
    }
}

/// A field whose octets differ among tables that keep the form: settings, clock, totals, domain,
/// addresses, or one of a used record.
fn field_in_use(random: &mut Random, table: &[u8]) -> Range<usize> {
    let ports = layout::ports(table).max(1);
    match random.below(10) {
        0..=1 => 0..settings::length(ports),
        2 => layout::CLOCK,
        3 => layout::TOTALS..layout::TOTALS + layout::TOTALS_LENGTH * ports,
        4 => {
            let rule = random.one_of(&[31, 32, 33, 34, 39, 40, 48, 49, 50]);
            let port = random.below(ports as u64) as usize;
            match rule {
                39..=40 => field_of_addresses(random, table, rule, port),
                48..=50 => field_of_sender(random, table, rule, port),
                _ => field_of_edge(random, table, rule, port),
            }
        }
        _ => {
            let rule = random.one_of(&[
                9, 11, 12, 14, 15, 16, 17, 18, 18, 20, 21, 22, 23, 24, 42, 43, 43, 44, 45,
            ]);
            let port = random.below(ports as u64) as usize;
            match rule {
                42..=45 => field_of_send(random, table, rule),
                _ => field_of_record(random, table, rule, port),
            }
        }
    }
}
