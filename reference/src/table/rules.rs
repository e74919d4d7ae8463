//! The form rules of a table.

use std::iter::zip;

use super::layout::{address, cell, domain, edge, record, result, send, sender};
use super::layout::{addresses_used, domain_records, edges, used_addresses};
use super::layout::{cells, results, senders, sends, used, used_records};
use super::layout::{clock, leave_time, limits, ports, priorities, supports, totals, vlan};
use super::layout::{ADVERTISE, APPLICANTS, FAILED, FORWARD};
use super::layout::{CLOCK, COUNT, EDGES, FAN_IN_LIMIT, RECORDS, RECORD_LENGTH, TABLE_LENGTH};
use super::layout::{TOTALS, TOTALS_LENGTH};
use crate::domain::{class_id, slot, SLOTS};
use crate::leave_all::LEAVE_ALL_TIME;
use crate::mmrp::Address;
use crate::octets::number_of;
use crate::pdu::StreamId;
use crate::registrations::{MOST_ADDRESSES, MOST_STREAMS};
use crate::settings::{self, CLASSES, MOST_PORTS};

/// A form rule: whether a table keeps it. All but the first are asked only where that one is kept.
type Rule = fn(&[u8]) -> bool;

/// The form rules, in the order and by the numbers of docs/TABLE.md.
const RULES: [(u8, Rule); 50] = [
    (1, |table| table.len() == TABLE_LENGTH),
    (2, |table| (1..=MOST_PORTS as u8).contains(&(table[8] >> 4))),
    (3, |table| priorities(table).a != priorities(table).b),
    (4, |table| leave_time(table) >= 1),
    (5, |table| (0..ports(table)).all(|place| table[settings::length(place)] & 0x1f == 0)),
    (6, |table| is_zero(&table[settings::length(ports(table))..CLOCK.start])),
    (7, totals_are_within_limits),
    (8, |table| usize::from(table[COUNT]) <= MOST_STREAMS),
    (9, stream_ids_rise),
    (10, |table| is_zero(&table[RECORDS + RECORD_LENGTH * used(table)..])),
    (11, |table| used_records(table).all(|record| record[record::PRIORITY] & 0xf == 0)),
    (12, |table| used_records(table).all(|record| is_held(record, ports(table)))),
    (13, |table| used_records(table).all(|record| is_zero_past(record, ports(table)))),
    (14, |table| every_cell(table, |cell| cell[cell::TALKER] <= 2 && cell[cell::LISTENER] <= 3)),
    (15, |table| every_cell(table, |cell| cell[cell::CHANGED] <= 1)),
    (16, leaving_began_lately),
    (17, |table| every_cell(table, |cell| cell[cell::PRIORITY] & 0xf == 0)),
    (18, |table| every_cell(table, is_zero_where_unregistered)),
    (19, |table| every_cell(table, |cell| cell[cell::TALKER] != ADVERTISE || no_failure(cell))),
    (20, |table| every_result(table, kinds_are_in_range)),
    (21, |table| every_result(table, |result| has_column(result) || no_latency(result))),
    (22, |table| every_result(table, only_failed_has_a_failure)),
    (23, |table| every_result(table, entry_agrees_with_column)),
    (24, ages_agree_with_entries),
    (25, |table| every_stream(table, |cells, _, record| talkers(cells) > 0 || unsettled(record))),
    (26, |table| {
        every_stream(table, |cells, results, _| columns_come_from_elsewhere(cells, results))
    }),
    (27, |table| every_stream(table, |cells, results, _| one_talker_port_declares(cells, results))),
    (28, |table| every_stream(table, |cells, results, _| entries_have_listeners(cells, results))),
    (29, totals_are_of_streams),
    (30, |table| (1..=settings::GREATEST_VLAN).contains(&vlan(table))),
    (31, |table| every_domain(table, |domain| domain[domain::REGISTERED] <= 1)),
    (32, domains_left_lately),
    (33, |table| every_domain(table, |domain| domain[domain::REGISTERED] != 0 || is_zero(domain))),
    (34, |table| every_edge(table, has_flags)),
    (35, |table| edges(table).skip(ports(table)).all(is_zero)),
    (36, |table| table[FAN_IN_LIMIT] <= settings::GREATEST_FAN_IN),
    (37, |table| every_edge(table, |edge| usize::from(edge[edge::COUNT]) <= MOST_ADDRESSES)),
    (38, |table| every_address(table, |address| address[address::REGISTERED] == 1)),
    (39, addresses_left_lately),
    (40, |table| every_edge(table, addresses_rise)),
    (41, |table| every_edge(table, is_zero_past_addresses)),
    (42, |table| every_send(table, |send| applicants(send).iter().all(|octet| is_state(*octet)))),
    (43, |table| every_send(table, is_zero_without_machine)),
    (44, |table| every_send(table, priorities_have_zeros)),
    (45, |table| every_send(table, |send| send[send::LISTENER] == 0 || has_listener_type(send))),
    (46, machines_are_of_results),
    (47, |table| is_zero_past_senders(table, ports(table))),
    (48, |table| {
        zip(0..ports(table), senders(table)).all(|(place, of)| declares_own(table, place, of))
    }),
    (49, |table| every_sender(table, |sender| sender[sender::LEAVE_ALL] <= 1)),
    (50, leave_all_started_lately),
];

/// Whether a table keeps all form rules.
pub fn keeps_form(table: &[u8]) -> bool {
    RULES.iter().all(|(_, rule)| rule(table))
}

/// The numbers of the form rules that a table breaks; of one of another length the first alone.
pub fn broken_rules(table: &[u8]) -> Vec<u8> {
    if table.len() != TABLE_LENGTH {
        return vec![1];
    }
    RULES.iter().filter(|(_, rule)| !rule(table)).map(|(number, _)| *number).collect()
}

/// Whether all octets of a part of the table are zero. One comparison of the whole part, since
/// most of a table is unused room and each call looks at it.
fn is_zero(octets: &[u8]) -> bool {
    static ZEROS: [u8; TABLE_LENGTH] = [0; TABLE_LENGTH];
    octets == &ZEROS[..octets.len()]
}

/// Whether something holds of each cell of a port in the used records.
fn every_cell(table: &[u8], holds: impl Fn(&[u8]) -> bool) -> bool {
    used_records(table).all(|record| cells(record).take(ports(table)).all(&holds))
}

/// Whether something holds of each result of a port in the used records.
fn every_result(table: &[u8], holds: impl Fn(&[u8]) -> bool) -> bool {
    used_records(table).all(|record| results(record).take(ports(table)).all(&holds))
}

/// Whether something holds of what each port holds by itself.
fn every_edge(table: &[u8], holds: impl Fn(&[u8]) -> bool) -> bool {
    edges(table).take(ports(table)).all(holds)
}

/// Whether something holds of each Domain record of a port.
fn every_domain(table: &[u8], holds: impl Fn(&[u8]) -> bool) -> bool {
    every_edge(table, |edge| domain_records(edge).all(&holds))
}

/// Whether something holds of each used address record of a port.
fn every_address(table: &[u8], holds: impl Fn(&[u8]) -> bool) -> bool {
    every_edge(table, |edge| used_addresses(edge).all(&holds))
}

fn totals_are_within_limits(table: &[u8]) -> bool {
    let within = |place| {
        let (total, limit) = (totals(table, place), limits(table, place));
        let supports = supports(table, place);
        let of_supported = |limit, supports| if supports { limit } else { 0 };
        let sum = of_supported(limit.a, supports.a) + of_supported(limit.b, supports.b);
        total.a <= limit.a && total.a + total.b <= sum
    };
    (0..ports(table)).all(within) && is_zero(&table[TOTALS + TOTALS_LENGTH * ports(table)..EDGES])
}

fn stream_ids_rise(table: &[u8]) -> bool {
    let stream_ids: Vec<StreamId> =
        used_records(table).map(|record| number_of(&record[record::STREAM_ID])).collect();
    stream_ids.windows(2).all(|pair| pair[0] < pair[1])
}

/// Whether some port has a registration of a stream.
fn is_registered(record: &[u8], ports: usize) -> bool {
    cells(record).take(ports).any(|cell| cell[cell::TALKER] != 0 || cell[cell::LISTENER] != 0)
}

fn is_held(record: &[u8], ports: usize) -> bool {
    let has_machine = |send| applicants(send).iter().any(|octet| *octet != 0);
    is_registered(record, ports) || sends(record).take(ports).any(has_machine)
}

fn is_zero_past(record: &[u8], ports: usize) -> bool {
    cells(record).skip(ports).all(is_zero) && results(record).skip(ports).all(is_zero)
}

/// Whether a leaving flag with its time is one that calls leave.
fn is_lately(table: &[u8], flag: u8, since: &[u8]) -> bool {
    let (clock, since) = (clock(table), number_of(since) as u32);
    match flag {
        0 => since == 0,
        1 => since <= clock && clock - since < leave_time(table),
        _ => false,
    }
}

fn leaving_began_lately(table: &[u8]) -> bool {
    every_cell(table, |cell| {
        is_lately(table, cell[cell::TALKER_LEAVING], &cell[cell::TALKER_SINCE])
            && is_lately(table, cell[cell::LISTENER_LEAVING], &cell[cell::LISTENER_SINCE])
    })
}

fn domains_left_lately(table: &[u8]) -> bool {
    every_domain(table, |domain| is_lately(table, domain[domain::LEAVING], &domain[domain::SINCE]))
}

fn addresses_left_lately(table: &[u8]) -> bool {
    every_address(table, |address| {
        is_lately(table, address[address::LEAVING], &address[address::SINCE])
    })
}

fn addresses_rise(edge: &[u8]) -> bool {
    let addresses: Vec<Address> =
        used_addresses(edge).map(|record| number_of(&record[address::ADDRESS])).collect();
    addresses.windows(2).all(|pair| pair[0] < pair[1])
}

fn is_zero_past_addresses(edge: &[u8]) -> bool {
    is_zero(&edge[edge::ADDRESSES][address::LENGTH * addresses_used(edge)..])
}

fn has_flags(edge: &[u8]) -> bool {
    edge[edge::FLAGS].iter().all(|flag| *flag <= 1)
}

fn is_zero_where_unregistered(cell: &[u8]) -> bool {
    let (talker, listener) = cell.split_at(cell::LISTENER);
    (cell[cell::TALKER] != 0 || is_zero(talker)) && (cell[cell::LISTENER] != 0 || is_zero(listener))
}

fn no_failure(cell: &[u8]) -> bool {
    is_zero(&cell[cell::BRIDGE_ID]) && cell[cell::CODE] == 0
}

fn kinds_are_in_range(result: &[u8]) -> bool {
    result[result::COLUMN] <= 2 && result[result::ENTRY] <= 2 && result[result::LISTENER] <= 3
}

fn has_column(result: &[u8]) -> bool {
    result[result::COLUMN] != 0
}

fn no_latency(result: &[u8]) -> bool {
    is_zero(&result[result::LATENCY])
}

fn only_failed_has_a_failure(result: &[u8]) -> bool {
    result[result::COLUMN] == FAILED
        || is_zero(&result[result::BRIDGE_ID]) && result[result::CODE] == 0
}

fn entry_agrees_with_column(result: &[u8]) -> bool {
    let (column, entry) = (result[result::COLUMN], result[result::ENTRY]);
    let is_declared = column == ADVERTISE || column == FAILED;
    (!is_declared || entry != 0) && (entry != FORWARD || column == ADVERTISE)
}

fn ages_agree_with_entries(table: &[u8]) -> bool {
    let second = u64::from(clock(table) / 100);
    every_result(table, |result| {
        let since = number_of(&result[result::SINCE]);
        since == 0 || result[result::ENTRY] != 0 && since <= second
    })
}

/// Whether something holds of the cells and results of the ports, and of the whole record, of each
/// stream.
fn every_stream(table: &[u8], holds: impl Fn(&[&[u8]], &[&[u8]], &[u8]) -> bool) -> bool {
    used_records(table).all(|record| {
        let cells: Vec<&[u8]> = cells(record).take(ports(table)).collect();
        let results: Vec<&[u8]> = results(record).take(ports(table)).collect();
        holds(&cells, &results, record)
    })
}

/// How many ports have a Talker.
fn talkers(cells: &[&[u8]]) -> usize {
    cells.iter().filter(|cell| cell[cell::TALKER] != 0).count()
}

fn unsettled(record: &[u8]) -> bool {
    is_zero(&record[record::PARAMETERS])
}

fn columns_come_from_elsewhere(cells: &[&[u8]], results: &[&[u8]]) -> bool {
    let elsewhere = |cell: &[u8]| talkers(cells) > usize::from(cell[cell::TALKER] != 0);
    zip(cells, results).all(|(cell, result)| !has_column(result) || elsewhere(cell))
}

fn one_talker_port_declares(cells: &[&[u8]], results: &[&[u8]]) -> bool {
    let declares = |result: &[u8]| result[result::LISTENER] != 0;
    let may = |cell: &[u8], result: &[u8]| !has_column(result) && cell[cell::TALKER] != 0;
    results.iter().filter(|result| declares(result)).count() <= 1
        && zip(cells, results).all(|(cell, result)| !declares(result) || may(cell, result))
}

fn entries_have_listeners(cells: &[&[u8]], results: &[&[u8]]) -> bool {
    let for_a_listener = |result: &[u8]| match result[result::ENTRY] {
        0 => false,
        FORWARD => true,
        _ => !has_column(result),
    };
    zip(cells, results).all(|(cell, result)| !for_a_listener(result) || cell[cell::LISTENER] != 0)
}

fn totals_are_of_streams(table: &[u8]) -> bool {
    let registered = used_records(table).any(|record| is_registered(record, ports(table)));
    (0..ports(table)).all(|place| {
        let (total, supports) = (totals(table, place), supports(table, place));
        let earned = |total, supports| total == 0 || supports && registered;
        earned(total.a, supports.a) && earned(total.b, supports.b)
    })
}

/// Whether something holds of what each port sends of each stream.
fn every_send(table: &[u8], holds: impl Fn(&[u8]) -> bool) -> bool {
    used_records(table).all(|record| sends(record).take(ports(table)).all(&holds))
}

/// Whether something holds of what each port sends by itself.
fn every_sender(table: &[u8], holds: impl Fn(&[u8]) -> bool) -> bool {
    senders(table).take(ports(table)).all(holds)
}

/// The Applicants of Advertise, Failed and Listener.
fn applicants(send: &[u8]) -> [u8; 3] {
    [send[send::ADVERTISE], send[send::FAILED], send[send::LISTENER]]
}

fn is_state(octet: u8) -> bool {
    usize::from(octet) < APPLICANTS.len()
}

/// Whether an Applicant is one of a declaration that isn't being withdrawn.
fn declares(octet: u8) -> bool {
    (1..=5).contains(&octet)
}

fn is_zero_without_machine(send: &[u8]) -> bool {
    (send[send::ADVERTISE] != 0 || is_zero(&send[send::ADVERTISE_VALUES]))
        && (send[send::FAILED] != 0 || is_zero(&send[send::FAILED_VALUES]))
        && (send[send::LISTENER] != 0 || send[send::LISTENER_TYPE] == 0)
}

fn priorities_have_zeros(send: &[u8]) -> bool {
    send[send::ADVERTISE_PRIORITY] & 0xf == 0 && send[send::FAILED_PRIORITY] & 0xf == 0
}

fn has_listener_type(send: &[u8]) -> bool {
    (1..=3).contains(&send[send::LISTENER_TYPE])
}

fn machines_are_of_results(table: &[u8]) -> bool {
    let agree = |(result, send): (&[u8], &[u8])| {
        declares(send[send::ADVERTISE]) == (result[result::COLUMN] == ADVERTISE)
            && declares(send[send::FAILED]) == (result[result::COLUMN] == FAILED)
            && declares(send[send::LISTENER]) == (result[result::LISTENER] != 0)
    };
    used_records(table)
        .all(|record| zip(results(record), sends(record)).take(ports(table)).all(agree))
}

fn is_zero_past_senders(table: &[u8], ports: usize) -> bool {
    senders(table).skip(ports).all(is_zero)
        && used_records(table).all(|record| sends(record).skip(ports).all(is_zero))
}

/// Whether the port at a place has Applicants in VP, AA or QA for just its own Domain values.
fn declares_own(table: &[u8], place: usize, sender: &[u8]) -> bool {
    let own = CLASSES.map(|class| {
        let supported = supports(table, place).of(class);
        slot(class_id(class), priorities(table).of(class)).filter(|_| supported)
    });
    (0..SLOTS).all(|at| match sender[at] {
        1 | 4 | 5 => own.contains(&Some(at)),
        octet => octet == 0 && !own.contains(&Some(at)),
    })
}

fn leave_all_started_lately(table: &[u8]) -> bool {
    let clock = clock(table);
    every_sender(table, |sender| {
        let started = number_of(&sender[sender::STARTED]) as u32;
        started <= clock && clock - started < LEAVE_ALL_TIME
    })
}
