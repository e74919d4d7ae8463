//! Where the parts of a table stand, and reading them.

use std::ops::Range;

use crate::applicant::State;
use crate::domain::SLOTS;
use crate::octets::number_of;
use crate::pdu::PARAMETERS_LENGTH;
use crate::registrations::{MOST_ADDRESSES, MOST_STREAMS};
use crate::settings::{self, PerClass, MOST_PORTS};

/// The settings of eight ports stand first, as they were handed to start. Among them is the limit of
/// inbound ports.
pub const FAN_IN_LIMIT: usize = 13;
pub const CLOCK: Range<usize> = 190..194;
/// Streams held.
pub const COUNT: usize = 194;
/// The totals of eight ports.
pub const TOTALS: usize = 195;
/// Octets of one port's totals: class A 5, and class B 6, since it may borrow class A's limit.
pub const TOTALS_LENGTH: usize = 11;
/// What eight ports hold by themselves: Domain records, boundary flags and addresses.
pub const EDGES: usize = 283;
/// What eight ports send by themselves: the Applicants of Domain values, and the LeaveAll machine.
pub const SENDERS: usize = 7_475;
/// The stream records, those in use first.
pub const RECORDS: usize = 7_643;
pub const RECORD_LENGTH: usize = 901;
/// The length of the table; one length for every port count.
pub const TABLE_LENGTH: usize = RECORDS + MOST_STREAMS * RECORD_LENGTH;

/// Places in what a port holds by itself.
pub mod edge {
    use std::ops::Range;
    pub const LENGTH: usize = 899;
    /// 16 Domain records.
    pub const DOMAINS: Range<usize> = 0..128;
    /// The boundary flags of class A and of class B.
    pub const FLAGS: Range<usize> = 128..130;
    /// How many addresses are held.
    pub const COUNT: usize = 130;
    /// 64 address records, those in use first.
    pub const ADDRESSES: Range<usize> = 131..899;
}

/// Places in an address record.
pub mod address {
    use std::ops::Range;
    pub const LENGTH: usize = 12;
    pub const REGISTERED: usize = 0;
    pub const LEAVING: usize = 1;
    pub const SINCE: Range<usize> = 2..6;
    pub const ADDRESS: Range<usize> = 6..12;
}

/// Places in a Domain record.
pub mod domain {
    use std::ops::Range;
    pub const LENGTH: usize = 8;
    pub const REGISTERED: usize = 0;
    pub const LEAVING: usize = 1;
    pub const SINCE: Range<usize> = 2..6;
    pub const VLAN: Range<usize> = 6..8;
}

/// Places in what a port sends by itself.
pub mod sender {
    use std::ops::Range;
    pub const LENGTH: usize = 21;
    /// The Applicants of 16 Domain values.
    pub const APPLICANTS: Range<usize> = 0..16;
    /// The LeaveAll machine: 0 Passive, 1 Active.
    pub const LEAVE_ALL: usize = 16;
    /// The clock at which its timer was started.
    pub const STARTED: Range<usize> = 17..21;
}

/// Places in a stream record.
pub mod record {
    use std::ops::Range;
    pub const STREAM_ID: Range<usize> = 0..8;
    pub const PARAMETERS: Range<usize> = 8..21;
    /// The last octet of the parameters: priority, rank and four zero bits.
    pub const PRIORITY: usize = 20;
    pub const CELLS: Range<usize> = 21..365;
    pub const RESULTS: Range<usize> = 365..525;
    pub const SENDS: Range<usize> = 525..901;
}

/// Places in a cell: what a port has registered of a stream.
pub mod cell {
    use std::ops::Range;
    pub const LENGTH: usize = 43;
    pub const TALKER: usize = 0;
    pub const CHANGED: usize = 1;
    pub const TALKER_LEAVING: usize = 2;
    pub const TALKER_SINCE: Range<usize> = 3..7;
    pub const PARAMETERS: Range<usize> = 7..20;
    /// The last octet of the parameters: priority, rank and four zero bits.
    pub const PRIORITY: usize = 19;
    pub const LATENCY: Range<usize> = 20..24;
    pub const BRIDGE_ID: Range<usize> = 24..32;
    pub const CODE: usize = 32;
    pub const FIRST_LATENCY: Range<usize> = 33..37;
    pub const LISTENER: usize = 37;
    pub const LISTENER_LEAVING: usize = 38;
    pub const LISTENER_SINCE: Range<usize> = 39..43;
}

/// Places in a result: what the last advance decided for a stream on a port.
pub mod result {
    use std::ops::Range;
    pub const LENGTH: usize = 20;
    pub const COLUMN: usize = 0;
    pub const LATENCY: Range<usize> = 1..5;
    pub const BRIDGE_ID: Range<usize> = 5..13;
    pub const CODE: usize = 13;
    pub const ENTRY: usize = 14;
    pub const SINCE: Range<usize> = 15..19;
    pub const LISTENER: usize = 19;
}

const _: () = assert!(TABLE_LENGTH == 65_307);
const _: () = assert!(CLOCK.start == settings::HEAD_LENGTH + MOST_PORTS * settings::PORT_LENGTH);
const _: () = assert!(EDGES == TOTALS + MOST_PORTS * TOTALS_LENGTH);
const _: () = assert!(SENDERS == EDGES + MOST_PORTS * edge::LENGTH);
const _: () = assert!(RECORDS == SENDERS + MOST_PORTS * sender::LENGTH);
const _: () = assert!(record::SENDS.end == record::SENDS.start + MOST_PORTS * send::LENGTH);
const _: () = assert!(edge::DOMAINS.end == SLOTS * domain::LENGTH);
const _: () = assert!(edge::LENGTH == edge::ADDRESSES.start + MOST_ADDRESSES * address::LENGTH);
const _: () = assert!(record::PARAMETERS.end - record::PARAMETERS.start == PARAMETERS_LENGTH);

/// Places in what a port sends of a stream.
pub mod send {
    use std::ops::Range;
    pub const LENGTH: usize = 47;
    pub const ADVERTISE: usize = 0;
    /// Parameters and latency out.
    pub const ADVERTISE_VALUES: Range<usize> = 1..18;
    pub const ADVERTISE_PRIORITY: usize = 13;
    pub const FAILED: usize = 18;
    /// Parameters, latency out, Bridge ID and code.
    pub const FAILED_VALUES: Range<usize> = 19..45;
    pub const FAILED_PRIORITY: usize = 31;
    pub const LISTENER: usize = 45;
    pub const LISTENER_TYPE: usize = 46;
}

/// The octet of an Applicant is its state's place here; 0 is no machine.
pub const APPLICANTS: [State; 7] =
    [State::VO, State::VP, State::VN, State::AN, State::AA, State::QA, State::LA];

/// The kinds of a Talker and of a column.
pub const ADVERTISE: u8 = 1;
pub const FAILED: u8 = 2;
/// The kinds of an entry.
pub const FILTER: u8 = 1;
pub const FORWARD: u8 = 2;

pub fn clock(table: &[u8]) -> u32 {
    number_of(&table[CLOCK]) as u32
}

pub fn leave_time(table: &[u8]) -> u32 {
    number_of(&table[9..11]) as u32 & 0x3fff
}

pub fn priorities(table: &[u8]) -> PerClass<u8> {
    PerClass { a: table[8] >> 1 & 7, b: (table[8] & 1) << 2 | table[9] >> 6 }
}

/// How many of the eight places are ports.
pub fn ports(table: &[u8]) -> usize {
    usize::from(table[8] >> 4).min(MOST_PORTS)
}

/// How many of the 64 records are in use.
pub fn used(table: &[u8]) -> usize {
    usize::from(table[COUNT]).min(MOST_STREAMS)
}

/// The class totals of the port at a place.
pub fn totals(table: &[u8], place: usize) -> PerClass<u64> {
    let octets = &table[TOTALS + TOTALS_LENGTH * place..][..TOTALS_LENGTH];
    PerClass { a: number_of(&octets[..5]), b: number_of(&octets[5..]) }
}

/// The classes that the port at a place supports.
pub fn supports(table: &[u8], place: usize) -> PerClass<bool> {
    let flags = table[settings::length(place)];
    PerClass { a: flags & 0x80 != 0, b: flags & 0x40 != 0 }
}

/// The class limits of the port at a place.
pub fn limits(table: &[u8], place: usize) -> PerClass<u64> {
    let octets = &table[settings::length(place) + 4..][..10];
    PerClass { a: number_of(&octets[..5]), b: number_of(&octets[5..]) }
}

/// The VLAN setting with the three bits before it. The one above them is pruning.
pub fn vlan(table: &[u8]) -> u16 {
    number_of(&table[11..13]) as u16 & 0x7fff
}

/// What each of the eight places holds by itself.
pub fn edges(table: &[u8]) -> impl Iterator<Item = &[u8]> {
    table[EDGES..SENDERS].chunks_exact(edge::LENGTH)
}

/// What each of the eight places sends by itself.
pub fn senders(table: &[u8]) -> impl Iterator<Item = &[u8]> {
    table[SENDERS..RECORDS].chunks_exact(sender::LENGTH)
}

pub fn domain_records(edge: &[u8]) -> impl Iterator<Item = &[u8]> {
    edge[edge::DOMAINS].chunks_exact(domain::LENGTH)
}

/// Of each of the eight places how many of the 64 address records are in use.
pub fn addresses_used_at(table: &[u8]) -> impl Iterator<Item = usize> + '_ {
    edges(table).map(addresses_used)
}

pub fn addresses_used(edge: &[u8]) -> usize {
    usize::from(edge[edge::COUNT]).min(MOST_ADDRESSES)
}

pub fn used_addresses(edge: &[u8]) -> impl Iterator<Item = &[u8]> {
    edge[edge::ADDRESSES].chunks_exact(address::LENGTH).take(addresses_used(edge))
}

pub fn used_records(table: &[u8]) -> impl Iterator<Item = &[u8]> {
    table[RECORDS..].chunks_exact(RECORD_LENGTH).take(used(table))
}

pub fn cells(record: &[u8]) -> impl Iterator<Item = &[u8]> {
    record[record::CELLS].chunks_exact(cell::LENGTH)
}

pub fn results(record: &[u8]) -> impl Iterator<Item = &[u8]> {
    record[record::RESULTS].chunks_exact(result::LENGTH)
}

pub fn sends(record: &[u8]) -> impl Iterator<Item = &[u8]> {
    record[record::SENDS].chunks_exact(send::LENGTH)
}
