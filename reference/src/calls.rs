//! The program srpcalls, a console for the calls.

use std::fmt::Write;

use crate::bridge::{ReportAnswer, WhyAnswer, WriteAnswer};
use crate::lent::Table;
use crate::pdu::StreamId;
use crate::records::{Call, Input, Unwatched, Watcher};
use crate::why::LISTED_LENGTH;
use crate::words;

/// A buffer length above this counts as this.
pub const LONGEST_BUFFER: usize = 2_048;
/// What start, receive and receive_mmrp are handed is cut to so many octets.
pub const LONGEST_HANDED: usize = 4_096;
/// What a buffer is filled with before a write or why.
pub const FILLING: u8 = 0xa5;

/// The whole output for an input.
pub fn run(input: &[u8]) -> String {
    run_watched(input, &mut Unwatched)
}

/// The same, with a watcher told of each call.
pub fn run_watched(input: &[u8], watcher: &mut dyn Watcher) -> String {
    let mut input = Input::new(input);
    let mut table = Table::zeros();
    let mut printed = String::new();
    while !input.is_at_end() {
        watcher.begins(input.taken());
        match take_record(&mut input) {
            Some(record) => printed.push_str(&make(&mut table, &record, watcher)),
            None => return printed + "stop\n",
        }
    }
    printed
}

/// A record of the console.
#[derive(Clone, Debug)]
enum Record<'a> {
    Start(&'a [u8]),
    Receive(u32, &'a [u8]),
    ReceiveMmrp(u32, &'a [u8]),
    Advance(u32),
    Write { port: u32, place: u32, buffer_length: usize },
    Report { port: u32, place: u32 },
    Why { port: u32, stream_id: StreamId, buffer_length: usize },
    Store { place: usize, octet: u8 },
    Lend(usize),
    Sum,
    Octets,
}

/// The next record; nothing for another octet or a cut record.
fn take_record<'a>(input: &mut Input<'a>) -> Option<Record<'a>> {
    let first = input.octet()?;
    let port = u32::from(first & 0xf);
    match first {
        0x00 => Some(Record::Start(handed(input.counted_octets()?))),
        0x10..=0x1f => Some(Record::Receive(port, handed(input.counted_octets()?))),
        0x20 => Some(Record::Advance(input.u32()?)),
        0x30..=0x3f => {
            let place = u32::from(input.u16()?);
            Some(Record::Write { port, place, buffer_length: buffer_length(input)? })
        }
        0x40..=0x4f => Some(Record::Report { port, place: u32::from(input.u16()?) }),
        0x50 => {
            let place = usize::from(input.u16()?);
            Some(Record::Store { place, octet: input.octet()? })
        }
        0x51 => Some(Record::Lend(usize::from(input.u16()?))),
        0x60 => Some(Record::Sum),
        0x61 => Some(Record::Octets),
        0x70..=0x7f => Some(Record::ReceiveMmrp(port, handed(input.counted_octets()?))),
        0x80..=0x8f => {
            let stream_id = input.u64()?;
            Some(Record::Why { port, stream_id, buffer_length: buffer_length(input)? })
        }
        _ => None,
    }
}

fn buffer_length(input: &mut Input) -> Option<usize> {
    Some(usize::from(input.u16()?).min(LONGEST_BUFFER))
}

fn handed(octets: &[u8]) -> &[u8] {
    &octets[..octets.len().min(LONGEST_HANDED)]
}

/// Makes the call of a record and gives the line to print.
fn make(table: &mut Table, record: &Record, watcher: &mut dyn Watcher) -> String {
    match *record {
        Record::Start(settings) => {
            let number = table.start(settings);
            watcher.called(&Call::Start(settings), number, table);
            format!("start {number}\n")
        }
        Record::Receive(port, pdu) => {
            let number = table.receive(port, pdu);
            watcher.called(&Call::Receive(port, pdu), number, table);
            format!("receive {number}\n")
        }
        Record::ReceiveMmrp(port, pdu) => {
            let number = table.receive_mmrp(port, pdu);
            watcher.called(&Call::ReceiveMmrp(port, pdu), number, table);
            format!("mmrp {number}\n")
        }
        Record::Advance(time) => {
            let number = table.advance(time);
            watcher.called(&Call::Advance(time), number, table);
            format!("advance {number}\n")
        }
        Record::Write { port, place, buffer_length } => {
            let mut buffer = vec![FILLING; buffer_length];
            let answer = table.write(port, place, &mut buffer);
            watcher.called(&Call::Write { port, place, answer }, answer.number, table);
            write_line(answer, &buffer)
        }
        Record::Report { port, place } => {
            let answer = table.report(port, place);
            watcher.called(&Call::Report { port, place, answer }, answer.number, table);
            report_line(&answer)
        }
        Record::Why { port, stream_id, buffer_length } => {
            let mut buffer = vec![FILLING; buffer_length];
            let answer = table.why(port, stream_id, &mut buffer);
            let call = Call::Why { port, stream_id, buffer_length, answer };
            watcher.called(&call, answer.number, table);
            why_line(answer, &buffer)
        }
        Record::Store { place, octet } => {
            table.store(place, octet);
            watcher.stored(table);
            String::new()
        }
        Record::Lend(length) => {
            table.lend(length);
            String::new()
        }
        Record::Sum => format!("table {:08x}\n", adler_32(table.lent())),
        Record::Octets => with_octets("octets", table.lent()),
    }
}

fn write_line(answer: WriteAnswer, buffer: &[u8]) -> String {
    let WriteAnswer { number, length, next_place } = answer;
    with_buffer(&format!("write {number} {length} {next_place}"), buffer, length)
}

fn why_line(answer: WhyAnswer, buffer: &[u8]) -> String {
    let step = answer.step.map_or("none", words::step);
    let WhyAnswer { number, count, limit, shortfall, .. } = answer;
    let words = format!("why {number} {step} {count} {limit} {shortfall}");
    with_buffer(&words, buffer, count * LISTED_LENGTH)
}

/// Adler-32 (RFC 1950): the sum of the octets and one, and the sum of these sums, both modulo
/// 65,521.
pub fn adler_32(octets: &[u8]) -> u32 {
    let (mut sum, mut sum_of_sums) = (1, 0);
    // So few octets at a time that no sum reaches 2^32 before the remainder is taken.
    for part in octets.chunks(4_096) {
        for octet in part {
            sum += u32::from(*octet);
            sum_of_sums += sum;
        }
        sum %= 65_521;
        sum_of_sums %= 65_521;
    }
    sum_of_sums << 16 | sum
}

/// A line that ends with whether the octets of a buffer past a length were kept, and those before.
fn with_buffer(words: &str, buffer: &[u8], length: usize) -> String {
    let (written, past) = buffer.split_at(length);
    let kept = if past.iter().all(|octet| *octet == FILLING) { "kept" } else { "spoiled" };
    with_octets(&format!("{words} {kept}"), written)
}

/// A line that ends with octets, two lower-case hex digits each; without any, after its words.
fn with_octets(words: &str, octets: &[u8]) -> String {
    let mut line = words.to_string();
    if !octets.is_empty() {
        line.push(' ');
    }
    for octet in octets {
        write!(line, "{octet:02x}").expect("a String takes all");
    }
    line + "\n"
}

fn report_line(answer: &ReportAnswer) -> String {
    format!(
        "report {} {} {} {} {} {} {:016x} {} {} {} {}\n",
        answer.number,
        answer.count,
        answer.totals.a,
        answer.limits.a,
        answer.totals.b,
        answer.limits.b,
        answer.stream_id,
        words::column(answer.column),
        answer.code(),
        words::listener(answer.listener),
        words::entry(answer.entry)
    )
}
