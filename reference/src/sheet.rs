//! The program srpsheet (01, "The printed sheet").

use std::fmt::Write;

use crate::lent::Table;
use crate::numbers;
use crate::records::{Call, Input, Unwatched, Watcher};
use crate::settings;
use crate::words;

/// Octets past these aren't read.
pub const LONGEST_INPUT: usize = 65_536;

/// The whole output for an input.
pub fn run(input: &[u8]) -> String {
    run_watched(input, &mut Unwatched)
}

/// The same, with a watcher told of each call.
pub fn run_watched(input: &[u8], watcher: &mut dyn Watcher) -> String {
    let input = &input[..input.len().min(LONGEST_INPUT)];
    let (settings, records) = split_settings(input);
    let mut table = Table::zeros();
    let number = table.start(settings);
    watcher.called(&Call::Start(settings), number, &table);
    if number != numbers::ACCEPTED {
        return "stop\n".to_string();
    }
    let mut printed = String::new();
    let mut records = Input::new(records);
    while !records.is_at_end() {
        watcher.begins(settings.len() + records.taken());
        let number = match take_record(&mut records) {
            Some(Record::Pdu(port, pdu)) => {
                let number = table.receive(port, pdu);
                watcher.called(&Call::Receive(port, pdu), number, &table);
                number
            }
            Some(Record::Advance(time)) => {
                let number = table.advance(time);
                watcher.called(&Call::Advance(time), number, &table);
                number
            }
            None => {
                printed.push_str("stop\n");
                break;
            }
        };
        if number != numbers::ACCEPTED {
            printed.push_str(&format!("refused {number}\n"));
        }
    }
    let ports = table.bridge().map_or(0, |bridge| bridge.settings.ports.len());
    printed + &report(&table, ports as u32)
}

/// Settings, as long as their ports field says or what there is, then records.
fn split_settings(input: &[u8]) -> (&[u8], &[u8]) {
    let length = match settings::ports_field(input) {
        Some(ports_field) => settings::length(ports_field).min(input.len()),
        None => input.len(),
    };
    input.split_at(length)
}

enum Record<'a> {
    Pdu(u32, &'a [u8]),
    Advance(u32),
}

/// The next record; nothing for another octet or a cut record.
fn take_record<'a>(input: &mut Input<'a>) -> Option<Record<'a>> {
    let first = input.octet()?;
    match first {
        0x10..=0x1f => Some(Record::Pdu(u32::from(first & 0xf), input.counted_octets()?)),
        0x20 => Some(Record::Advance(input.u32()?)),
        _ => None,
    }
}

/// A line per port, then one per stream and within it per port, both ascending.
fn report(table: &Table, ports: u32) -> String {
    let mut printed = String::new();
    let mut count = 0;
    for port in 1..=ports {
        let answer = table.report(port, 0);
        count = answer.count as u32;
        writeln!(
            printed,
            "port {port} A {}/{} B {}/{}",
            answer.totals.a, answer.limits.a, answer.totals.b, answer.limits.b
        )
        .expect("a String takes all");
    }
    for place in 0..count {
        for port in 1..=ports {
            let answer = table.report(port, place);
            writeln!(
                printed,
                "{:016x} {port} {} {} {} {}",
                answer.stream_id,
                words::column(answer.column),
                answer.code(),
                words::listener(answer.listener),
                words::entry(answer.entry)
            )
            .expect("a String takes all");
        }
    }
    printed
}

/// The input of 01's worked example: two ports, both classes, overhead 42, largest 1522, limits
/// 75000000 and 0, latency 0, priorities 3 and 2, leave time 60; matching Domain joins on each port
/// (02, (ii)), a Talker on port 1, a Listener on port 2, then time 100.
pub fn worked_example() -> Vec<u8> {
    let port = settings::PortSettings::of_the_worked_example();
    let domain_pdu = [
        0x00, 0x04, 0x04, 0x00, 0x09, 0x00, 0x02, 0x05, 0x02, 0x00, 0x02, 0x7e, 0x00, 0x00, 0x00,
        0x00,
    ];
    let talker_pdu = [
        0x00, 0x01, 0x19, 0x00, 0x1e, 0x00, 0x01, 0x02, 0x00, 0x00, 0x00, 0x00, 0x01, 0x00, 0x01,
        0x91, 0xe0, 0xf0, 0x00, 0xfe, 0x00, 0x00, 0x02, 0x00, 0xe0, 0x00, 0x01, 0x70, 0x00, 0x00,
        0x00, 0x00, 0x6c, 0x00, 0x00, 0x00, 0x00,
    ];
    let listener_pdu = [
        0x00, 0x03, 0x08, 0x00, 0x0e, 0x00, 0x01, 0x02, 0x00, 0x00, 0x00, 0x00, 0x01, 0x00, 0x01,
        0x6c, 0x80, 0x00, 0x00, 0x00, 0x00,
    ];
    let mut input = settings::write(&settings::Settings {
        bridge_id: 0,
        priority: settings::PerClass { a: 3, b: 2 },
        leave_time: 60,
        pruning: false,
        vlan: 2,
        fan_in_limit: 0,
        ports: vec![port.clone(), port],
    });
    for (first, pdu) in [
        (0x11, domain_pdu.as_slice()),
        (0x12, domain_pdu.as_slice()),
        (0x11, talker_pdu.as_slice()),
        (0x12, listener_pdu.as_slice()),
    ] {
        input.push(first);
        input.extend((pdu.len() as u16).to_be_bytes());
        input.extend(pdu);
    }
    input.push(0x20);
    input.extend(100_u32.to_be_bytes());
    input
}
