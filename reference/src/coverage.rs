//! What the generated inputs reach: how often each thing worth comparing occurs when the reference
//! runs on them.

mod addresses;
mod borrowing;
mod counts;
mod domains;
mod fan_in;
mod frames;
mod heard;
mod held;
mod latencies;
mod newer;
mod packing;
mod registering;
mod rows;
mod said;
mod sending;
mod settings;
mod settling;
mod why;
mod writing;

use crate::bridge::Bridge;
use crate::calls;
use crate::generator;
use crate::lent::Table;
use crate::numbers::{self, Number};
use crate::pdu::{self, Pdu};
use crate::records::{Call, Watcher};
use crate::registrations::MOST_STREAMS;
use crate::sheet;
use crate::table::rules::broken_rules;
use counts::Counts;
use latencies::Latencies;
use writing::Writes;

/// Counts by row, and what they need to know of the calls before.
pub struct Coverage {
    counts: Counts,
    before: Option<Bridge>,
    writes: Writes,
    latencies: Latencies,
}

impl Coverage {
    pub fn new() -> Coverage {
        Coverage {
            counts: Counts::none(rows::all()),
            before: None,
            writes: Writes::default(),
            latencies: Latencies::default(),
        }
    }

    /// Runs the reference on the generated inputs of the seeds below `seeds`.
    pub fn of_seeds(seeds: u64) -> Coverage {
        let mut coverage = Coverage::new();
        for seed in 0..seeds {
            coverage.sheet(&generator::sheet(seed));
            coverage.script(&generator::calls(seed));
        }
        coverage
    }

    /// A bridge of its own, or octets stored in one: what was before says nothing of it.
    fn begin(&mut self, bridge: Option<Bridge>) {
        self.before = bridge;
        self.latencies = Latencies::default();
    }

    fn sheet(&mut self, input: &[u8]) {
        self.begin(None);
        let printed = sheet::run_watched(input, self);
        let refused = printed == "stop\n";
        let counts = &mut self.counts;
        counts.count_if("sheets refused in their settings", refused);
        let stops = printed.lines().any(|line| line == "stop");
        counts.count_if("sheets that stop in their records", stops && !refused);
        counts.count_if("sheets longer than 65536 octets", input.len() > sheet::LONGEST_INPUT);
        let held = self.before.as_ref().map_or(0, |bridge| bridge.registrations.streams.len());
        counts.count_if("sheets with 64 streams", held == MOST_STREAMS);
    }

    fn script(&mut self, script: &generator::Script) {
        self.begin(None);
        let printed = calls::run_watched(&script.octets, self);
        let stops = printed.lines().any(|line| line == "stop");
        assert_eq!(stops, script.stops, "a script stops exactly where it is meant to");
        self.counts.count_if("scripts that stop", stops);
        for line in printed.lines() {
            self.counts.count_if("sum of the table's octets", line.starts_with("table "));
            self.counts.count_if("octets of the table", line.starts_with("octets"));
        }
    }

    /// The table of rows, and whether each has occurred.
    pub fn table(&self) -> (String, bool) {
        let mut printed = String::new();
        let mut complete = true;
        for row in rows::all() {
            let count = self.counts.of(row);
            complete &= count > 0;
            printed.push_str(&format!("{count:>10}  {row}\n"));
        }
        (printed, complete)
    }

    /// A table that is refused, where one form rule alone is the cause.
    fn broken(&mut self, table: &Table) {
        if let [rule] = broken_rules(table.lent())[..] {
            self.counts.count(&format!("form rule {rule} broken alone"));
        }
    }

    /// A call that reached a bridge, on one of its ports.
    fn reached(&mut self, call: &Call, number: Number, bridge: &Bridge) {
        let counts = &mut self.counts;
        match call {
            Call::Start(_) => {}
            Call::Receive(port, octets) => self.received(*port as usize, octets, number, bridge),
            Call::ReceiveMmrp(port, octets) => {
                let bridges = (self.before.as_ref(), bridge);
                addresses::received_mmrp(counts, bridges, *port as usize, octets, number);
            }
            Call::Advance(time) => {
                if let (numbers::ACCEPTED, Some(before)) = (number, &self.before) {
                    registering::removed(counts, *time, before, bridge);
                    domains::domains_left(counts, *time, before);
                    addresses::addresses_left(counts, *time, before);
                    settling::advanced(counts, *time, before, bridge);
                    self.latencies.settled(counts, before, bridge);
                    sending::advanced(counts, *time, before, bridge);
                    said::advanced(counts, *time, before, bridge);
                }
            }
            Call::Write { port, place, answer } => {
                if let Some(before) = &self.before {
                    self.writes.wrote(counts, (before, bridge), (*port, *place), *answer);
                }
            }
            Call::Report { place, .. } => writing::reported(counts, bridge, *place, number),
            Call::Why { port, stream_id, buffer_length, answer } => {
                let asked = (*port as usize, *stream_id);
                why::asked(counts, bridge, asked, *buffer_length, *answer);
            }
        }
    }

    fn received(&mut self, port: usize, octets: &[u8], number: Number, after: &Bridge) {
        let counts = &mut self.counts;
        frames::lengths(counts, octets, number);
        let held = self.before.as_ref().map_or(0, |bridge| bridge.registrations.streams.len());
        let version = octets.first().copied().unwrap_or(0);
        match pdu::read(octets) {
            Err(fault) => {
                newer::newer_refused(counts, version, number, &fault);
                if let Some((attribute_type, first_value, values)) = fault.vector {
                    frames::value_past(counts, attribute_type, &first_value, values);
                }
            }
            Ok(pdu) if number == numbers::STREAMS => {
                registering::streams_past(counts, &pdu, held);
                if let Some(before) = &self.before {
                    sending::streams_past(counts, before);
                    heard::refused(counts, before, port, &pdu);
                }
            }
            Ok(pdu) => {
                frames::pdu(counts, &pdu);
                registering::more_held(counts, held, after.registrations.streams.len());
                self.accepted(port, version, &pdu, after);
            }
        }
    }

    /// What an accepted PDU did to the bridge.
    fn accepted(&mut self, port: usize, version: u8, pdu: &Pdu, after: &Bridge) {
        let counts = &mut self.counts;
        if let Some(before) = &self.before {
            registering::registrations(counts, before, after);
            registering::left_again(counts, before, port, pdu);
            domains::domains(counts, before, after, port, pdu);
            self.latencies.received(counts, (before, after), port, pdu);
            newer::passed_over(counts, version, pdu, before);
            addresses::leaves_addresses(counts, before, port, pdu);
            sending::received(counts, before, port, pdu);
            heard::heard(counts, before, port, pdu);
        }
    }
}

impl Default for Coverage {
    fn default() -> Coverage {
        Coverage::new()
    }
}

fn name(call: &Call) -> &'static str {
    match call {
        Call::Start(_) => "start",
        Call::Receive(..) => "receive",
        Call::ReceiveMmrp(..) => "mmrp",
        Call::Advance(_) => "advance",
        Call::Write { .. } => "write",
        Call::Report { .. } => "report",
        Call::Why { .. } => "why",
    }
}

impl Watcher for Coverage {
    fn called(&mut self, call: &Call, number: Number, table: &Table) {
        self.counts.count(&format!("{} {number}", name(call)));
        if number == numbers::TABLE {
            self.broken(table);
        }
        let bridge = table.bridge();
        if let Call::Start(octets) = call {
            settings::started(&mut self.counts, octets, number, self.before.is_some());
            if number == numbers::ACCEPTED {
                self.begin(bridge.cloned());
            }
        }
        let reached = number != numbers::TABLE && number != numbers::PORT;
        if let (Some(bridge), true) = (bridge, reached) {
            self.reached(call, number, bridge);
        }
        let looks = matches!(call, Call::Report { .. } | Call::Why { .. });
        if !looks && number == numbers::ACCEPTED {
            self.before = bridge.cloned();
        }
    }

    fn stored(&mut self, table: &Table) {
        self.begin(table.bridge().cloned());
        self.counts.count_if("octet stored that breaks the form", self.before.is_none());
        self.counts.count_if("octet stored that keeps the form", self.before.is_some());
    }
}
