//! The bridge and its calls (01, "What the bridge does" and "Numbers given back"; 02, (vi) and (ix)), on
//! what a table holds. [`crate::lent`] makes them on the octets that a caller lends.

use crate::declarations::Declaration;
use crate::mmrp;
use crate::mrp::LONGEST_PDU;
use crate::numbers::{self, Number};
use crate::pdu::{self, Attribute, ListenerType, StreamId};
use crate::registrations::{Registrations, MOST_ADDRESSES, MOST_STREAMS};
use crate::sending::{Sending, Written};
use crate::settings::{PerClass, Settings};
use crate::settled::{Column, Entry, Settled};
use crate::settling::{self, Step};
use crate::why::{self, LONGEST_LIST};

/// What write gives back besides octets in the buffer.
#[derive(Clone, Copy, Debug, Default, PartialEq, Eq)]
pub struct WriteAnswer {
    pub number: Number,
    pub length: usize,
    pub next_place: usize,
}

/// What report gives back.
#[derive(Clone, Copy, Debug, PartialEq, Eq)]
pub struct ReportAnswer {
    pub number: Number,
    /// Streams held.
    pub count: usize,
    pub totals: PerClass<u64>,
    pub limits: PerClass<u64>,
    pub stream_id: StreamId,
    pub column: Column,
    pub listener: Option<ListenerType>,
    pub entry: Entry,
}

impl ReportAnswer {
    /// A refusal gives its number, zero for every other part of the answer.
    pub fn refused(number: Number) -> ReportAnswer {
        ReportAnswer {
            number,
            count: 0,
            totals: PerClass::default(),
            limits: PerClass::default(),
            stream_id: 0,
            column: Column::None,
            listener: None,
            entry: Entry::None,
        }
    }

    /// The code, 0 unless failed.
    pub fn code(&self) -> u8 {
        match self.column {
            Column::Failed(failure) => failure.code,
            Column::None | Column::Advertise => 0,
        }
    }
}

/// What why gives back besides the list in the buffer.
#[derive(Clone, Copy, Debug, Default, PartialEq, Eq)]
pub struct WhyAnswer {
    pub number: Number,
    /// None where the call is refused.
    pub step: Option<Step>,
    /// Streams listed.
    pub count: usize,
    /// The limit in force and the shortfall, in bits per second.
    pub limit: u64,
    pub shortfall: u64,
}

/// A bridge between two calls.
#[derive(Clone, Debug, PartialEq, Eq)]
pub struct Bridge {
    pub settings: Settings,
    /// Hundredths of a second, 0 at start.
    pub clock: u32,
    pub registrations: Registrations,
    pub settled: Settled,
    pub sending: Sending,
}

impl Bridge {
    /// A bridge that holds nothing, at clock 0. Its ports are to join their Domain values.
    pub fn started(settings: Settings) -> Bridge {
        let port_count = settings.ports.len();
        Bridge {
            sending: Sending::begun(&settings),
            settings,
            clock: 0,
            registrations: Registrations::none(port_count),
            settled: Settled::empty(port_count),
        }
    }

    /// The port, if it is one of the bridge's.
    fn port(&self, port: u32) -> Result<usize, Number> {
        let port = port as usize;
        if port == 0 || port > self.settings.ports.len() {
            Err(numbers::PORT)
        } else {
            Ok(port)
        }
    }

    /// The declarations of a port, in the order of its list, those with an unsent Lv too.
    pub fn declarations(&self, port: usize) -> Vec<Declaration> {
        let machines = self.sending.ports[port - 1].machines.values();
        machines.map(|machine| machine.declaration).collect()
    }

    /// Drops the streams that are no longer held.
    fn drop_unheld(&mut self) {
        let sending = &self.sending;
        self.registrations.drop_unheld(|stream_id| sending.is_leaving(stream_id));
        let held = &self.registrations.streams;
        self.settled.streams.retain(|stream_id, _| held.contains_key(stream_id));
    }

    /// receive: 1, 2, the walk from the front, 8. Registers what the PDU asks for, and moves the machines of
    /// what it speaks of.
    pub fn receive(&mut self, port: u32, pdu: &[u8]) -> Result<(), Number> {
        let port = self.port(port)?;
        let pdu = pdu::read(pdu).map_err(|fault| fault.number)?;
        if self.registrations.streams_with(&pdu) > MOST_STREAMS {
            return Err(numbers::STREAMS);
        }
        self.registrations.apply(port, &pdu, self.clock);
        self.sending.ports[port - 1].receive(&pdu, self.clock);
        Ok(())
    }

    /// receive_mmrp: 1, 2, the walk from the front, 14. Registers the addresses that the frame asks
    /// for on that port.
    pub fn receive_mmrp(&mut self, port: u32, pdu: &[u8]) -> Result<(), Number> {
        let port = self.port(port)?;
        let pdu = mmrp::read(pdu).map_err(|fault| fault.number)?;
        if self.registrations.addresses_with(port, &pdu) > MOST_ADDRESSES {
            return Err(numbers::ADDRESSES);
        }
        self.registrations.apply_mmrp(port, &pdu, self.clock);
        Ok(())
    }

    /// advance: 9. Sets the clock, removes what has left, decides, moves the machines by what is decided, drops
    /// unheld streams; then LeaveAll may be due.
    pub fn advance(&mut self, time: u32) -> Result<(), Number> {
        if time < self.clock {
            return Err(numbers::TIME);
        }
        self.clock = time;
        self.registrations.remove_left(self.clock, self.settings.leave_time);
        self.settled =
            settling::settle(&self.settings, &self.registrations, self.clock, &self.settled);
        self.sending.declare(&self.settled);
        self.drop_unheld();
        self.sending.advance(self.clock);
        Ok(())
    }

    /// write: 1, 10, 13. Writes what the port has to send from that place of its list on, with LeaveAll where
    /// it is due, and moves the machines by it.
    pub fn write(
        &mut self,
        port: u32,
        place: u32,
        buffer: &mut [u8],
    ) -> Result<WriteAnswer, Number> {
        let port = self.port(port)?;
        if buffer.len() < LONGEST_PDU {
            return Err(numbers::BUFFER);
        }
        let place = place as usize;
        let Bridge { registrations, sending, clock, .. } = self;
        let sending = &mut sending.ports[port - 1];
        if place > sending.machines.len() {
            return Err(numbers::PLACE);
        }
        let registrar = |attribute: &Attribute| registrations.registrar(port, attribute);
        let Written { pdu, next_place, leave_all, .. } = sending.write(place, *clock, registrar);
        if leave_all {
            registrations.sent_leave_all(port, *clock);
        }
        self.drop_unheld();
        buffer[..pdu.len()].copy_from_slice(&pdu);
        Ok(WriteAnswer { number: numbers::ACCEPTED, length: pdu.len(), next_place })
    }

    /// report: 1, 13.
    pub fn report(&self, port: u32, place: u32) -> Result<ReportAnswer, Number> {
        let port = self.port(port)?;
        let place = place as usize;
        let count = self.registrations.streams.len();
        if place > count {
            return Err(numbers::PLACE);
        }
        let mut answer = ReportAnswer {
            count,
            totals: self.settled.totals[port - 1],
            limits: self.settings.ports[port - 1].limit,
            ..ReportAnswer::refused(numbers::ACCEPTED)
        };
        // At place = count there is no stream, and the five parts are zero or none.
        if let Some(stream_id) = self.registrations.streams.keys().nth(place) {
            answer.stream_id = *stream_id;
            // A stream joined since the last advance shows none, 0, none, none.
            if let Some(settled) = self.settled.streams.get(stream_id) {
                let settled_on_port = &settled.ports[port - 1];
                answer.column = settled_on_port.column;
                answer.listener = settled_on_port.listener;
                answer.entry = settled_on_port.entry;
            }
        }
        Ok(answer)
    }

    /// why: 1, 15, 10. Lists the streams that leave too little for this one.
    pub fn why(
        &self,
        port: u32,
        stream_id: StreamId,
        buffer: &mut [u8],
    ) -> Result<WhyAnswer, Number> {
        let port = self.port(port)?;
        if !self.registrations.streams.contains_key(&stream_id) {
            return Err(numbers::STREAM);
        }
        if buffer.len() < LONGEST_LIST {
            return Err(numbers::BUFFER);
        }
        let held = (&self.settings, &self.registrations);
        let why = why::why(held, (self.clock, &self.settled), stream_id, port);
        let octets = why.octets();
        buffer[..octets.len()].copy_from_slice(&octets);
        Ok(WhyAnswer {
            number: numbers::ACCEPTED,
            step: Some(why.step),
            count: why.list.len(),
            limit: why.limit.0,
            shortfall: why.shortfall.0,
        })
    }
}
