//! An input that is being written, and the calls that it is made of.

use super::plan::Plan;
use crate::bridge::WriteAnswer;
use crate::lent::Table;
use crate::pdu::StreamId;
use crate::random::Random;

/// An input that is being written, with the table that its calls would leave.
pub struct History {
    pub random: Random,
    /// Decides where a script looks at the table's octets; a sheet never does.
    pub looks: Option<Random>,
    /// Decides what neighbours ask for by MMRP frames, in the scripts that have some.
    pub asks: Option<Random>,
    /// Decides when ports send and what is said in between, in the scripts that have much of it.
    pub sends: Option<Random>,
    pub table: Table,
    pub octets: Vec<u8>,
}

impl History {
    pub fn new(random: Random) -> History {
        History {
            random,
            looks: None,
            asks: None,
            sends: None,
            table: Table::zeros(),
            octets: Vec::new(),
        }
    }

    /// In so many of a hundred cases the sum of the table's octets; rarely the octets.
    pub fn look(&mut self, percent: u64) {
        if let Some(random) = &mut self.looks {
            if random.percent(percent) {
                self.octets.push(0x60);
            }
            if random.below(1_000) == 0 {
                self.octets.push(0x61);
            }
        }
    }

    pub fn clock(&self) -> u32 {
        self.table.bridge().map_or(0, |bridge| bridge.clock)
    }

    pub fn streams_held(&self) -> usize {
        self.table.bridge().map_or(0, |bridge| bridge.registrations.streams.len())
    }

    pub fn put_counted(&mut self, first: u8, octets: &[u8]) {
        self.octets.push(first);
        self.octets.extend((octets.len() as u16).to_be_bytes());
        self.octets.extend(octets);
    }

    pub fn start(&mut self, settings: &[u8]) {
        self.put_counted(0x00, settings);
        self.table.start(settings);
        self.look(85);
    }

    pub fn receive(&mut self, port: u32, pdu: &[u8]) {
        self.put_counted(0x10 | port as u8, pdu);
        self.table.receive(port, pdu);
        self.look(85);
    }

    pub fn receive_mmrp(&mut self, port: u32, pdu: &[u8]) {
        self.put_counted(0x70 | port as u8, pdu);
        self.table.receive_mmrp(port, pdu);
        self.look(85);
    }

    pub fn advance(&mut self, time: u32) {
        self.octets.push(0x20);
        self.octets.extend(time.to_be_bytes());
        self.table.advance(time);
        self.look(85);
    }

    pub fn write(&mut self, port: u32, place: u16, buffer_length: u16) -> WriteAnswer {
        self.octets.push(0x30 | port as u8);
        self.octets.extend(place.to_be_bytes());
        self.octets.extend(buffer_length.to_be_bytes());
        self.look(85);
        let mut buffer = vec![0; usize::from(buffer_length)];
        self.table.write(port, u32::from(place), &mut buffer)
    }

    pub fn report(&mut self, port: u32, place: u16) {
        self.octets.push(0x40 | port as u8);
        self.octets.extend(place.to_be_bytes());
        self.look(15);
    }

    pub fn why(&mut self, port: u32, stream_id: StreamId, buffer_length: u16) {
        self.octets.push(0x80 | port as u8);
        self.octets.extend(stream_id.to_be_bytes());
        self.octets.extend(buffer_length.to_be_bytes());
        self.look(15);
    }

    pub fn lend(&mut self, length: usize) {
        self.octets.push(0x51);
        self.octets.extend((length as u16).to_be_bytes());
        self.table.lend(length);
        self.look(30);
    }

    pub fn store(&mut self, place: usize, octet: u8) {
        self.octets.push(0x50);
        self.octets.extend((place as u16).to_be_bytes());
        self.octets.push(octet);
        self.table.store(place, octet);
        self.look(70);
    }

    /// Does something with the random numbers of MMRP frames, so that these move nothing else of a
    /// script; nothing in an input without them.
    pub fn asking(&mut self, act: impl FnOnce(&mut History)) {
        if let Some(random) = self.asks.take() {
            let others = std::mem::replace(&mut self.random, random);
            act(self);
            self.asks = Some(std::mem::replace(&mut self.random, others));
        }
    }

    /// The same with the random numbers of sending.
    pub fn sending(&mut self, act: impl FnOnce(&mut History)) {
        if let Some(random) = self.sends.take() {
            let others = std::mem::replace(&mut self.random, random);
            act(self);
            self.sends = Some(std::mem::replace(&mut self.random, others));
        }
    }

    pub fn port(&mut self, plan: &Plan) -> u32 {
        self.random.between(1, u64::from(plan.ports())) as u32
    }

    pub fn wrong_port(&mut self, plan: &Plan) -> u32 {
        let above = plan.ports() + 1;
        self.random.one_of(&[0, above, above, 9, 15])
    }

    /// Advances by a step that matters: none, small, around the leave time, large, back.
    pub fn some_advance(&mut self, plan: &Plan) {
        let clock = self.clock();
        let leave_time = plan.settings.leave_time;
        let random = &mut self.random;
        let after = |step: u64| clock.saturating_add(step as u32);
        let time = match random.below(40) {
            0..=3 => clock,
            4..=9 => after(random.between(1, 5)),
            10..=13 => after(u64::from(leave_time) - 1),
            14..=19 => after(u64::from(leave_time)),
            20..=22 => after(u64::from(leave_time) + 1),
            23..=25 => after((u64::from(leave_time) + 1) / 2),
            26..=31 => after(random.between(50, 150)),
            32..=34 => after(random.below(3 * u64::from(leave_time))),
            35 => after(random.below(10_000_000)),
            36 if random.percent(25) => {
                let most = random.one_of(&[1, 3, 200, 2 * u64::from(leave_time)]);
                u32::MAX - random.below(most) as u32
            }
            _ => clock.saturating_sub(random.one_of(&[1, 1, 10, clock, clock / 2])),
        };
        self.advance(time);
    }
}
