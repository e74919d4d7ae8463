//! The table that a caller lends, and the calls on its octets (01, "Numbers given back": a table that
//! breaks its form is answered with 12).

use crate::bridge::{Bridge, ReportAnswer, WhyAnswer, WriteAnswer};
use crate::numbers::{self, Number};
use crate::pdu::StreamId;
use crate::settings;
use crate::table::decoding::decode;
use crate::table::encoding::encode;
use crate::table::layout::TABLE_LENGTH;

/// The room for a table, and how much of it calls are lent. Its octets are the whole state: an
/// accepted call lays the bridge out, and the next one is made on the bridge taken from them.
#[derive(Clone, Debug, PartialEq, Eq)]
pub struct Table {
    room: Vec<u8>,
    /// At most the room.
    lent_length: usize,
    /// The bridge that the octets lent hold, taken from them whenever they change.
    bridge: Option<Bridge>,
}

/// The number that a call without another answer gives back.
fn number_of(answer: Result<(), Number>) -> Number {
    match answer {
        Ok(()) => numbers::ACCEPTED,
        Err(number) => number,
    }
}

/// The room is 64 octets longer than the table.
pub const ROOM_LENGTH: usize = TABLE_LENGTH + 64;

impl Table {
    /// A room of zeros, of which the table's length is lent.
    pub fn zeros() -> Table {
        Table { room: vec![0; ROOM_LENGTH], lent_length: TABLE_LENGTH, bridge: None }
    }

    /// From now on calls are lent the first so many octets of the room, at most the room.
    pub fn lend(&mut self, length: usize) {
        self.lent_length = length.min(ROOM_LENGTH);
        self.bridge = decode(self.lent());
    }

    /// Stores an octet at a place of the room; past it nothing happens.
    pub fn store(&mut self, place: usize, octet: u8) {
        if let Some(stored) = self.room.get_mut(place) {
            *stored = octet;
            self.bridge = decode(self.lent());
        }
    }

    /// The octets that calls are lent.
    pub fn lent(&self) -> &[u8] {
        &self.room[..self.lent_length]
    }

    /// The bridge held; none where the octets lent break a form rule (12).
    pub fn bridge(&self) -> Option<&Bridge> {
        self.bridge.as_ref()
    }

    fn lay_out(&mut self, bridge: &Bridge) {
        self.room[..TABLE_LENGTH].copy_from_slice(&encode(bridge));
        self.bridge = decode(self.lent());
    }

    /// A call that changes the bridge held; refused, it changes no octet.
    fn change<A>(
        &mut self,
        call: impl FnOnce(&mut Bridge) -> Result<A, Number>,
    ) -> Result<A, Number> {
        let mut bridge = self.bridge.clone().ok_or(numbers::TABLE)?;
        let answer = call(&mut bridge)?;
        self.lay_out(&bridge);
        Ok(answer)
    }

    /// start: a wrong table length (12), then the settings (11). Empties all and sets the clock
    /// to 0, whatever octets the table had.
    pub fn start(&mut self, settings: &[u8]) -> Number {
        if self.lent_length != TABLE_LENGTH {
            return numbers::TABLE;
        }
        match settings::read(settings) {
            Some(settings) => {
                self.lay_out(&Bridge::started(settings));
                numbers::ACCEPTED
            }
            None => numbers::SETTINGS,
        }
    }

    /// receive: 12, then as [`Bridge`] does.
    pub fn receive(&mut self, port: u32, pdu: &[u8]) -> Number {
        number_of(self.change(|bridge| bridge.receive(port, pdu)))
    }

    /// receive_mmrp: 12, then as [`Bridge`] does.
    pub fn receive_mmrp(&mut self, port: u32, pdu: &[u8]) -> Number {
        number_of(self.change(|bridge| bridge.receive_mmrp(port, pdu)))
    }

    /// advance: 12, then as [`Bridge`] does.
    pub fn advance(&mut self, time: u32) -> Number {
        number_of(self.change(|bridge| bridge.advance(time)))
    }

    /// write: 12, then as [`Bridge`] does.
    pub fn write(&mut self, port: u32, place: u32, buffer: &mut [u8]) -> WriteAnswer {
        match self.change(|bridge| bridge.write(port, place, buffer)) {
            Ok(answer) => answer,
            Err(number) => WriteAnswer { number, ..WriteAnswer::default() },
        }
    }

    /// report: 12, then as [`Bridge`] does.
    pub fn report(&self, port: u32, place: u32) -> ReportAnswer {
        let bridge = self.bridge().ok_or(numbers::TABLE);
        match bridge.and_then(|bridge| bridge.report(port, place)) {
            Ok(answer) => answer,
            Err(number) => ReportAnswer::refused(number),
        }
    }

    /// why: 12, then as [`Bridge`] does.
    pub fn why(&self, port: u32, stream_id: StreamId, buffer: &mut [u8]) -> WhyAnswer {
        let bridge = self.bridge().ok_or(numbers::TABLE);
        match bridge.and_then(|bridge| bridge.why(port, stream_id, buffer)) {
            Ok(answer) => answer,
            Err(number) => WhyAnswer { number, ..WhyAnswer::default() },
        }
    }
}
