//! Taking records from an input, and watching the calls they make.

use crate::bridge::{ReportAnswer, WhyAnswer, WriteAnswer};
use crate::lent::Table;
use crate::numbers::Number;
use crate::octets::number_of;
use crate::pdu::StreamId;

/// An input that is taken from the front. Numbers are most significant octet first. What would
/// run past the end isn't given; the record it belongs to is cut.
pub struct Input<'a> {
    length: usize,
    rest: &'a [u8],
}

impl<'a> Input<'a> {
    pub fn new(octets: &'a [u8]) -> Input<'a> {
        Input { length: octets.len(), rest: octets }
    }

    /// How many octets were taken.
    pub fn taken(&self) -> usize {
        self.length - self.rest.len()
    }

    pub fn is_at_end(&self) -> bool {
        self.rest.is_empty()
    }

    /// So many octets.
    pub fn octets(&mut self, length: usize) -> Option<&'a [u8]> {
        let taken = self.rest.get(..length)?;
        self.rest = &self.rest[length..];
        Some(taken)
    }

    pub fn octet(&mut self) -> Option<u8> {
        self.octets(1).map(|octets| octets[0])
    }

    pub fn u16(&mut self) -> Option<u16> {
        self.octets(2).map(|octets| u16::from_be_bytes([octets[0], octets[1]]))
    }

    pub fn u32(&mut self) -> Option<u32> {
        self.octets(4)
            .map(|octets| u32::from_be_bytes([octets[0], octets[1], octets[2], octets[3]]))
    }

    pub fn u64(&mut self) -> Option<u64> {
        self.octets(8).map(number_of)
    }

    /// A 16-bit length and so many octets.
    pub fn counted_octets(&mut self) -> Option<&'a [u8]> {
        let length = self.u16()?;
        self.octets(usize::from(length))
    }
}

/// A call that a program has made.
#[derive(Clone, Debug)]
pub enum Call<'a> {
    Start(&'a [u8]),
    Receive(u32, &'a [u8]),
    ReceiveMmrp(u32, &'a [u8]),
    Advance(u32),
    Write { port: u32, place: u32, answer: WriteAnswer },
    Report { port: u32, place: u32, answer: ReportAnswer },
    Why { port: u32, stream_id: StreamId, buffer_length: usize, answer: WhyAnswer },
}

/// Is told of each call, with the number given back and the table left.
pub trait Watcher {
    /// Is told where in the input the record begins that is read next.
    fn begins(&mut self, _: usize) {}

    fn called(&mut self, call: &Call, number: Number, table: &Table);

    /// Is told that an octet was stored, with the table left.
    fn stored(&mut self, _: &Table) {}
}

/// Watches nothing.
pub struct Unwatched;

impl Watcher for Unwatched {
    fn called(&mut self, _: &Call, _: Number, _: &Table) {}
}
