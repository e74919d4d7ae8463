//! Reading MRPDUs: what MSRP and MMRP have in common (01, "The PDU"; 02, (iv); 802.1Q clause 10.8). V is
//! the vector that an application reads, T its AttributeTypes, U what it keeps of a type that only a
//! higher version knows.

use crate::numbers::{self, Number};

/// The longest PDU.
pub const LONGEST_PDU: usize = 1500;

/// The EndMark, of a list and of the PDU.
pub const END_MARK: [u8; 2] = [0, 0];

/// The events of a ThreePackedEvents octet.
#[derive(Clone, Copy, Debug, PartialEq, Eq, PartialOrd, Ord)]
pub enum Event {
    New,
    JoinIn,
    In,
    JoinMt,
    Mt,
    Lv,
}

pub const EVENTS: [Event; 6] =
    [Event::New, Event::JoinIn, Event::In, Event::JoinMt, Event::Mt, Event::Lv];

impl Event {
    /// Whether it registers.
    pub fn is_join(self) -> bool {
        match self {
            Event::New | Event::JoinIn | Event::JoinMt => true,
            Event::In | Event::Mt | Event::Lv => false,
        }
    }

    /// Its number in a ThreePackedEvents octet.
    pub fn number(self) -> u8 {
        self as u8
    }
}

/// The greatest ThreePackedEvents octet: Lv, Lv, Lv.
pub const GREATEST_THREE_PACKED: u8 = 215;

/// The three events of an octet: (e1 x 6 + e2) x 6 + e3. The octet is at most 215.
pub fn three_events(octet: u8) -> [Event; 3] {
    [octet / 36, octet / 6 % 6, octet % 6].map(|event| EVENTS[usize::from(event)])
}

/// A vector with events that only a higher version knows: passed over whole, by the length that its
/// layout gives.
#[derive(Clone, Debug, PartialEq, Eq)]
pub struct PassedOver<T> {
    pub attribute_type: T,
    /// Above 1, unless it is passed over for an event octet.
    pub leave_all_event: usize,
    pub number_of_values: usize,
    pub first_value: Vec<u8>,
    pub three_packed: Vec<u8>,
}

/// A vector of a list.
#[derive(Clone, Debug, PartialEq, Eq)]
pub enum VectorRead<V, T> {
    Read(V),
    PassedOver(PassedOver<T>),
}

/// A Message.
#[derive(Clone, Debug, PartialEq, Eq)]
pub enum Message<V, T, U> {
    Known(Vec<VectorRead<V, T>>),
    /// A type that only a higher version knows: skipped, with what was seen of it.
    Skipped(U),
}

/// A PDU, its checks passed.
#[derive(Clone, Debug, PartialEq, Eq)]
pub struct Pdu<V, T, U> {
    pub messages: Vec<Message<V, T, U>>,
    /// Whether an EndMark was met; otherwise the PDU ended right after a Message or its version.
    pub end_mark: bool,
}

impl<V, T, U> Pdu<V, T, U> {
    /// All vectors that were read, in the order they stand in.
    pub fn vectors(&self) -> impl Iterator<Item = &V> {
        self.lists().flatten().filter_map(|vector| match vector {
            VectorRead::Read(vector) => Some(vector),
            VectorRead::PassedOver(_) => None,
        })
    }

    /// The vectors of each list of a known type.
    pub fn lists(&self) -> impl Iterator<Item = &[VectorRead<V, T>]> {
        self.messages.iter().filter_map(|message| match message {
            Message::Known(vectors) => Some(vectors.as_slice()),
            Message::Skipped(_) => None,
        })
    }
}

/// The first fault met, which ends the whole walk.
#[derive(Clone, Debug, PartialEq, Eq)]
pub struct Fault<T> {
    pub number: Number,
    /// For number 7 the vector: its type, FirstValue and NumberOfValues.
    pub vector: Option<(T, Vec<u8>, usize)>,
    /// For a vector that doesn't fit, its LeaveAllEvent.
    pub unfit: Option<usize>,
    /// Whether a vector of the same list was passed over before it.
    pub behind_passed_over: bool,
}

impl<T> From<Number> for Fault<T> {
    fn from(number: Number) -> Fault<T> {
        Fault { number, vector: None, unfit: None, behind_passed_over: false }
    }
}

/// What is read of the octets that something begins with, and its length.
pub type Taken<R, T> = Result<(R, usize), Fault<T>>;

/// Reads a PDU by a reader of Messages, which knows the version: its length (2), then the walk from
/// the front.
pub fn walk<V, T, U>(
    pdu: &[u8],
    read_message: impl Fn(u8, &[u8]) -> Taken<Message<V, T, U>, T>,
) -> Result<Pdu<V, T, U>, Fault<T>> {
    if pdu.is_empty() || pdu.len() > LONGEST_PDU {
        return Err(numbers::PDU_LENGTH.into());
    }
    let mut messages = Vec::new();
    let mut rest = &pdu[1..];
    loop {
        if rest.is_empty() {
            return Ok(Pdu { messages, end_mark: false });
        }
        if rest.starts_with(&END_MARK) {
            return Ok(Pdu { messages, end_mark: true });
        }
        let (message, length) = read_message(pdu[0], rest)?;
        messages.push(message);
        rest = &rest[length..];
    }
}

/// Reads the vectors of a known type by their reader, up to the EndMark.
pub fn known_vectors<V, T>(
    octets: &[u8],
    read_vector: impl Fn(&[u8]) -> Taken<VectorRead<V, T>, T>,
) -> Taken<Vec<VectorRead<V, T>>, T> {
    vectors_to_end_mark(octets, |rest, before: &[VectorRead<V, T>]| {
        let is_passed_over =
            |vector: &VectorRead<V, T>| matches!(vector, VectorRead::PassedOver(_));
        let behind_passed_over = before.iter().any(is_passed_over);
        read_vector(rest).map_err(|fault| Fault { behind_passed_over, ..fault })
    })
}

/// Reads vectors, by a reader that is told those before, up to the EndMark, which counts in the
/// length. The end of the octets is no EndMark (3).
pub fn vectors_to_end_mark<R, T>(
    octets: &[u8],
    read_vector: impl Fn(&[u8], &[R]) -> Taken<R, T>,
) -> Taken<Vec<R>, T> {
    let mut vectors = Vec::new();
    let mut at = 0;
    loop {
        let rest = &octets[at..];
        if rest.len() < 2 {
            return Err(numbers::RUNS_PAST.into());
        }
        if rest.starts_with(&END_MARK) {
            return Ok((vectors, at + 2));
        }
        let (vector, length) = read_vector(rest, &vectors)?;
        vectors.push(vector);
        at += length;
    }
}

/// The parts of a vector, its events checked and its values not.
pub struct VectorParts<'a> {
    pub leave_all_event: usize,
    pub number_of_values: usize,
    pub first_value: &'a [u8],
    pub three_packed: &'a [u8],
    pub four_packed: &'a [u8],
    /// Whether some event is one that only a higher version knows.
    pub strange: bool,
    /// The octets of the whole vector.
    pub length: usize,
}

impl VectorParts<'_> {
    /// What is kept of such a vector where it is passed over.
    pub fn passed_over<T>(&self, attribute_type: T) -> PassedOver<T> {
        PassedOver {
            attribute_type,
            leave_all_event: self.leave_all_event,
            number_of_values: self.number_of_values,
            first_value: self.first_value.to_vec(),
            three_packed: self.three_packed.to_vec(),
        }
    }

    /// The fault of a vector with a value that runs past its field.
    pub fn value_past<T>(&self, attribute_type: T) -> Fault<T> {
        let vector = Some((attribute_type, self.first_value.to_vec(), self.number_of_values));
        Fault { vector, ..Fault::from(numbers::VALUE) }
    }

    /// The event of each value.
    pub fn events(&self) -> impl Iterator<Item = Event> + '_ {
        let events = self.three_packed.iter().flat_map(|octet| three_events(*octet));
        events.take(self.number_of_values)
    }
}

/// LeaveAllEvent and NumberOfValues, of a vector whose header is there.
pub fn vector_header(octets: &[u8]) -> (usize, usize) {
    let header = usize::from(octets[0]) << 8 | usize::from(octets[1]);
    (header >> 13, header & 0x1fff)
}

/// The ThreePackedEvents octets of so many values.
pub fn three_packed_octets(number_of_values: usize) -> usize {
    (number_of_values + 2) / 3
}

/// Takes apart the vector that octets begin with, its header being there. Checks: LeaveAllEvent (6),
/// fits (3), event octets (6). With a higher version there is no 6.
pub fn vector_parts<T>(
    version: u8,
    first_value_length: usize,
    has_four_packed: bool,
    octets: &[u8],
) -> Result<VectorParts<'_>, Fault<T>> {
    let (leave_all_event, number_of_values) = vector_header(octets);
    if leave_all_event > 1 && version == 0 {
        return Err(numbers::EVENT.into());
    }
    let three_packed_octets = three_packed_octets(number_of_values);
    let four_packed_octets = if has_four_packed { (number_of_values + 3) / 4 } else { 0 };
    let length = 2 + first_value_length + three_packed_octets + four_packed_octets;
    if octets.len() < length {
        return Err(Fault { unfit: Some(leave_all_event), ..Fault::from(numbers::RUNS_PAST) });
    }
    let (first_value, packed) = octets[2..length].split_at(first_value_length);
    let (three_packed, four_packed) = packed.split_at(three_packed_octets);
    let strange_octet = three_packed.iter().any(|octet| *octet > GREATEST_THREE_PACKED);
    if strange_octet && version == 0 {
        return Err(numbers::EVENT.into());
    }
    let strange = strange_octet || leave_all_event > 1;
    Ok(VectorParts {
        leave_all_event,
        number_of_values,
        first_value,
        three_packed,
        four_packed,
        strange,
        length,
    })
}
