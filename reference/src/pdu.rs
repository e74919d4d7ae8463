//! Reading MSRPDUs (01, "The PDU"; 02, (iv); 802.1Q clause 10.8, 802.1Qat clause 35.2.2).

use crate::mrp::{self, Event, VectorParts};
use crate::numbers;
use crate::octets::number_of;

/// A StreamID: MAC address 6 octets, Unique ID 2 octets.
pub type StreamId = u64;

/// The AttributeTypes of Table 35-1.
#[derive(Clone, Copy, Debug, PartialEq, Eq, PartialOrd, Ord)]
pub enum AttributeType {
    TalkerAdvertise,
    TalkerFailed,
    Listener,
    Domain,
}

pub const ATTRIBUTE_TYPES: [AttributeType; 4] = [
    AttributeType::TalkerAdvertise,
    AttributeType::TalkerFailed,
    AttributeType::Listener,
    AttributeType::Domain,
];

impl AttributeType {
    /// The octet of Table 35-1.
    pub fn octet(self) -> u8 {
        match self {
            AttributeType::TalkerAdvertise => 1,
            AttributeType::TalkerFailed => 2,
            AttributeType::Listener => 3,
            AttributeType::Domain => 4,
        }
    }

    /// Octets of FirstValue (Table 35-2).
    pub fn first_value_length(self) -> usize {
        match self {
            AttributeType::TalkerAdvertise => 25,
            AttributeType::TalkerFailed => 34,
            AttributeType::Listener => 8,
            AttributeType::Domain => 4,
        }
    }
}

/// What declarations and registrations of a port are told apart by: AttributeType, and StreamID, for Domain
/// class ID and priority.
#[derive(Clone, Copy, Debug, PartialEq, Eq, PartialOrd, Ord)]
pub struct Attribute {
    pub attribute_type: AttributeType,
    pub key: u64,
}

/// The Listener declaration types.
#[derive(Clone, Copy, Debug, PartialEq, Eq, PartialOrd, Ord)]
pub enum ListenerType {
    AskingFailed,
    Ready,
    ReadyFailed,
}

impl ListenerType {
    /// Its part of a FourPackedEvents octet (35.2.2.7.2).
    pub fn number(self) -> u8 {
        match self {
            ListenerType::AskingFailed => 1,
            ListenerType::Ready => 2,
            ListenerType::ReadyFailed => 3,
        }
    }
}

/// The four parts of a FourPackedEvents octet, first highest. `None` is Ignore.
pub fn four_listener_types(octet: u8) -> [Option<ListenerType>; 4] {
    [octet >> 6, octet >> 4 & 3, octet >> 2 & 3, octet & 3].map(|part| match part {
        1 => Some(ListenerType::AskingFailed),
        2 => Some(ListenerType::Ready),
        3 => Some(ListenerType::ReadyFailed),
        _ => None,
    })
}

/// The parts of a Talker declaration that a join must repeat to count as unchanged.
#[derive(Clone, Copy, Debug, Default, PartialEq, Eq)]
pub struct Parameters {
    /// 48 bits.
    pub destination: u64,
    pub vlan: u16,
    pub max_frame_size: u16,
    pub max_interval_frames: u16,
    /// 3 bits.
    pub priority: u8,
    /// 1 bit; 0 is the more important one.
    pub rank: u8,
}

/// Octets of the parameters: destination 6, VLAN 2, MaxFrameSize 2, MaxIntervalFrames 2, and
/// priority 3 bits, rank 1 bit, reserved 4 bits.
pub const PARAMETERS_LENGTH: usize = 13;

impl Parameters {
    /// Those that these octets hold, whatever the reserved bits are.
    pub fn of(octets: &[u8]) -> Parameters {
        Parameters {
            destination: number_of(&octets[0..6]),
            vlan: number_of(&octets[6..8]) as u16,
            max_frame_size: number_of(&octets[8..10]) as u16,
            max_interval_frames: number_of(&octets[10..12]) as u16,
            priority: octets[12] >> 5,
            rank: octets[12] >> 4 & 1,
        }
    }

    /// Their octets, the reserved bits 0.
    pub fn octets(&self) -> Vec<u8> {
        let mut octets = self.destination.to_be_bytes()[2..].to_vec();
        octets.extend(self.vlan.to_be_bytes());
        octets.extend(self.max_frame_size.to_be_bytes());
        octets.extend(self.max_interval_frames.to_be_bytes());
        octets.push(self.priority << 5 | self.rank << 4);
        octets
    }
}

/// The failure fields of a Talker Failed.
#[derive(Clone, Copy, Debug, PartialEq, Eq)]
pub struct Failure {
    pub bridge_id: u64,
    pub code: u8,
}

/// A Talker declaration: Advertise without a failure, Failed with one.
#[derive(Clone, Copy, Debug, PartialEq, Eq)]
pub struct Talker {
    pub stream_id: StreamId,
    pub parameters: Parameters,
    pub accumulated_latency: u32,
    pub failure: Option<Failure>,
}

impl Talker {
    pub fn attribute(&self) -> Attribute {
        let attribute_type = match self.failure {
            None => AttributeType::TalkerAdvertise,
            Some(_) => AttributeType::TalkerFailed,
        };
        Attribute { attribute_type, key: self.stream_id }
    }

    /// The Talker of 01's worked example, for a stream. Its destination follows the Unique ID.
    pub fn of_the_worked_example(stream_id: StreamId) -> Talker {
        Talker {
            stream_id,
            parameters: Parameters {
                destination: 0x91e0_f000_0000 + (stream_id & 0xffff),
                vlan: 2,
                max_frame_size: 224,
                max_interval_frames: 1,
                priority: 3,
                rank: 1,
            },
            accumulated_latency: 0,
            failure: None,
        }
    }
}

/// A Domain declaration (35.2.2.9).
#[derive(Clone, Copy, Debug, PartialEq, Eq)]
pub struct Domain {
    pub class_id: u8,
    pub priority: u8,
    pub vlan: u16,
}

impl Domain {
    pub fn attribute(&self) -> Attribute {
        let key = u64::from(self.class_id) << 8 | u64::from(self.priority);
        Attribute { attribute_type: AttributeType::Domain, key }
    }

    /// Its FirstValue.
    pub fn octets(&self) -> Vec<u8> {
        let mut octets = vec![self.class_id, self.priority];
        octets.extend(self.vlan.to_be_bytes());
        octets
    }
}

/// One value of a vector, with its event.
#[derive(Clone, Copy, Debug, PartialEq, Eq)]
pub enum Value {
    Talker(Talker),
    /// Without a Listener type where the FourPackedEvents say Ignore.
    Listener(StreamId, Option<ListenerType>),
    Domain(Domain),
}

/// The attribute of a Listener.
pub fn listener_attribute(stream_id: StreamId) -> Attribute {
    Attribute { attribute_type: AttributeType::Listener, key: stream_id }
}

impl Value {
    /// The attribute that it speaks of; none with Ignore.
    pub fn attribute(&self) -> Option<Attribute> {
        match self {
            Value::Talker(talker) => Some(talker.attribute()),
            Value::Listener(stream_id, says) => says.map(|_| listener_attribute(*stream_id)),
            Value::Domain(domain) => Some(domain.attribute()),
        }
    }
}

/// A vector, its checks passed.
#[derive(Clone, Debug, PartialEq, Eq)]
pub struct Vector {
    pub attribute_type: AttributeType,
    pub leave_all: bool,
    pub first_value: Vec<u8>,
    pub values: Vec<(Event, Value)>,
}

/// A vector that is passed over.
pub type PassedOver = mrp::PassedOver<AttributeType>;

/// A vector of a list.
pub type VectorRead = mrp::VectorRead<Vector, AttributeType>;

/// A Message.
pub type Message = mrp::Message<Vector, AttributeType, ()>;

/// A PDU, its checks passed.
pub type Pdu = mrp::Pdu<Vector, AttributeType, ()>;

/// The first fault met.
pub type Fault = mrp::Fault<AttributeType>;

/// What is read of the octets that something begins with, and its length.
type Taken<R> = mrp::Taken<R, AttributeType>;

/// Reads an MSRPDU.
pub fn read(pdu: &[u8]) -> Result<Pdu, Fault> {
    mrp::walk(pdu, read_message)
}

/// Reads the Message that octets begin with. Checks: four header octets (3), type (4), length (5,
/// known types), list within PDU (3).
fn read_message(version: u8, octets: &[u8]) -> Taken<Message> {
    if octets.len() < 4 {
        return Err(numbers::RUNS_PAST.into());
    }
    let attribute_length = usize::from(octets[1]);
    let list_length = usize::from(octets[2]) << 8 | usize::from(octets[3]);
    let known_type = match octets[0] {
        1 => Some(AttributeType::TalkerAdvertise),
        2 => Some(AttributeType::TalkerFailed),
        3 => Some(AttributeType::Listener),
        4 => Some(AttributeType::Domain),
        5..=255 if version > 0 => None,
        _ => return Err(numbers::ATTRIBUTE_TYPE.into()),
    };
    if let Some(attribute_type) = known_type {
        if attribute_length != attribute_type.first_value_length() {
            return Err(numbers::ATTRIBUTE_LENGTH.into());
        }
    }
    let length = 4 + list_length;
    let list = octets.get(4..length).ok_or_else(|| Fault::from(numbers::RUNS_PAST))?;
    let message = match known_type {
        Some(attribute_type) => Message::Known(read_list(attribute_type, version, list)?),
        None => Message::Skipped(()),
    };
    Ok((message, length))
}

/// Reads an AttributeList on its own, from its first vector to its EndMark, which must be its
/// last two octets.
fn read_list(
    attribute_type: AttributeType,
    version: u8,
    list: &[u8],
) -> Result<Vec<VectorRead>, Fault> {
    let (vectors, length) =
        mrp::known_vectors(list, |rest| read_vector(attribute_type, version, rest))?;
    if length == list.len() {
        Ok(vectors)
    } else {
        Err(numbers::RUNS_PAST.into())
    }
}

/// Reads the vector that octets begin with, its header being there, and gives its length. Checks:
/// those of its parts, then values (7). A vector with strange events is passed over instead, its
/// values unchecked.
fn read_vector(attribute_type: AttributeType, version: u8, octets: &[u8]) -> Taken<VectorRead> {
    let first_value_length = attribute_type.first_value_length();
    let has_four_packed = attribute_type == AttributeType::Listener;
    let parts = mrp::vector_parts(version, first_value_length, has_four_packed, octets)?;
    if parts.strange {
        return Ok((VectorRead::PassedOver(parts.passed_over(attribute_type)), parts.length));
    }
    if !values_fit(attribute_type, parts.first_value, parts.number_of_values) {
        return Err(parts.value_past(attribute_type));
    }
    let vector = Vector {
        attribute_type,
        leave_all: parts.leave_all_event == 1,
        first_value: parts.first_value.to_vec(),
        values: values(attribute_type, &parts),
    };
    Ok((VectorRead::Read(vector), parts.length))
}

/// The values of a vector with their events, of ThreePackedEvents and FourPackedEvents.
fn values(attribute_type: AttributeType, parts: &VectorParts) -> Vec<(Event, Value)> {
    let mut listener_types = parts.four_packed.iter().flat_map(|octet| four_listener_types(*octet));
    let values = parts.events().enumerate().map(|(n, event)| {
        let listener_type = listener_types.next().flatten();
        (event, value(attribute_type, parts.first_value, n as u64, listener_type))
    });
    values.collect()
}

/// Whether all values stay within their fields: Unique ID 16 bits, destination 48 bits, Domain's
/// class ID and priority 8 bits each. With 0 values FirstValue isn't looked at.
pub fn values_fit(
    attribute_type: AttributeType,
    first_value: &[u8],
    number_of_values: usize,
) -> bool {
    if number_of_values == 0 {
        return true;
    }
    let last = number_of_values as u64 - 1;
    match attribute_type {
        AttributeType::TalkerAdvertise | AttributeType::TalkerFailed => {
            number_of(&first_value[6..8]) + last < 1 << 16
                && number_of(&first_value[8..14]) + last < 1 << 48
        }
        AttributeType::Listener => number_of(&first_value[6..8]) + last < 1 << 16,
        AttributeType::Domain => {
            u64::from(first_value[0]) + last < 1 << 8 && u64::from(first_value[1]) + last < 1 << 8
        }
    }
}

/// Value n: for Talkers n is added to Unique ID and destination, for Listener to Unique ID, for
/// Domain to class ID and priority.
fn value(
    attribute_type: AttributeType,
    first_value: &[u8],
    n: u64,
    listener_type: Option<ListenerType>,
) -> Value {
    match attribute_type {
        AttributeType::TalkerAdvertise | AttributeType::TalkerFailed => {
            Value::Talker(talker(attribute_type, first_value, n))
        }
        AttributeType::Listener => {
            Value::Listener(number_of(&first_value[0..8]) + n, listener_type)
        }
        AttributeType::Domain => Value::Domain(Domain {
            class_id: first_value[0] + n as u8,
            priority: first_value[1] + n as u8,
            vlan: number_of(&first_value[2..4]) as u16,
        }),
    }
}

/// A Talker FirstValue: StreamID 8, parameters 13, AccumulatedLatency 4; Failed adds Bridge ID 8,
/// code 1.
fn talker(attribute_type: AttributeType, first_value: &[u8], n: u64) -> Talker {
    let failure = match attribute_type {
        AttributeType::TalkerFailed => {
            Some(Failure { bridge_id: number_of(&first_value[25..33]), code: first_value[33] })
        }
        _ => None,
    };
    let mut parameters = Parameters::of(&first_value[8..21]);
    parameters.destination += n;
    Talker {
        stream_id: number_of(&first_value[0..8]) + n,
        parameters,
        accumulated_latency: number_of(&first_value[21..25]) as u32,
        failure,
    }
}
