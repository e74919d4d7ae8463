//! Reading MMRP frames (02, (vi); 802.1Q clauses 10.8 and 10.12).
//!
//! A Message has no list length: its list ends at its EndMark. Vectors are those of [`crate::mrp`],
//! without FourPackedEvents.

use std::collections::BTreeSet;

use crate::mrp::{self, Event, Fault, Taken};
use crate::numbers;
use crate::octets::number_of;

/// A MAC address, 48 bits.
pub type Address = u64;

/// The bits of an address.
pub const ADDRESS_BITS: u32 = 48;

/// The AttributeTypes of MMRP.
#[derive(Clone, Copy, Debug, PartialEq, Eq, PartialOrd, Ord)]
pub enum MmrpType {
    /// Read and dropped.
    ServiceRequirement,
    Mac,
}

impl MmrpType {
    pub fn octet(self) -> u8 {
        match self {
            MmrpType::ServiceRequirement => 1,
            MmrpType::Mac => 2,
        }
    }

    /// Octets of FirstValue.
    pub fn first_value_length(self) -> usize {
        match self {
            MmrpType::ServiceRequirement => 1,
            MmrpType::Mac => 6,
        }
    }
}

/// A vector, its checks passed. A value is a Service Requirement or an address.
#[derive(Clone, Debug, PartialEq, Eq)]
pub struct Vector {
    pub attribute_type: MmrpType,
    pub leave_all: bool,
    pub values: Vec<(Event, u64)>,
}

/// A vector of an unknown type, of which only the length is looked at.
#[derive(Clone, Copy, Debug, PartialEq, Eq)]
pub struct Walked {
    pub leave_all_event: usize,
    pub number_of_values: usize,
    pub attribute_length: usize,
}

/// A vector of a known type.
pub type VectorRead = mrp::VectorRead<Vector, MmrpType>;

/// A Message: of a known type, or of one above 2 with a higher version, whose vectors are walked over
/// and dropped.
pub type Message = mrp::Message<Vector, MmrpType, Vec<Walked>>;

/// A PDU, its checks passed.
pub type Pdu = mrp::Pdu<Vector, MmrpType, Vec<Walked>>;

impl Pdu {
    /// The addresses of the PDU with their events.
    pub fn addresses(&self) -> impl Iterator<Item = (Event, Address)> + '_ {
        let is_mac = |vector: &&Vector| vector.attribute_type == MmrpType::Mac;
        self.vectors().filter(is_mac).flat_map(|vector| vector.values.iter().copied())
    }

    /// The different addresses that it joins.
    pub fn addresses_joined(&self) -> BTreeSet<Address> {
        let joins = self.addresses().filter(|(event, _)| event.is_join());
        joins.map(|(_, address)| address).collect()
    }
}

/// Reads an MMRP frame.
pub fn read(pdu: &[u8]) -> Result<Pdu, Fault<MmrpType>> {
    mrp::walk(pdu, read_message)
}

/// Reads the Message that octets begin with. Checks: two header octets (3), type (4), length (5,
/// known types), then the vectors of the list, which ends at its EndMark.
fn read_message(version: u8, octets: &[u8]) -> Taken<Message, MmrpType> {
    if octets.len() < 2 {
        return Err(numbers::RUNS_PAST.into());
    }
    let (attribute_length, list) = (usize::from(octets[1]), &octets[2..]);
    let attribute_type = match octets[0] {
        1 => MmrpType::ServiceRequirement,
        2 => MmrpType::Mac,
        3..=255 if version > 0 => {
            let (walked, length) =
                mrp::vectors_to_end_mark(list, |rest, _| walk_vector(attribute_length, rest))?;
            return Ok((Message::Skipped(walked), 2 + length));
        }
        _ => return Err(numbers::ATTRIBUTE_TYPE.into()),
    };
    if attribute_length != attribute_type.first_value_length() {
        return Err(numbers::ATTRIBUTE_LENGTH.into());
    }
    let (vectors, length) =
        mrp::known_vectors(list, |rest| read_vector(attribute_type, version, rest))?;
    Ok((Message::Known(vectors), 2 + length))
}

/// Walks over a vector of an unknown type: 2 + AttributeLength + a third of its values, rounded up.
/// Whether it fits (3) is the only check.
fn walk_vector(attribute_length: usize, octets: &[u8]) -> Taken<Walked, MmrpType> {
    let (leave_all_event, number_of_values) = mrp::vector_header(octets);
    let length = 2 + attribute_length + mrp::three_packed_octets(number_of_values);
    if octets.len() < length {
        return Err(numbers::RUNS_PAST.into());
    }
    Ok((Walked { leave_all_event, number_of_values, attribute_length }, length))
}

/// Reads the vector that octets begin with, its header being there, and gives its length. Checks:
/// those of its parts, then values (7). With a higher version a vector with strange events is passed
/// over instead.
fn read_vector(
    attribute_type: MmrpType,
    version: u8,
    octets: &[u8],
) -> Taken<VectorRead, MmrpType> {
    let first_value_length = attribute_type.first_value_length();
    let parts = mrp::vector_parts(version, first_value_length, false, octets)?;
    if parts.strange {
        return Ok((VectorRead::PassedOver(parts.passed_over(attribute_type)), parts.length));
    }
    if !values_fit(parts.first_value, parts.number_of_values) {
        return Err(parts.value_past(attribute_type));
    }
    let first = number_of(parts.first_value);
    let vector = Vector {
        attribute_type,
        leave_all: parts.leave_all_event == 1,
        values: (first..).zip(parts.events()).map(|(value, event)| (event, value)).collect(),
    };
    Ok((VectorRead::Read(vector), parts.length))
}

/// Whether all values stay within their field, which is the whole FirstValue: a Service Requirement
/// at 255, an address at FF-FF-FF-FF-FF-FF. With 0 values FirstValue isn't looked at.
pub fn values_fit(first_value: &[u8], number_of_values: usize) -> bool {
    number_of_values == 0
        || number_of(first_value) + number_of_values as u64 - 1 < 1 << (8 * first_value.len())
}
