//! PDUs laid out part by part, well formed or not, for generated inputs and tests. Where a part
//! that follows from others (a length, a number of values) is given, it stands in their place.

use crate::mmrp::MmrpType;
use crate::pdu::AttributeType;

/// A vector: its FirstValue, the numbers of its events and, for Listener, of its
/// FourPackedEvents.
#[derive(Clone, Debug, Default, PartialEq, Eq)]
pub struct VectorDraft {
    pub leave_all_event: u8,
    pub number_of_values: Option<u16>,
    pub first_value: Vec<u8>,
    pub events: Vec<u8>,
    pub listener_types: Vec<u8>,
    /// The event at the spare positions of the last ThreePackedEvents octet.
    pub spare_event: u8,
    /// What stands at the spare positions of the last FourPackedEvents octet.
    pub spare_listener_type: u8,
    /// Stands in place of the first ThreePackedEvents octet.
    pub first_event_octet: Option<u8>,
    /// Stands in place of the last one.
    pub last_event_octet: Option<u8>,
}

/// A Message.
#[derive(Clone, Debug, PartialEq, Eq)]
pub struct MessageDraft {
    pub attribute_type: u8,
    pub attribute_length: u8,
    /// Whether the list's length stands before it. MMRP has none.
    pub has_list_length: bool,
    /// Added to the list length.
    pub list_length_off: i32,
    pub vectors: Vec<VectorDraft>,
    pub list_end_mark: bool,
    /// Octets of the list behind its EndMark.
    pub after_list_end_mark: Vec<u8>,
}

/// A PDU.
#[derive(Clone, Debug, Default, PartialEq, Eq)]
pub struct FrameDraft {
    pub version: u8,
    pub messages: Vec<MessageDraft>,
    pub end_mark: bool,
    pub after: Vec<u8>,
}

impl VectorDraft {
    fn octets(&self) -> Vec<u8> {
        let number_of_values = self.number_of_values.unwrap_or(self.events.len() as u16);
        let header = u16::from(self.leave_all_event) << 13 | number_of_values & 0x1fff;
        let mut octets = header.to_be_bytes().to_vec();
        octets.extend(&self.first_value);
        let last = (self.events.len() + 2) / 3;
        for (place, three) in (1..).zip(self.events.chunks(3)) {
            let event = |n: usize| three.get(n).copied().unwrap_or(self.spare_event);
            let packed = (event(0) * 6 + event(1)) * 6 + event(2);
            octets.push(match (self.first_event_octet, self.last_event_octet) {
                (Some(octet), _) if place == 1 => octet,
                (_, Some(octet)) if place == last => octet,
                _ => packed,
            });
        }
        for four in self.listener_types.chunks(4) {
            let part = |n: usize| four.get(n).copied().unwrap_or(self.spare_listener_type);
            octets.push(part(0) << 6 | part(1) << 4 | part(2) << 2 | part(3));
        }
        octets
    }
}

impl MessageDraft {
    /// A well-formed Message of a known type.
    pub fn new(attribute_type: AttributeType, vectors: Vec<VectorDraft>) -> MessageDraft {
        let length = attribute_type.first_value_length();
        MessageDraft::well_formed(attribute_type.octet(), length, true, vectors)
    }

    /// A well-formed Message of MMRP.
    pub fn of_mmrp(attribute_type: MmrpType, vectors: Vec<VectorDraft>) -> MessageDraft {
        let length = attribute_type.first_value_length();
        MessageDraft::well_formed(attribute_type.octet(), length, false, vectors)
    }

    fn well_formed(
        attribute_type: u8,
        first_value_length: usize,
        has_list_length: bool,
        vectors: Vec<VectorDraft>,
    ) -> MessageDraft {
        MessageDraft {
            attribute_type,
            attribute_length: first_value_length as u8,
            has_list_length,
            list_length_off: 0,
            vectors,
            list_end_mark: true,
            after_list_end_mark: Vec::new(),
        }
    }

    fn octets(&self) -> Vec<u8> {
        let mut list = Vec::new();
        for vector in &self.vectors {
            list.extend(vector.octets());
        }
        if self.list_end_mark {
            list.extend([0, 0]);
        }
        list.extend(&self.after_list_end_mark);
        let list_length = (list.len() as i32 + self.list_length_off) as u16;
        let mut octets = vec![self.attribute_type, self.attribute_length];
        if self.has_list_length {
            octets.extend(list_length.to_be_bytes());
        }
        octets.extend(list);
        octets
    }
}

impl FrameDraft {
    /// A well-formed PDU.
    pub fn new(messages: Vec<MessageDraft>) -> FrameDraft {
        FrameDraft { version: 0, messages, end_mark: true, after: Vec::new() }
    }

    pub fn octets(&self) -> Vec<u8> {
        let mut octets = vec![self.version];
        for message in &self.messages {
            octets.extend(message.octets());
        }
        if self.end_mark {
            octets.extend([0, 0]);
        }
        octets.extend(&self.after);
        octets
    }
}
