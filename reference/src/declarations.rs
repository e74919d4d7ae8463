//! Declarations of a port and writing them (01, "Writing"; 02, (ii), (xi); 802.1Q clause 10.8,
//! 802.1Qat clause 35.2.2).

use crate::domain;
use crate::mrp::{Event, END_MARK, LONGEST_PDU};
use crate::packing;
use crate::pdu::{self, Attribute, AttributeType, Domain, ListenerType};
use crate::pdu::{StreamId, Talker, ATTRIBUTE_TYPES};
use crate::settings::{Class, Settings};
use crate::settled::{Column, Settled};

/// A declaration of a port.
#[derive(Clone, Copy, Debug, PartialEq, Eq)]
pub enum Declaration {
    Talker(Talker),
    Listener(StreamId, ListenerType),
    Domain(Domain),
}

/// A declaration as it is written: with the event that its machine gives.
#[derive(Clone, Copy, Debug, PartialEq, Eq)]
pub struct Said {
    pub declaration: Declaration,
    pub event: Event,
}

/// The types of declarations that are of streams.
pub const STREAM_TYPES: [AttributeType; 3] =
    [AttributeType::TalkerAdvertise, AttributeType::TalkerFailed, AttributeType::Listener];

/// The bit of LeaveAllEvent 1 in the first octet of a vector.
const LEAVE_ALL: u8 = 0x20;

impl Declaration {
    pub fn attribute(&self) -> Attribute {
        match self {
            Declaration::Talker(talker) => talker.attribute(),
            Declaration::Listener(stream_id, _) => pdu::listener_attribute(*stream_id),
            Declaration::Domain(domain) => domain.attribute(),
        }
    }

    pub fn attribute_type(&self) -> AttributeType {
        self.attribute().attribute_type
    }
}

/// A Talker FirstValue, its reserved bits 0.
pub fn first_value(talker: &Talker) -> Vec<u8> {
    let mut octets = talker.stream_id.to_be_bytes().to_vec();
    octets.extend(talker.parameters.octets());
    octets.extend(talker.accumulated_latency.to_be_bytes());
    if let Some(failure) = talker.failure {
        octets.extend(failure.bridge_id.to_be_bytes());
        octets.push(failure.code);
    }
    octets
}

/// The Domain declarations of a port, by ascending class ID: one for each class that it supports,
/// from start on, whatever is registered.
pub fn domains(settings: &Settings, port: usize) -> Vec<Declaration> {
    let is_supported = |class: &Class| settings.ports[port - 1].supports.of(*class);
    let domain = |class| {
        Declaration::Domain(Domain {
            class_id: domain::class_id(class),
            priority: settings.priority.of(class),
            vlan: settings.vlan,
        })
    };
    [Class::B, Class::A].into_iter().filter(is_supported).map(domain).collect()
}

/// The declarations of streams that an advance has decided for a port.
pub fn of_streams(settled: &Settled, port: usize) -> Vec<Declaration> {
    let mut declarations = Vec::new();
    for (stream_id, settled_stream) in &settled.streams {
        let settled_on_port = &settled_stream.ports[port - 1];
        let talker = |failure| {
            Declaration::Talker(Talker {
                stream_id: *stream_id,
                parameters: settled_stream.parameters,
                accumulated_latency: settled_on_port.latency_out,
                failure,
            })
        };
        match settled_on_port.column {
            Column::Advertise => declarations.push(talker(None)),
            Column::Failed(failure) => declarations.push(talker(Some(failure))),
            Column::None => {}
        }
        if let Some(listener_type) = settled_on_port.listener {
            declarations.push(Declaration::Listener(*stream_id, listener_type));
        }
    }
    declarations
}

/// The vector of one value: LeaveAllEvent 0 and NumberOfValues 1, FirstValue, one ThreePackedEvents
/// octet with spare positions 0.
fn alone(first_value: &[u8], event: Event) -> Vec<u8> {
    [&[0, 1], first_value, &[event.number() * 36]].concat()
}

/// The vectors of declarations of one type: Listeners are packed, others stand alone.
fn vectors<'a>(said: impl Iterator<Item = &'a Said>) -> Vec<Vec<u8>> {
    let mut vectors = Vec::new();
    let mut listeners = Vec::new();
    for Said { declaration, event } in said {
        match declaration {
            Declaration::Talker(talker) => vectors.push(alone(&first_value(talker), *event)),
            Declaration::Listener(stream_id, says) => listeners.push((*stream_id, *says, *event)),
            Declaration::Domain(domain) => vectors.push(alone(&domain.octets(), *event)),
        }
    }
    vectors.extend(packing::vectors(&listeners));
    vectors
}

/// Puts LeaveAllEvent 1 into the first vector of a type. Where it has no values, the vector has NumberOfValues 0
/// and zeros for FirstValue.
fn leave_all(vectors: &mut Vec<Vec<u8>>, attribute_type: AttributeType) {
    if vectors.is_empty() {
        vectors.push(vec![0; 2 + attribute_type.first_value_length()]);
    }
    vectors[0][0] |= LEAVE_ALL;
}

/// The PDU of these declarations, which stand by type: ProtocolVersion 0, one Message per type
/// that occurs, with LeaveAll one per type, EndMark.
pub fn pdu(said: &[Said], has_leave_all: bool) -> Vec<u8> {
    let mut octets = vec![0];
    for attribute_type in ATTRIBUTE_TYPES {
        let of_type = |one: &&Said| one.declaration.attribute_type() == attribute_type;
        let mut vectors = vectors(said.iter().filter(of_type));
        if has_leave_all {
            leave_all(&mut vectors, attribute_type);
        }
        if !vectors.is_empty() {
            let list = [vectors.concat(), END_MARK.to_vec()].concat();
            octets.push(attribute_type.octet());
            octets.push(attribute_type.first_value_length() as u8);
            octets.extend((list.len() as u16).to_be_bytes());
            octets.extend(list);
        }
    }
    octets.extend(END_MARK);
    octets
}

/// How many of these declarations, from the front, fit in a PDU of 1,500 octets whole.
pub fn longest_run(said: &[Said], has_leave_all: bool) -> usize {
    let mut taken = 0;
    while taken < said.len() && pdu(&said[..taken + 1], has_leave_all).len() <= LONGEST_PDU {
        taken += 1;
    }
    taken
}
