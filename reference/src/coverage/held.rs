//! What a bridge holds of a stream, and what was decided for it.

use std::collections::BTreeMap;

use crate::bridge::Bridge;
use crate::pdu::Parameters;
use crate::registrations::TalkerRegistration;
use crate::settling::{self, ByStreamAndPort, Decision, Facts};

/// The decisions that the last advance came to. They follow from what it left.
pub fn decisions(bridge: &Bridge) -> ByStreamAndPort<Decision> {
    let mut since = BTreeMap::new();
    for (stream_id, settled) in &bridge.settled.streams {
        for (port, settled_on_port) in (1..).zip(&settled.ports) {
            if let Some(second) = settled_on_port.entry_since {
                since.insert((*stream_id, port), second);
            }
        }
    }
    let Bridge { settings, registrations, settled, .. } = bridge;
    let facts = Facts::new(settings, registrations, &settled.boundaries);
    settling::decide(&facts, &since).columns
}

/// The place of the port, from 0, that is the Talker port of a stream.
pub fn talker_port(bridge: &Bridge, stream_id: u64) -> Option<usize> {
    let ports = bridge.registrations.streams.get(&stream_id)?;
    ports.iter().position(|on_port| on_port.talker.is_some())
}

/// What is registered at the Talker port of a stream.
pub fn registered_at(bridge: &Bridge, stream_id: u64) -> Option<&TalkerRegistration> {
    let at = talker_port(bridge, stream_id)?;
    bridge.registrations.streams[&stream_id][at].talker.as_ref()
}

/// What the Talker of a stream that has one asks for.
pub fn talker_of(bridge: &Bridge, stream_id: u64) -> Parameters {
    registered_at(bridge, stream_id).expect("a stream with a Talker").parameters
}
