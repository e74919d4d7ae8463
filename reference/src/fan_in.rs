//! The ports that bring streams in, and addresses that streams share (02, (x)).

use std::collections::{BTreeMap, BTreeSet};

use crate::pdu::{Parameters, StreamId};
use crate::registrations::{talker_port, Registrations};

/// What the Talkers of all streams have in common, each at its own Talker port t.
#[derive(Clone, Debug, PartialEq, Eq)]
pub struct FanIn {
    /// The ports that are t for some stream, port 1 being 1.
    pub ports: BTreeSet<usize>,
    /// Of each destination and VLAN registered at some t, the lowest StreamID.
    lowest: BTreeMap<(u64, u16), StreamId>,
}

impl FanIn {
    pub fn of(registrations: &Registrations) -> FanIn {
        let mut fan_in = FanIn { ports: BTreeSet::new(), lowest: BTreeMap::new() };
        // StreamIDs ascend, so the first that has an address is the lowest.
        for (stream_id, ports) in &registrations.streams {
            if let Some((port, talker)) = talker_port(ports) {
                let Parameters { destination, vlan, .. } = talker.parameters;
                fan_in.ports.insert(port);
                fan_in.lowest.entry((destination, vlan)).or_insert(*stream_id);
            }
        }
        fan_in
    }

    /// How many ports with an inbound Talker are numbered below a port.
    pub fn below(&self, port: usize) -> usize {
        self.ports.range(..port).count()
    }

    /// Whether a port may bring streams in: fewer ports than the limit are inbound below it. 0
    /// means no limit.
    pub fn may_bring_in(&self, port: usize, limit: u8) -> bool {
        limit == 0 || self.below(port) < usize::from(limit)
    }

    /// Whether a lower StreamID has the destination and VLAN of a stream.
    pub fn is_shared(&self, stream_id: StreamId, parameters: &Parameters) -> bool {
        let address = (parameters.destination, parameters.vlan);
        self.lowest.get(&address).map_or(false, |lowest| *lowest < stream_id)
    }
}
