//! What an advance takes down: columns, entries, Listeners declared, totals and boundary flags (01,
//! "Settling"; 802.1Qat Table 35-12).

use std::collections::BTreeMap;

use crate::pdu::{Failure, ListenerType, Parameters, StreamId};
use crate::settings::PerClass;

/// The Talker column of a stream on a port.
#[derive(Clone, Copy, Debug, PartialEq, Eq)]
pub enum Column {
    None,
    Advertise,
    Failed(Failure),
}

/// The entry of Table 35-12.
#[derive(Clone, Copy, Debug, PartialEq, Eq, PartialOrd, Ord)]
pub enum Entry {
    None,
    Filter,
    Forward,
}

/// What an advance has taken down of one stream on one port.
#[derive(Clone, Debug, PartialEq, Eq)]
pub struct SettledOnPort {
    pub column: Column,
    /// 0 where the column is none.
    pub latency_out: u32,
    /// The Listener declared on the port, if any.
    pub listener: Option<ListenerType>,
    pub entry: Entry,
    /// The whole second of the advance that first made the entry, while there is one.
    pub entry_since: Option<u32>,
}

impl SettledOnPort {
    /// What a stream joined since the last advance shows.
    pub const NONE: SettledOnPort = SettledOnPort {
        column: Column::None,
        latency_out: 0,
        listener: None,
        entry: Entry::None,
        entry_since: None,
    };
}

/// What an advance has taken down of one stream.
#[derive(Clone, Debug, PartialEq, Eq)]
pub struct SettledStream {
    /// Those of the Talker port; zeros where there was no Talker.
    pub parameters: Parameters,
    /// One part per port, port 1 first.
    pub ports: Vec<SettledOnPort>,
}

impl SettledStream {
    /// What a stream joined since the last advance shows.
    pub fn none(port_count: usize) -> SettledStream {
        SettledStream {
            parameters: Parameters::default(),
            ports: vec![SettledOnPort::NONE; port_count],
        }
    }
}

/// The settled state: what the last advance has taken down. Reports and written declarations
/// show this.
#[derive(Clone, Debug, PartialEq, Eq)]
pub struct Settled {
    /// The streams held; one joined since may be left out.
    pub streams: BTreeMap<StreamId, SettledStream>,
    /// The reserved sums of each port, port 1 first.
    pub totals: Vec<PerClass<u64>>,
    /// The boundary flags of each port, port 1 first.
    pub boundaries: Vec<PerClass<bool>>,
}

impl Settled {
    /// The state that start leaves.
    pub fn empty(port_count: usize) -> Settled {
        Settled {
            streams: BTreeMap::new(),
            totals: vec![PerClass::default(); port_count],
            boundaries: vec![PerClass::default(); port_count],
        }
    }
}
