//! What a history is about.

use crate::pdu::Talker;
use crate::random::Random;
use crate::settings::{PerClass, PortSettings, Settings};

/// The greatest limit of a class.
pub const GREATEST_LIMIT: u64 = (1 << 40) - 1;

/// How much happens in a history.
#[derive(Clone, Copy, Debug, PartialEq, Eq)]
pub enum Size {
    Small,
    Middle,
    /// Around 64 streams.
    Full,
    /// Many records.
    Large,
}

/// Streams with neighbouring StreamIDs and destinations, and alike in all else.
#[derive(Clone, Debug)]
pub struct Group {
    pub first: Talker,
    pub members: u64,
    /// The port where their Talker mostly is.
    pub talker_port: u32,
}

/// What a history is about.
#[derive(Clone, Debug)]
pub struct Plan {
    pub settings: Settings,
    pub groups: Vec<Group>,
    pub size: Size,
    /// Whether all streams ask for the same in one class.
    pub rivals: bool,
}

impl Plan {
    pub fn ports(&self) -> u32 {
        self.settings.ports.len() as u32
    }
}

/// A latency, around its bounds or anywhere.
pub fn accumulated_latency(random: &mut Random) -> u32 {
    match random.below(8) {
        0..=2 => 0,
        3..=4 => random.below(1_000_000) as u32,
        5 => random.bits() as u32,
        6 => u32::MAX - random.below(1_000) as u32,
        _ => u32::MAX,
    }
}

/// Settings of two ports with room for all streams.
pub fn roomy_settings(random: &mut Random) -> Settings {
    let port = PortSettings {
        limit: PerClass { a: GREATEST_LIMIT, b: 0 },
        latency: PerClass { a: 500, b: 0 },
        ..PortSettings::of_the_worked_example()
    };
    Settings {
        bridge_id: random.bits(),
        priority: PerClass { a: 3, b: 2 },
        leave_time: 60,
        pruning: false,
        vlan: 2,
        fan_in_limit: 0,
        ports: vec![port.clone(), port],
    }
}
