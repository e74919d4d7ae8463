//! The SRP domain: what a port registers of it, and where it ends (02, (ii); 802.1Qat clauses
//! 35.2.1.4 h) and 35.2.2.9).

use crate::settings::{Class, PerClass, Settings};

/// The class IDs whose values are held (Table 35-7).
pub const CLASS_IDS: [u8; 2] = [5, 6];
/// Priorities 0 to 7 are held.
pub const PRIORITIES: usize = 8;
/// One for each class ID and priority.
pub const SLOTS: usize = CLASS_IDS.len() * PRIORITIES;

/// The class ID of a class (Table 35-7).
pub fn class_id(class: Class) -> u8 {
    match class {
        Class::A => 6,
        Class::B => 5,
    }
}

/// A Domain registration.
#[derive(Clone, Copy, Debug, PartialEq, Eq)]
pub struct DomainRegistration {
    /// That of the last join.
    pub vlan: u16,
    /// The clock at which leaving began.
    pub leaving: Option<u32>,
}

/// What one port has registered: class ID 5 with priorities 0 to 7, then class ID 6 likewise.
pub type Domains = [Option<DomainRegistration>; SLOTS];

/// The slot of a class ID and priority; nothing where such a value isn't held.
pub fn slot(class_id: u8, priority: u8) -> Option<usize> {
    let class = CLASS_IDS.iter().position(|held| *held == class_id)?;
    let priority = Some(usize::from(priority)).filter(|priority| *priority < PRIORITIES)?;
    Some(PRIORITIES * class + priority)
}

/// The priorities with which a port has registered a class.
pub fn priorities(domains: &Domains, class: Class) -> impl Iterator<Item = u8> + '_ {
    let is_held = move |priority: &u8| {
        slot(class_id(class), *priority).map_or(false, |slot| domains[slot].is_some())
    };
    (0..PRIORITIES as u8).filter(is_held)
}

/// Why a port is a boundary port for a class: the conditions 1) to 3) of 35.2.1.4 h). A port
/// declares each class that it supports.
#[derive(Clone, Copy, Debug, PartialEq, Eq, PartialOrd, Ord)]
pub enum Condition {
    /// 1) The class is declared here, and nothing is registered for it.
    NotRegistered,
    /// 2) The class is declared here, and some registration has another priority.
    OtherPriority,
    /// 3) The class is declared on some port, and this one doesn't support it.
    NotSupported,
}

/// The condition that makes a port, port 1 first, a boundary port for a class; none otherwise.
pub fn condition(
    settings: &Settings,
    domains: &[Domains],
    port: usize,
    class: Class,
) -> Option<Condition> {
    let registered = || priorities(&domains[port - 1], class);
    if !settings.ports[port - 1].supports.of(class) {
        let is_declared = settings.ports.iter().any(|port| port.supports.of(class));
        return is_declared.then_some(Condition::NotSupported);
    }
    if registered().next().is_none() {
        return Some(Condition::NotRegistered);
    }
    registered()
        .any(|priority| priority != settings.priority.of(class))
        .then_some(Condition::OtherPriority)
}

/// The boundary flags of each port, port 1 first.
pub fn boundaries(settings: &Settings, domains: &[Domains]) -> Vec<PerClass<bool>> {
    let flag = |port, class| condition(settings, domains, port, class).is_some();
    (1..=settings.ports.len())
        .map(|port| PerClass { a: flag(port, Class::A), b: flag(port, Class::B) })
        .collect()
}
