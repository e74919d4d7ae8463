//! Why a stream has its column on a port (02, (ix)).
//!
//! A tool "names the step (a to i, or a later one) that would decide in an advance to the held clock.
//! For code 1 it lists the more important reserving streams with their demands (8 octets StreamID,
//! 8 demand; octets past the list stay), the limit in force, and the shortfall in bits per second".

use crate::pdu::StreamId;
use crate::registrations::{Registrations, MOST_STREAMS};
use crate::settings::Settings;
use crate::settled::{Entry, Settled};
use crate::settling::{self, BitsPerSecond, Facts, Settling, Step};

/// Octets of a listed stream: StreamID 8, demand 8.
pub const LISTED_LENGTH: usize = 16;

/// The list of all streams but the one that is asked about.
pub const LONGEST_LIST: usize = (MOST_STREAMS - 1) * LISTED_LENGTH;

/// A more important stream that reserves, and its demand on the port.
#[derive(Clone, Copy, Debug, PartialEq, Eq)]
pub struct Listed {
    pub stream_id: StreamId,
    pub demand: BitsPerSecond,
}

/// What a stream's column on a port is decided by. But for step h the list is empty, and limit and
/// shortfall are 0.
#[derive(Clone, Debug, PartialEq, Eq)]
pub struct Why {
    pub step: Step,
    /// Most important first.
    pub list: Vec<Listed>,
    pub limit: BitsPerSecond,
    pub shortfall: BitsPerSecond,
}

impl Why {
    /// The octets of the list.
    pub fn octets(&self) -> Vec<u8> {
        let listed = |one: &Listed| [one.stream_id.to_be_bytes(), one.demand.0.to_be_bytes()];
        self.list.iter().flat_map(|one| listed(one).concat()).collect()
    }
}

/// Why a stream that is held has its column on a port, in an advance to this clock. It is decided
/// anew from what is registered now; by a form rule nothing has expired at the held clock.
pub fn why(
    (settings, registrations): (&Settings, &Registrations),
    (clock, settled): (u32, &Settled),
    stream_id: StreamId,
    port: usize,
) -> Why {
    let supposed = settling::settling(settings, registrations, clock, settled);
    let decision = supposed.decisions.columns[&(stream_id, port)];
    let none = BitsPerSecond(0);
    let compared = match (decision.step, decision.compared) {
        (Step::H, Some(compared)) => compared,
        (step, _) => return Why { step, list: Vec::new(), limit: none, shortfall: none },
    };
    let facts = Facts::new(settings, registrations, &supposed.boundaries);
    let list = more_important(&facts, &supposed, stream_id, port);
    let class = settling::class_reached(&facts, stream_id);
    let total_a = supposed.decisions.totals[port - 1].a;
    let limit = settling::limit_in_force(&settings.ports[port - 1], class, total_a);
    let subtracted: u64 = list.iter().map(|one| one.demand.0).sum();
    let shortfall = BitsPerSecond(compared.demand.0 - (limit.0 - subtracted));
    Why { step: Step::H, list, limit, shortfall }
}

/// The streams of its class that are more important on a port and reserve there, in order.
fn more_important(
    facts: &Facts,
    supposed: &Settling,
    stream_id: StreamId,
    port: usize,
) -> Vec<Listed> {
    let importance = |one| settling::importance(facts, &supposed.since, one, port);
    let mut found = Vec::new();
    for other in facts.registrations.streams.keys() {
        let decision = supposed.decisions.columns[&(*other, port)];
        let listener = facts.registrations.streams[other][port - 1].listener_type();
        let demand = match decision.compared {
            Some(compared) if settling::entry(decision.column, listener) == Entry::Forward => {
                compared.demand
            }
            _ => continue,
        };
        let rivals =
            settling::class_reached(facts, *other) == settling::class_reached(facts, stream_id);
        if rivals && importance(*other) < importance(stream_id) {
            found.push((importance(*other), Listed { stream_id: *other, demand }));
        }
    }
    found.sort_by_key(|(importance, _)| *importance);
    found.into_iter().map(|(_, listed)| listed).collect()
}
