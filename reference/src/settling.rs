//! Settling: attribute propagation and reserved bandwidth (01, "Settling"; 02, (ii), (i), (v), (x), (vi);
//! 802.1Qat clauses 35.2.4.1 to 35.2.4.4, Tables 35-12 and 35-14; 802.1Q clause 34.3.1).

use std::collections::BTreeMap;

use crate::domain;
use crate::fan_in::FanIn;
use crate::pdu::{Failure, ListenerType, Parameters, StreamId};
use crate::registrations::{talker_port, OnPort, Registrations, TalkerRegistration};
use crate::settings::{Class, PerClass, PortSettings, Settings, CLASSES};
use crate::settled::{Column, Entry, Settled, SettledOnPort, SettledStream};

/// A demand in octets per class measurement interval.
#[derive(Clone, Copy, Debug, PartialEq, Eq, PartialOrd, Ord)]
pub struct OctetsPerInterval(pub u64);

/// A rate in bits per second.
#[derive(Clone, Copy, Debug, PartialEq, Eq, PartialOrd, Ord)]
pub struct BitsPerSecond(pub u64);

/// The demand of a stream on a port (35.2.4.2): (MaxFrameSize + overhead + 1) x
/// MaxIntervalFrames, doubled on a port that sends twice.
pub fn demand(
    port: &PortSettings,
    max_frame_size: u16,
    max_interval_frames: u16,
) -> OctetsPerInterval {
    let octets =
        (u64::from(max_frame_size) + u64::from(port.overhead) + 1) * u64::from(max_interval_frames);
    OctetsPerInterval(if port.sends_twice { 2 * octets } else { octets })
}

/// Octets per interval as bits per second: 8,000 intervals a second for A, 4,000 for B.
pub fn rate(class: Class, demand: OctetsPerInterval) -> BitsPerSecond {
    let intervals = match class {
        Class::A => 8_000,
        Class::B => 4_000,
    };
    BitsPerSecond(demand.0 * 8 * intervals)
}

/// The steps, of which the first that applies gives the column. A step of a later request has a
/// later letter, and stands where it is tested.
#[derive(Clone, Copy, Debug, PartialEq, Eq, PartialOrd, Ord)]
pub enum Step {
    A,
    B,
    N,
    C,
    D,
    K,
    E,
    F,
    J,
    L,
    M,
    G,
    H,
    I,
}

/// A column, the step that gave it, and for steps h and i what was compared.
#[derive(Clone, Copy, Debug, PartialEq, Eq)]
pub struct Decision {
    pub step: Step,
    pub column: Column,
    pub compared: Option<Compared>,
}

/// The demand of a stream and what was left when its turn came.
#[derive(Clone, Copy, Debug, PartialEq, Eq)]
pub struct Compared {
    pub demand: BitsPerSecond,
    pub left: BitsPerSecond,
}

/// What the columns are decided by.
pub struct Facts<'a> {
    pub settings: &'a Settings,
    pub registrations: &'a Registrations,
    /// The boundary flags of each port, port 1 first.
    pub boundaries: &'a [PerClass<bool>],
    pub fan_in: FanIn,
}

impl<'a> Facts<'a> {
    /// What follows from the registrations, with the boundary flags that were decided of them.
    pub fn new(
        settings: &'a Settings,
        registrations: &'a Registrations,
        boundaries: &'a [PerClass<bool>],
    ) -> Facts<'a> {
        Facts { settings, registrations, boundaries, fan_in: FanIn::of(registrations) }
    }
}

/// The steps up to g; nothing where the stream reaches step h.
fn column_before_bandwidth(
    facts: &Facts,
    stream_id: StreamId,
    port: usize,
) -> Option<(Step, Column)> {
    let settings = facts.settings;
    let ports = &facts.registrations.streams[&stream_id];
    let own_failure = |code| Column::Failed(Failure { bridge_id: settings.bridge_id, code });
    let port_settings = &settings.ports[port - 1];
    // a. no t, or p = t: none
    let (talker_port, talker) = match talker_port(ports) {
        Some((talker_port, talker)) if port != talker_port => (talker_port, talker),
        _ => return Some((Step::A, Column::None)),
    };
    // b. the priority is a class that p doesn't support: none
    let class = settings.class_of(talker.parameters.priority);
    if class.map_or(false, |class| !port_settings.supports.of(class)) {
        return Some((Step::B, Column::None));
    }
    // n. pruning is on, and p doesn't hold the destination registered at t: none
    let holds_destination =
        facts.registrations.addresses[port - 1].contains_key(&talker.parameters.destination);
    if settings.pruning && !holds_destination {
        return Some((Step::N, Column::None));
    }
    // c. registered Failed: Failed, its Bridge ID and code
    if let Some(failure) = talker.failure {
        return Some((Step::C, Column::Failed(failure)));
    }
    // d. changed mark at t: 16
    if talker.changed {
        return Some((Step::D, own_failure(16)));
    }
    // k. latency at t above that of its first join: 7
    if talker.has_grown() {
        return Some((Step::K, own_failure(7)));
    }
    // e. p holds a Talker registration: 4
    if ports[port - 1].talker.is_some() {
        return Some((Step::E, own_failure(4)));
    }
    // f. priority is no class: 13
    let class = match class {
        Some(class) => class,
        None => return Some((Step::F, own_failure(13))),
    };
    // j. p is a boundary port for the stream's class: 8
    if facts.boundaries[port - 1].of(class) {
        return Some((Step::J, own_failure(8)));
    }
    // l. a lower StreamID has the same destination and VLAN, each at its own t: 5
    if facts.fan_in.is_shared(stream_id, &talker.parameters) {
        return Some((Step::L, own_failure(5)));
    }
    // m. t may not bring streams in: 15
    if !facts.fan_in.may_bring_in(talker_port, settings.fan_in_limit) {
        return Some((Step::M, own_failure(15)));
    }
    // g. MaxFrameSize above p's largest: 14
    let is_large = talker.parameters.max_frame_size > port_settings.largest_frame;
    is_large.then(|| (Step::G, own_failure(14)))
}

/// Whether a stream has an entry on a port: not with column none and without a Listener
/// (Table 35-12). Steps h and i never give column none.
fn has_entry(facts: &Facts, stream_id: StreamId, port: usize) -> bool {
    let column_is_none =
        matches!(column_before_bandwidth(facts, stream_id, port), Some((_, Column::None)));
    !column_is_none || facts.registrations.streams[&stream_id][port - 1].listener.is_some()
}

/// The second from which each entry counts, by stream and port: that of the settled state where
/// there was an entry already, else that of this advance.
fn entries_since(facts: &Facts, clock: u32, before: &Settled) -> ByStreamAndPort<u32> {
    let mut since = BTreeMap::new();
    for stream_id in facts.registrations.streams.keys() {
        for port in 1..=facts.settings.ports.len() {
            if has_entry(facts, *stream_id, port) {
                let earlier = before
                    .streams
                    .get(stream_id)
                    .and_then(|settled| settled.ports[port - 1].entry_since);
                since.insert((*stream_id, port), earlier.unwrap_or(clock / 100));
            }
        }
    }
    since
}

/// Whether a Listener of that type on the port makes an Advertise stream reserve and forward.
fn is_ready(listener: Option<ListenerType>) -> bool {
    match listener {
        Some(ListenerType::Ready | ListenerType::ReadyFailed) => true,
        Some(ListenerType::AskingFailed) | None => false,
    }
}

/// Something for each stream on each port, port 1 first.
pub type ByStreamAndPort<T> = BTreeMap<(StreamId, usize), T>;

/// What all streams come to on all ports.
pub struct Decisions {
    pub columns: ByStreamAndPort<Decision>,
    /// The reserved sums of each port, port 1 first.
    pub totals: Vec<PerClass<u64>>,
}

/// Rank, the second of the entry and StreamID. The less is the more important: rank 0 before 1, then
/// older, then lower StreamID (35.2.4.1).
pub type Importance = (u8, u32, StreamId);

/// The importance of a stream that reaches step h on a port.
pub fn importance(
    facts: &Facts,
    entries_since: &ByStreamAndPort<u32>,
    stream_id: StreamId,
    port: usize,
) -> Importance {
    let Parameters { rank, .. } = reaching_talker(&facts.registrations.streams[&stream_id]);
    (rank, entries_since[&(stream_id, port)], stream_id)
}

/// The class of a stream that has passed step f.
pub fn class_reached(facts: &Facts, stream_id: StreamId) -> Class {
    let Parameters { priority, .. } = reaching_talker(&facts.registrations.streams[&stream_id]);
    facts.settings.class_of(priority).expect("step f has passed")
}

/// The columns of all streams on all ports, and the reserved sums of each port.
pub fn decide(facts: &Facts, entries_since: &ByStreamAndPort<u32>) -> Decisions {
    let mut decisions = Decisions { columns: BTreeMap::new(), totals: Vec::new() };
    for port in 1..=facts.settings.ports.len() {
        let mut reaching = decide_before_bandwidth(facts, port, entries_since, &mut decisions);
        let mut total = PerClass::default();
        for class in CLASSES {
            let mut by_importance = reaching.remove(&class).unwrap_or_default();
            by_importance.sort();
            for (_, _, stream_id) in by_importance {
                let limit = limit_in_force(&facts.settings.ports[port - 1], class, total.a);
                let decision = admit(facts, stream_id, port, limit, total.of_mut(class));
                decisions.columns.insert((stream_id, port), decision);
            }
        }
        decisions.totals.push(total);
    }
    decisions
}

/// Decides all streams on a port but those that reach step h. Gives these by class.
fn decide_before_bandwidth(
    facts: &Facts,
    port: usize,
    entries_since: &ByStreamAndPort<u32>,
    decisions: &mut Decisions,
) -> BTreeMap<Class, Vec<Importance>> {
    let mut reaching: BTreeMap<Class, Vec<Importance>> = BTreeMap::new();
    for stream_id in facts.registrations.streams.keys() {
        match column_before_bandwidth(facts, *stream_id, port) {
            Some((step, column)) => {
                let decision = Decision { step, column, compared: None };
                decisions.columns.insert((*stream_id, port), decision);
            }
            None => {
                let class = class_reached(facts, *stream_id);
                let importance = importance(facts, entries_since, *stream_id, port);
                reaching.entry(class).or_default().push(importance);
            }
        }
    }
    reaching
}

/// The limit of a class on a port, with what class A has reserved there in this advance. Class A is
/// settled first and never borrows; B's limit is limit A plus limit B less A's total (02, (i)).
pub fn limit_in_force(port: &PortSettings, class: Class, total_a: u64) -> BitsPerSecond {
    // Limit A counts as 0 where the port doesn't support A.
    let limit_a = if port.supports.a { port.limit.a } else { 0 };
    BitsPerSecond(match class {
        Class::A => port.limit.a,
        Class::B => limit_a + port.limit.b - total_a,
    })
}

/// Steps h and i for a stream, with the limit in force for its class and what more important ones
/// have reserved of it.
fn admit(
    facts: &Facts,
    stream_id: StreamId,
    port: usize,
    limit: BitsPerSecond,
    reserved: &mut u64,
) -> Decision {
    let ports = &facts.registrations.streams[&stream_id];
    let port_settings = &facts.settings.ports[port - 1];
    let Parameters { max_frame_size, max_interval_frames, .. } = reaching_talker(ports);
    let class = class_reached(facts, stream_id);
    let demand = rate(class, demand(port_settings, max_frame_size, max_interval_frames));
    let left = BitsPerSecond(limit.0 - *reserved);
    let compared = Some(Compared { demand, left });
    // h. demand above what is left: 1
    if demand > left {
        let failure = Failure { bridge_id: facts.settings.bridge_id, code: 1 };
        return Decision { step: Step::H, column: Column::Failed(failure), compared };
    }
    // i. Advertise. Only those with Listener Ready or Ready Failed reserve.
    if is_ready(ports[port - 1].listener_type()) {
        *reserved += demand.0;
    }
    Decision { step: Step::I, column: Column::Advertise, compared }
}

/// The parameters of a stream that has passed step a.
fn reaching_talker(ports: &[OnPort]) -> Parameters {
    let (_, talker) = talker_port(ports).expect("step a has passed");
    talker.parameters
}

/// The entry of Table 35-12.
pub fn entry(column: Column, listener: Option<ListenerType>) -> Entry {
    match column {
        Column::None if listener.is_none() => Entry::None,
        Column::Advertise if is_ready(listener) => Entry::Forward,
        _ => Entry::Filter,
    }
}

/// The Listener passed on from a port: none for column none or no Listener; as registered for
/// Advertise; Asking Failed for Failed.
fn passed_on(column: Column, listener: Option<ListenerType>) -> Option<ListenerType> {
    match column {
        Column::None => None,
        Column::Advertise => listener,
        Column::Failed(_) => listener.map(|_| ListenerType::AskingFailed),
    }
}

/// Two Listeners merged (Table 35-14): alike gives itself; none gives the other; any two unlike
/// give Ready Failed.
pub fn merge(one: Option<ListenerType>, other: Option<ListenerType>) -> Option<ListenerType> {
    match (one, other) {
        (None, _) => other,
        (_, None) => one,
        (Some(a), Some(b)) if a == b => one,
        (Some(_), Some(_)) => Some(ListenerType::ReadyFailed),
    }
}

/// Latency out: latency in plus the class latency of the port (0 without a class), at most
/// 2^32 - 1.
fn latency_out(settings: &Settings, port: usize, talker: &TalkerRegistration) -> u32 {
    let class = settings.class_of(talker.parameters.priority);
    let added = class.map_or(0, |class| settings.ports[port - 1].latency.of(class));
    let sum = u64::from(talker.accumulated_latency) + u64::from(added);
    sum.min(u64::from(u32::MAX)) as u32
}

/// What an advance comes to.
pub struct Settling {
    /// The boundary flags of each port, port 1 first.
    pub boundaries: Vec<PerClass<bool>>,
    /// The second from which each entry counts.
    pub since: ByStreamAndPort<u32>,
    pub decisions: Decisions,
}

/// Decides everything anew, for the registrations that are left at this clock.
pub fn settling(
    settings: &Settings,
    registrations: &Registrations,
    clock: u32,
    before: &Settled,
) -> Settling {
    let boundaries = domain::boundaries(settings, &registrations.domains);
    let facts = Facts::new(settings, registrations, &boundaries);
    let since = entries_since(&facts, clock, before);
    let decisions = decide(&facts, &since);
    Settling { boundaries, since, decisions }
}

/// The settled state that an advance leaves.
pub fn settle(
    settings: &Settings,
    registrations: &Registrations,
    clock: u32,
    before: &Settled,
) -> Settled {
    let Settling { boundaries, since, decisions } =
        settling(settings, registrations, clock, before);
    let Decisions { columns, totals } = decisions;
    let mut streams = BTreeMap::new();
    for (stream_id, ports) in &registrations.streams {
        let on_each = |port| {
            let column = columns[&(*stream_id, port)].column;
            (column, since.get(&(*stream_id, port)).copied())
        };
        streams.insert(*stream_id, settle_stream(settings, ports, on_each));
    }
    Settled { streams, totals, boundaries }
}

/// What is taken down of a stream, with its column on each port and the second of its entry.
fn settle_stream(
    settings: &Settings,
    ports: &[OnPort],
    on_each: impl Fn(usize) -> (Column, Option<u32>),
) -> SettledStream {
    let talker = talker_port(ports);
    let mut settled_ports = Vec::new();
    let mut merged = None;
    for (port, on_port) in (1..).zip(ports) {
        let (column, entry_since) = on_each(port);
        let listener = on_port.listener_type();
        merged = merge(merged, passed_on(column, listener));
        let latency_out = match (column, talker) {
            (Column::Advertise | Column::Failed(_), Some((_, talker))) => {
                latency_out(settings, port, talker)
            }
            (Column::None, _) | (_, None) => 0,
        };
        let entry = entry(column, listener);
        settled_ports.push(SettledOnPort {
            column,
            latency_out,
            listener: None,
            entry,
            entry_since,
        });
    }
    if let Some((talker_port, _)) = talker {
        settled_ports[talker_port - 1].listener = merged;
    }
    let parameters = talker.map_or(Parameters::default(), |(_, talker)| talker.parameters);
    SettledStream { parameters, ports: settled_ports }
}
