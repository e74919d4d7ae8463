//! What is counted of the domain.

use super::counts::Counts;
use super::held::talker_port;
use crate::bridge::Bridge;
use crate::domain::{self, Condition, DomainRegistration, Domains, SLOTS};
use crate::mrp::Event;
use crate::pdu::{self, AttributeType, Domain, Pdu, Value, Vector};
use crate::settings::{PerClass, CLASSES};
use crate::settling::Step;

/// Rows of the table.
pub const ROWS: &[&str] = &[
    "Domain 5 with priority 0 registered",
    "Domain 5 with priority 1 registered",
    "Domain 5 with priority 2 registered",
    "Domain 5 with priority 3 registered",
    "Domain 5 with priority 4 registered",
    "Domain 5 with priority 5 registered",
    "Domain 5 with priority 6 registered",
    "Domain 5 with priority 7 registered",
    "Domain 6 with priority 0 registered",
    "Domain 6 with priority 1 registered",
    "Domain 6 with priority 2 registered",
    "Domain 6 with priority 3 registered",
    "Domain 6 with priority 4 registered",
    "Domain 6 with priority 5 registered",
    "Domain 6 with priority 6 registered",
    "Domain 6 with priority 7 registered",
    "Domain of an unsupported class registered",
    "Domain class ID out of range",
    "Domain priority out of range",
    "Domain out of range leaves",
    "Domain vector with values in range and out of range",
    "Domain vector of both class IDs",
    "Domain LeaveAll with values out of range alone",
    "Domain VLAN replaced",
    "Domain leaving begun by Lv",
    "Domain leaving begun by LeaveAll",
    "Domain leaving begun again, the first time stays",
    "Domain leaving ended by a join",
    "Domain removed exactly at the leave time",
    "Domain removed later",
    "Domain kept though leaving",
    "boundary: not registered",
    "boundary: other priority",
    "boundary: other priority beside the bridge's own",
    "boundary: not supported",
    "no boundary: registered",
    "no boundary: supported nowhere",
    "boundary of class A alone",
    "boundary of class B alone",
    "boundary flag set",
    "boundary flag cleared",
    "code 8 with a Ready listener",
    "code 8 before 14",
    "code 13 on a boundary port of both classes",
    "Advertise from a boundary port",
    "Advertise on a boundary port of the other class",
];

/// The Domain values of a PDU with their events.
pub fn domains_of(pdu: &Pdu) -> impl Iterator<Item = (Event, Domain)> + '_ {
    pdu.vectors().flat_map(domains_of_vector)
}

fn domains_of_vector(vector: &Vector) -> impl Iterator<Item = (Event, Domain)> + '_ {
    vector.values.iter().filter_map(|(event, value)| match value {
        Value::Domain(domain) => Some((*event, *domain)),
        _ => None,
    })
}

/// Whether a bridge holds such a value.
pub fn is_held(domain: Domain) -> bool {
    domain::slot(domain.class_id, domain.priority).is_some()
}

/// Domain values in range and out of range.
pub fn domain_vector(counts: &mut Counts, vector: &Vector) {
    let domains: Vec<(Event, Domain)> = domains_of_vector(vector).collect();
    for (event, domain) in &domains {
        let class_id_held = domain::CLASS_IDS.contains(&domain.class_id);
        counts.count_if("Domain class ID out of range", event.is_join() && !class_id_held);
        let dropped = !is_held(*domain);
        let by_priority = class_id_held && dropped;
        counts.count_if("Domain priority out of range", event.is_join() && by_priority);
        counts.count_if("Domain out of range leaves", *event == Event::Lv && dropped);
    }
    let joined: Vec<Domain> =
        domains.iter().filter(|(event, _)| event.is_join()).map(|(_, domain)| *domain).collect();
    let held = joined.iter().filter(|domain| is_held(**domain)).count();
    let mixed = held > 0 && held < joined.len();
    counts.count_if("Domain vector with values in range and out of range", mixed);
    counts.count_if("Domain vector of both class IDs", held > 1);
    let strange = !joined.is_empty() && held == 0;
    let leaves_all = vector.leave_all && strange;
    counts.count_if("Domain LeaveAll with values out of range alone", leaves_all);
}

/// What an accepted PDU did to the Domain registrations of its port.
pub fn domains(counts: &mut Counts, before: &Bridge, after: &Bridge, port: usize, pdu: &Pdu) {
    let (was, is) =
        (&before.registrations.domains[port - 1], &after.registrations.domains[port - 1]);
    let leaves_all = pdu
        .vectors()
        .any(|vector| vector.leave_all && vector.attribute_type == AttributeType::Domain);
    for slot in 0..SLOTS {
        let class_id = domain::CLASS_IDS[slot / domain::PRIORITIES];
        let priority = (slot % domain::PRIORITIES) as u8;
        if was[slot].is_none() && is[slot].is_some() {
            counts.count(&format!("Domain {class_id} with priority {priority} registered"));
        }
        let left = domains_of(pdu).any(|(event, domain)| {
            event == Event::Lv && domain::slot(domain.class_id, domain.priority) == Some(slot)
        });
        if let (Some(was), Some(is)) = (was[slot], is[slot]) {
            domain_kept(counts, was, is, (left, leaves_all), before.clock);
        }
    }
    let supports = before.settings.ports[port - 1].supports;
    for class in CLASSES {
        let priorities = |domains: &Domains| domain::priorities(domains, class).count();
        let more = priorities(is) > priorities(was);
        counts.count_if("Domain of an unsupported class registered", more && !supports.of(class));
    }
}

/// A Domain registration before and after a PDU that has an Lv of it, or a LeaveAll.
fn domain_kept(
    counts: &mut Counts,
    was: DomainRegistration,
    is: DomainRegistration,
    (left, left_by_all): (bool, bool),
    clock: u32,
) {
    counts.count_if("Domain VLAN replaced", was.vlan != is.vlan);
    let begun = was.leaving.is_none() && is.leaving.is_some();
    counts.count_if("Domain leaving begun by Lv", begun && !left_by_all);
    counts.count_if("Domain leaving begun by LeaveAll", begun && !left);
    let ended = was.leaving.is_some() && is.leaving.is_none();
    counts.count_if("Domain leaving ended by a join", ended);
    let earlier = was.leaving.map_or(false, |begun| begun < clock);
    let again = earlier && is.leaving.is_some() && (left || left_by_all);
    counts.count_if("Domain leaving begun again, the first time stays", again);
}

pub fn domains_left(counts: &mut Counts, time: u32, before: &Bridge) {
    let leave_time = before.settings.leave_time;
    let domains = before.registrations.domains.iter().flatten().flatten();
    for begun in domains.filter_map(|domain| domain.leaving) {
        let gone_for = time - begun;
        counts.count_if("Domain removed exactly at the leave time", gone_for == leave_time);
        counts.count_if("Domain removed later", gone_for > leave_time);
        counts.count_if("Domain kept though leaving", gone_for < leave_time);
    }
}

/// The boundary flags that an advance has decided.
pub fn boundaries(counts: &mut Counts, before: &Bridge, after: &Bridge) {
    let Bridge { settings, registrations, settled, .. } = after;
    for port in 1..=settings.ports.len() {
        for class in CLASSES {
            let registered = || domain::priorities(&registrations.domains[port - 1], class);
            let supported = settings.ports[port - 1].supports.of(class);
            match domain::condition(settings, &registrations.domains, port, class) {
                Some(Condition::NotRegistered) => counts.count("boundary: not registered"),
                Some(Condition::OtherPriority) => {
                    counts.count("boundary: other priority");
                    let own = registered().any(|held| held == settings.priority.of(class));
                    counts.count_if("boundary: other priority beside the bridge's own", own);
                }
                Some(Condition::NotSupported) => counts.count("boundary: not supported"),
                None if supported => counts.count("no boundary: registered"),
                None => counts.count("no boundary: supported nowhere"),
            }
            let was = before.settled.boundaries[port - 1].of(class);
            let is = settled.boundaries[port - 1].of(class);
            counts.count_if("boundary flag set", !was && is);
            counts.count_if("boundary flag cleared", was && !is);
        }
        let both = settings.ports[port - 1].supports == PerClass { a: true, b: true };
        let flags = settled.boundaries[port - 1];
        counts.count_if("boundary of class A alone", both && flags.a && !flags.b);
        counts.count_if("boundary of class B alone", both && flags.b && !flags.a);
    }
}

/// A column on or beside a boundary port.
pub fn at_the_edge(counts: &mut Counts, bridge: &Bridge, stream_id: u64, port: usize, step: Step) {
    let flags = |port: usize| bridge.settled.boundaries[port - 1];
    let settled = &bridge.settled.streams[&stream_id];
    let on_port = &bridge.registrations.streams[&stream_id][port - 1];
    let edge = step == Step::J;
    let asked = on_port
        .listener
        .as_ref()
        .map_or(false, |listener| listener.listener_type != pdu::ListenerType::AskingFailed);
    counts.count_if("code 8 with a Ready listener", edge && asked);
    let largest = bridge.settings.ports[port - 1].largest_frame;
    let large = settled.parameters.max_frame_size > largest;
    counts.count_if("code 8 before 14", edge && large);
    let both = flags(port) == PerClass { a: true, b: true };
    counts.count_if("code 13 on a boundary port of both classes", step == Step::F && both);
    if let (Step::I, Some(at), Some(class)) = (
        step,
        talker_port(bridge, stream_id),
        bridge.settings.class_of(settled.parameters.priority),
    ) {
        counts.count_if("Advertise from a boundary port", flags(at + 1).of(class));
        let other = flags(port).a || flags(port).b;
        counts.count_if("Advertise on a boundary port of the other class", other);
    }
}
