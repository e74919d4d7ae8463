//! What neighbours say of the domain, and wrong VLANs.

use super::events::{JOINS, LV};
use super::history::History;
use super::plan::Plan;
use crate::domain;
use crate::frame::{FrameDraft, MessageDraft, VectorDraft};
use crate::pdu::{AttributeType, Domain};
use crate::random::Random;
use crate::settings::{self, Class, Settings, CLASSES, GREATEST_VLAN};

/// What a neighbour declares of a class that has the bridge's own priority there. The VLAN is
/// compared with nothing.
fn own_domain(random: &mut Random, settings: &Settings, class: Class) -> Domain {
    let any_vlan = random.bits() as u16;
    Domain {
        class_id: domain::class_id(class),
        priority: settings.priority.of(class),
        vlan: random.one_of(&[settings.vlan, settings.vlan, settings.vlan, 0, any_vlan]),
    }
}

/// The same with another priority.
fn other_domain(random: &mut Random, settings: &Settings, class: Class) -> Domain {
    let mut domain = own_domain(random, settings, class);
    domain.priority = (domain.priority + random.between(1, 7) as u8) % 8;
    domain
}

/// A Domain value: mostly of the bridge's own domain, else of another one or not held at all. With
/// more values behind it one that isn't held may reach one that is.
pub fn some_domain(random: &mut Random, settings: &Settings) -> Domain {
    let class = random.one_of(&CLASSES);
    let mut domain = own_domain(random, settings, class);
    match random.below(20) {
        0..=12 => {}
        13..=14 => domain.priority = random.below(8) as u8,
        15 => domain.class_id = random.one_of(&[0, 7, 250, 255]),
        16 => domain.priority = random.one_of(&[8, 250, 255]),
        _ => {
            domain.class_id = random.one_of(&[3, 4, 4]);
            domain.priority = random.below(8) as u8;
        }
    }
    domain
}

/// A vector of some Domain values.
pub fn domain_vector(random: &mut Random, settings: &Settings) -> VectorDraft {
    let count = random.one_of(&[1, 1, 1, 1, 1, 1, 2, 2, 3, 4, 0]);
    let style = random.below(20);
    let one_join = random.one_of(&JOINS);
    let event = |random: &mut Random| match style {
        0..=13 => one_join,
        14..=16 => LV,
        _ => random.below(6) as u8,
    };
    VectorDraft {
        leave_all_event: u8::from(count == 0 || random.percent(12)),
        first_value: some_domain(random, settings).octets(),
        events: (0..count).map(|_| event(random)).collect(),
        spare_event: if random.percent(10) { random.below(6) as u8 } else { 0 },
        ..VectorDraft::default()
    }
}

/// A vector of one Domain that joins.
fn domain_join(random: &mut Random, domain: Domain) -> VectorDraft {
    VectorDraft {
        first_value: domain.octets(),
        events: vec![random.one_of(&JOINS)],
        ..VectorDraft::default()
    }
}

/// A PDU of Domain vectors.
pub fn domain_pdu(vectors: Vec<VectorDraft>) -> Vec<u8> {
    FrameDraft::new(vec![MessageDraft::new(AttributeType::Domain, vectors)]).octets()
}

/// The vectors of a neighbour in the bridge's own domain, for both classes; one vector where the
/// priorities follow each other as the class IDs do.
pub fn own_domain_vectors(random: &mut Random, settings: &Settings) -> Vec<VectorDraft> {
    let class_b = own_domain(random, settings, Class::B);
    let mut first = domain_join(random, class_b);
    if settings.priority.a == settings.priority.b + 1 && random.percent(70) {
        first.events.push(random.one_of(&JOINS));
        return vec![first];
    }
    let class_a = own_domain(random, settings, Class::A);
    vec![first, domain_join(random, class_a)]
}

/// The vectors of a neighbour that isn't in the bridge's own domain, or only for one class.
pub fn strange_domain_vectors(random: &mut Random, settings: &Settings) -> Vec<VectorDraft> {
    let mut vectors = match random.below(4) {
        0 => Vec::new(),
        1 => own_domain_vectors(random, settings),
        _ => {
            let class = random.one_of(&CLASSES);
            let domain = own_domain(random, settings, class);
            vec![domain_join(random, domain)]
        }
    };
    if random.percent(60) {
        let class = random.one_of(&CLASSES);
        let domain = other_domain(random, settings, class);
        vectors.push(domain_join(random, domain));
    }
    vectors
}

/// What the neighbour of a port says of the domain, mostly that it is in the bridge's own; with
/// LeaveAll where it says so again. Nothing from one that knows no domain.
fn domain_frame(history: &mut History, plan: &Plan, leave_all_event: u8) -> Option<Vec<u8>> {
    let (random, settings) = (&mut history.random, &plan.settings);
    let mut vectors = match random.percent(86) {
        true => own_domain_vectors(random, settings),
        false => strange_domain_vectors(random, settings),
    };
    vectors.first_mut()?.leave_all_event = leave_all_event;
    Some(domain_pdu(vectors))
}

/// The neighbours of all ports say what domain they are in.
pub fn hear_domains(history: &mut History, plan: &Plan) {
    let mut ports: Vec<u32> = (1..=plan.ports()).collect();
    history.random.shuffle(&mut ports);
    for port in ports {
        if let Some(frame) = domain_frame(history, plan, 0) {
            history.receive(port, &frame);
        }
    }
}

/// A neighbour says again what domain it is in, at times after another one. What it doesn't say
/// again expires at the end of the leave time.
pub fn hear_domain_again(history: &mut History, plan: &Plan) {
    let port = history.port(plan);
    if history.random.percent(40) {
        let vectors = strange_domain_vectors(&mut history.random, &plan.settings);
        history.receive(port, &domain_pdu(vectors));
        history.some_advance(plan);
    }
    let begun = history.clock();
    if let Some(frame) = domain_frame(history, plan, 1) {
        history.receive(port, &frame);
    }
    let leave_time = plan.settings.leave_time;
    if history.random.percent(40) {
        history.advance(begun.saturating_add(leave_time - 1));
    }
    if history.random.percent(60) {
        history.advance(begun.saturating_add(leave_time));
    }
}

/// A VLAN of 0 or 4,095, one with a bit above it set, or neither VLAN nor what follows it.
pub fn wrong_vlan(random: &mut Random, settings: &mut Vec<u8>) {
    match random.below(5) {
        0 => settings[11] |= 1 << random.between(4, 6),
        1..=2 => {
            let vlan = random.one_of(&[0, GREATEST_VLAN + 1]) | u16::from(settings[11] & 0x80) << 8;
            settings[11..13].copy_from_slice(&vlan.to_be_bytes());
        }
        _ => drop(settings.drain(11..settings::HEAD_LENGTH)),
    }
}
