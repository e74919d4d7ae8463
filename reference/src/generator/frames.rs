//! Frames that neighbours send, with what their streams mostly say.

use super::domains::domain_vector;
use super::events::{some_events, ASKING, JOINS, LV, READY, READY_FAILED};
use super::newer::of_some_version;
use super::plan::{accumulated_latency, Group, Plan};
use crate::declarations;
use crate::frame::{FrameDraft, MessageDraft, VectorDraft};
use crate::pdu::{AttributeType, Failure, Parameters, Talker};
use crate::random::Random;
use crate::settings::Settings;

/// Which of a group, from one on and how many: all, one, some, or one past its end.
fn some_members(random: &mut Random, group: &Group) -> (u64, u64) {
    match random.below(20) {
        0..=9 => (0, group.members),
        10..=14 => (random.below(group.members), 1),
        15..=17 => {
            let skip = random.below(group.members);
            (skip, random.between(1, group.members - skip))
        }
        18 => (0, group.members + 1),
        _ => (0, 0),
    }
}

/// A vector of neighbours of a group, of one of the known types.
fn vector(
    random: &mut Random,
    settings: &Settings,
    group: &Group,
    attribute_type: AttributeType,
) -> VectorDraft {
    if attribute_type == AttributeType::Domain {
        return domain_vector(random, settings);
    }
    let (skip, mut count) = some_members(random, group);
    let leave_all_event = u8::from(random.percent(7) || count == 0);
    if leave_all_event == 1 && random.percent(30) {
        count = 0;
    }
    let events = some_events(random, count, 9);
    let one_type = random.one_of(&[READY, READY, READY, READY_FAILED, ASKING]);
    let mixed_types = random.percent(25);
    let listener_types = match attribute_type {
        AttributeType::Listener => {
            (0..count).map(|_| if mixed_types { random.below(4) as u8 } else { one_type }).collect()
        }
        _ => Vec::new(),
    };
    let spare = random.percent(10);
    VectorDraft {
        leave_all_event,
        number_of_values: None,
        first_value: first_value(random, settings, group, attribute_type, skip),
        events,
        listener_types,
        spare_event: if spare { random.below(6) as u8 } else { 0 },
        spare_listener_type: if spare { random.below(4) as u8 } else { 0 },
        first_event_octet: None,
        last_event_octet: None,
    }
}

fn first_value(
    random: &mut Random,
    settings: &Settings,
    group: &Group,
    attribute_type: AttributeType,
    skip: u64,
) -> Vec<u8> {
    let mut talker = group.first;
    talker.stream_id = talker.stream_id.wrapping_add(skip);
    talker.parameters.destination = (talker.parameters.destination + skip) & ((1 << 48) - 1);
    if random.percent(25) {
        talker.accumulated_latency = accumulated_latency(random);
    }
    if random.percent(8) {
        change(random, settings, &mut talker.parameters);
    }
    match attribute_type {
        AttributeType::TalkerAdvertise | AttributeType::TalkerFailed => {
            if attribute_type == AttributeType::TalkerFailed {
                let any_code = random.octet();
                let code = random.one_of(&[0, 1, 2, 8, 255, any_code]);
                talker.failure = Some(Failure { bridge_id: random.bits(), code });
            }
            let mut octets = declarations::first_value(&talker);
            if random.percent(10) {
                octets[20] |= random.below(16) as u8; // reserved bits
            }
            octets
        }
        AttributeType::Listener => talker.stream_id.to_be_bytes().to_vec(),
        AttributeType::Domain => {
            vec![random.below(3) as u8, random.below(3) as u8, 0, settings.vlan as u8]
        }
    }
}

/// Changes one of the parameters that a join must repeat.
fn change(random: &mut Random, settings: &Settings, parameters: &mut Parameters) {
    match random.below(6) {
        0 => parameters.destination ^= 1 << random.below(48),
        1 => parameters.vlan ^= 1 << random.below(16),
        2 => parameters.max_frame_size ^= 1 << random.below(16),
        3 => parameters.max_interval_frames ^= 1 << random.below(16),
        4 => {
            parameters.priority =
                random.one_of(&[settings.priority.a, settings.priority.b, parameters.priority ^ 1])
        }
        _ => parameters.rank ^= 1,
    }
}

/// A vector of very many values. Few of them join streams outside the group.
fn wide_vector(
    random: &mut Random,
    settings: &Settings,
    group: &Group,
    attribute_type: AttributeType,
) -> VectorDraft {
    let most = match attribute_type {
        AttributeType::Listener => 2_500,
        AttributeType::Domain => 256,
        _ => 4_300,
    };
    let count = random.between(group.members, most);
    let listens = attribute_type == AttributeType::Listener;
    let mut events = Vec::new();
    let mut listener_types = Vec::new();
    for n in 0..count {
        let joins = n < group.members || random.below(2_000) == 0;
        events.push(if joins { random.one_of(&JOINS) } else { random.one_of(&[2, 4, LV]) });
        if listens {
            listener_types.push(random.below(4) as u8);
        }
    }
    VectorDraft {
        leave_all_event: u8::from(random.percent(10)),
        first_value: first_value(random, settings, group, attribute_type, 0),
        events,
        listener_types,
        ..VectorDraft::default()
    }
}

/// A frame of Listeners of a whole group, with these events.
pub fn listeners_frame(group: &Group, events: &[u8], listener_type: u8) -> Vec<u8> {
    let vector = VectorDraft {
        first_value: group.first.stream_id.to_be_bytes().to_vec(),
        events: events.to_vec(),
        listener_types: vec![listener_type; events.len()],
        ..VectorDraft::default()
    };
    FrameDraft::new(vec![MessageDraft::new(AttributeType::Listener, vec![vector])]).octets()
}

/// A frame that joins a group's Talkers with this latency.
pub fn talkers_frame(random: &mut Random, group: &Group, accumulated_latency: u32) -> Vec<u8> {
    let vector = VectorDraft {
        first_value: declarations::first_value(&Talker { accumulated_latency, ..group.first }),
        events: vec![random.one_of(&JOINS); group.members as usize],
        ..VectorDraft::default()
    };
    let message = MessageDraft::new(AttributeType::TalkerAdvertise, vec![vector]);
    FrameDraft::new(vec![message]).octets()
}

/// The type of what a group mostly has to say on a port.
fn some_type(random: &mut Random, group: &Group, port: u32) -> AttributeType {
    let talks = if group.talker_port == port { random.percent(88) } else { random.percent(10) };
    match random.below(20) {
        0 => AttributeType::Domain,
        _ if !talks => AttributeType::Listener,
        1..=5 => AttributeType::TalkerFailed,
        _ => AttributeType::TalkerAdvertise,
    }
}

/// A well-formed frame for a port, with what its streams mostly send there.
pub fn frame(random: &mut Random, plan: &Plan, port: u32) -> FrameDraft {
    let mut messages = Vec::new();
    for _ in 0..random.one_of(&[1, 1, 1, 1, 1, 1, 2, 2, 3, 4]) {
        let group = random.one_of(&plan.groups);
        let attribute_type = some_type(random, &group, port);
        let mut vectors = vec![vector(random, &plan.settings, &group, attribute_type)];
        while random.percent(25) {
            let group = random.one_of(&plan.groups);
            vectors.push(vector(random, &plan.settings, &group, attribute_type));
        }
        if random.percent(1) {
            vectors.clear();
        }
        messages.push(MessageDraft::new(attribute_type, vectors));
    }
    match random.below(100) {
        0 => messages.clear(),
        1 => {
            let group = random.one_of(&plan.groups);
            let attribute_type = some_type(random, &group, port);
            let vector = wide_vector(random, &plan.settings, &group, attribute_type);
            messages = vec![MessageDraft::new(attribute_type, vec![vector])];
        }
        2 => {
            // As many Messages as fit, mostly.
            while FrameDraft::new(messages.clone()).octets().len() < 1_400 {
                let group = random.one_of(&plan.groups);
                let attribute_type = some_type(random, &group, port);
                let vector = vector(random, &plan.settings, &group, attribute_type);
                messages.push(MessageDraft::new(attribute_type, vec![vector]));
            }
        }
        _ => {}
    }
    of_some_version(random, messages, unknown_message)
}

/// A Message of a type above 4, which only a higher version skips.
pub fn unknown_message(random: &mut Random) -> MessageDraft {
    let length = random.below(30) as usize;
    MessageDraft {
        attribute_type: random.one_of(&[5, 6, 100, 255]),
        attribute_length: random.octet(),
        has_list_length: true,
        list_length_off: 0,
        vectors: Vec::new(),
        list_end_mark: random.percent(50),
        after_list_end_mark: random.octets(length),
    }
}
