//! Plans made at random.

use super::borrowing::{lend_to_class_b, make_great};
use super::fan_in::share_addresses;
use super::plan::{accumulated_latency, Group, Plan, Size, GREATEST_LIMIT};
use crate::pdu::{Parameters, Talker};
use crate::random::Random;
use crate::settings::{PerClass, PortSettings, Settings, CLASSES, GREATEST_FAN_IN, GREATEST_VLAN};
use crate::settling;

pub fn size(random: &mut Random) -> Size {
    match random.below(100) {
        0..=64 => Size::Small,
        65..=84 => Size::Middle,
        85..=95 => Size::Full,
        _ => Size::Large,
    }
}

pub fn plan(random: &mut Random, size: Size) -> Plan {
    let mut settings = settings(random, size);
    let rivals = random.percent(30);
    let members = members(random, size, rivals);
    let mut groups = Vec::new();
    for (place, members) in (0..).zip(members) {
        groups.push(group(random, &settings, size, place, members));
    }
    if rivals {
        make_rivals(random, &mut settings, &mut groups);
    }
    if random.percent(12) {
        share_addresses(random, &mut groups);
    }
    choose_limits(random, &mut settings, &groups, rivals);
    if random.percent(3) {
        make_great(random, &mut settings, &mut groups);
    }
    Plan { settings, groups, size, rivals }
}

/// Settings without limits yet, and without pruning.
fn settings(random: &mut Random, size: Size) -> Settings {
    let port_count = match size {
        Size::Small => random.one_of(&[1, 2, 2, 2, 2, 2, 3, 3, 3, 3, 4, 4, 5, 8]),
        Size::Middle => random.between(2, 8) as usize,
        Size::Full => random.one_of(&[2, 2, 2, 3, 3, 4, 8]),
        Size::Large => random.between(2, 4) as usize,
    };
    let priority = if random.percent(70) {
        PerClass { a: 3, b: 2 }
    } else {
        let a = random.below(8) as u8;
        PerClass { a, b: (a + random.between(1, 7) as u8) % 8 }
    };
    let ports: Vec<PortSettings> = (0..port_count).map(|_| port_settings(random)).collect();
    let any_leave_time = random.between(1, 16_383) as u32;
    let leave_time = random.one_of(&[60, 60, 60, 100, 1, 2, 10, 250, 16_383, any_leave_time]);
    let bridge_id = random.bits() >> random.one_of(&[0, 0, 16, 63]);
    let any_vlan = random.between(1, u64::from(GREATEST_VLAN)) as u16;
    let vlan = random.one_of(&[2, 2, 2, 1, GREATEST_VLAN, any_vlan]);
    let fan_in_limit = match random.below(12) {
        0..=5 => 0,
        6..=7 => random.between(1, 3) as u8,
        8..=10 => random.between(1, port_count as u64) as u8,
        _ => random.below(u64::from(GREATEST_FAN_IN) + 1) as u8,
    };
    Settings { bridge_id, priority, leave_time, pruning: false, vlan, fan_in_limit, ports }
}

fn port_settings(random: &mut Random) -> PortSettings {
    let any_overhead = random.octet();
    let overhead = random.one_of(&[42, 42, 42, 42, 0, 255, any_overhead]);
    let largest_frame = match random.below(12) {
        0..=5 => 1522,
        6 => 1518,
        7 => 224,
        8 => 300,
        9 => 65_535,
        10 => random.between(60, 1600) as u16,
        _ => random.one_of(&[0, 64, 223]),
    };
    let latency = |random: &mut Random| match random.below(8) {
        0..=2 => 0,
        3..=5 => random.between(1, 2_000_000) as u32,
        6 => random.bits() as u32,
        _ => u32::MAX - random.below(3) as u32,
    };
    PortSettings {
        supports: PerClass { a: random.percent(88), b: random.percent(85) },
        sends_twice: random.percent(25),
        overhead,
        largest_frame,
        limit: PerClass { a: 0, b: 0 },
        latency: PerClass { a: latency(random), b: latency(random) },
    }
}

/// The members of each group.
fn members(random: &mut Random, size: Size, rivals: bool) -> Vec<u64> {
    let mut members = Vec::new();
    match size {
        Size::Small | Size::Middle | Size::Large => {
            let most = if size == Size::Small { 4 } else { 8 };
            let least = if rivals { 3 } else { 1 };
            for _ in 0..random.between(least, most) {
                members.push(match random.below(10) {
                    0..=4 => 1,
                    5..=8 => random.between(2, 4),
                    _ => random.between(5, 12),
                });
            }
        }
        Size::Full => {
            let mut to_go = random.one_of(&[60, 61, 62, 63, 64, 64, 64, 64, 65, 66, 70]);
            while to_go > 0 {
                let part = random.one_of(&[1, 2, 5, 20, 30, 64]).min(to_go);
                members.push(part);
                to_go -= part;
            }
        }
    }
    members
}

/// The group at a place, of so many members.
fn group(random: &mut Random, settings: &Settings, size: Size, place: u64, members: u64) -> Group {
    let mac = 0x0200_0000_0001 + if size == Size::Full { place } else { random.below(3) };
    let unique_id = match random.below(10) {
        0..=3 => random.below(4),
        4..=5 => 0x10000 - members, // the last one is FFFF
        6 => 0x00ff,
        7 => 0,
        _ => random.below(0xff00),
    };
    let stream_id = match random.below(40) {
        0 => 0,
        1 => u64::MAX - (members - 1),
        _ => mac << 16 | unique_id,
    };
    let destination = match random.below(16) {
        0 => (1 << 48) - members, // the last one is at the field's bound
        1 => 0,
        _ => 0x91e0_f000_fe00 + 0x40 * place,
    };
    let talker_port = match size {
        Size::Full if random.percent(60) => 1,
        _ => random.between(1, settings.ports.len() as u64) as u32,
    };
    let first = Talker {
        stream_id,
        parameters: Parameters { destination, ..parameters(random, settings) },
        accumulated_latency: accumulated_latency(random),
        failure: None,
    };
    Group { first, members, talker_port }
}

fn parameters(random: &mut Random, settings: &Settings) -> Parameters {
    let largest = random.one_of(&settings.ports).largest_frame;
    let max_frame_size = match random.below(16) {
        0..=5 => 224,
        6..=7 => random.one_of(&[64, 100, 128, 200]),
        8 => largest.saturating_sub(1),
        9..=10 => largest,
        11 => largest.saturating_add(1),
        12 => 0,
        13 => random.one_of(&[1522, 65_535]),
        _ => random.between(0, 1600) as u16,
    };
    let priority = match random.below(20) {
        0..=9 => settings.priority.a,
        10..=16 => settings.priority.b,
        _ => random.below(8) as u8,
    };
    let any_vlan = random.bits() as u16;
    Parameters {
        destination: 0,
        vlan: random.one_of(&[2, 2, 2, 0, 0x0fff, 0xffff, any_vlan]),
        max_frame_size,
        max_interval_frames: random.one_of(&[1, 1, 1, 1, 1, 1, 2, 2, 3, 10, 0, 65_535]),
        priority,
        rank: random.percent(65).into(),
    }
}

/// Makes all streams ask for the same in one class, so that importance alone decides among them.
fn make_rivals(random: &mut Random, settings: &mut Settings, groups: &mut [Group]) {
    for port in &mut settings.ports {
        port.supports = PerClass { a: true, b: true };
        port.largest_frame = port.largest_frame.max(1_000);
    }
    let first = groups[0].first.parameters;
    let one_port = random.percent(60).then_some(groups[0].talker_port);
    let priority = random.one_of(&[settings.priority.a, settings.priority.b]);
    let max_frame_size = random.one_of(&[64, 224, 1_000]);
    let max_interval_frames = random.between(1, 3) as u16;
    let both_ranks = random.percent(50);
    for group in groups {
        group.talker_port = one_port.unwrap_or(group.talker_port);
        let parameters = &mut group.first.parameters;
        parameters.priority = priority;
        parameters.max_frame_size = max_frame_size;
        parameters.max_interval_frames = max_interval_frames;
        if !both_ranks {
            parameters.rank = first.rank;
        }
    }
}

/// Limits around sums of demands, so that admission is decided both ways and exact fits occur.
fn choose_limits(random: &mut Random, settings: &mut Settings, groups: &[Group], rivals: bool) {
    let priority = settings.priority;
    for port in &mut settings.ports {
        for class in CLASSES {
            let mut demands = Vec::new();
            for group in groups {
                let parameters = &group.first.parameters;
                if parameters.priority == priority.of(class) {
                    let demand = settling::demand(
                        port,
                        parameters.max_frame_size,
                        parameters.max_interval_frames,
                    );
                    let rate = settling::rate(class, demand).0;
                    demands.extend((0..group.members).map(|_| rate));
                }
            }
            let share = random.one_of(&[20, 50, 80, 100]);
            let sum: u64 = demands.into_iter().filter(|_| random.percent(share)).sum();
            let limit = match random.below(if rivals { 14 } else { 20 }) {
                0..=6 => sum,
                7..=10 => sum.saturating_sub(1),
                11 => sum + 1,
                12..=13 => sum + random.below(64_000),
                14 => 0,
                15..=16 => 75_000_000,
                17 => GREATEST_LIMIT,
                _ => random.below(200_000_000),
            };
            *port.limit.of_mut(class) = limit.min(GREATEST_LIMIT);
        }
        if random.percent(30) {
            lend_to_class_b(random, port);
        }
    }
}
