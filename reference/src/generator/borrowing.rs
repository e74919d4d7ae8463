//! Limits that class B meets by borrowing, and class A that takes its own back.

use super::events::{ASKING, JOINS, READY};
use super::frames::listeners_frame;
use super::history::History;
use super::plan::{Group, Plan, GREATEST_LIMIT};
use crate::random::Random;
use crate::settings::{PerClass, PortSettings, Settings};

/// Moves what is in limit B to limit A, all or a part, so that class B meets it by borrowing.
pub fn lend_to_class_b(random: &mut Random, port: &mut PortSettings) {
    let PerClass { a, b } = port.limit;
    let lent = random.one_of(&[b, b, b / 2]).min(GREATEST_LIMIT - a);
    port.limit = PerClass { a: a + lent, b: b - lent };
}

/// Makes streams of class B ask for around 2^40 bits per second, on ports with both limits so high.
pub fn make_great(random: &mut Random, settings: &mut Settings, groups: &mut [Group]) {
    for port in &mut settings.ports {
        port.supports = PerClass { a: true, b: true };
        port.largest_frame = port.largest_frame.max(1_000);
        port.limit = PerClass { a: GREATEST_LIMIT, b: GREATEST_LIMIT - random.below(2) };
    }
    for group in groups {
        let parameters = &mut group.first.parameters;
        if random.percent(70) {
            parameters.priority = settings.priority.b;
        }
        parameters.max_frame_size = random.one_of(&[64, 224, 480]);
        parameters.max_interval_frames = random.one_of(&[32_768, 65_535, 65_535]);
    }
}

/// What class A has reserved on a port goes and comes again, so that class B borrows it and gives
/// it back.
pub fn class_a_goes_and_comes(history: &mut History, plan: &Plan) {
    let port = history.port(plan);
    let priority = plan.settings.priority.a;
    let is_a = |group: &&Group| group.first.parameters.priority == priority;
    for listener_type in [ASKING, READY] {
        for group in plan.groups.iter().filter(is_a) {
            let joins = vec![history.random.one_of(&JOINS); group.members as usize];
            history.receive(port, &listeners_frame(group, &joins, listener_type));
        }
        let time = history.clock().saturating_add(history.random.below(3) as u32);
        history.advance(time);
    }
}
