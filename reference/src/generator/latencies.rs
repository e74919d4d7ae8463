//! Latencies that grow and fall back.

use super::frames::talkers_frame;
use super::history::History;
use super::leaving::leave;
use super::plan::Plan;
use crate::pdu::AttributeType;

/// The latency of a group's path moves a little, up and down. The group may begin to leave before,
/// and its path may be as before at the end.
pub fn path_changes(history: &mut History, plan: &Plan) {
    let group = history.random.one_of(&plan.groups);
    if history.random.percent(20) {
        let attribute_type = AttributeType::TalkerAdvertise;
        leave(history, plan, group.talker_port, &group, attribute_type);
        history.some_advance(plan);
    }
    let first = group.first.accumulated_latency;
    for _ in 0..history.random.between(1, 4) {
        let step = history.random.one_of(&[1, 1, 1, 2, 1_000]);
        let latency = match history.random.below(7) {
            0..=3 => first.saturating_add(step),
            4..=5 => first,
            _ => first.saturating_sub(step),
        };
        let frame = talkers_frame(&mut history.random, &group, latency);
        history.receive(group.talker_port, &frame);
        if history.random.percent(70) {
            let time = history.clock().saturating_add(history.random.below(3) as u32);
            history.advance(time);
        }
    }
    if history.random.percent(60) {
        let frame = talkers_frame(&mut history.random, &group, first);
        history.receive(group.talker_port, &frame);
    }
}
