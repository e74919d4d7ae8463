//! Streams and Domains that leave.

use super::domains::{domain_pdu, own_domain_vectors, some_domain};
use super::events::{ASKING, LV, READY};
use super::frames::frame;
use super::history::History;
use super::plan::{Group, Plan};
use crate::frame::{FrameDraft, MessageDraft, VectorDraft};
use crate::pdu::AttributeType;

/// A group of streams, or a Domain, leaves on a port, by Lv or by LeaveAll.
pub fn leave(
    history: &mut History,
    plan: &Plan,
    port: u32,
    group: &Group,
    attribute_type: AttributeType,
) {
    let mut vector = VectorDraft {
        first_value: vec![0; attribute_type.first_value_length()],
        ..VectorDraft::default()
    };
    if history.random.percent(35) {
        vector.leave_all_event = 1;
    } else if attribute_type == AttributeType::Domain {
        vector.first_value = some_domain(&mut history.random, &plan.settings).octets();
        vector.events = vec![LV];
    } else {
        let stream_id = group.first.stream_id.to_be_bytes();
        vector.first_value[..8].copy_from_slice(&stream_id);
        vector.events = vec![LV; group.members as usize];
        if attribute_type == AttributeType::Listener {
            vector.listener_types =
                vec![history.random.one_of(&[READY, ASKING]); vector.events.len()];
        }
    }
    let message = MessageDraft::new(attribute_type, vec![vector]);
    history.receive(port, &FrameDraft::new(vec![message]).octets());
}

/// A group or a Domain leaves; before the leave time is over it leaves again, joins or does
/// nothing; then time goes to the end of the leave time, counted from the first leaving.
pub fn leave_and_wait(history: &mut History, plan: &Plan) {
    let group = history.random.one_of(&plan.groups);
    let port = if history.random.percent(50) { group.talker_port } else { history.port(plan) };
    let attribute_type = match history.random.below(5) {
        0 => AttributeType::Domain,
        _ if port != group.talker_port => AttributeType::Listener,
        1 => AttributeType::TalkerFailed,
        _ => AttributeType::TalkerAdvertise,
    };
    let begun = history.clock();
    let leave_time = plan.settings.leave_time;
    leave(history, plan, port, &group, attribute_type);
    let part = history.random.below(u64::from(leave_time)) as u32;
    history.advance(begun.saturating_add(part));
    match history.random.below(6) {
        0..=2 => leave(history, plan, port, &group, attribute_type),
        3 => {
            let frame = frame(&mut history.random, plan, port);
            history.receive(port, &frame.octets());
        }
        _ => {}
    }
    if history.random.percent(40) {
        history.advance(begun.saturating_add(leave_time - 1));
    }
    if history.random.percent(80) {
        history.advance(begun.saturating_add(leave_time));
    }
    if attribute_type == AttributeType::Domain {
        let vectors = own_domain_vectors(&mut history.random, &plan.settings);
        history.receive(port, &domain_pdu(vectors));
    }
}
