//! Streams that share an address, and wrong limits of inbound ports.

use super::plan::Group;
use crate::pdu::Parameters;
use crate::random::Random;
use crate::settings::GREATEST_FAN_IN;
use crate::table::layout::FAN_IN_LIMIT;

/// Gives some groups the addresses of the first, rarely with another VLAN.
pub fn share_addresses(random: &mut Random, groups: &mut [Group]) {
    let Parameters { destination, vlan, .. } = groups[0].first.parameters;
    for group in groups {
        if random.percent(70) {
            // A group with more members would go past the destination's bound.
            group.first.parameters.destination = destination.min((1 << 48) - group.members);
            group.first.parameters.vlan = if random.percent(85) { vlan } else { vlan ^ 1 };
        }
    }
}

/// A limit of inbound ports above 8, or none at all.
pub fn wrong_fan_in_limit(random: &mut Random, settings: &mut Vec<u8>) {
    if random.percent(30) {
        settings.remove(FAN_IN_LIMIT);
    } else {
        let any = random.between(u64::from(GREATEST_FAN_IN) + 1, 255) as u8;
        settings[FAN_IN_LIMIT] = random.one_of(&[GREATEST_FAN_IN + 1, 255, any]);
    }
}
