//! Settings that are refused.

use super::domains::wrong_vlan;
use super::fan_in::wrong_fan_in_limit;
use crate::random::Random;
use crate::settings::{self, Settings, MOST_PORTS};

/// The octets of settings with something wrong in them.
pub fn wrong_settings(random: &mut Random, settings: &Settings) -> Vec<u8> {
    let mut octets = settings::write(settings);
    match random.below(18) {
        0 => {
            octets[8] &= 0x0f; // no ports
            if random.percent(50) {
                octets.truncate(settings::length(0));
            }
        }
        1 => {
            let ports_field = random.between(MOST_PORTS as u64 + 1, 15) as usize;
            octets[8] = (ports_field as u8) << 4 | octets[8] & 0x0f;
            if random.percent(50) {
                octets.resize(settings::length(ports_field), 0);
            }
        }
        2 => {
            let mut equal = settings.clone();
            equal.priority.b = equal.priority.a;
            octets = settings::write(&equal);
        }
        3 => {
            let mut none = settings.clone();
            none.leave_time = 0;
            octets = settings::write(&none);
        }
        4 | 5 => {
            let port = random.below(settings.ports.len() as u64) as usize;
            octets[settings::length(port)] |= 1 << random.below(5);
        }
        6 => drop(octets.pop()),
        7 => octets.push(0),
        8 => octets.resize(octets.len() + settings::PORT_LENGTH, 0),
        9 => octets.truncate(random.below(octets.len() as u64) as usize),
        10..=14 => wrong_vlan(random, &mut octets),
        15..=16 => wrong_fan_in_limit(random, &mut octets),
        _ => octets.truncate(octets.len() - settings::PORT_LENGTH),
    }
    octets
}
