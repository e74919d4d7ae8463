//! The lines `bridge` and `ports`.

use super::words::{unknown, Field, Measure, Words};
use crate::settings::{PerClass, PortSettings, Settings};

const PORTS: Field = Field::plain("a number of ports", 4);
const PRIORITY: Field = Field::plain("a priority", 3);
const LEAVE_TIME: Field = Field::measured("a leave time", 14, Measure::Hundredths);
const VLAN: Field = Field::plain("a VLAN", 12);
const FAN_IN: Field = Field::plain("a limit of inbound ports", 8);
const OVERHEAD: Field = Field::plain("an overhead", 8);
const LARGEST: Field = Field::plain("a largest frame", 16);
const LIMIT: Field = Field::measured("a limit", 40, Measure::BitsPerSecond);
const LATENCY: Field = Field::measured("a latency", 32, Measure::Nanoseconds);

/// The most that the ports field holds.
const MOST_PORTS_WRITTEN: usize = 15;

fn per_class<T: TryFrom<u64>>(words: &mut Words, field: Field) -> Result<PerClass<T>, String> {
    Ok(PerClass { a: words.number(field)?, b: words.number(field)? })
}

/// Settings without ports.
pub fn bridge(words: &mut Words) -> Result<Settings, String> {
    let mut settings = Settings {
        bridge_id: words.hexadecimal("a Bridge ID", 64)?,
        priority: PerClass { a: 3, b: 2 },
        leave_time: 60,
        pruning: false,
        vlan: 2,
        fan_in_limit: 0,
        ports: Vec::new(),
    };
    while let Some(word) = words.next_option()? {
        match word {
            "priorities" => settings.priority = per_class(words, PRIORITY)?,
            "leave" => settings.leave_time = words.number(LEAVE_TIME)?,
            "pruning" => settings.pruning = true,
            "vlan" => settings.vlan = words.number(VLAN)?,
            "fanin" => settings.fan_in_limit = words.number(FAN_IN)?,
            _ => return Err(unknown(word)),
        }
    }
    Ok(settings)
}

/// Adds ports to settings.
pub fn ports(words: &mut Words, settings: &mut Settings) -> Result<(), String> {
    let count: usize = words.number(PORTS)?;
    let mut port = PortSettings::of_the_worked_example();
    while let Some(word) = words.next_option()? {
        match word {
            "classes" => port.supports = classes(words)?,
            "overhead" => port.overhead = words.number(OVERHEAD)?,
            "largest" => port.largest_frame = words.number(LARGEST)?,
            "limits" => port.limit = per_class(words, LIMIT)?,
            "latencies" => port.latency = per_class(words, LATENCY)?,
            "twice" => port.sends_twice = true,
            _ => return Err(unknown(word)),
        }
    }
    let all = settings.ports.len() + count;
    if all > MOST_PORTS_WRITTEN {
        return Err(format!(
            "{all} ports, and the settings' field of 4 bits holds at most {MOST_PORTS_WRITTEN}"
        ));
    }
    settings.ports.resize(all, port);
    Ok(())
}

fn classes(words: &mut Words) -> Result<PerClass<bool>, String> {
    match words.word("AB, A, B or none")? {
        "AB" => Ok(PerClass { a: true, b: true }),
        "A" => Ok(PerClass { a: true, b: false }),
        "B" => Ok(PerClass { a: false, b: true }),
        "none" => Ok(PerClass { a: false, b: false }),
        other => Err(unknown(other)),
    }
}
