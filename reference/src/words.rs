//! The words that programs print (01, "The printed sheet").

use crate::mrp::Event;
use crate::pdu::ListenerType;
use crate::settled::{Column, Entry};
use crate::settling::Step;

pub fn column(column: Column) -> &'static str {
    match column {
        Column::None => "none",
        Column::Advertise => "advertise",
        Column::Failed(_) => "failed",
    }
}

pub fn listener(listener: Option<ListenerType>) -> &'static str {
    match listener {
        None => "none",
        Some(ListenerType::AskingFailed) => "asking",
        Some(ListenerType::Ready) => "ready",
        Some(ListenerType::ReadyFailed) => "readyfailed",
    }
}

/// The letter of a step.
pub fn step(step: Step) -> &'static str {
    match step {
        Step::A => "a",
        Step::B => "b",
        Step::N => "n",
        Step::C => "c",
        Step::D => "d",
        Step::K => "k",
        Step::E => "e",
        Step::F => "f",
        Step::J => "j",
        Step::L => "l",
        Step::M => "m",
        Step::G => "g",
        Step::H => "h",
        Step::I => "i",
    }
}

pub fn entry(entry: Entry) -> &'static str {
    match entry {
        Entry::None => "none",
        Entry::Filter => "filter",
        Entry::Forward => "forward",
    }
}

/// The event of a declaration, behind its other words; JoinMt goes without one.
pub fn event(event: Event) -> &'static str {
    match event {
        Event::New => " new",
        Event::JoinIn => " joinin",
        Event::In => " in",
        Event::JoinMt => "",
        Event::Mt => " mt",
        Event::Lv => " leave",
    }
}
