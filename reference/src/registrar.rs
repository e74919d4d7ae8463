//! The Registrar machine (02, (xiv); 802.1Q clause 10.7.8, Table 10-4). Held and not leaving is IN, leaving
//! is LV, not held is MT.

/// The states, in the order of the table's columns.
#[derive(Clone, Copy, Debug, PartialEq, Eq, PartialOrd, Ord)]
pub enum State {
    IN,
    LV,
    MT,
}

/// The events; a join is any of New, JoinIn and JoinMt.
#[derive(Clone, Copy, Debug, PartialEq, Eq, PartialOrd, Ord)]
pub enum Event {
    Begin,
    RJoin,
    RLv,
    RLa,
    TxLa,
    LeaveTimer,
}

/// What an entry does to the leave timer.
#[derive(Clone, Copy, Debug, PartialEq, Eq)]
pub enum Timer {
    Kept,
    Started,
    Stopped,
}

/// An entry of the table.
#[derive(Clone, Copy, Debug, PartialEq, Eq)]
pub struct Entry {
    pub timer: Timer,
    pub next: State,
}

const fn to(next: State) -> Entry {
    Entry { timer: Timer::Kept, next }
}

const fn starts(next: State) -> Entry {
    Entry { timer: Timer::Started, next }
}

const fn stops(next: State) -> Entry {
    Entry { timer: Timer::Stopped, next }
}

use State::{IN, LV, MT};

/// Table 10-4, a line for each event, its columns those of [`State`]. The leave timer of what isn't leaving
/// doesn't run, so leavetimer! at IN never comes.
const TABLE: [(Event, [Entry; 3]); 6] = [
    (Event::Begin, [to(MT), to(MT), to(MT)]),
    (Event::RJoin, [to(IN), stops(IN), to(IN)]),
    (Event::RLv, [starts(LV), to(LV), to(MT)]),
    (Event::RLa, [starts(LV), to(LV), to(MT)]),
    (Event::TxLa, [starts(LV), to(LV), to(MT)]),
    (Event::LeaveTimer, [to(IN), to(MT), to(MT)]),
];

/// The entry of a state and event.
pub fn entry(state: State, event: Event) -> Entry {
    let (_, line) = TABLE.iter().find(|(of, _)| *of == event).expect("each event has a line");
    line[state as usize]
}

/// The state of what is registered, with the clock at which leaving began.
pub fn registered(leaving: Option<u32>) -> State {
    match leaving {
        None => IN,
        Some(_) => LV,
    }
}

/// Moves the timer of what is registered: the clock at which leaving began.
pub fn moves(leaving: &mut Option<u32>, event: Event, clock: u32) {
    match entry(registered(*leaving), event).timer {
        Timer::Kept => {}
        Timer::Started => *leaving = Some(clock),
        Timer::Stopped => *leaving = None,
    }
}
