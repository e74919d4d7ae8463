//! The LeaveAll machine of a port (02, (xiv); 802.1Q clause 10.7.9, Table 10-5).

/// LeaveAllTime, in hundredths of a second; no part of it is random.
pub const LEAVE_ALL_TIME: u32 = 1_000;

/// The states, in the order of the table's columns.
#[derive(Clone, Copy, Debug, PartialEq, Eq, PartialOrd, Ord)]
pub enum State {
    Active,
    Passive,
}

#[derive(Clone, Copy, Debug, PartialEq, Eq, PartialOrd, Ord)]
pub enum Event {
    Begin,
    Tx,
    RLa,
    LeaveAllTimer,
}

/// An entry of the table.
#[derive(Clone, Copy, Debug, PartialEq, Eq)]
pub struct Entry {
    pub starts_timer: bool,
    /// sLA
    pub sends: bool,
    pub next: State,
}

const fn starts(next: State) -> Entry {
    Entry { starts_timer: true, sends: false, next }
}

const fn waits(sends: bool, next: State) -> Entry {
    Entry { starts_timer: false, sends, next }
}

use State::{Active, Passive};

/// Table 10-5, a line for each event, its columns those of [`State`]. tx! is inapplicable at Passive:
/// nothing is sent, and nothing moves.
const TABLE: [(Event, [Entry; 2]); 4] = [
    (Event::Begin, [starts(Passive), starts(Passive)]),
    (Event::Tx, [waits(true, Passive), waits(false, Passive)]),
    (Event::RLa, [starts(Passive), starts(Passive)]),
    (Event::LeaveAllTimer, [starts(Active), starts(Active)]),
];

/// The entry of a state and event.
pub fn entry(state: State, event: Event) -> Entry {
    let (_, line) = TABLE.iter().find(|(of, _)| *of == event).expect("each event has a line");
    line[state as usize]
}

/// The machine of a port.
#[derive(Clone, Copy, Debug, PartialEq, Eq)]
pub struct LeaveAll {
    pub state: State,
    /// The clock at which its timer was started, less than LeaveAllTime ago.
    pub started: u32,
}

impl LeaveAll {
    /// Begin! at clock 0.
    pub fn begun() -> LeaveAll {
        let mut machine = LeaveAll { state: Passive, started: 0 };
        machine.moves(Event::Begin, 0);
        machine
    }

    /// Moves by an event. Gives whether LeaveAll is sent.
    pub fn moves(&mut self, event: Event, clock: u32) -> bool {
        let entry = entry(self.state, event);
        if entry.starts_timer {
            self.started = clock;
        }
        self.state = entry.next;
        entry.sends
    }

    /// leavealltimer!, where the timer has run for LeaveAllTime; once, however long it has.
    pub fn advance(&mut self, clock: u32) {
        if clock - self.started >= LEAVE_ALL_TIME {
            self.moves(Event::LeaveAllTimer, clock);
        }
    }
}
