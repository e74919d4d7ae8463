//! The Applicant machine (02, (xiv); 802.1Q clause 10.7.7, Table 10-3, point-to-point subset).

use crate::mrp;
use crate::registrar;

/// The states of the subset, in the order of the table's columns. A declaration in VO or LO is not in
/// the list: there is no machine for it.
#[derive(Clone, Copy, Debug, PartialEq, Eq, PartialOrd, Ord)]
pub enum State {
    VO,
    VP,
    VN,
    AN,
    AA,
    QA,
    LA,
    LO,
}

/// The events that a participant of MSRP meets; it has no periodic transmission (5.4.3).
#[derive(Clone, Copy, Debug, PartialEq, Eq, PartialOrd, Ord)]
pub enum Event {
    Begin,
    New,
    Join,
    Lv,
    RNew,
    RJoinIn,
    RIn,
    RJoinMt,
    RMt,
    RLv,
    RLa,
    Tx,
    TxLa,
    TxLaf,
}

/// What an entry says is sent.
#[derive(Clone, Copy, Debug, PartialEq, Eq)]
pub enum Message {
    None,
    /// In brackets, never sent: "Not redeclare its attributes unless responding to a LeaveAll event"
    /// (5.4.3 f).
    Optional,
    /// sN
    New,
    /// sJ: JoinIn where the Registrar of the same attribute is IN, else JoinMt.
    Join,
    /// s: In where the Registrar of the same attribute is IN, else Mt.
    State,
    /// sL
    Lv,
}

/// An entry of the table: what is sent, and the next state.
#[derive(Clone, Copy, Debug, PartialEq, Eq)]
pub struct Entry {
    pub message: Message,
    pub next: State,
}

const STATES: usize = 8;

/// An entry that sends, or may send, something.
const fn sends(message: Message, next: State) -> Entry {
    Entry { message, next }
}

/// A line of the table that sends nothing.
const fn silent(next: [State; STATES]) -> [Entry; STATES] {
    let mut line = [sends(Message::None, State::VO); STATES];
    let mut column = 0;
    while column < STATES {
        line[column].next = next[column];
        column += 1;
    }
    line
}

use State::{AA, AN, LA, LO, QA, VN, VO, VP};

/// VP at txLA!. That it sends In or Mt, and not a Join, stands in no source at hand.
const VP_AT_TX_LA: Entry = sends(Message::State, AA);
/// AN at txLA!. That note 8 doesn't hold there stands in no source at hand.
const AN_AT_TX_LA: Entry = sends(Message::New, QA);

/// Table 10-3, a line for each event, its columns those of [`State`].
const TABLE: [(Event, [Entry; STATES]); 14] = [
    (Event::Begin, silent([VO, VO, VO, VO, VO, VO, VO, VO])),
    (Event::New, silent([VN, VN, VN, AN, VN, VN, VN, VN])),
    (Event::Join, silent([VP, VP, VN, AN, AA, QA, AA, VP])),
    (Event::Lv, silent([VO, VO, LA, LA, LA, LA, LA, LO])),
    (Event::RNew, silent([VO, VP, VN, AN, AA, QA, LA, LO])),
    (Event::RJoinIn, silent([VO, VP, VN, AN, QA, QA, LA, LO])),
    (Event::RIn, silent([VO, VP, VN, AN, QA, QA, LA, LO])),
    (Event::RJoinMt, silent([VO, VP, VN, AN, AA, AA, LA, VO])),
    (Event::RMt, silent([VO, VP, VN, AN, AA, AA, LA, VO])),
    (Event::RLv, silent([LO, VP, VN, VN, VP, VP, LA, LO])),
    (Event::RLa, silent([LO, VP, VN, VN, VP, VP, LA, LO])),
    (
        Event::Tx,
        [
            sends(Message::Optional, VO),
            sends(Message::Join, AA),
            sends(Message::New, AN),
            // Note 8: AA where the Registrar isn't IN.
            sends(Message::New, QA),
            sends(Message::Join, QA),
            sends(Message::Optional, QA),
            sends(Message::Lv, VO),
            sends(Message::State, VO),
        ],
    ),
    (
        Event::TxLa,
        [
            sends(Message::Optional, LO),
            VP_AT_TX_LA,
            sends(Message::New, AN),
            AN_AT_TX_LA,
            sends(Message::Join, QA),
            sends(Message::Join, QA),
            sends(Message::Optional, LO),
            sends(Message::Optional, LO),
        ],
    ),
    (Event::TxLaf, silent([LO, VP, VN, VN, VP, VP, LO, LO])),
];

/// The entry of a state and event, with the Registrar of the same attribute.
pub fn entry(state: State, event: Event, registrar: registrar::State) -> Entry {
    let (_, line) = TABLE.iter().find(|(of, _)| *of == event).expect("each event has a line");
    let entry = line[state as usize];
    let not_in = registrar != registrar::State::IN;
    match (state, event) {
        // Note 8: after the second New QA where the Registrar is IN, else AA.
        (AN, Event::Tx) if not_in => Entry { next: AA, ..entry },
        _ => entry,
    }
}

impl Message {
    /// The event that is written; nothing where nothing is sent.
    pub fn written(self, registrar: registrar::State) -> Option<mrp::Event> {
        let is_in = registrar == registrar::State::IN;
        match self {
            Message::None | Message::Optional => None,
            Message::New => Some(mrp::Event::New),
            Message::Join if is_in => Some(mrp::Event::JoinIn),
            Message::Join => Some(mrp::Event::JoinMt),
            Message::State if is_in => Some(mrp::Event::In),
            Message::State => Some(mrp::Event::Mt),
            Message::Lv => Some(mrp::Event::Lv),
        }
    }
}

impl State {
    /// Whether there is a machine: the declaration is in the list.
    pub fn is_listed(self) -> bool {
        self != VO && self != LO
    }
}

impl Event {
    /// The event of a value that is received.
    pub fn received(event: mrp::Event) -> Event {
        match event {
            mrp::Event::New => Event::RNew,
            mrp::Event::JoinIn => Event::RJoinIn,
            mrp::Event::In => Event::RIn,
            mrp::Event::JoinMt => Event::RJoinMt,
            mrp::Event::Mt => Event::RMt,
            mrp::Event::Lv => Event::RLv,
        }
    }

    /// As the standard writes it.
    pub fn name(self) -> &'static str {
        match self {
            Event::Begin => "Begin!",
            Event::New => "New!",
            Event::Join => "Join!",
            Event::Lv => "Lv!",
            Event::RNew => "rNew!",
            Event::RJoinIn => "rJoinIn!",
            Event::RIn => "rIn!",
            Event::RJoinMt => "rJoinMt!",
            Event::RMt => "rMt!",
            Event::RLv => "rLv!",
            Event::RLa => "rLA!",
            Event::Tx => "tx!",
            Event::TxLa => "txLA!",
            Event::TxLaf => "txLAF!",
        }
    }
}
