//! The tables of the three machines (802.1Q clause 10.7, Tables 10-3 to 10-5), entry by entry.

use reference::applicant::{self, Message};
use reference::leave_all::{self, LeaveAll};
use reference::mrp;
use reference::registrar::{self, Timer};

/// Table 10-3, point-to-point subset. Before a colon stands what is sent, in brackets where it is optional.
const APPLICANT: &str = "
    Event      VO     VP    VN    AN     AA    QA      LA     LO
    Begin!     VO     VO    VO    VO     VO    VO      VO     VO
    New!       VN     VN    VN    AN     VN    VN      VN     VN
    Join!      VP     VP    VN    AN     AA    QA      AA     VP
    Lv!        VO     VO    LA    LA     LA    LA      LA     LO
    rNew!      VO     VP    VN    AN     AA    QA      LA     LO
    rJoinIn!   VO     VP    VN    AN     QA    QA      LA     LO
    rIn!       VO     VP    VN    AN     QA    QA      LA     LO
    rJoinMt!   VO     VP    VN    AN     AA    AA      LA     VO
    rMt!       VO     VP    VN    AN     AA    AA      LA     VO
    rLv!       LO     VP    VN    VN     VP    VP      LA     LO
    rLA!       LO     VP    VN    VN     VP    VP      LA     LO
    tx!        [s]:VO sJ:AA sN:AN sN:QA  sJ:QA [sJ]:QA sL:VO  s:VO
    txLA!      [s]:LO s:AA  sN:AN sN:QA  sJ:QA sJ:QA   [s]:LO [s]:LO
    txLAF!     LO     VP    VN    VN     VP    VP      LO     LO
";

/// Table 10-4 without Flush! and Re-declare!, which no call gives. A plus starts the leave timer, a minus
/// stops it.
const REGISTRAR: &str = "
    Event       IN   LV   MT
    Begin       MT   MT   MT
    RJoin       IN   -IN  IN
    RLv         +LV  LV   MT
    RLa         +LV  LV   MT
    TxLa        +LV  LV   MT
";

const APPLICANT_STATES: [applicant::State; 8] = [
    applicant::State::VO,
    applicant::State::VP,
    applicant::State::VN,
    applicant::State::AN,
    applicant::State::AA,
    applicant::State::QA,
    applicant::State::LA,
    applicant::State::LO,
];

const APPLICANT_EVENTS: [applicant::Event; 14] = [
    applicant::Event::Begin,
    applicant::Event::New,
    applicant::Event::Join,
    applicant::Event::Lv,
    applicant::Event::RNew,
    applicant::Event::RJoinIn,
    applicant::Event::RIn,
    applicant::Event::RJoinMt,
    applicant::Event::RMt,
    applicant::Event::RLv,
    applicant::Event::RLa,
    applicant::Event::Tx,
    applicant::Event::TxLa,
    applicant::Event::TxLaf,
];

/// The words of a table, line by line, without its head.
fn words(table: &str) -> Vec<Vec<&str>> {
    let lines = table.lines().map(|line| line.split_whitespace().collect::<Vec<&str>>());
    lines.filter(|words| !words.is_empty()).skip(1).collect()
}

/// An entry as the table prints it. QA at tx! has the one optional Join.
fn applicant_entry(state: applicant::State, event: applicant::Event) -> String {
    let entry = applicant::entry(state, event, registrar::State::IN);
    let sent = match entry.message {
        Message::None => "",
        Message::Optional if entry.next == applicant::State::QA => "[sJ]:",
        Message::Optional => "[s]:",
        Message::New => "sN:",
        Message::Join => "sJ:",
        Message::State => "s:",
        Message::Lv => "sL:",
    };
    format!("{sent}{:?}", entry.next)
}

#[test]
fn the_applicant_is_table_10_3() {
    let lines = words(APPLICANT);
    assert_eq!(lines.len(), APPLICANT_EVENTS.len());
    for (event, line) in APPLICANT_EVENTS.into_iter().zip(lines) {
        let mut entries = vec![event.name().to_string()];
        entries.extend(APPLICANT_STATES.map(|state| applicant_entry(state, event)));
        assert_eq!(entries, line);
    }
}

/// Note 8, and nothing else, depends on the Registrar.
#[test]
fn after_the_second_new_the_registrar_decides() {
    for event in APPLICANT_EVENTS {
        for state in APPLICANT_STATES {
            let entry = |registrar| applicant::entry(state, event, registrar);
            let is_in = entry(registrar::State::IN);
            for other in [registrar::State::LV, registrar::State::MT] {
                if (state, event) == (applicant::State::AN, applicant::Event::Tx) {
                    assert_eq!(entry(other).message, is_in.message);
                    assert_eq!(entry(other).next, applicant::State::AA);
                } else {
                    assert_eq!(entry(other), is_in);
                }
            }
        }
    }
}

#[test]
fn messages_depend_on_the_registrar() {
    use mrp::Event::{In, JoinIn, JoinMt, Lv, Mt, New};
    for (message, is_in, is_not) in [
        (Message::None, None, None),
        (Message::Optional, None, None),
        (Message::New, Some(New), Some(New)),
        (Message::Join, Some(JoinIn), Some(JoinMt)),
        (Message::State, Some(In), Some(Mt)),
        (Message::Lv, Some(Lv), Some(Lv)),
    ] {
        assert_eq!(message.written(registrar::State::IN), is_in);
        assert_eq!(message.written(registrar::State::LV), is_not);
        assert_eq!(message.written(registrar::State::MT), is_not);
    }
}

#[test]
fn the_registrar_is_table_10_4() {
    let events = [
        registrar::Event::Begin,
        registrar::Event::RJoin,
        registrar::Event::RLv,
        registrar::Event::RLa,
        registrar::Event::TxLa,
    ];
    let states = [registrar::State::IN, registrar::State::LV, registrar::State::MT];
    for (event, line) in events.into_iter().zip(words(REGISTRAR)) {
        let mut entries = vec![format!("{event:?}")];
        for state in states {
            let registrar::Entry { timer, next } = registrar::entry(state, event);
            let sign = match timer {
                Timer::Kept => "",
                Timer::Started => "+",
                Timer::Stopped => "-",
            };
            entries.push(format!("{sign}{next:?}"));
        }
        assert_eq!(entries, line);
    }
    // leavetimer! comes where it runs.
    let ends = |state| registrar::entry(state, registrar::Event::LeaveTimer).next;
    assert_eq!(ends(registrar::State::LV), registrar::State::MT);
    assert_eq!(ends(registrar::State::MT), registrar::State::MT);
}

#[test]
fn the_leave_all_machine_is_table_10_5() {
    use leave_all::{Event, State};
    for (event, state, starts_timer, sends, next) in [
        (Event::Begin, State::Active, true, false, State::Passive),
        (Event::Begin, State::Passive, true, false, State::Passive),
        (Event::Tx, State::Active, false, true, State::Passive),
        (Event::RLa, State::Active, true, false, State::Passive),
        (Event::RLa, State::Passive, true, false, State::Passive),
        (Event::LeaveAllTimer, State::Active, true, false, State::Active),
        (Event::LeaveAllTimer, State::Passive, true, false, State::Active),
    ] {
        let expected = leave_all::Entry { starts_timer, sends, next };
        assert_eq!(leave_all::entry(state, event), expected);
    }
    // tx! is inapplicable at Passive.
    let passive = LeaveAll { state: State::Passive, started: 7 };
    let mut machine = passive;
    assert!(!machine.moves(Event::Tx, 9));
    assert_eq!(machine, passive);
}
