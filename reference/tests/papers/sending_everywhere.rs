//! What holds of what ports send wherever generated scripts lead (02, (xiv)).

use crate::helpers::*;
use crate::senders::pdus_of_pass;
use reference::applicant::State::{self, AN, LA, VN, VP};
use reference::bridge::Bridge;
use reference::declarations::{self, Declaration};
use reference::leave_all::LEAVE_ALL_TIME;
use reference::lent::Table;
use reference::mrp::Event;
use reference::numbers::Number;
use reference::pdu::{Attribute, AttributeType, Talker};
use reference::records::{Call, Watcher};
use reference::registrations::OnPort;
use reference::sending::PortSending;
use reference::settings::Settings;
use reference::written::{of_pdu, TakenApart};
use reference::{calls, generator, settings};

/// What holds after each accepted call, up to the first octet that is stored.
#[derive(Default)]
struct Everywhere {
    before: Option<Bridge>,
    checked: usize,
}

impl Watcher for Everywhere {
    fn called(&mut self, call: &Call, number: Number, table: &Table) {
        let bridge = table.bridge().filter(|_| number == 0);
        match (call, bridge) {
            (Call::Start(_), Some(bridge)) => self.before = Some(bridge.clone()),
            (_, Some(bridge)) if self.before.is_some() => {
                self.checked += 1;
                machines_are_what_is_declared(bridge);
                let before = self.before.replace(bridge.clone()).expect("one was before");
                others_stay(call, &before, bridge);
                machines_go_as_the_table_says(call, &before, bridge);
            }
            _ => {}
        }
    }

    fn stored(&mut self, _: &Table) {
        self.before = None;
    }
}

/// The machines but for those with an unsent Lv are those of just what is settled, with its octets. No
/// Domain value is withdrawn or new, and no LeaveAll timer has run out.
fn machines_are_what_is_declared(bridge: &Bridge) {
    for (port, sending) in (1..).zip(&bridge.sending.ports) {
        let mut settled = declarations::of_streams(&bridge.settled, port);
        settled.extend(declarations::domains(&bridge.settings, port));
        settled.sort_unstable_by_key(Declaration::attribute);
        let declares = |state: State| state != LA;
        let machines = sending.machines.values().filter(|machine| declares(machine.state));
        let declared: Vec<Declaration> = machines.map(|machine| machine.declaration).collect();
        assert_eq!(declared, settled);
        let withdrawn = sending.machines.iter().filter(|(_, machine)| machine.state == LA);
        for (attribute, machine) in withdrawn {
            assert_eq!(*attribute, machine.declaration.attribute());
            assert!(settled.iter().all(|one| one.attribute() != *attribute));
        }
        let is_domain = |one: &&Attribute| one.attribute_type == AttributeType::Domain;
        let domains = sending.machines.keys().filter(is_domain);
        assert!(domains
            .map(|one| sending.machines[one].state)
            .all(|state| state != VN && state != AN));
        assert!(bridge.clock - sending.leave_all.started < LEAVE_ALL_TIME);
    }
}

/// What a port hears and writes moves the machines of that port alone.
fn others_stay(call: &Call, before: &Bridge, after: &Bridge) {
    let port = match call {
        Call::Receive(port, _) | Call::Write { port, .. } => *port as usize,
        Call::ReceiveMmrp(..) | Call::Report { .. } | Call::Why { .. } => 0,
        Call::Start(_) | Call::Advance(_) => return,
    };
    for (at, (before, after)) in (1..).zip(before.sending.ports.iter().zip(&after.sending.ports)) {
        assert!(at == port || before == after);
    }
}

/// A machine goes by an advance from VP, by a write of its Lv, or by a write with LeaveAll.
fn machines_go_as_the_table_says(call: &Call, before: &Bridge, after: &Bridge) {
    for (port, (was, is)) in (1..).zip(before.sending.ports.iter().zip(&after.sending.ports)) {
        let gone = was.machines.iter().filter(|(one, _)| !is.machines.contains_key(one));
        for (attribute, machine) in gone {
            match call {
                Call::Advance(_) => assert_eq!(machine.state, VP),
                Call::Write { place, .. } => {
                    assert_eq!(machine.state, LA);
                    assert!(withdraws(before, port, *place as usize, attribute));
                }
                _ => panic!("{attribute:?} is gone by {call:?}"),
            }
        }
    }
}

/// Whether a write from a place withdraws a declaration.
fn withdraws(before: &Bridge, port: usize, place: usize, attribute: &Attribute) -> bool {
    let registrar = |one: &Attribute| before.registrations.registrar(port, one);
    let written = before.sending.ports[port - 1].clone().write(place, before.clock, registrar);
    let mut said = written.said.iter();
    let lv = said.any(|one| one.event == Event::Lv && one.declaration.attribute() == *attribute);
    written.leave_all || lv
}

#[test]
fn machines_follow_what_is_declared_in_generated_scripts() {
    let mut watcher = Everywhere::default();
    for seed in 0..200 {
        watcher.before = None;
        calls::run_watched(&generator::calls(seed).octets, &mut watcher);
    }
    assert!(watcher.checked > 5_000, "{}", watcher.checked);
}

/// The bridges that some scripts leave, with an advance behind: to their clock, or so that LeaveAll is due.
fn left_by_scripts(seeds: u64) -> Vec<Table> {
    let mut tables = Vec::new();
    for seed in 0..seeds {
        let mut last = Last { table: None };
        calls::run_watched(&generator::calls(seed).octets, &mut last);
        for later in [0, LEAVE_ALL_TIME] {
            if let Some(mut table) = last.table.clone() {
                let clock = table.bridge().expect("it keeps the form").clock;
                advance(&mut table, clock.saturating_add(later));
                tables.push(table);
            }
        }
    }
    tables
}

/// The last table that keeps the form.
struct Last {
    table: Option<Table>,
}

impl Watcher for Last {
    fn called(&mut self, _: &Call, _: Number, table: &Table) {
        if table.bridge().is_some() {
            self.table = Some(table.clone());
        }
    }
}

fn sending(table: &Table, port: u32) -> &PortSending {
    &table.bridge().expect("it keeps the form").sending.ports[port as usize - 1]
}

/// The PDUs of a pass, without the last one, which says nothing.
fn pass(table: &mut Table, port: u32) -> Vec<Vec<u8>> {
    pdus_of_pass(table, port, 0)
}

/// How many declarations have something to say at an opportunity without LeaveAll.
fn wanting(sending: &PortSending) -> usize {
    sending.machines.values().filter(|machine| machine.state != State::QA).count()
}

#[test]
fn a_pass_says_all_once_and_three_make_a_port_quiet() {
    let mut met = [0, 0, 0];
    for mut table in left_by_scripts(150) {
        for port in 1..=table.bridge().unwrap().settings.ports.len() as u32 {
            let news = sending(&table, port).machines.values();
            let has_new = news.clone().any(|machine| [VN, AN].contains(&machine.state));
            let to_say = wanting(sending(&table, port));
            let pdus = pass(&mut table, port);
            let taken: Vec<TakenApart> = pdus.iter().map(|pdu| of_pdu(pdu).unwrap()).collect();
            let said: Vec<Attribute> = taken
                .iter()
                .flat_map(|pdu| &pdu.said)
                .map(|one| one.declaration.attribute())
                .collect();
            assert!(said.windows(2).all(|two| two[0] < two[1]), "once, in order");
            let leaves_all = taken.iter().any(|pdu| pdu.leave_all);
            assert!(leaves_all || said.len() == to_say, "all");
            assert!(taken.iter().skip(1).all(|pdu| !pdu.leave_all), "LeaveAll in the first PDU");
            pass(&mut table, port);
            if has_new {
                pass(&mut table, port);
            }
            assert_eq!(wanting(sending(&table, port)), 0);
            let before = table.clone();
            assert_eq!(pass(&mut table, port), Vec::<Vec<u8>>::new());
            assert_eq!(table, before);
            met[0] += usize::from(has_new);
            met[1] += usize::from(leaves_all);
            met[2] += usize::from(pdus.len() > 1);
        }
    }
    assert!(met.iter().all(|count| *count > 20), "{met:?}");
}

/// What a neighbour that has nothing registered has after the passes of a port, on its port 1.
fn neighbour(settings: &Settings, table: &mut Table, port: u32) -> Table {
    let mut neighbour = started(&Settings { bridge_id: !settings.bridge_id, ..settings.clone() });
    for _ in 0..3 {
        for pdu in pass(table, port) {
            accept(&mut neighbour, 1, &pdu);
        }
    }
    neighbour
}

/// What is registered of a stream on a port, as it was declared.
fn as_declared(stream_id: u64, on_port: &OnPort) -> Vec<Declaration> {
    let talker = on_port.talker.as_ref().map(|held| {
        Declaration::Talker(Talker {
            stream_id,
            parameters: held.parameters,
            accumulated_latency: held.accumulated_latency,
            failure: held.failure,
        })
    });
    let listener = on_port.listener_type().map(|says| Declaration::Listener(stream_id, says));
    talker.into_iter().chain(listener).collect()
}

#[test]
fn after_leave_all_a_neighbour_has_registered_what_is_declared() {
    let mut checked = 0;
    for mut table in left_by_scripts(80) {
        let bridge = table.bridge().unwrap().clone();
        if settings::read(&settings::write(&bridge.settings)).is_none() {
            continue;
        }
        for port in 1..=bridge.settings.ports.len() as u32 {
            if sending(&table, port).leave_all.state == reference::leave_all::State::Passive {
                continue;
            }
            let neighbour = neighbour(&bridge.settings, &mut table, port);
            let declared = table.bridge().unwrap().declarations(port as usize);
            let held = &neighbour.bridge().unwrap().registrations;
            let mut registered: Vec<Declaration> = held
                .streams
                .iter()
                .flat_map(|(stream_id, ports)| as_declared(*stream_id, &ports[0]))
                .collect();
            registered.sort_unstable_by_key(Declaration::attribute);
            let of_streams: Vec<Declaration> = declared
                .iter()
                .filter(|one| one.attribute_type() != AttributeType::Domain)
                .copied()
                .collect();
            assert_eq!(registered, of_streams);
            let domains = held.domains[0].iter().flatten().count();
            assert_eq!(domains, declared.len() - of_streams.len());
            checked += 1;
        }
    }
    assert!(checked > 50, "{checked}");
}
