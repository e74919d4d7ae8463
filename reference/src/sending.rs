//! What ports send: a machine for each declaration in a port's list, and the port's LeaveAll machine (02,
//! (xiv)).

use std::collections::BTreeMap;

use crate::applicant::{self, Entry, Event, State};
use crate::declarations::{self, Declaration, Said};
use crate::leave_all::{self, LeaveAll};
use crate::pdu::{Attribute, AttributeType, Pdu, StreamId};
use crate::registrar;
use crate::settings::Settings;
use crate::settled::Settled;

/// A declaration and its Applicant.
#[derive(Clone, Copy, Debug, PartialEq, Eq)]
pub struct Machine {
    pub state: State,
    /// As last declared; an Lv carries it too.
    pub declaration: Declaration,
}

/// A step of an Applicant, which is an entry of its table.
#[derive(Clone, Copy, Debug, PartialEq, Eq)]
pub struct Step {
    pub state: State,
    pub event: Event,
    pub next: State,
}

/// What a port sends.
#[derive(Clone, Debug, PartialEq, Eq)]
pub struct PortSending {
    /// The list of the port: Advertise, Failed, Listener, in each by ascending StreamID; then Domain by
    /// ascending class ID.
    pub machines: BTreeMap<Attribute, Machine>,
    pub leave_all: LeaveAll,
}

/// What a write puts into the buffer, and what it did.
#[derive(Clone, Debug, PartialEq, Eq)]
pub struct Written {
    pub said: Vec<Said>,
    /// The first that had something to write and found no room.
    pub no_room: Option<Said>,
    pub pdu: Vec<u8>,
    pub next_place: usize,
    pub leave_all: bool,
    pub steps: Vec<Step>,
}

impl Machine {
    fn entry(&self, event: Event, registrar: registrar::State) -> Entry {
        applicant::entry(self.state, event, registrar)
    }

    fn moves(&mut self, event: Event, registrar: registrar::State) -> Step {
        let next = self.entry(event, registrar).next;
        Step { state: std::mem::replace(&mut self.state, next), event, next }
    }

    /// Moves by an event whose entries don't depend on the Registrar.
    fn moves_alone(&mut self, event: Event) -> Step {
        self.moves(event, registrar::State::MT)
    }

    /// The declaration is decided again. Other content is New! where the old one may stand at the
    /// neighbour, and is taken in every state.
    fn declared_again(&mut self, declaration: Declaration) -> Step {
        let is_other = self.declaration != declaration;
        self.declaration = declaration;
        match self.state {
            State::VP => self.moves_alone(Event::Join),
            _ if is_other => self.moves_alone(Event::New),
            _ => self.moves_alone(Event::Join),
        }
    }
}

impl PortSending {
    /// Begin!, and Join! for the Domain declarations.
    pub fn begun(settings: &Settings, port: usize) -> PortSending {
        let mut begun = PortSending { machines: BTreeMap::new(), leave_all: LeaveAll::begun() };
        for declaration in declarations::domains(settings, port) {
            begun.join(declaration);
        }
        begun
    }

    /// Join!, from VO, of a declaration that isn't in the list.
    fn join(&mut self, declaration: Declaration) -> Step {
        let mut machine = Machine { state: State::VO, declaration };
        let step = machine.moves_alone(Event::Join);
        self.machines.insert(declaration.attribute(), machine);
        step
    }

    /// Moves the machines by what the port received: by AttributeType and StreamID, or class ID and
    /// priority, whether it was registered or not. Any LeaveAll starts the port's own timer anew.
    pub fn receive(&mut self, pdu: &Pdu, clock: u32) -> Vec<Step> {
        let mut steps = Vec::new();
        for vector in pdu.vectors() {
            if vector.leave_all {
                self.leave_all.moves(leave_all::Event::RLa, clock);
                let of_type =
                    |attribute: &Attribute| attribute.attribute_type == vector.attribute_type;
                let machines = self.machines.iter_mut().filter(|(attribute, _)| of_type(attribute));
                steps.extend(machines.map(|(_, machine)| machine.moves_alone(Event::RLa)));
            }
            for (event, value) in &vector.values {
                let attribute = value.attribute();
                let machine = attribute.and_then(|attribute| self.machines.get_mut(&attribute));
                steps.extend(machine.map(|machine| machine.moves_alone(Event::received(*event))));
            }
        }
        steps
    }

    /// Moves the machines of streams by the declarations that an advance has decided: Lv! for what is
    /// declared no more, Join! or New! for the others.
    pub fn declare(&mut self, decided: &[Declaration]) -> Vec<Step> {
        let mut steps = Vec::new();
        let mut to_join: BTreeMap<Attribute, Declaration> =
            decided.iter().map(|declaration| (declaration.attribute(), *declaration)).collect();
        for (attribute, machine) in &mut self.machines {
            match to_join.remove(attribute) {
                Some(declaration) => steps.push(machine.declared_again(declaration)),
                None if attribute.attribute_type == AttributeType::Domain => {}
                None => steps.push(machine.moves_alone(Event::Lv)),
            }
        }
        for declaration in to_join.into_values() {
            steps.push(self.join(declaration));
        }
        self.drop_unlisted();
        steps
    }

    fn drop_unlisted(&mut self) {
        self.machines.retain(|_, machine| machine.state.is_listed());
    }

    /// An opportunity to transmit, from a place of the list on. The run is of those that have something to
    /// write, the first that finds no room ends it.
    pub fn write(
        &mut self,
        place: usize,
        clock: u32,
        registrar: impl Fn(&Attribute) -> registrar::State,
    ) -> Written {
        let leave_all = self.leave_all.moves(leave_all::Event::Tx, clock);
        let event = if leave_all { Event::TxLa } else { Event::Tx };
        let listed: Vec<Attribute> = self.machines.keys().copied().collect();
        let wanting: Vec<(usize, Said)> = self.wanting(place, event, &registrar);
        let mut said: Vec<Said> = wanting.iter().map(|(_, said)| *said).collect();
        let taken = declarations::longest_run(&said, leave_all);
        said.truncate(taken);
        let no_room = wanting.get(taken).map(|(_, said)| *said);
        let stop = wanting.get(taken).map_or(listed.len(), |(at, _)| *at);
        let mut steps = Vec::new();
        for (at, (attribute, machine)) in self.machines.iter_mut().enumerate() {
            if (place..stop).contains(&at) {
                steps.push(machine.moves(event, registrar(attribute)));
            } else if leave_all {
                steps.push(machine.moves(Event::TxLaf, registrar(attribute)));
            }
        }
        self.drop_unlisted();
        let is_left = |attribute: &&Attribute| self.machines.contains_key(attribute);
        let next_place = listed[..stop].iter().filter(is_left).count();
        let pdu = declarations::pdu(&said, leave_all);
        Written { said, no_room, pdu, next_place, leave_all, steps }
    }

    /// The declarations from a place on whose entry has a message without brackets, each with its place.
    fn wanting(
        &self,
        place: usize,
        event: Event,
        registrar: impl Fn(&Attribute) -> registrar::State,
    ) -> Vec<(usize, Said)> {
        let says = |(at, (attribute, machine)): (usize, (&Attribute, &Machine))| {
            let registrar = registrar(attribute);
            let event = machine.entry(event, registrar).message.written(registrar)?;
            Some((at, Said { declaration: machine.declaration, event }))
        };
        self.machines.iter().enumerate().skip(place).filter_map(says).collect()
    }

    /// Whether an Lv of a stream is unsent.
    fn is_leaving(&self, stream_id: StreamId) -> bool {
        let is_lv_unsent = |attribute_type| {
            let machine = self.machines.get(&Attribute { attribute_type, key: stream_id });
            machine.map_or(false, |machine| machine.state == State::LA)
        };
        declarations::STREAM_TYPES.into_iter().any(is_lv_unsent)
    }
}

/// What all ports send, port 1 first.
#[derive(Clone, Debug, PartialEq, Eq)]
pub struct Sending {
    pub ports: Vec<PortSending>,
}

impl Sending {
    pub fn begun(settings: &Settings) -> Sending {
        let ports = 1..=settings.ports.len();
        Sending { ports: ports.map(|port| PortSending::begun(settings, port)).collect() }
    }

    /// Moves the machines of each port by what an advance has decided.
    pub fn declare(&mut self, settled: &Settled) -> Vec<Step> {
        let ports = (1..).zip(&mut self.ports);
        ports
            .flat_map(|(port, sending)| sending.declare(&declarations::of_streams(settled, port)))
            .collect()
    }

    /// leavealltimer! of each port whose timer has run out.
    pub fn advance(&mut self, clock: u32) {
        for port in &mut self.ports {
            port.leave_all.advance(clock);
        }
    }

    /// Whether an Lv of a stream is unsent on some port.
    pub fn is_leaving(&self, stream_id: StreamId) -> bool {
        self.ports.iter().any(|port| port.is_leaving(stream_id))
    }
}
