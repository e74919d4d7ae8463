//! Registrations per port (01, "Registering"; 02, (ii), (v) and (vi)).

use std::collections::{BTreeMap, BTreeSet};

use crate::domain::{self, DomainRegistration, Domains, SLOTS};
use crate::mmrp::{self, Address, MmrpType};
use crate::mrp::Event;
use crate::pdu::{self, Attribute, AttributeType, Domain, Failure, ListenerType, Parameters, Pdu};
use crate::pdu::{StreamId, Talker, Value, Vector, ATTRIBUTE_TYPES};
use crate::registrar;

/// The most streams that a bridge holds.
pub const MOST_STREAMS: usize = 64;
/// The most addresses that a port holds.
pub const MOST_ADDRESSES: usize = 64;

/// A Talker registration: Advertise without a failure, Failed with one.
#[derive(Clone, Debug, PartialEq, Eq)]
pub struct TalkerRegistration {
    pub parameters: Parameters,
    pub accumulated_latency: u32,
    /// That of the join that made the registration.
    pub first_latency: u32,
    pub failure: Option<Failure>,
    /// Set by a join whose parameters differ from the held ones.
    pub changed: bool,
    /// The clock at which leaving began.
    pub leaving: Option<u32>,
}

impl TalkerRegistration {
    /// Whether the present latency is larger than the first.
    pub fn has_grown(&self) -> bool {
        self.accumulated_latency > self.first_latency
    }

    pub fn attribute_type(&self) -> AttributeType {
        match self.failure {
            None => AttributeType::TalkerAdvertise,
            Some(_) => AttributeType::TalkerFailed,
        }
    }
}

/// A Listener registration.
#[derive(Clone, Debug, PartialEq, Eq)]
pub struct ListenerRegistration {
    pub listener_type: ListenerType,
    /// The clock at which leaving began.
    pub leaving: Option<u32>,
}

/// What one port holds of one stream: at most one Talker and one Listener.
#[derive(Clone, Debug, Default, PartialEq, Eq)]
pub struct OnPort {
    pub talker: Option<TalkerRegistration>,
    pub listener: Option<ListenerRegistration>,
}

impl OnPort {
    /// Whether something is registered.
    pub fn is_registered(&self) -> bool {
        self.talker.is_some() || self.listener.is_some()
    }

    pub fn listener_type(&self) -> Option<ListenerType> {
        self.listener.as_ref().map(|listener| listener.listener_type)
    }
}

/// The Talker port of a stream: the lowest port with a Talker registration. With it, what is
/// registered there.
pub fn talker_port(ports: &[OnPort]) -> Option<(usize, &TalkerRegistration)> {
    (1..).zip(ports).find_map(|(port, on_port)| Some((port, on_port.talker.as_ref()?)))
}

/// The addresses that a port has registered, each with the clock at which leaving began.
pub type Addresses = BTreeMap<Address, Option<u32>>;

/// The registrations of all streams held, of the domain and of addresses. Each stream has one [`OnPort`] for
/// each port of the bridge, port 1 first. At least one of them holds a registration, or an Lv of the stream
/// is unsent.
#[derive(Clone, Debug, PartialEq, Eq)]
pub struct Registrations {
    pub streams: BTreeMap<StreamId, Vec<OnPort>>,
    /// Those of each port, port 1 first.
    pub domains: Vec<Domains>,
    /// Those of each port, port 1 first.
    pub addresses: Vec<Addresses>,
}

/// The different streams that a PDU joins: those with a join event, for Listener without Ignore.
pub fn streams_joined(pdu: &Pdu) -> BTreeSet<StreamId> {
    let mut joined = BTreeSet::new();
    for (event, value) in pdu.vectors().flat_map(|vector| &vector.values) {
        match value {
            Value::Talker(talker) if event.is_join() => {
                joined.insert(talker.stream_id);
            }
            Value::Listener(stream_id, Some(_)) if event.is_join() => {
                joined.insert(*stream_id);
            }
            _ => {}
        }
    }
    joined
}

impl Registrations {
    pub fn none(port_count: usize) -> Registrations {
        Registrations {
            streams: BTreeMap::new(),
            domains: vec![[None; SLOTS]; port_count],
            addresses: vec![Addresses::new(); port_count],
        }
    }

    /// Streams held plus different new ones joined by this PDU.
    pub fn streams_with(&self, pdu: &Pdu) -> usize {
        let new = streams_joined(pdu)
            .into_iter()
            .filter(|stream_id| !self.streams.contains_key(stream_id))
            .count();
        self.streams.len() + new
    }

    /// Addresses held on a port plus different new ones joined by this MMRP frame.
    pub fn addresses_with(&self, port: usize, pdu: &mmrp::Pdu) -> usize {
        let held = &self.addresses[port - 1];
        let joined = pdu.addresses_joined();
        held.len() + joined.iter().filter(|address| !held.contains_key(address)).count()
    }

    /// Applies an MMRP frame that came in on a port, vector by vector. A Service Requirement does
    /// nothing, nor does its LeaveAll.
    pub fn apply_mmrp(&mut self, port: usize, pdu: &mmrp::Pdu, clock: u32) {
        let held = &mut self.addresses[port - 1];
        for vector in pdu.vectors().filter(|vector| vector.attribute_type == MmrpType::Mac) {
            if vector.leave_all {
                let event = registrar::Event::RLa;
                held.values_mut().for_each(|leaving| registrar::moves(leaving, event, clock));
            }
            for (event, address) in &vector.values {
                match event {
                    Event::New | Event::JoinIn | Event::JoinMt => {
                        held.insert(*address, None);
                    }
                    Event::Lv => {
                        if let Some(leaving) = held.get_mut(address) {
                            registrar::moves(leaving, registrar::Event::RLv, clock);
                        }
                    }
                    Event::In | Event::Mt => {}
                }
            }
        }
    }

    /// Applies a PDU that came in on a port, vector by vector.
    pub fn apply(&mut self, port: usize, pdu: &Pdu, clock: u32) {
        for vector in pdu.vectors() {
            self.apply_vector(port, vector, clock);
        }
    }

    fn apply_vector(&mut self, port: usize, vector: &Vector, clock: u32) {
        if vector.leave_all {
            self.leave_all(port, vector.attribute_type, registrar::Event::RLa, clock);
        }
        for (event, value) in &vector.values {
            match (*value, *event) {
                (Value::Talker(talker), Event::New | Event::JoinIn | Event::JoinMt) => {
                    self.join_talker(port, talker);
                }
                (Value::Talker(talker), Event::Lv) => {
                    self.leave(port, talker.attribute(), registrar::Event::RLv, clock);
                }
                (
                    Value::Listener(stream_id, Some(listener_type)),
                    Event::New | Event::JoinIn | Event::JoinMt,
                ) => self.join_listener(port, stream_id, listener_type),
                (Value::Listener(stream_id, Some(_)), Event::Lv) => {
                    let attribute = pdu::listener_attribute(stream_id);
                    self.leave(port, attribute, registrar::Event::RLv, clock);
                }
                (Value::Domain(domain), Event::New | Event::JoinIn | Event::JoinMt) => {
                    self.join_domain(port, domain);
                }
                (Value::Domain(domain), Event::Lv) => self.leave_domain(port, domain, clock),
                // Ignore, In and Mt do nothing.
                (Value::Listener(_, None), _) | (_, Event::In | Event::Mt) => {}
            }
        }
    }

    /// Moves all registrations of that AttributeType on that port by a LeaveAll, received or sent.
    fn leave_all(
        &mut self,
        port: usize,
        attribute_type: AttributeType,
        event: registrar::Event,
        clock: u32,
    ) {
        if attribute_type == AttributeType::Domain {
            for domain in self.domains[port - 1].iter_mut().flatten() {
                registrar::moves(&mut domain.leaving, event, clock);
            }
            return;
        }
        let stream_ids: Vec<StreamId> = self.streams.keys().copied().collect();
        for key in stream_ids {
            self.leave(port, Attribute { attribute_type, key }, event, clock);
        }
    }

    /// Moves what the port holds of a stream's attribute by Lv or LeaveAll.
    fn leave(&mut self, port: usize, attribute: Attribute, event: registrar::Event, clock: u32) {
        let ports = match self.streams.get_mut(&attribute.key) {
            Some(ports) => ports,
            None => return,
        };
        let OnPort { talker, listener } = &mut ports[port - 1];
        let attribute_type = attribute.attribute_type;
        let leaving = match attribute_type {
            AttributeType::TalkerAdvertise | AttributeType::TalkerFailed => talker
                .as_mut()
                .filter(|talker| talker.attribute_type() == attribute_type)
                .map(|talker| &mut talker.leaving),
            AttributeType::Listener => listener.as_mut().map(|listener| &mut listener.leaving),
            // No Domain is of a stream.
            AttributeType::Domain => None,
        };
        if let Some(leaving) = leaving {
            registrar::moves(leaving, event, clock);
        }
    }

    /// The Registrar of an attribute on a port, as it is now.
    pub fn registrar(&self, port: usize, attribute: &Attribute) -> registrar::State {
        let Attribute { attribute_type, key } = *attribute;
        let held = self.streams.get(&key).map(|ports| &ports[port - 1]);
        let leaving = match attribute_type {
            AttributeType::TalkerAdvertise | AttributeType::TalkerFailed => held
                .and_then(|held| held.talker.as_ref())
                .filter(|talker| talker.attribute_type() == attribute_type)
                .map(|talker| talker.leaving),
            AttributeType::Listener => {
                held.and_then(|held| held.listener.as_ref()).map(|listener| listener.leaving)
            }
            AttributeType::Domain => domain::slot((key >> 8) as u8, key as u8)
                .and_then(|slot| self.domains[port - 1][slot])
                .map(|domain| domain.leaving),
        };
        leaving.map_or(registrar::State::MT, registrar::registered)
    }

    /// The port has sent LeaveAll of all types: its own registrations start leaving, addresses don't.
    pub fn sent_leave_all(&mut self, port: usize, clock: u32) {
        for attribute_type in ATTRIBUTE_TYPES {
            self.leave_all(port, attribute_type, registrar::Event::TxLa, clock);
        }
    }

    fn on_port(&mut self, port: usize, stream_id: StreamId) -> &mut OnPort {
        let port_count = self.domains.len();
        let ports =
            self.streams.entry(stream_id).or_insert_with(|| vec![OnPort::default(); port_count]);
        &mut ports[port - 1]
    }

    /// A Talker join whose parameters equal the held ones replaces type, latency and failure
    /// fields and clears the changed mark; else the held type and values stay and the mark is
    /// set. Either way leaving ends, and the first latency stays.
    fn join_talker(&mut self, port: usize, joined: Talker) {
        let held = &mut self.on_port(port, joined.stream_id).talker;
        match held {
            Some(talker) if talker.parameters != joined.parameters => {
                talker.changed = true;
                talker.leaving = None;
            }
            _ => {
                let first = held.as_ref().map(|talker| talker.first_latency);
                *held = Some(TalkerRegistration {
                    parameters: joined.parameters,
                    accumulated_latency: joined.accumulated_latency,
                    first_latency: first.unwrap_or(joined.accumulated_latency),
                    failure: joined.failure,
                    changed: false,
                    leaving: None,
                });
            }
        }
    }

    /// A Listener join replaces the declaration type and ends any leaving.
    fn join_listener(&mut self, port: usize, stream_id: StreamId, listener_type: ListenerType) {
        let held = &mut self.on_port(port, stream_id).listener;
        *held = Some(ListenerRegistration { listener_type, leaving: None });
    }

    /// A Domain join replaces the VLAN and ends any leaving; a value out of range is dropped.
    fn join_domain(&mut self, port: usize, joined: Domain) {
        if let Some(slot) = domain::slot(joined.class_id, joined.priority) {
            let held = &mut self.domains[port - 1][slot];
            *held = Some(DomainRegistration { vlan: joined.vlan, leaving: None });
        }
    }

    /// Starts leaving what the port holds of that class ID and priority, whatever the VLAN is.
    fn leave_domain(&mut self, port: usize, left: Domain, clock: u32) {
        let slot = domain::slot(left.class_id, left.priority);
        if let Some(held) = slot.and_then(|slot| self.domains[port - 1][slot].as_mut()) {
            registrar::moves(&mut held.leaving, registrar::Event::RLv, clock);
        }
    }

    /// Removes every registration leaving for at least the leave time. Its stream stays until what it
    /// declared is withdrawn.
    pub fn remove_left(&mut self, clock: u32, leave_time: u32) {
        let left =
            |leaving: Option<u32>| leaving.map_or(false, |begun| clock - begun >= leave_time);
        for on_port in self.streams.values_mut().flatten() {
            if on_port.talker.as_ref().map_or(false, |talker| left(talker.leaving)) {
                on_port.talker = None;
            }
            if on_port.listener.as_ref().map_or(false, |listener| left(listener.leaving)) {
                on_port.listener = None;
            }
        }
        for domain in self.domains.iter_mut().flatten() {
            if domain.as_ref().map_or(false, |domain| left(domain.leaving)) {
                *domain = None;
            }
        }
        for addresses in &mut self.addresses {
            addresses.retain(|_, leaving| !left(*leaving));
        }
    }

    /// Drops the streams that no port holds a registration of and no port has an unsent Lv of.
    pub fn drop_unheld(&mut self, is_leaving: impl Fn(StreamId) -> bool) {
        self.streams.retain(|stream_id, ports| {
            ports.iter().any(OnPort::is_registered) || is_leaving(*stream_id)
        });
    }
}
