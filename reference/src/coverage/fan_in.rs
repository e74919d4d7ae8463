//! What is counted of inbound ports and shared addresses.

use super::counts::Counts;
use super::held::{registered_at, talker_port};
use crate::bridge::Bridge;
use crate::fan_in::FanIn;
use crate::pdu::Parameters;
use crate::registrations::TalkerRegistration;
use crate::settled::Column;
use crate::settling::Step;

/// Rows of the table.
pub const ROWS: &[&str] = &[
    "several inbound ports without a limit",
    "inbound port with Failed streams alone",
    "inbound port with leaving streams alone",
    "second Talkers alone on a port",
    "last port within the limit",
    "first port past the limit",
    "first port past a limit of 4 or more",
    "further port past the limit",
    "three streams with one address",
    "one destination with two VLANs",
    "address of a stream from another port",
    "address of a Failed stream",
    "address of a changed stream",
    "address of a leaving stream",
    "address of a stream with column none",
    "code 13 before 5",
    "code 13 before 15",
    "code 8 before 5",
    "code 8 before 15",
    "code 5 before 15",
    "code 5 before 14",
    "code 15 before 14",
    "code 5 cleared",
    "code 15 cleared",
];

fn address(parameters: &Parameters) -> (u64, u16) {
    (parameters.destination, parameters.vlan)
}

/// The registrations at the Talker port of the streams that have this one.
fn brought_in(bridge: &Bridge, port: usize) -> impl Iterator<Item = &TalkerRegistration> {
    let here = move |stream_id: &&u64| talker_port(bridge, **stream_id) == Some(port - 1);
    let streams = bridge.registrations.streams.keys();
    streams.filter(here).filter_map(|stream_id| registered_at(bridge, *stream_id))
}

/// The inbound ports that an advance has found.
pub fn inbound(counts: &mut Counts, bridge: &Bridge) {
    let fan_in = FanIn::of(&bridge.registrations);
    let limit = bridge.settings.fan_in_limit;
    let several = fan_in.ports.len() > 1;
    counts.count_if("several inbound ports without a limit", limit == 0 && several);
    for port in 1..=bridge.settings.ports.len() {
        let is_inbound = fan_in.ports.contains(&port);
        let talkers = || brought_in(bridge, port);
        let all = |holds: fn(&TalkerRegistration) -> bool| is_inbound && talkers().all(holds);
        let matters = limit > 0 && fan_in.ports.range(port + 1..).next().is_some();
        counts.count_if("inbound port with Failed streams alone", {
            matters && all(|talker| talker.failure.is_some())
        });
        counts.count_if("inbound port with leaving streams alone", {
            matters && all(|talker| talker.leaving.is_some())
        });
        let held = bridge.registrations.streams.values().any(|on| on[port - 1].talker.is_some());
        counts.count_if("second Talkers alone on a port", held && !is_inbound);
        if limit > 0 && is_inbound {
            let below = fan_in.below(port);
            counts.count_if("last port within the limit", below + 1 == usize::from(limit));
            let first = below == usize::from(limit);
            counts.count_if("first port past the limit", first);
            counts.count_if("first port past a limit of 4 or more", first && limit >= 4);
            counts.count_if("further port past the limit", below > usize::from(limit));
        }
    }
    addresses_in_common(counts, bridge);
}

/// Streams with one destination, and with one VLAN or several.
fn addresses_in_common(counts: &mut Counts, bridge: &Bridge) {
    let addresses = bridge.registrations.streams.keys();
    let addresses: Vec<Parameters> = addresses
        .filter_map(|stream_id| Some(registered_at(bridge, *stream_id)?.parameters))
        .collect();
    let mut threes = 0;
    let mut other_vlan = 0;
    for (place, one) in addresses.iter().enumerate() {
        let before = &addresses[..place];
        let alike = |other: &&Parameters| address(other) == address(one);
        threes += usize::from(before.iter().filter(alike).count() == 2);
        let by_vlan =
            |other: &Parameters| other.destination == one.destination && other.vlan != one.vlan;
        other_vlan += usize::from(before.iter().any(by_vlan));
    }
    counts.count_if("three streams with one address", threes > 0);
    counts.count_if("one destination with two VLANs", other_vlan > 0);
}

/// A column that was, or could have been, decided by what streams have in common.
pub fn in_common(
    counts: &mut Counts,
    (before, after): (&Bridge, &Bridge),
    stream_id: u64,
    port: usize,
    step: Step,
) {
    let (at, talker) = match (talker_port(after, stream_id), registered_at(after, stream_id)) {
        (Some(at), Some(talker)) => (at + 1, talker),
        _ => return,
    };
    let fan_in = FanIn::of(&after.registrations);
    let shared = fan_in.is_shared(stream_id, &talker.parameters);
    let past = !fan_in.may_bring_in(at, after.settings.fan_in_limit);
    counts.count_if("code 13 before 5", step == Step::F && shared);
    counts.count_if("code 13 before 15", step == Step::F && past);
    counts.count_if("code 8 before 5", step == Step::J && shared);
    counts.count_if("code 8 before 15", step == Step::J && past);
    counts.count_if("code 5 before 15", step == Step::L && past);
    let largest = after.settings.ports[port - 1].largest_frame;
    let large = talker.parameters.max_frame_size > largest;
    counts.count_if("code 5 before 14", step == Step::L && large);
    counts.count_if("code 15 before 14", step == Step::M && large);
    let was = before.settled.streams.get(&stream_id).map(|settled| settled.ports[port - 1].column);
    let had = |code| matches!(was, Some(Column::Failed(failure)) if failure.code == code);
    let admitted = step == Step::I;
    counts.count_if("code 5 cleared", admitted && had(5));
    counts.count_if("code 15 cleared", admitted && had(15));
    if step == Step::L {
        one_shared(counts, after, stream_id, port, talker);
    }
}

/// The lowest StreamID with the address of a stream that got 5.
fn one_shared(
    counts: &mut Counts,
    bridge: &Bridge,
    stream_id: u64,
    port: usize,
    talker: &TalkerRegistration,
) {
    let same = |other: &&u64| {
        registered_at(bridge, **other)
            .map_or(false, |other| address(&other.parameters) == address(&talker.parameters))
    };
    let lowest = *bridge.registrations.streams.keys().find(same).expect("it is shared");
    let other = registered_at(bridge, lowest).expect("it has a Talker");
    let at = talker_port(bridge, lowest);
    counts.count_if("address of a stream from another port", {
        at != talker_port(bridge, stream_id)
    });
    counts.count_if("address of a Failed stream", other.failure.is_some());
    counts.count_if("address of a changed stream", other.changed);
    counts.count_if("address of a leaving stream", other.leaving.is_some());
    let column = bridge.settled.streams[&lowest].ports[port - 1].column;
    counts.count_if("address of a stream with column none", column == Column::None);
}
