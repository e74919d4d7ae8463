//! What is counted of why.

use super::counts::Counts;
use super::held::registered_at;
use crate::bridge::{Bridge, WhyAnswer};
use crate::numbers;
use crate::pdu::StreamId;
use crate::settings::Class;
use crate::settled::{Column, Entry, SettledStream};
use crate::settling::{self, Facts, Settling, Step};
use crate::why::{self, Why, LONGEST_LIST};
use crate::words;

/// Rows of the table: the numbers given back.
pub const NUMBERS: &[&str] = &["why 0", "why 1", "why 10", "why 12", "why 15"];

/// Rows of the table.
pub const ROWS: &[&str] = &[
    "why a",
    "why b",
    "why n",
    "why c",
    "why d",
    "why k",
    "why e",
    "why f",
    "why j",
    "why l",
    "why m",
    "why g",
    "why h",
    "why i",
    "why of a stream with a Listener alone",
    "why c with code 1",
    "why h with no stream listed",
    "why h with 1 stream listed",
    "why h with 2 to 62 streams listed",
    "why h with 63 streams listed",
    "why h with streams listed by age before StreamID",
    "why h with streams listed by rank before age",
    "why h with a stream listed that asks for 0",
    "why h with a more important stream that reserves nothing",
    "why h with a less important stream that reserves",
    "why h of class A",
    "why h of class B",
    "why h of class B that borrows",
    "why h of class B where class A has reserved",
    "why h of class B where limit A counts 0",
    "why h with a limit of 2^40 or above",
    "why h with a shortfall of 1",
    "why h with a shortfall below the demand",
    "why h with a shortfall of the whole demand",
    "why in an unsettled table",
    "why with another column than the settled one",
    "why with another boundary flag than the settled one",
    "why of a stream joined since",
    "why h with a list that isn't the settled one",
    "why with a buffer of 1008 octets",
    "why with a buffer of 1007 octets",
    "why 10 of a stream whose list is empty",
    "why 15 with a buffer too short",
];

/// An accepted question and its answer, with what an advance to the held clock would come to.
struct Asked<'a> {
    bridge: &'a Bridge,
    port: usize,
    stream_id: StreamId,
    supposed: Settling,
    why: Why,
}

/// A call of why on a table with its form, for a port of the bridge.
pub fn asked(
    counts: &mut Counts,
    bridge: &Bridge,
    (port, stream_id): (usize, StreamId),
    buffer_length: usize,
    answer: WhyAnswer,
) {
    let short = buffer_length < LONGEST_LIST;
    counts.count_if("why 15 with a buffer too short", answer.number == numbers::STREAM && short);
    if answer.number == numbers::STREAM {
        return;
    }
    counts.count_if("why with a buffer of 1008 octets", buffer_length == LONGEST_LIST);
    counts.count_if("why with a buffer of 1007 octets", buffer_length + 1 == LONGEST_LIST);
    let Bridge { settings, registrations, clock, settled, .. } = bridge;
    let supposed = settling::settling(settings, registrations, *clock, settled);
    let step = supposed.decisions.columns[&(stream_id, port)].step;
    counts.count_if("why 10 of a stream whose list is empty", short && step != Step::H);
    if short {
        return;
    }
    let why = why::why((settings, registrations), (*clock, settled), stream_id, port);
    counts.count(&format!("why {}", words::step(why.step)));
    let talker = registered_at(bridge, stream_id);
    counts.count_if("why of a stream with a Listener alone", talker.is_none());
    let code = talker.and_then(|talker| talker.failure).map(|failure| failure.code);
    counts.count_if("why c with code 1", why.step == Step::C && code == Some(1));
    let asked = Asked { bridge, port, stream_id, supposed, why };
    unsettled(counts, &asked);
    if asked.why.step == Step::H {
        refused_for_bandwidth(counts, &asked);
        listed(counts, &asked);
    }
}

/// An answer that isn't what the last advance took down.
fn unsettled(counts: &mut Counts, asked: &Asked) {
    let Asked { bridge, port, stream_id, supposed, why } = asked;
    let column = supposed.decisions.columns[&(*stream_id, *port)].column;
    let settled = bridge.settled.streams.get(stream_id);
    let was = settled.map_or(Column::None, |settled| settled.ports[port - 1].column);
    let flags = supposed.boundaries[port - 1] != bridge.settled.boundaries[port - 1];
    let other_list = why.list.iter().any(|listed| {
        let settled = bridge.settled.streams.get(&listed.stream_id);
        settled.map_or(true, |settled| settled.ports[port - 1].entry != Entry::Forward)
    });
    counts.count_if("why with another column than the settled one", column != was);
    counts.count_if("why with another boundary flag than the settled one", flags);
    counts.count_if("why h with a list that isn't the settled one", other_list);
    let joined_since = settled.map_or(true, |settled| {
        let none = SettledStream::none(bridge.settings.ports.len());
        *settled == none
    });
    counts.count_if("why of a stream joined since", joined_since);
    counts.count_if("why in an unsettled table", column != was || flags || other_list);
}

/// The limit in force and the shortfall.
fn refused_for_bandwidth(counts: &mut Counts, asked: &Asked) {
    let Asked { bridge, port, stream_id, supposed, why } = asked;
    let port_settings = &bridge.settings.ports[port - 1];
    let decisions = &supposed.decisions;
    let demand = decisions.columns[&(*stream_id, *port)].compared.expect("step h").demand.0;
    let priority = registered_at(bridge, *stream_id).expect("step h").parameters.priority;
    let class = bridge.settings.class_of(priority);
    counts.count_if("why h of class A", class == Some(Class::A));
    if class == Some(Class::B) {
        counts.count("why h of class B");
        let (limit, total_a) = (why.limit.0, decisions.totals[port - 1].a);
        counts.count_if("why h of class B that borrows", limit > port_settings.limit.b);
        counts.count_if("why h of class B where class A has reserved", total_a > 0);
        let counts_0 = !port_settings.supports.a && port_settings.limit.a > 0;
        counts.count_if("why h of class B where limit A counts 0", counts_0);
    }
    counts.count_if("why h with a limit of 2^40 or above", why.limit.0 >= 1 << 40);
    let shortfall = why.shortfall.0;
    counts.count_if("why h with a shortfall of 1", shortfall == 1);
    counts.count_if("why h with a shortfall below the demand", shortfall < demand);
    counts.count_if("why h with a shortfall of the whole demand", shortfall == demand);
}

/// The streams listed, and those that aren't.
fn listed(counts: &mut Counts, asked: &Asked) {
    let Asked { bridge, port, stream_id, supposed, why } = asked;
    counts.count(match why.list.len() {
        0 => "why h with no stream listed",
        1 => "why h with 1 stream listed",
        63 => "why h with 63 streams listed",
        _ => "why h with 2 to 62 streams listed",
    });
    let facts = Facts::new(&bridge.settings, &bridge.registrations, &supposed.boundaries);
    let importance = |one| settling::importance(&facts, &supposed.since, one, *port);
    for two in why.list.windows(2) {
        let ((rank, since, id), (next_rank, next_since, next_id)) =
            (importance(two[0].stream_id), importance(two[1].stream_id));
        let by_age = rank == next_rank && since < next_since && id > next_id;
        counts.count_if("why h with streams listed by age before StreamID", by_age);
        let by_rank = rank < next_rank && since > next_since;
        counts.count_if("why h with streams listed by rank before age", by_rank);
    }
    let asks_0 = why.list.iter().any(|listed| listed.demand.0 == 0);
    counts.count_if("why h with a stream listed that asks for 0", asks_0);
    let class = settling::class_reached(&facts, *stream_id);
    for other in bridge.registrations.streams.keys() {
        let decision = supposed.decisions.columns[&(*other, *port)];
        if decision.step != Step::I || settling::class_reached(&facts, *other) != class {
            continue;
        }
        let listener = bridge.registrations.streams[other][port - 1].listener_type();
        let entry = settling::entry(decision.column, listener);
        let (more, reserves) =
            (importance(*other) < importance(*stream_id), entry == Entry::Forward);
        counts.count_if("why h with a more important stream that reserves nothing", {
            more && !reserves
        });
        counts.count_if("why h with a less important stream that reserves", !more && reserves);
    }
}
