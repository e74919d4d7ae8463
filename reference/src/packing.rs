//! Listener declarations packed into vectors (02, (xi); 802.1Qat clause 35.2.2.7.2).
//!
//! "StreamIDs with equal MAC in one vector, gaps filled with Ignore (35.2.2.7.2), none beginning or
//! ending a vector."

use std::cmp::Reverse;
use std::ops::Range;

use crate::mrp::Event;
use crate::pdu::{ListenerType, StreamId};

/// A Listener declaration: its stream, what it says and the event it is written with.
pub type Listener = (StreamId, ListenerType, Event);

/// A run of StreamIDs, ascending, cut into vectors: from which place to which each part of it goes.
/// "Each declaration stands in exactly one vector."
pub type Cutting = Vec<Range<usize>>;

/// A run of at most so many is cut in every way there is.
pub const SHORT_RUN: usize = 8;

/// Octets of a vector: header 2, FirstValue 8, ThreePackedEvents, FourPackedEvents.
fn vector_length(values: u64) -> u64 {
    10 + (values + 2) / 3 + (values + 3) / 4
}

/// The values of the vector that takes a part, those with Ignore too.
pub fn number_of_values(part: &[StreamId]) -> u64 {
    part[part.len() - 1] - part[0] + 1
}

/// Whether a part has one MAC, which is the first six octets of a StreamID.
fn has_equal_mac(part: &[StreamId]) -> bool {
    part[0] >> 16 == part[part.len() - 1] >> 16
}

/// What cuttings are compared by, the less the better: "no other cutting into vectors takes fewer
/// octets; on a tie take the fewest vectors, and then the one with most values in the first vector,
/// then in the second and so on".
pub type Weight = (u64, usize, Reverse<Vec<u64>>);

pub fn weight(run: &[StreamId], cutting: &[Range<usize>]) -> Weight {
    let values: Vec<u64> =
        cutting.iter().map(|part| number_of_values(&run[part.clone()])).collect();
    (values.iter().map(|values| vector_length(*values)).sum(), values.len(), Reverse(values))
}

/// Every cutting of a run. Between two neighbours there is a cut where their bit is set.
pub fn all_cuttings(run: &[StreamId]) -> impl Iterator<Item = Cutting> + '_ {
    let between = run.len().saturating_sub(1);
    let cuttings = (0..1u64 << between).map(move |cuts| {
        let mut cutting = Vec::new();
        let mut begin = 0;
        for end in 1..=run.len() {
            if end == run.len() || cuts >> (end - 1) & 1 == 1 {
                cutting.push(begin..end);
                begin = end;
            }
        }
        cutting
    });
    cuttings.filter(move |cutting| cutting.iter().all(|part| has_equal_mac(&run[part.clone()])))
}

/// The best of all cuttings.
pub fn best_of_all(run: &[StreamId]) -> Cutting {
    all_cuttings(run).min_by_key(|cutting| weight(run, cutting)).expect("each alone is a cutting")
}

/// The best cutting of what is left of a run from a place on: its octets, its vectors and where the
/// first of them ends.
#[derive(Clone, Copy, Default)]
struct Rest {
    octets: u64,
    vectors: usize,
    first_end: usize,
}

/// The same as the best of all, from the end of the run to its front: the first vector ends
/// somewhere, and behind it stands the best cutting of what is left. First vectors with equally many
/// values end at the same place, so no more than the first need be compared.
pub fn best_from_the_end(run: &[StreamId]) -> Cutting {
    let mut best = vec![Rest::default(); run.len() + 1];
    for begin in (0..run.len()).rev() {
        let ends = (begin + 1..=run.len()).filter(|end| has_equal_mac(&run[begin..*end]));
        let rests = ends.map(|end| {
            let octets = vector_length(number_of_values(&run[begin..end])) + best[end].octets;
            Rest { octets, vectors: best[end].vectors + 1, first_end: end }
        });
        best[begin] = rests
            .min_by_key(|rest| (rest.octets, rest.vectors, Reverse(rest.first_end)))
            .expect("a vector of one value");
    }
    let mut cutting = Vec::new();
    let mut begin = 0;
    while begin < run.len() {
        cutting.push(begin..best[begin].first_end);
        begin = best[begin].first_end;
    }
    cutting
}

/// The cutting that is written for the Listeners of a PDU. It depends on them alone.
pub fn best(run: &[StreamId]) -> Cutting {
    match run.len() {
        0..=SHORT_RUN => best_of_all(run),
        _ => best_from_the_end(run),
    }
}

/// The vectors of the Listeners of a PDU.
pub fn vectors(listeners: &[Listener]) -> Vec<Vec<u8>> {
    let run: Vec<StreamId> = listeners.iter().map(|(stream_id, ..)| *stream_id).collect();
    best(&run).into_iter().map(|part| vector(&listeners[part])).collect()
}

/// The vector of a part: LeaveAllEvent 0 and NumberOfValues, FirstValue, the events and the types. At an
/// Ignore the event "shall be set to zero on transmit", and spare positions are 0 in both kinds of octets.
fn vector(part: &[Listener]) -> Vec<u8> {
    let (first, last) = (part[0].0, part[part.len() - 1].0);
    let values = (last - first + 1) as usize;
    let mut three_packed = vec![0; (values + 2) / 3];
    let mut four_packed = vec![0; (values + 3) / 4];
    for (stream_id, listener_type, event) in part {
        let n = (stream_id - first) as usize;
        three_packed[n / 3] += event.number() * [36, 6, 1][n % 3];
        four_packed[n / 4] |= listener_type.number() << [6, 4, 2, 0][n % 4];
    }
    let mut octets = (values as u16).to_be_bytes().to_vec();
    octets.extend(first.to_be_bytes());
    octets.extend(three_packed);
    octets.extend(four_packed);
    octets
}
