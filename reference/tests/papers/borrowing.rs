//! Class B borrows what class A leaves (02, (i)). A stream of the worked example takes 17,088,000
//! bit/s in class A and 8,544,000 in class B.

use crate::helpers::*;
use reference::lent::Table;
use reference::pdu::{StreamId, Talker};
use reference::settings::{Class, PerClass, Settings};
use reference::settling;

const OF_A: u64 = 17_088_000;
const OF_B: u64 = 8_544_000;

/// A stream of class B, whose StreamID is above all of class A.
const B_STREAM: StreamId = STREAM + 0x100;

const ADMITTED: &str = "advertise 0 none forward";
const REFUSED: &str = "failed 1 none filter";

/// The Talker of a stream in class B.
fn class_b(stream_id: StreamId) -> Talker {
    let mut talker = talker(stream_id);
    talker.parameters.priority = 2;
    talker
}

/// Settings of two ports with these limits on port 2.
fn limits(a: u64, b: u64) -> Settings {
    let mut settings = settings(2);
    settings.ports[1].limit = PerClass { a, b };
    settings
}

/// The Talkers on port 1, with a Ready Listener of each on port 2.
fn join_all(table: &mut Table, talkers: &[Talker]) {
    for talker in talkers {
        join_talker(table, 1, talker);
        join_listener(table, 2, talker.stream_id, READY);
    }
}

/// The same on a bridge with such settings, settled.
fn settled(settings: &Settings, talkers: &[Talker]) -> Table {
    let mut table = in_domain(settings);
    join_all(&mut table, talkers);
    advance(&mut table, 100);
    table
}

fn totals(table: &Table) -> (u64, u64) {
    let PerClass { a, b } = table.report(2, 0).totals;
    (a, b)
}

#[test]
fn class_b_uses_what_class_a_has_not_reserved() {
    for (a, b, expected) in [
        (OF_B, 0, ADMITTED),
        (OF_B - 1, 0, REFUSED),
        (OF_B - 1, 1, ADMITTED),
        (1, OF_B - 1, ADMITTED),
        (0, OF_B, ADMITTED),
        (0, OF_B - 1, REFUSED),
    ] {
        let table = settled(&limits(a, b), &[class_b(B_STREAM)]);
        assert_eq!(line(&table, 2, B_STREAM), expected, "limits {a} and {b}");
    }
}

#[test]
fn it_is_limit_a_plus_limit_b_less_as_total() {
    for (a, b, expected) in [
        (OF_A, OF_B, ADMITTED),
        (OF_A, OF_B - 1, REFUSED),
        (OF_A + OF_B, 0, ADMITTED),
        (OF_A + OF_B - 1, 0, REFUSED),
        (OF_A + 1, OF_B - 1, ADMITTED),
    ] {
        let table = settled(&limits(a, b), &[talker(STREAM), class_b(B_STREAM)]);
        assert_eq!(line(&table, 2, STREAM), ADMITTED);
        assert_eq!(line(&table, 2, B_STREAM), expected, "limits {a} and {b}");
        assert_eq!(totals(&table), (OF_A, if expected == ADMITTED { OF_B } else { 0 }));
    }
}

#[test]
fn as_total_is_what_it_reserves_not_what_it_asks_for() {
    // An Advertise without a Ready Listener reserves nothing, nor does one that gets 1.
    for (size, listener, expected) in
        [(224, ASKING, "advertise 0 none filter"), (224, READY, ADMITTED), (1_522, READY, REFUSED)]
    {
        let mut of_a = talker(STREAM);
        of_a.parameters.max_frame_size = size;
        let mut table = in_domain(&limits(OF_A, 0));
        join_talker(&mut table, 1, &of_a);
        join_listener(&mut table, 2, STREAM, listener);
        join_all(&mut table, &[class_b(B_STREAM), class_b(B_STREAM + 1)]);
        advance(&mut table, 100);
        assert_eq!(line(&table, 2, STREAM), expected);
        let borrowed = expected != ADMITTED;
        for stream_id in [B_STREAM, B_STREAM + 1] {
            let expected = if borrowed { ADMITTED } else { REFUSED };
            assert_eq!(line(&table, 2, stream_id), expected);
        }
    }
}

#[test]
fn class_b_is_thrown_out_in_the_advance_in_which_class_a_grows() {
    let mut table = settled(&limits(OF_A, 0), &[class_b(B_STREAM), class_b(B_STREAM + 1)]);
    assert_eq!(totals(&table), (0, 2 * OF_B));
    join_all(&mut table, &[talker(STREAM)]);
    assert_eq!(totals(&table), (0, 2 * OF_B));
    advance(&mut table, 100);
    assert_eq!(totals(&table), (OF_A, 0));
    assert_eq!(line(&table, 2, B_STREAM), REFUSED);
    assert_eq!(line(&table, 1, B_STREAM), "none 0 asking none");
    // It comes back when class A shrinks, the more important first.
    let mut smaller = table.clone();
    let mut half = talker(STREAM + 1);
    half.parameters.max_frame_size = 90; // 133 octets, 8,512,000 bit/s
    join_all(&mut smaller, &[half]);
    join_listener(&mut smaller, 2, STREAM, ASKING);
    advance(&mut smaller, 101);
    assert_eq!(totals(&smaller), (8_512_000, OF_B));
    assert_eq!(line(&smaller, 2, B_STREAM), ADMITTED);
    assert_eq!(line(&smaller, 2, B_STREAM + 1), REFUSED);
    join_listener(&mut table, 2, STREAM, ASKING);
    advance(&mut table, 101);
    assert_eq!(totals(&table), (0, 2 * OF_B));
}

#[test]
fn class_a_never_borrows_and_no_rank_or_age_counts_across_classes() {
    // Class B of rank 0, there first, gives way to class A of rank 1; it gets 1, not 6.
    let mut emergency = class_b(B_STREAM);
    emergency.parameters.rank = 0;
    let mut table = settled(&limits(OF_A, 0), &[emergency]);
    assert_eq!(line(&table, 2, B_STREAM), ADMITTED);
    join_all(&mut table, &[talker(STREAM)]);
    advance(&mut table, 1_000);
    assert_eq!(line(&table, 2, STREAM), ADMITTED);
    assert_eq!(line(&table, 2, B_STREAM), REFUSED);
    // Class A has its own limit alone.
    let table = settled(&limits(OF_A - 1, 75_000_000), &[talker(STREAM)]);
    assert_eq!(line(&table, 2, STREAM), REFUSED);
}

#[test]
fn the_higher_class_is_a_whatever_the_priorities_are() {
    let mut settings = limits(OF_A, 0);
    settings.priority = PerClass { a: 2, b: 3 };
    // With these priorities the worked example's Talker is of class B.
    let of_b = talker(STREAM);
    let mut table = settled(&settings, &[of_b]);
    assert_eq!(totals(&table), (0, OF_B));
    join_all(&mut table, &[class_b(STREAM + 1)]);
    advance(&mut table, 100);
    assert_eq!(totals(&table), (OF_A, 0));
}

#[test]
fn limit_a_counts_as_0_on_a_port_without_class_a() {
    for (a, b, expected) in [(75_000_000, OF_B - 1, REFUSED), (75_000_000, OF_B, ADMITTED)] {
        let mut settings = limits(a, b);
        settings.ports[1].supports.a = false;
        let table = settled(&settings, &[talker(STREAM), class_b(B_STREAM)]);
        assert_eq!(line(&table, 2, STREAM), "none 0 none filter");
        assert_eq!(line(&table, 2, B_STREAM), expected);
        assert_eq!(table.report(2, 0).limits, PerClass { a, b });
    }
}

#[test]
fn what_class_a_leaves_is_that_of_each_port() {
    let mut settings = settings(3);
    for port in &mut settings.ports {
        port.limit = PerClass { a: OF_A, b: 0 };
    }
    let mut table = in_domain(&settings);
    join_all(&mut table, &[talker(STREAM), class_b(B_STREAM)]);
    join_listener(&mut table, 3, B_STREAM, READY);
    advance(&mut table, 1);
    assert_eq!(line(&table, 2, B_STREAM), REFUSED);
    assert_eq!(line(&table, 3, B_STREAM), ADMITTED);
}

#[test]
fn the_configured_limits_are_shown() {
    let table = settled(&limits(75_000_000, 0), &[talker(STREAM), class_b(B_STREAM)]);
    let answer = table.report(2, 0);
    assert_eq!(answer.totals, PerClass { a: OF_A, b: OF_B });
    assert_eq!(answer.limits, PerClass { a: 75_000_000, b: 0 });
}

#[test]
fn the_sum_of_limits_is_not_capped() {
    let most = (1 << 40) - 1;
    let mut port = port();
    port.limit = PerClass { a: most, b: most };
    assert_eq!(settling::limit_in_force(&port, Class::B, 0).0, (1 << 41) - 2);
    assert_eq!(settling::limit_in_force(&port, Class::B, most).0, most);
    assert_eq!(settling::limit_in_force(&port, Class::A, 0).0, most);
    // Streams of (224 + 43) x 65,535 octets, of which two need 41 bits and four do not fit.
    let great = [0, 1, 2, 3].map(|n| {
        let mut great = class_b(B_STREAM + n);
        great.parameters.max_interval_frames = 65_535;
        great
    });
    let table = settled(&limits(most, most), &great);
    let expected = 3 * 267 * 65_535 * 32_000;
    assert_eq!(totals(&table), (0, expected));
    assert_eq!(line(&table, 2, B_STREAM + 2), ADMITTED);
    assert_eq!(line(&table, 2, B_STREAM + 3), REFUSED);
    // Its octets are six.
    let place = reference::table::layout::TOTALS + 11 + 5;
    assert_eq!(table.lent()[place..place + 6], expected.to_be_bytes()[2..]);
}
