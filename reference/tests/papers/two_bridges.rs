//! Two bridges on a link: port 2 of the first and port 1 of the second (02, (xiv)).

use crate::helpers::*;
use crate::senders::pdus_of_pass;
use reference::lent::Table;
use reference::pdu::{AttributeType, Talker};
use reference::registrations::TalkerRegistration;
use reference::settings::Settings;

/// The two bridges, each in the other's domain, at one time.
struct Link {
    first: Table,
    second: Table,
    time: u32,
}

impl Link {
    fn new() -> Link {
        let first = in_domain(&settings(2));
        let second = in_domain(&Settings { bridge_id: 0x8000_0000_0000_0008, ..settings(2) });
        Link { first, second, time: 0 }
    }

    /// All that the first one has to say, in three passes, received whole.
    fn first_speaks(&mut self) {
        for _ in 0..3 {
            for pdu in pass(&mut self.first, 2) {
                accept(&mut self.second, 1, &pdu);
            }
        }
    }

    /// The same of the second.
    fn second_speaks(&mut self) {
        for _ in 0..3 {
            for pdu in pass(&mut self.second, 1) {
                accept(&mut self.first, 2, &pdu);
            }
        }
    }

    fn goes_to(&mut self, time: u32) {
        self.time = time;
        advance(&mut self.first, time);
        advance(&mut self.second, time);
    }

    /// A Talker that comes in at the first one, decided at once.
    fn joins(&mut self, talker: &Talker) {
        join_talker(&mut self.first, 1, talker);
        advance(&mut self.first, self.time);
    }

    /// It leaves, and after the leave time is gone from the first one.
    fn leaves(&mut self, talker: &Talker) {
        accept(&mut self.first, 1, &talker_frame(talker, &[LV]));
        self.goes_to(self.time + 60);
    }

    /// What the second one has registered of the stream on the link.
    fn registered(&self) -> Option<TalkerRegistration> {
        let held = &self.second.bridge().unwrap().registrations.streams;
        held.get(&STREAM).and_then(|ports| ports[0].talker.clone())
    }
}

/// The PDUs of a pass, without the last one, which says nothing.
fn pass(table: &mut Table, port: u32) -> Vec<Vec<u8>> {
    pdus_of_pass(table, port, 0)
}

/// A link over which the Talker was declared.
fn declared() -> Link {
    let mut link = Link::new();
    link.joins(&talker(STREAM));
    link.first_speaks();
    link
}

#[test]
fn a_neighbour_has_what_is_declared_and_loses_what_is_withdrawn() {
    let mut link = declared();
    let registered = link.registered().expect("it was joined");
    assert_eq!(registered.parameters, talker(STREAM).parameters);
    assert_eq!((registered.failure, registered.changed), (None, false));
    // Another latency and another type are taken.
    link.joins(&failed(STREAM, 9));
    link.first_speaks();
    assert_eq!(link.registered().unwrap().failure, failed(STREAM, 9).failure);
    link.leaves(&failed(STREAM, 9));
    link.first_speaks();
    assert!(link.registered().expect("it is leaving").leaving.is_some());
    link.goes_to(link.time + 60);
    assert_eq!(link.registered(), None);
    assert_eq!((held(&link.first), held(&link.second)), (vec![], vec![]));
}

#[test]
fn a_listener_goes_back_over_the_link() {
    let mut link = declared();
    join_listener(&mut link.second, 2, STREAM, READY);
    link.goes_to(1);
    link.second_speaks();
    link.goes_to(2);
    assert_eq!(line(&link.first, 1, STREAM), "none 0 ready none");
    join_listener(&mut link.second, 2, STREAM, ASKING);
    link.goes_to(3);
    link.second_speaks();
    link.goes_to(4);
    assert_eq!(line(&link.first, 1, STREAM), "none 0 asking none");
}

/// The Talker with another destination.
fn elsewhere() -> Talker {
    let mut talker = talker(STREAM);
    talker.parameters.destination += 7;
    talker
}

/// What is registered there with other values stays: the join marks it as changed, and ends its leaving, also
/// where it comes after a LeaveAll of either side.
#[test]
fn another_destination_is_not_taken_while_the_old_one_is_registered() {
    let mut link = declared();
    link.leaves(&talker(STREAM));
    link.joins(&elsewhere());
    link.first_speaks();
    let stands = |link: &Link| {
        let registered = link.registered().expect("it stands");
        assert_eq!(registered.parameters, talker(STREAM).parameters);
        assert_eq!((registered.changed, registered.leaving), (true, None));
    };
    stands(&link);
    link.goes_to(1_000);
    link.first_speaks();
    stands(&link);
    accept(&mut link.second, 1, &own_domain(&settings(2)));
    link.second_speaks();
    link.first_speaks();
    stands(&link);
    // Withdrawn for the leave time it is gone, and then taken.
    link.leaves(&elsewhere());
    link.first_speaks();
    link.goes_to(link.time + 60);
    assert_eq!(link.registered(), None);
    link.joins(&elsewhere());
    link.first_speaks();
    assert_eq!(link.registered().unwrap().parameters, elsewhere().parameters);
}

/// A LeaveAll of the first one, which declares the stream no more, withdraws it.
fn leave_all_mends(link: &mut Link) {
    assert_eq!(held(&link.first), []);
    assert!(link.registered().unwrap().leaving.is_none());
    link.goes_to(1_000);
    link.first_speaks();
    link.goes_to(1_060);
    assert_eq!(link.registered(), None);
}

#[test]
fn what_the_neighbours_own_lv_turned_to_vp_goes_without_an_lv() {
    let mut link = declared();
    accept(&mut link.first, 2, &talker_frame(&talker(STREAM), &[LV]));
    link.leaves(&talker(STREAM));
    assert_eq!(pass(&mut link.first, 2), Vec::<Vec<u8>>::new());
    leave_all_mends(&mut link);
}

#[test]
fn an_lv_that_was_lost_is_not_sent_again() {
    let mut link = declared();
    link.leaves(&talker(STREAM));
    let lost = pass(&mut link.first, 2);
    assert_eq!(lost, [talker_frame(&talker(STREAM), &[LV])]);
    assert_eq!(pass(&mut link.first, 2), Vec::<Vec<u8>>::new());
    leave_all_mends(&mut link);
}

#[test]
fn of_two_frames_either_may_be_lost() {
    for lost in [0, 1] {
        let mut link = Link::new();
        pass(&mut link.first, 2);
        link.joins(&talker(STREAM));
        let frames = [pass(&mut link.first, 2), pass(&mut link.first, 2)];
        for pdu in &frames[1 - lost] {
            accept(&mut link.second, 1, pdu);
        }
        assert!(link.registered().is_some());
        // So with New, where the code changes.
        let mut later = talker(STREAM);
        later.failure = failed(STREAM, 9).failure;
        link.joins(&later);
        link.first_speaks();
        later.failure = failed(STREAM, 10).failure;
        link.joins(&later);
        let frames = [pass(&mut link.first, 2), pass(&mut link.first, 2)];
        for pdu in &frames[1 - lost] {
            accept(&mut link.second, 1, pdu);
        }
        assert_eq!(link.registered().unwrap().failure, later.failure);
    }
}

#[test]
fn a_domain_goes_over_the_link() {
    let mut link = Link::new();
    // What stands in for the neighbour's word at the start leaves.
    for table in [&mut link.first, &mut link.second] {
        let leaves = one_message(
            AttributeType::Domain,
            vec![domain_vector(5, 2, &[LV]), domain_vector(6, 3, &[LV])],
        );
        accept(table, 1, &leaves);
        accept(table, 2, &leaves);
    }
    link.first_speaks();
    link.second_speaks();
    link.goes_to(60);
    let domains = |table: &Table, port: usize| {
        let registrations = &table.bridge().unwrap().registrations;
        registrations.domains[port - 1].iter().flatten().count()
    };
    assert_eq!([domains(&link.first, 2), domains(&link.second, 1)], [2, 2]);
    assert_eq!([domains(&link.first, 1), domains(&link.second, 2)], [0, 0]);
}
