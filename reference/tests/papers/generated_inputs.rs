//! The generator and its coverage.

use reference::coverage::Coverage;
use reference::{calls, generator};

#[test]
fn an_input_is_a_function_of_its_seed_alone() {
    for seed in 0..50 {
        assert_eq!(generator::sheet(seed), generator::sheet(seed));
        assert_eq!(generator::calls(seed), generator::calls(seed));
    }
    assert_ne!(generator::sheet(1), generator::sheet(2));
    assert_ne!(generator::calls(1), generator::calls(2));
}

#[test]
fn the_inputs_of_a_thousand_seeds_reach_every_row() {
    let (table, complete) = Coverage::of_seeds(1_000).table();
    assert!(complete, "{table}");
}

#[test]
fn a_script_stops_exactly_where_it_is_meant_to() {
    for seed in 0..300 {
        let script = generator::calls(seed);
        assert_eq!(calls::run(&script.octets).ends_with("stop\n"), script.stops);
    }
}

#[test]
fn scripts_look_at_the_table_often_and_go_on_where_octets_are_stored() {
    let (mut changing, mut sums, mut refused) = (0, 0, 0);
    for seed in 0..300 {
        for line in calls::run(&generator::calls(seed).octets).lines() {
            let names = ["start", "receive", "mmrp", "advance", "write"];
            let changes = names.iter().any(|name| line.starts_with(name));
            changing += usize::from(changes);
            sums += usize::from(line.starts_with("table "));
            refused += usize::from(changes && line.split(' ').nth(1) == Some("12"));
        }
    }
    assert!(sums > changing, "{sums} sums of {changing}");
    assert!(refused < changing / 5, "{refused} refused of {changing}");
}

#[test]
fn half_of_the_scripts_have_mmrp_frames() {
    let has_mmrp = |seed: &u64| calls::run(&generator::calls(*seed).octets).contains("mmrp ");
    let count = (0..300).filter(has_mmrp).count();
    assert!((120..180).contains(&count), "{count} of 300");
}

#[test]
fn a_batch_goes_on_to_its_last_script() {
    for first in [0, 100, 200] {
        let printed = calls::run(&generator::calls_batch(first, 60));
        let stops = printed.lines().filter(|line| *line == "stop").count();
        assert_eq!(stops, usize::from(generator::calls(first + 59).stops));
    }
    let left_out = generator::left_out_of_batch(0, 60);
    assert!(!left_out.is_empty() && left_out.iter().all(|seed| generator::calls(*seed).stops));
    let alone = generator::calls(7);
    assert_eq!(generator::calls_batch(7, 1), alone.octets);
    assert!(generator::calls_batch(7, 0).is_empty());
}
