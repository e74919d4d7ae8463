//! Both programs end with an answer on any input.

use crate::helpers::*;
use reference::random::Random;
use reference::{calls, generator, settings, sheet};

#[test]
fn both_programs_end_on_random_octets() {
    let mut random = Random::new(1);
    for _ in 0..3_000 {
        let length = random.below(400) as usize;
        let octets = random.octets(length);
        assert!(sheet::run(&octets).ends_with('\n'));
        calls::run(&octets);
    }
}

#[test]
fn both_programs_end_on_random_octets_behind_good_settings() {
    let mut random = Random::new(2);
    let settings = settings::write(&settings(8));
    for _ in 0..3_000 {
        let length = random.below(300) as usize;
        let mut records = Vec::new();
        for _ in 0..6 {
            let mut pdu = random.octets(length);
            if let Some(first) = pdu.first_mut() {
                *first = 0;
            }
            records.push(0x10 | random.below(16) as u8);
            records.extend((length as u16).to_be_bytes());
            records.extend(pdu);
            records.push(0x20);
            records.extend(random.octets(4));
        }
        sheet::run(&[settings.clone(), records.clone()].concat());
        let start = [vec![0, 0, settings.len() as u8], settings.clone()].concat();
        calls::run(&[start, records].concat());
    }
}

#[test]
fn both_programs_end_on_damaged_generated_inputs() {
    let mut random = Random::new(3);
    for seed in 0..400 {
        for (octets, is_sheet) in
            [(generator::sheet(seed), true), (generator::calls(seed).octets, false)]
        {
            let mut octets = octets;
            for _ in 0..random.below(8) {
                if !octets.is_empty() {
                    let place = random.below(octets.len() as u64) as usize;
                    octets[place] = random.octet();
                }
            }
            if is_sheet {
                sheet::run(&octets);
            } else {
                calls::run(&octets);
            }
        }
    }
}
