use reference::{calls, settings, sheet};

const LINES: &str = "\
port 1 A 0/75000000 B 0/0
port 2 A 17088000/75000000 B 0/0
0200000000010001 1 none 0 ready none
0200000000010001 2 advertise 0 none forward
";

#[test]
fn the_worked_example_prints_its_four_lines() {
    assert_eq!(sheet::run(&sheet::worked_example()), LINES);
}

#[test]
fn the_worked_examples_octets_are_those_of_the_paper() {
    let hex = "\
        0000000000000000 26803c 0002 00 \
        c02a05f2 0004786 8c0 0000000000 00000000 00000000 \
        c02a05f2 0004786 8c0 0000000000 00000000 00000000 \
        11 0010 0004 0400 0900 0205 0200 027e 0000 0000 \
        12 0010 0004 0400 0900 0205 0200 027e 0000 0000 \
        11 0025 0001 1900 1e00 0102 0000 0000 0100 0191 e0f0 00fe 0000 0200 e000 0170 0000 0000 \
        6c00 0000 00 \
        12 0015 0003 0800 0e00 0102 0000 0000 0100 016c 8000 0000 00 \
        20 00000064";
    let digits: Vec<char> = hex.chars().filter(|c| !c.is_whitespace()).collect();
    let octets: Vec<u8> = digits
        .chunks(2)
        .map(|two| u8::from_str_radix(&two.iter().collect::<String>(), 16).unwrap())
        .collect();
    assert_eq!(sheet::worked_example(), octets);
}

#[test]
fn the_worked_example_by_calls() {
    let example = sheet::worked_example();
    let (settings, records) = example.split_at(settings::length(2));
    let mut input = vec![0x00, 0x00, settings.len() as u8];
    input.extend(settings);
    input.extend(records);
    input.extend([0x41, 0, 0, 0x42, 0, 0, 0x42, 0, 1, 0x31, 0, 0, 0x05, 0xdc]);
    input.extend([0x32, 0, 0, 0x05, 0xdc, 0x32, 0, 0, 0x05, 0xdb, 0x32, 0, 3, 0xff, 0xff]);
    let printed = calls::run(&input);
    let lines: Vec<&str> = printed.lines().collect();
    // The neighbours have joined the Domain values, so that these are JoinIn (24); the others JoinMt (6c).
    assert_eq!(
        lines,
        [
            "start 0",
            "receive 0",
            "receive 0",
            "receive 0",
            "receive 0",
            "advance 0",
            "report 0 1 0 75000000 0 0 0200000000010001 none 0 ready none",
            "report 0 1 17088000 75000000 0 0 0200000000010001 advertise 0 none forward",
            "report 0 1 17088000 75000000 0 0 0000000000000000 none 0 none none",
            "write 0 41 3 kept 000308000e000102000000000100016c800000\
             04040010000105020002\
             240001060300022400000000",
            "write 0 57 3 kept 000119001e0001020000000001000191e0f000fe00000200e00001700000\
             00006c0000\
             04040010000105020002\
             240001060300022400000000",
            "write 10 0 0 kept",
            "write 0 3 3 kept 000000",
        ]
    );
}
