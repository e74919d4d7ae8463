//! Texts: numbers against their fields, units, names, warnings, and the lines of refused calls.

use reference::refusals::Refusals;
use reference::script::{read, records, text, Program};
use reference::{settings, sheet};

/// What is said of a line, as the second one of a text.
fn fault(line: &str, program: Program) -> String {
    records(&format!("bridge 7\n{line}\n"), program).expect_err(line)
}

/// A line with each of its fields at its most is read; with one more it is named with its line.
#[test]
fn a_number_above_its_field_is_an_error() {
    for (before, most, name) in [
        ("bridge 7 leave ", 16_383, "a leave time"),
        ("bridge 7 priorities 3 ", 7, "a priority"),
        ("bridge 7 priorities ", 7, "a priority"),
        ("bridge 7 vlan ", 4_095, "a VLAN"),
        ("bridge 7 fanin ", 255, "a limit of inbound ports"),
        ("ports ", 15, "a number of ports"),
        ("ports 1 overhead ", 255, "an overhead"),
        ("ports 1 largest ", 65_535, "a largest frame"),
        ("ports 1 limits ", 1_099_511_627_775, "a limit"),
        ("ports 1 limits 0 ", 1_099_511_627_775, "a limit"),
        ("ports 1 latencies ", 4_294_967_295, "a latency"),
        ("ports 1 latencies 0 ", 4_294_967_295, "a latency"),
        ("on 1 talker 1 vlan ", 65_535, "a VLAN"),
        ("on 1 talker 1 size ", 65_535, "a frame size"),
        ("on 1 talker 1 frames ", 65_535, "a number of frames"),
        ("on 1 talker 1 priority ", 7, "a priority"),
        ("on 1 talker 1 rank ", 1, "a rank"),
        ("on 1 talker 1 latency ", 4_294_967_295, "a latency"),
        ("on 1 talker 1 failed 1 ", 255, "a code"),
        ("on 1 talker 1 values ", 8_191, "a number of values"),
        ("on 1 listener 1 ready values ", 8_191, "a number of values"),
        ("on 1 domain ", 255, "a class ID"),
        ("on 1 domain 6 ", 255, "a priority"),
        ("on 1 domain 6 3 ", 65_535, "a VLAN"),
        ("on 1 domain 6 3 2 values ", 8_191, "a number of values"),
        ("mmrp ", 15, "a port"),
        ("mmrp 1 service ", 255, "a Service Requirement"),
        ("mmrp 1 mac 1 values ", 8_191, "a number of values"),
        ("on ", 15, "a port"),
        ("time ", 4_294_967_295, "a time"),
        ("write ", 15, "a port"),
        ("write 1 from ", 65_535, "a place"),
        ("write 1 buffer ", 65_535, "a length"),
        ("report ", 15, "a port"),
        ("report 1 place ", 65_535, "a place"),
        ("store ", 65_535, "a place"),
        ("lend ", 65_535, "a length"),
    ] {
        // what the shortest line of each kind has behind the number
        let after = match before {
            "bridge 7 priorities " => " 2",
            "ports 1 limits " | "ports 1 latencies " => " 0",
            "on 1 domain " => " 3 2",
            "on 1 domain 6 " => " 2",
            "on " => " leaveall domain",
            "mmrp " => " leaveall mac",
            "store " => " ff",
            _ => "",
        };
        let line = |number: &str| format!("{before}{number}{after}");
        let with_most = format!("bridge 7\n{}\n", line(&most.to_string()));
        assert!(records(&with_most, Program::Calls).is_ok(), "{with_most}");
        for above in
            [(most + 1_u64).to_string(), "100000000000000000000000000000000000000000".into()]
        {
            let said = format!("line 2: {above} where {name} of at most {most} was expected");
            assert_eq!(fault(&line(&above), Program::Calls), said);
        }
    }
}

#[test]
fn hexadecimal_numbers_have_their_fields_too() {
    for (line, said) in [
        ("on 1 listener 10200000000010001 ready", "10200000000010001 where a StreamID or the name of a stream was expected, of at most 16 digits"),
        ("on 1 talker 1 to 191e0f0000001", "191e0f0000001 where a MAC address or the name of one was expected, of at most 12 digits"),
        ("bridge +7", "+7 where a Bridge ID was expected"),
        ("on 1 listener 02000000000001 ready", "02000000000001 has 14 digits, where a StreamID or the name of a stream has 16 or at most 8"),
        ("on 1 talker 1 to 1e0f0000001", "1e0f0000001 has 11 digits, where a MAC address or the name of one has 12 or at most 6"),
        ("store 0 100", "100 where an octet was expected, of at most 2 digits"),
        ("on 1 octets +f", "+f is no octet"),
        ("on 1 listener 02:00:00:00:00:01:00 ready", "02:00:00:00:00:01:00 where a StreamID or the name of a stream was expected"),
    ] {
        assert_eq!(fault(line, Program::Calls), format!("line 2: {said}"));
    }
}

#[test]
fn ports_lines_add_up_to_what_the_field_holds() {
    let said = "line 3: 16 ports, and the settings' field of 4 bits holds at most 15";
    assert_eq!(records("bridge 7\nports 8\nports 8\n", Program::Sheet), Err(said.to_string()));
    assert!(records("bridge 7\nports 8\nports 7\n", Program::Sheet).is_ok());
}

#[test]
fn a_pdu_fits_its_record() {
    let message = "talker 1 values 8191";
    let line = format!("on 1 {message}{}", format!(" and {message}").repeat(30));
    let said = fault(&line, Program::Calls);
    assert!(said.starts_with("line 2: a PDU of 85"), "{said}");
    assert!(said.ends_with(" octets, and a record holds 65535"), "{said}");
}

#[test]
fn a_word_behind_the_end_of_a_line_is_an_error() {
    assert_eq!(
        fault("on 1 leaveall domain soon", Program::Sheet),
        "line 2: soon is not known here"
    );
    assert_eq!(fault("time 100 200", Program::Sheet), "line 2: 200 is not known here");
}

/// Each line makes the same records as the one beside it.
#[test]
fn units_and_separators_are_another_way_to_write_a_number() {
    for (line, plain) in [
        ("ports 1 limits 75M 1.5G", "ports 1 limits 75000000 1500000000"),
        ("ports 1 limits 75,000,000 64K", "ports 1 limits 75000000 64000"),
        ("ports 1 limits 75_000_000 1,500K", "ports 1 limits 75000000 1500000"),
        ("ports 1 latencies 2ms 0.5us", "ports 1 latencies 2000000 500"),
        ("ports 1 latencies 1s 1.25us", "ports 1 latencies 1000000000 1250"),
        ("bridge 7 leave 0.6s", "bridge 7 leave 60"),
        ("bridge 7 leave 600ms", "bridge 7 leave 60"),
        ("time 1.5s", "time 150"),
        ("time 1,000s", "time 100000"),
        ("time 10_000", "time 10000"),
        ("on 1 talker 1 latency 2ms", "on 1 talker 1 latency 2000000"),
        ("on 1 talker 1 size 1,500", "on 1 talker 1 size 1500"),
        ("on 1 talker 1 to 91:E0:f0:00:fe:00", "on 1 talker 1 to 91e0f000fe00"),
        ("on 1 listener 02:00:00:00:00:01:00:01 ready", "on 1 listener 0200000000010001 ready"),
    ] {
        let made = |line: &str| records(&format!("bridge 7\n{line}\nstart\n"), Program::Calls);
        assert!(made(plain).is_ok(), "{plain}");
        assert_eq!(made(line), made(plain), "{line}");
    }
}

#[test]
fn a_unit_or_a_separator_at_the_wrong_place_is_an_error() {
    for (line, said) in [
        ("ports 1 limits 75m 0", "75m where a limit was expected"),
        ("ports 1 limits 75MB 0", "75MB where a limit was expected"),
        ("ports 1 limits M 0", "M where a limit was expected"),
        ("ports 1 limits 75. 0", "75. where a limit was expected"),
        ("ports 1 limits 75.M 0", "75.M where a limit was expected"),
        ("ports 1 limits 7,5M 0", "7,5M where a limit was expected"),
        ("ports 1 limits 75,000_000 0", "75,000_000 where a limit was expected"),
        ("ports 1 limits 1000,000 0", "1000,000 where a limit was expected"),
        ("ports 1 limits ,000 0", ",000 where a limit was expected"),
        ("ports 1 limits 1.0000005M 0", "1.0000005M is no whole number of bits per second"),
        ("ports 1 limits 1.2T 0", "1.2T where a limit was expected"),
        ("ports 1 limits 1,200G 0", "1,200G where a limit of at most 1099511627775 was expected"),
        ("ports 1 largest 1K", "1K where a largest frame was expected"),
        ("time 1.5", "1.5 where a time was expected"),
        ("time -1", "-1 where a time was expected"),
        ("time +1", "+1 where a time was expected"),
        ("time 1.555s", "1.555s is no whole number of hundredths of a second"),
        ("time 15ms", "15ms is no whole number of hundredths of a second"),
        ("time 1us", "1us where a time was expected"),
        ("time 50000000s", "50000000s where a time of at most 4294967295 was expected"),
        ("on 1 talker 1 latency 5s", "5s where a latency of at most 4294967295 was expected"),
    ] {
        assert_eq!(fault(line, Program::Sheet), format!("line 2: {said}"));
    }
}

/// The worked example with names, which stand for streams and addresses wherever they may.
#[test]
fn names_stand_for_streams_and_addresses() {
    let text = "
        address hall 91:e0:f0:00:fe:00
        bridge 0
        stream soprano-1 0200000000010001
        ports 2 limits 75M 0
        stream hall 0200000000010002   # an address has this name too
        on 1 domain 5 2 2 values 2
        on 2 domain 5 2 2 values 2
        on 1 talker soprano-1 to hall
        on 2 listener soprano-1 ready
        time 1s
    ";
    assert_eq!(records(text, Program::Sheet), Ok(sheet::worked_example()));
}

#[test]
fn why_names_a_port_and_a_stream() {
    let text = "stream flute 0200000000010001\nwhy 3 flute\nwhy 2 02:00:00:00:00:01:00:02 buffer 7";
    let expected =
        [vec![0x83, 2, 0, 0, 0, 0, 1, 0, 1, 0x03, 0xf0], vec![0x82, 2, 0, 0, 0, 0, 1, 0, 2, 0, 7]];
    assert_eq!(records(text, Program::Calls), Ok(expected.concat()));
    assert!(fault("why 1 flute", Program::Sheet)
        .starts_with("line 2: why stands in texts of calls alone"));
    assert!(fault("why 1", Program::Calls).contains("where a StreamID"));
    assert_eq!(fault("why 1 2 from 0", Program::Calls), "line 2: from is not known here");
}

#[test]
fn a_name_that_is_none_is_an_error() {
    let no_name = "is no name: a name begins with a letter, has letters, digits, '-', '_' and '.' alone, and is no hexadecimal number";
    for (line, said) in [
        ("stream", "the line ends where a name was expected".to_string()),
        ("stream choir", "the line ends where a StreamID was expected".to_string()),
        ("stream cafe 1", format!("cafe {no_name}")),
        ("stream 1st 1", format!("1st {no_name}")),
        ("stream a/b 1", format!("a/b {no_name}")),
        ("stream choir hall", "hall where a StreamID was expected".to_string()),
        ("stream choir 1 2", "2 is not known here".to_string()),
        (
            "address hall 1020304050607",
            "1020304050607 where a MAC address was expected, of at most 12 digits".to_string(),
        ),
        (
            "on 1 talker choir",
            "choir where a StreamID or the name of a stream was expected".to_string(),
        ),
        (
            "on 1 talker 1 to hall",
            "hall where a MAC address or the name of one was expected".to_string(),
        ),
    ] {
        assert_eq!(fault(line, Program::Sheet), format!("line 2: {said}"));
    }
    let twice = "stream choir 1\naddress choir 1\nstream choir 1\n";
    let said = "line 3: choir names a stream already";
    assert_eq!(records(twice, Program::Sheet), Err(said.to_string()));
}

/// Lines of names make no record, so settings may still follow.
#[test]
fn a_name_is_no_call() {
    assert!(records("bridge 7\nstream choir 1\nports 2\ntime 1\n", Program::Sheet).is_ok());
}

#[test]
fn a_byte_order_mark_is_skipped() {
    assert_eq!(text(b"\xef\xbb\xbfbridge 7\n"), Ok("bridge 7\n".to_string()));
    assert_eq!(text(b"bridge 7\n"), Ok("bridge 7\n".to_string()));
    assert_eq!(text(b"\xff\xfeb\0"), Err("the text is UTF-16, not UTF-8".to_string()));
}

/// 35 octets of settings, 35 of each line's record: the line that passes 65,536 is named.
#[test]
fn a_sheet_has_at_most_the_octets_that_are_read() {
    let line = format!("on 1 octets {}\n", "00".repeat(32));
    let sheet = |lines: usize, end: &str| {
        let text = format!("bridge 7\nports 1\n{}raw {end}\n", line.repeat(lines));
        read(&text, Program::Sheet).expect("records")
    };
    let just = sheet(1_871, &"00".repeat(15));
    assert_eq!((just.octets.len(), just.too_long_for_a_sheet()), (65_536, None));
    let said = "line 1874: here the records pass 65,536 octets, and srpsheet reads no more (01, \"The printed sheet\"): use ./calls";
    assert_eq!(sheet(1_871, &"00".repeat(16)).too_long_for_a_sheet(), Some(said.to_string()));
    assert_eq!(sheet(1_900, "").too_long_for_a_sheet(), Some(said.to_string()));
}

fn warnings(text: &str, program: Program) -> Vec<String> {
    read(text, program).expect("records").warnings()
}

#[test]
fn a_frame_that_no_time_follows_is_warned_of() {
    let said = "line 4: warning: no time follows this frame, so nothing is decided by it";
    let frame = "on 1 leaveall domain\n";
    let sheet = format!("bridge 7\nports 1\n\n{frame}");
    let calls = format!("bridge 7\nports 1\nstart\n{frame}");
    let mmrp = "bridge 7\nports 1\nstart\nmmrp 1 leaveall mac\n";
    assert_eq!(warnings(mmrp, Program::Calls), [said]);
    assert_eq!(warnings(&sheet, Program::Sheet), [said]);
    assert_eq!(warnings(&calls, Program::Calls), [said]);
    assert_eq!(warnings(&format!("{calls}report 1\n"), Program::Calls), [said]);
    assert!(warnings(&format!("{sheet}time 1\n"), Program::Sheet).is_empty());
    assert!(warnings(&format!("{calls}start\n"), Program::Calls).is_empty());
    assert!(warnings("bridge 7\nports 1\n", Program::Sheet).is_empty());
}

#[test]
fn an_mmrp_frame_is_a_line_of_calls_alone() {
    let octets =
        |line: &str| records(&format!("address hall 91:e0:f0:00:fe:00\n{line}\n"), Program::Calls);
    let hall = [0x91, 0xe0, 0xf0, 0, 0xfe, 0];
    let mac = [&[0x72, 0, 16, 0, 2, 6, 0, 1][..], &hall, &[108, 0, 0, 0, 0]].concat();
    assert_eq!(octets("mmrp 2 mac hall"), Ok(mac.clone()));
    assert_eq!(octets("mmrp 2 mac 91e0f000fe00 join values 1"), Ok(mac.clone()));
    assert_eq!(octets(&format!("mmrp 2 octets {}", "000206000191e0f000fe006c00000000")), Ok(mac));
    let service = [0, 1, 1, 0, 2, 255, 210, 0, 0];
    let leave_all = [2, 6, 0x20, 0, 0, 0, 0, 0, 0, 0, 0, 0, 0, 0];
    let both = [&[0x7f, 0, 23][..], &service, &leave_all].concat();
    assert_eq!(octets("mmrp 15 service 255 values 2 leave and leaveall mac"), Ok(both));
    assert_eq!(
        octets("mmrp 1 leaveall service"),
        Ok(vec![0x71, 0, 10, 0, 1, 1, 0x20, 0, 0, 0, 0, 0, 0])
    );
    assert_eq!(fault("mmrp 1 talker 1", Program::Calls), "line 2: talker is not known here");
    assert_eq!(fault("mmrp 1 leaveall domain", Program::Calls), "line 2: domain is not known here");
    let calls_alone = "line 2: mmrp stands in texts of calls alone, which have a start behind their settings: use ./calls, or ./srp sheet for the sheet of one";
    assert_eq!(fault("mmrp 1 mac 1", Program::Sheet), calls_alone);
    assert_eq!(fault("start", Program::Sheet), calls_alone.replace("mmrp", "start"));
    let ends = "line 2: the line ends where mac, service, leaveall or octets was expected";
    assert_eq!(fault("mmrp 1", Program::Calls), ends);
}

#[test]
fn settings_that_no_start_follows_are_warned_of() {
    let said = "line 1: warning: no start follows these settings, so no bridge has them";
    assert_eq!(warnings("bridge 7\nports 1\ntime 1\n", Program::Calls), [said]);
    assert!(warnings("time 1\nbridge 7\nports 1\nstart\n", Program::Calls).is_empty());
}

/// What is told of a text whose program printed that.
fn told(text: &str, program: Program, printed: &str) -> String {
    let (mut copied, mut told) = (Vec::new(), Vec::new());
    let refusals = Refusals::of(text, program).expect("records");
    refusals.tell(&mut printed.as_bytes(), &mut copied, &mut told).expect("written");
    assert_eq!(copied, printed.as_bytes());
    String::from_utf8(told).expect("words")
}

#[test]
fn a_refused_call_is_told_with_its_line() {
    let text = "bridge 7\nports 1\n\non 1 leaveall domain\non 2 leaveall domain # no such port\ntime 5\ntime 4\n";
    let printed = "refused 1\nrefused 9\nport 1 A 0/75000000 B 0/0\n";
    let said =
        "line 5: on 2 leaveall domain # no such port: the port is 0 or above the bridge's ports
line 7: time 4: the time is below the held clock
";
    assert_eq!(told(text, Program::Sheet, printed), said);
    let text = "sum\nbridge 7\nports 1\nstart\nwrite 2\nreport 1 place 1\nlend 1\nsum\n";
    let printed = "table 7c700001\nstart 0\nwrite 1 0 0 kept\nreport 13 0 0 0 0 0 0000000000000000 none 0 none none\ntable 00080008\n";
    let said = "line 5: write 2: the port is 0 or above the bridge's ports
line 6: report 1 place 1: the place is above the number of declarations (write) or of streams held (report)
";
    assert_eq!(told(text, Program::Calls, printed), said);
    let text = "bridge 7\nports 1\nstart\nmmrp 1 mac 1 values 65\ntime 1\n";
    let said = "line 4: mmrp 1 mac 1 values 65: addresses held on the port plus different new ones joined by this MMRP frame exceed 64\n";
    assert_eq!(told(text, Program::Calls, "start 0\nmmrp 14\nadvance 0\n"), said);
}

#[test]
fn a_stop_is_told_with_its_line() {
    let settings = "bridge 7\nports 1\n";
    let said = "line 4: raw 20 00 00: no record begins so, or it is cut\n";
    let text = format!("{settings}time 5\nraw 20 00 00\n");
    assert_eq!(told(&text, Program::Sheet, "stop\nport 1 A 0/75000000 B 0/0\n"), said);
    let said = "line 1: bridge 7: a bridge has 1 to 8 ports, and these settings say 0\n";
    assert_eq!(told("bridge 7\n", Program::Sheet, "stop\n"), said);
}

#[test]
fn refused_settings_are_told_with_their_rule() {
    for (settings, rule) in [
        ("bridge 7\nports 9", "a bridge has 1 to 8 ports, and these settings say 9"),
        (
            "bridge 7 priorities 3 3\nports 1",
            "the classes have different priorities, and both of these are 3",
        ),
        ("bridge 7 leave 0\nports 1", "the leave time is 1 or more, and this one is 0"),
        ("bridge 7 vlan 0\nports 1", "the bridge's vlan is 1 to 4094, and this one is 0"),
        ("bridge 7 vlan 4095\nports 1", "the bridge's vlan is 1 to 4094, and this one is 4095"),
        ("bridge 7 fanin 9\nports 1", "the limit of inbound ports is 0 to 8, and this one is 9"),
    ] {
        let first = settings.lines().next().expect("a line");
        let said = format!("line 1: {first}: {rule}\n");
        assert_eq!(told(settings, Program::Sheet, "stop\n"), said);
        let calls = format!("{settings}\nstart\n");
        assert_eq!(told(&calls, Program::Calls, "start 11\n"), format!("line 3: start: {rule}\n"));
    }
}

/// What octets alone can say: too few or too many, and bits that are zero.
#[test]
fn the_rules_of_octets_that_no_line_writes() {
    let good = records("bridge 7\nports 2\n", Program::Sheet).expect("records");
    let broken = |place: usize, octet: u8| {
        let mut octets = good.clone();
        octets[place] = octet;
        settings::checked(&octets).expect_err("a rule")
    };
    assert!(settings::checked(&good).is_ok());
    let said = settings::checked(&good[..57]).expect_err("a rule");
    assert_eq!(said, "settings of 2 ports have 58 octets, and these have 57");
    let said = settings::checked(&good[..8]).expect_err("a rule");
    assert_eq!(said, "the settings have 8 octets, and end before their ports field");
    assert_eq!(broken(11, 0x10), "the three bits above the VLAN are zero, and one of these is set");
    assert_eq!(broken(36, 0xc1), "the last five bits of port 2's flags are zero, and one is set");
}

#[test]
fn an_option_stands_once() {
    for (line, word) in [
        ("bridge 7 leave 10 leave 20", "leave"),
        ("ports 1 twice twice", "twice"),
        ("on 1 talker 1 leave leave", "leave"),
        ("on 1 talker 1 rank 0 vlan 2 rank 1", "rank"),
        ("on 1 listener 1 ready values 2 values 3", "values"),
        ("mmrp 1 mac 1 values 2 values 3", "values"),
        ("write 1 from 0 from 1", "from"),
        ("report 1 place 0 place 1", "place"),
        ("why 1 1 buffer 7 buffer 8", "buffer"),
    ] {
        assert_eq!(fault(line, Program::Calls), format!("line 2: {word} stands here twice"));
    }
    let said = "line 2: leave is a second event of one Message";
    assert_eq!(fault("on 1 talker 1 join leave", Program::Calls), said);
    let both = "on 1 talker 1 leave and talker 2 leave";
    assert!(records(&format!("bridge 7\nports 1\n{both}\n"), Program::Sheet).is_ok());
}

#[test]
fn the_index_has_names_and_lines() {
    let text = "stream tenor 2\nbridge 7\nports 1\n\nstream alto 02:00:00:00:00:01:00:01\non 1 leaveall domain\ntime 1\n";
    let said = "stream 0200000000010001 alto\nstream 0000000000000002 tenor\noctet 0 2\noctet 36 6\noctet 54 7\n";
    assert_eq!(read(text, Program::Sheet).expect("records").index(), said);
}

/// A raw line may hold a part of a record, or several.
#[test]
fn a_record_is_of_the_line_where_it_begins() {
    let text = "bridge 7\nports 1\ntime 5\nraw 20 00 00\nraw 00 04 20 00 00 00 03\n";
    let said = "line 4: raw 20 00 00: the time is below the held clock
line 5: raw 00 04 20 00 00 00 03: the time is below the held clock
";
    assert_eq!(told(text, Program::Sheet, "refused 9\nrefused 9\n"), said);
}

/// Where the program refuses other calls than the reference, no line is made up.
#[test]
fn other_refusals_have_no_line() {
    let text = "bridge 7\nports 1\ntime 5\ntime 4\ntime 3\n";
    let said = "the reference refuses other calls: the port is 0 or above the bridge's ports
the reference refuses other calls: the time is below the held clock
";
    assert_eq!(told(text, Program::Sheet, "refused 1\nrefused 9\n"), said);
}

/// The text that the format's page begins with is the worked example but for the Bridge ID and the
/// destination.
#[test]
fn the_text_of_the_page_is_read() {
    let page = include_str!("../../../docs/TEXT.md");
    let lines = page.lines().skip_while(|line| !line.starts_with("    "));
    let text: Vec<&str> = lines.take_while(|line| line.starts_with("    ")).collect();
    let made = read(&text.join("\n"), Program::Sheet).expect("records");
    assert!(made.warnings().is_empty());
    let expected = sheet::run(&sheet::worked_example());
    assert_eq!(sheet::run(&made.octets), expected);
}
