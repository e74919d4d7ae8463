//! The examples, and texts that are turned into records.

use std::fs;
use std::path::Path;

use reference::script::{records, Program};
use reference::{calls, sheet};

/// Each text of a folder of examples prints what the folder's `sheet` or `calls` has.
#[test]
fn examples_print_what_is_expected() {
    let count = texts_printed_as_expected("../examples");
    assert!(count > 10, "only {count} examples");
}

/// So does each stored case.
#[test]
fn stored_cases_print_what_is_expected() {
    let count = texts_printed_as_expected("../tests/cases");
    assert!(count > 5, "only {count} cases");
}

/// How many texts the folders have; each prints what is expected.
fn texts_printed_as_expected(folders: &str) -> usize {
    let folders = Path::new(env!("CARGO_MANIFEST_DIR")).join(folders);
    let mut count = 0;
    for folder in fs::read_dir(folders).expect("the examples") {
        let folder = folder.expect("a folder").path();
        if !folder.is_dir() {
            continue;
        }
        for file in fs::read_dir(&folder).expect("a folder") {
            let file = file.expect("a file").path();
            if file.extension().map_or(false, |extension| extension == "txt") {
                assert_prints(&folder, &file);
                count += 1;
            }
        }
    }
    count
}

fn assert_prints(folder: &Path, file: &Path) {
    let text = fs::read_to_string(file).expect("a text");
    let (expected, printed) = match fs::read_to_string(folder.join("sheet")) {
        Ok(expected) => (expected, sheet::run(&records(&text, Program::Sheet).expect("records"))),
        Err(_) => (
            fs::read_to_string(folder.join("calls")).expect("a sheet or calls"),
            calls::run(&records(&text, Program::Calls).expect("records")),
        ),
    };
    assert_eq!(printed, expected, "{}", file.display());
}

#[test]
fn words_make_the_octets_of_the_worked_example() {
    let text = "
        bridge 0   # all else is as in the worked example
        ports 2
        on 1 domain 5 2 2 values 2
        on 2 domain 5 2 2 values 2
        on 1 talker 0200000000010001 to 91e0f000fe00
        on 2 listener 0200000000010001 ready
        time 100
    ";
    assert_eq!(records(text, Program::Sheet), Ok(sheet::worked_example()));
}

#[test]
fn messages_with_and_between_them_make_one_pdu() {
    let text = "on 1 listener 0000000000000001 asking leave and domain 6 3 2 values 2 in and leaveall failed";
    let mut expected = vec![0x11, 0, 0];
    expected.extend([0, 3, 8, 0, 14, 0, 1, 0, 0, 0, 0, 0, 0, 0, 1, 180, 64, 0, 0]);
    expected.extend([4, 4, 0, 9, 0, 2, 6, 3, 0, 2, 84, 0, 0]);
    expected.extend([2, 34, 0, 38, 32, 0]);
    expected.extend([0; 34]);
    expected.extend([0, 0, 0, 0]);
    expected[2] = (expected.len() - 3) as u8;
    assert_eq!(records(text, Program::Calls), Ok(expected));
}

#[test]
fn a_line_that_cannot_be_read_is_named() {
    for (line, fault) in [
        ("time", "line 2: the line ends where a time was expected"),
        ("on 16 octets 00", "line 2: 16 where a port of at most 15 was expected"),
        ("on 1 octets 0", "line 2: octets are pairs of hexadecimal digits"),
        ("on 1 listener 1 ready early", "line 2: early is not known here"),
        ("ports 2", "line 2: ports stand after bridge, before the first call"),
        ("report 1", "line 2: report stands in texts of calls alone, which have a start behind their settings: use ./calls, or ./srp sheet for the sheet of one"),
    ] {
        let text = format!("# a comment\n{line}\n");
        assert_eq!(records(&text, Program::Sheet), Err(fault.to_string()));
    }
}
