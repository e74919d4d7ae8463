//! The rows of the table, in their order.

use super::{addresses, borrowing, domains, fan_in, frames, heard, latencies, newer};
use super::{packing, registering, said, sending, settings, settling, why, writing};

/// The numbers that calls give back.
const CALLS: &[&str] = &[
    "start 0",
    "start 11",
    "start 12",
    "receive 0",
    "receive 1",
    "receive 2",
    "receive 3",
    "receive 4",
    "receive 5",
    "receive 6",
    "receive 7",
    "receive 8",
    "receive 12",
    "advance 0",
    "advance 9",
    "advance 12",
    "write 0",
    "write 1",
    "write 10",
    "write 12",
    "write 13",
    "report 0",
    "report 1",
    "report 12",
    "report 13",
];

/// Whole inputs.
const PROGRAMS: &[&str] = &[
    "sheets refused in their settings",
    "sheets that stop in their records",
    "sheets longer than 65536 octets",
    "sheets with 64 streams",
    "scripts that stop",
];

/// Tables that are refused.
const FORM_RULES: &[&str] = &[
    "form rule 1 broken alone",
    "form rule 2 broken alone",
    "form rule 3 broken alone",
    "form rule 4 broken alone",
    "form rule 5 broken alone",
    "form rule 6 broken alone",
    "form rule 7 broken alone",
    "form rule 8 broken alone",
    "form rule 9 broken alone",
    "form rule 10 broken alone",
    "form rule 11 broken alone",
    "form rule 12 broken alone",
    "form rule 13 broken alone",
    "form rule 14 broken alone",
    "form rule 15 broken alone",
    "form rule 16 broken alone",
    "form rule 17 broken alone",
    "form rule 18 broken alone",
    "form rule 19 broken alone",
    "form rule 20 broken alone",
    "form rule 21 broken alone",
    "form rule 22 broken alone",
    "form rule 23 broken alone",
    "form rule 24 broken alone",
    "form rule 25 broken alone",
    "form rule 26 broken alone",
    "form rule 27 broken alone",
    "form rule 28 broken alone",
    "form rule 29 broken alone",
    "form rule 30 broken alone",
    "form rule 31 broken alone",
    "form rule 32 broken alone",
    "form rule 33 broken alone",
    "form rule 34 broken alone",
    "form rule 35 broken alone",
    "form rule 36 broken alone",
];

/// Tables that are refused for the addresses of a port.
const ADDRESS_RULES: &[&str] = &[
    "form rule 37 broken alone",
    "form rule 38 broken alone",
    "form rule 39 broken alone",
    "form rule 40 broken alone",
    "form rule 41 broken alone",
];

/// Tables that are refused for what ports send.
const SENDING_RULES: &[&str] = &[
    "form rule 42 broken alone",
    "form rule 43 broken alone",
    "form rule 44 broken alone",
    "form rule 45 broken alone",
    "form rule 46 broken alone",
    "form rule 47 broken alone",
    "form rule 48 broken alone",
    "form rule 49 broken alone",
    "form rule 50 broken alone",
];

/// What scripts do with the table itself.
const TABLES: &[&str] = &[
    "octet stored that breaks the form",
    "octet stored that keeps the form",
    "sum of the table's octets",
    "octets of the table",
];

/// All that is counted.
const BLOCKS: [&[&str]; 31] = [
    CALLS,
    why::NUMBERS,
    settings::ROWS,
    frames::LENGTHS,
    settling::COLUMNS,
    frames::ROWS,
    newer::ROWS,
    frames::BOUNDS,
    registering::ROWS,
    domains::ROWS,
    fan_in::ROWS,
    latencies::ROWS,
    settling::ADVANCES,
    borrowing::ROWS,
    settling::TALKERS,
    writing::ROWS,
    packing::ROWS,
    writing::PLACES,
    why::ROWS,
    PROGRAMS,
    FORM_RULES,
    addresses::ROWS,
    ADDRESS_RULES,
    sending::APPLICANTS,
    sending::OTHER_MACHINES,
    sending::ROWS,
    heard::ROWS,
    said::WRITTEN,
    said::CHANGED,
    SENDING_RULES,
    TABLES,
];

pub fn all() -> impl Iterator<Item = &'static str> {
    BLOCKS.iter().flat_map(|block| block.iter().copied())
}
