//! The numbers given back (01, "Numbers given back").

/// A number given back by a call.
pub type Number = u8;

/// 0: accepted.
pub const ACCEPTED: Number = 0;
/// 1: port is 0 or above the bridge's ports.
pub const PORT: Number = 1;
/// 2: PDU has 0 octets or more than 1,500.
pub const PDU_LENGTH: Number = 2;
/// 3: a field runs past the PDU or its list, or a list's EndMark isn't its last two octets.
pub const RUNS_PAST: Number = 3;
/// 4: AttributeType 0; or above 4, in an MMRP frame above 2, with ProtocolVersion 0.
pub const ATTRIBUTE_TYPE: Number = 4;
/// 5: AttributeLength not that of the type.
pub const ATTRIBUTE_LENGTH: Number = 5;
/// 6: LeaveAllEvent above 1, or a ThreePackedEvents octet above 215.
pub const EVENT: Number = 6;
/// 7: a value runs past its field.
pub const VALUE: Number = 7;
/// 8: streams held plus different new ones joined by this PDU exceed 64.
pub const STREAMS: Number = 8;
/// 9: time is below the held clock.
pub const TIME: Number = 9;
/// 10: output buffer shorter than 1,500 (write), or than 63 x 16 octets (why).
pub const BUFFER: Number = 10;
/// 11: settings not as laid out.
pub const SETTINGS: Number = 11;
/// 12: table has the wrong length or breaks a form rule.
pub const TABLE: Number = 12;
/// 13: place is above the number of declarations (write) or streams held (report).
pub const PLACE: Number = 13;
/// 14: addresses held on the port plus different new ones joined by this MMRP frame exceed 64.
pub const ADDRESSES: Number = 14;
/// 15: the stream isn't held (why).
pub const STREAM: Number = 15;

/// A refusal's number in words.
pub fn in_words(number: Number) -> &'static str {
    match number {
        PORT => "the port is 0 or above the bridge's ports",
        PDU_LENGTH => "the PDU has 0 octets or more than 1,500",
        RUNS_PAST => {
            "a field runs past the PDU or its list, or a list's EndMark isn't its last two octets"
        }
        ATTRIBUTE_TYPE => {
            "AttributeType 0; or above 4, in an MMRP frame above 2, with ProtocolVersion 0"
        }
        ATTRIBUTE_LENGTH => "AttributeLength is not that of the type",
        EVENT => "LeaveAllEvent above 1, or a ThreePackedEvents octet above 215",
        VALUE => "a value runs past its field",
        STREAMS => "streams held plus different new ones joined by this PDU exceed 64",
        TIME => "the time is below the held clock",
        BUFFER => "the output buffer is shorter than 1,500 octets (write) or 1,008 (why)",
        SETTINGS => "the settings are not as docs/TABLE.md lays them out",
        TABLE => "the table has the wrong length or breaks a form rule",
        PLACE => {
            "the place is above the number of declarations (write) or of streams held (report)"
        }
        ADDRESSES => {
            "addresses held on the port plus different new ones joined by this MMRP frame exceed 64"
        }
        STREAM => "the stream is not held",
        _ => "a number that no call gives",
    }
}
