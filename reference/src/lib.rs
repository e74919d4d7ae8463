//! A stream-reservation bridge of IEEE 802.1Qat, written from the papers alone.
//!
//! "01" in the comments is the paper that lays down the bridge and its rules, "02" that of the
//! requests for more, of which (ii), (i), (v), (x), (iv), (vi), (xi), (ix) and (xiv) are in; clause numbers such as
//! 35.2.4.2 are those of IEEE 802.1Qat-2010. The program is meant to be compared with another implementation, so it is
//! written for the reader and not for speed.
//!
//! The order of the modules follows a frame through the bridge, and none uses one that uses it (`tests/files.rs`):
//!
//! * [`numbers`]: the numbers that calls give back;
//! * [`octets`]: numbers in octets;
//! * [`settings`]: what a bridge is started with;
//! * [`mrp`]: reading MRPDUs, what both protocols have in common;
//! * [`pdu`]: reading MSRPDUs;
//! * [`mmrp`]: reading MMRP frames;
//! * [`domain`]: the SRP domain, and where it ends;
//! * [`registrar`]: the Registrar machine;
//! * [`registrations`]: what each port has registered;
//! * [`fan_in`]: the ports that bring streams in, and addresses that streams share;
//! * [`settled`]: what an advance takes down;
//! * [`settling`]: attribute propagation and reserved bandwidth;
//! * [`packing`]: which vectors Listener declarations stand in;
//! * [`declarations`]: writing MSRPDUs;
//! * [`applicant`]: the Applicant machine;
//! * [`leave_all`]: the LeaveAll machine;
//! * [`sending`]: the machines of each port;
//! * [`why`]: why a stream has its column on a port;
//! * [`bridge`]: the calls, on what a table holds;
//! * [`table`]: the octets of the lent table;
//! * [`lent`]: the calls, on the octets of a lent table;
//! * [`words`]: the words that programs print;
//! * [`records`]: taking records from an input, and watching the calls they make;
//! * [`sheet`], [`calls`]: the two programs;
//! * [`script`]: inputs written by hand;
//! * [`refusals`]: the lines of such an input whose calls were refused;
//! * [`written`]: PDUs that a port has written, taken apart;
//! * [`frame`], [`random`], [`stored`], [`generator`], [`files`]: inputs for comparisons;
//! * [`coverage`]: what the generated inputs reach.

pub mod applicant;
pub mod bridge;
pub mod calls;
pub mod coverage;
pub mod declarations;
pub mod domain;
pub mod fan_in;
pub mod files;
pub mod frame;
pub mod generator;
pub mod leave_all;
pub mod lent;
pub mod mmrp;
pub mod mrp;
pub mod numbers;
pub mod octets;
pub mod packing;
pub mod pdu;
pub mod random;
pub mod records;
pub mod refusals;
pub mod registrar;
pub mod registrations;
pub mod script;
pub mod sending;
pub mod settings;
pub mod settled;
pub mod settling;
pub mod sheet;
pub mod stored;
pub mod table;
pub mod why;
pub mod words;
pub mod written;
