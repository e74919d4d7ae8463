//! The octets of the lent table (docs/TABLE.md). Numbers stand most significant octet first.
//!
//! * [`layout`]: where its parts stand, and reading them;
//! * [`rules`]: its form rules;
//! * [`encoding`]: the table of a bridge;
//! * [`decoding`]: the bridge that a table holds.

pub mod decoding;
pub mod encoding;
pub mod layout;
pub mod rules;
