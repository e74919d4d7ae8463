//! Inputs for comparisons, each a function of its seed alone.
//!
//! Most of an input is a well-formed history: few streams, so that ports meet in them; Talkers
//! and Listeners on different ports; limits around sums of demands; neighbours that are mostly in
//! the bridge's own domain, so that streams are admitted towards them; in half of the scripts of
//! calls neighbours that ask for destinations by MMRP frames, and in half ports that send all the time, while
//! neighbours answer and declarations change. Damaged frames, wrong ports,
//! wrong settings and cut records are mixed in, in scripts of calls also octets stored in the
//! table. The generator makes each call on a table of its own while it writes, so that it knows
//! the clock, the streams held, the next places and the octet that stood where one is stored.

mod addresses;
mod borrowing;
mod damage;
mod domains;
mod events;
mod fan_in;
mod frames;
mod history;
mod latencies;
mod leaving;
mod listeners;
mod looks;
mod newer;
mod plan;
mod planning;
mod scripts;
mod sending;
mod sheets;
mod steps;
mod why;
mod wrong_settings;

pub use scripts::{calls, calls_batch, left_out_of_batch, seeds, Script};
pub use sheets::sheet;
