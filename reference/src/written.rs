//! PDUs that a port has written, taken apart again and held to 01, "Writing", and 02, (ii), (xi) and (xiv).

use std::fmt::Write;

use crate::declarations::{self, Declaration, Said};
use crate::mrp::{Event, LONGEST_PDU};
use crate::pdu::{self, Attribute, Talker, Value};
use crate::words;

/// What one PDU says.
#[derive(Clone, Debug, PartialEq, Eq)]
pub struct TakenApart {
    pub leave_all: bool,
    pub said: Vec<Said>,
}

/// Takes PDUs in hex, one to a line, all that a port writes from place 0 on by its next places up to the one of
/// 3 octets, which isn't among them. Gives for each a line with its length, how many declarations of each type it
/// has and whether it has LeaveAll, and each declaration in the words of `script`. Refuses PDUs that aren't laid
/// out as 01 says, declarations out of order, and a PDU into which the next declaration would have fitted.
pub fn taken_apart(text: &str) -> Result<String, String> {
    let mut printed = String::new();
    let mut pdus: Vec<TakenApart> = Vec::new();
    for line in text.lines() {
        let octets = octets_of(line)?;
        let pdu = of_pdu(&octets)?;
        print(&mut printed, octets.len(), &pdu).expect("a String takes all");
        pdus.push(pdu);
    }
    let attributes: Vec<Attribute> =
        pdus.iter().flat_map(|pdu| &pdu.said).map(|said| said.declaration.attribute()).collect();
    if !attributes.windows(2).all(|two| two[0] < two[1]) {
        return Err("the declarations are out of order".to_string());
    }
    for (place, two) in pdus.windows(2).enumerate() {
        let next = match two[1].said.first() {
            Some(next) => *next,
            None => return Err(format!("PDU {} says nothing", place + 2)),
        };
        let one_more = [&two[0].said[..], &[next]].concat();
        if declarations::pdu(&one_more, two[0].leave_all).len() <= LONGEST_PDU {
            return Err(format!("PDU {} could have taken one more", place + 1));
        }
    }
    Ok(printed)
}

/// The octets of a line.
fn octets_of(hex: &str) -> Result<Vec<u8>, String> {
    let pairs = (0..hex.len()).step_by(2).map(|at| hex.get(at..at + 2));
    let octets: Option<Vec<u8>> = pairs.map(|two| u8::from_str_radix(two?, 16).ok()).collect();
    octets.ok_or_else(|| format!("{hex} isn't pairs of hexadecimal digits"))
}

/// What one PDU says. It is exactly what is written for that.
pub fn of_pdu(octets: &[u8]) -> Result<TakenApart, String> {
    let pdu = pdu::read(octets).map_err(|fault| format!("a PDU is refused: {}", fault.number))?;
    let leave_all = pdu.vectors().any(|vector| vector.leave_all);
    let said: Vec<Said> =
        pdu.vectors().flat_map(|vector| &vector.values).filter_map(of_value).collect();
    if declarations::pdu(&said, leave_all) == octets {
        Ok(TakenApart { leave_all, said })
    } else {
        Err(format!("a PDU isn't laid out as it is written: {octets:02x?}"))
    }
}

/// The declarations of one PDU.
pub fn declarations_of(octets: &[u8]) -> Result<Vec<Declaration>, String> {
    let said = of_pdu(octets)?.said;
    Ok(said.iter().map(|said| said.declaration).collect())
}

/// What a value says; nothing where it fills a gap between Listeners.
fn of_value((event, value): &(Event, Value)) -> Option<Said> {
    let declaration = match *value {
        Value::Talker(talker) => Declaration::Talker(talker),
        Value::Listener(stream_id, says) => Declaration::Listener(stream_id, says?),
        Value::Domain(domain) => Declaration::Domain(domain),
    };
    Some(Said { declaration, event: *event })
}

fn print(out: &mut String, length: usize, pdu: &TakenApart) -> std::fmt::Result {
    let is_of = |octet: u8, one: &Said| one.declaration.attribute_type().octet() == octet;
    let of_type = |octet: u8| pdu.said.iter().filter(|one| is_of(octet, one)).count();
    write!(out, "pdu {length} advertise {} failed {} ", of_type(1), of_type(2))?;
    write!(out, "listener {} domain {}", of_type(3), of_type(4))?;
    writeln!(out, "{}", if pdu.leave_all { " leaveall" } else { "" })?;
    for Said { declaration, event } in &pdu.said {
        match declaration {
            Declaration::Talker(talker) => print_talker(out, talker)?,
            Declaration::Listener(stream_id, listener_type) => {
                let listener = words::listener(Some(*listener_type));
                write!(out, "listener {stream_id:016x} {listener}")?;
            }
            Declaration::Domain(domain) => {
                write!(out, "domain {} {} {}", domain.class_id, domain.priority, domain.vlan)?;
            }
        }
        writeln!(out, "{}", words::event(*event))?;
    }
    Ok(())
}

fn print_talker(out: &mut String, talker: &Talker) -> std::fmt::Result {
    let parameters = &talker.parameters;
    write!(out, "talker {:016x} to {:012x} ", talker.stream_id, parameters.destination)?;
    write!(out, "vlan {} size {} ", parameters.vlan, parameters.max_frame_size)?;
    write!(out, "frames {} ", parameters.max_interval_frames)?;
    write!(out, "priority {} rank {} ", parameters.priority, parameters.rank)?;
    write!(out, "latency {}", talker.accumulated_latency)?;
    if let Some(failure) = talker.failure {
        write!(out, " failed {:016x} {}", failure.bridge_id, failure.code)?;
    }
    Ok(())
}
