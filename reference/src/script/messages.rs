//! The PDU of a line: its octets, or Messages in words.

use super::words::{unknown, Field, Measure, Words};
use crate::declarations;
use crate::frame::{FrameDraft, MessageDraft, VectorDraft};
use crate::mmrp::MmrpType;
use crate::pdu::{AttributeType, Failure, Talker};

const VLAN: Field = Field::plain("a VLAN", 16);
const SIZE: Field = Field::plain("a frame size", 16);
const FRAMES: Field = Field::plain("a number of frames", 16);
const PRIORITY: Field = Field::plain("a priority", 3);
const RANK: Field = Field::plain("a rank", 1);
const LATENCY: Field = Field::measured("a latency", 32, Measure::Nanoseconds);
const CODE: Field = Field::plain("a code", 8);
const CLASS_ID: Field = Field::plain("a class ID", 8);
const DOMAIN_PRIORITY: Field = Field::plain("a priority", 8);
const SERVICE: Field = Field::plain("a Service Requirement", 8);
const VALUES: Field = Field::plain("a number of values", 13);

/// The PDU of the rest of a line: its octets, or Messages with `and` between them.
pub fn pdu(words: &mut Words) -> Result<Vec<u8>, String> {
    of_messages(words, "talker, listener, domain, leaveall or octets", |first, words| match first {
        "talker" => talker(words),
        "listener" => listener(words),
        "domain" => domain(words),
        "leaveall" => leave_all(words),
        other => Err(unknown(other)),
    })
}

/// The same of MMRP.
pub fn mmrp_pdu(words: &mut Words) -> Result<Vec<u8>, String> {
    of_messages(words, "mac, service, leaveall or octets", |first, words| match first {
        "mac" => mac(words),
        "service" => service(words),
        "leaveall" => leave_all_mmrp(words),
        other => Err(unknown(other)),
    })
}

fn of_messages(
    words: &mut Words,
    wanted: &str,
    message: impl Fn(&str, &mut Words) -> Result<MessageDraft, String>,
) -> Result<Vec<u8>, String> {
    if words.first() == Some("octets") {
        words.next();
        return words.octets();
    }
    let mut messages = Vec::new();
    loop {
        let first = words.word(wanted)?;
        messages.push(message(first, words)?);
        match words.next() {
            None => return Ok(FrameDraft::new(messages).octets()),
            Some("and") => {}
            Some(other) => return Err(unknown(other)),
        }
    }
}

fn talker(words: &mut Words) -> Result<MessageDraft, String> {
    let mut talker = Talker::of_the_worked_example(words.stream()?);
    let mut values = Values::default();
    while let Some(word) = words.next_option()? {
        let parameters = &mut talker.parameters;
        match word {
            "to" => parameters.destination = words.address()?,
            "vlan" => parameters.vlan = words.number(VLAN)?,
            "size" => parameters.max_frame_size = words.number(SIZE)?,
            "frames" => parameters.max_interval_frames = words.number(FRAMES)?,
            "priority" => parameters.priority = words.number(PRIORITY)?,
            "rank" => parameters.rank = words.number(RANK)?,
            "latency" => talker.accumulated_latency = words.number(LATENCY)?,
            "failed" => {
                talker.failure = Some(Failure {
                    bridge_id: words.hexadecimal("a Bridge ID", 64)?,
                    code: words.number(CODE)?,
                });
            }
            _ => values.word(word, words)?,
        }
    }
    let attribute_type = match talker.failure {
        None => AttributeType::TalkerAdvertise,
        Some(_) => AttributeType::TalkerFailed,
    };
    Ok(values.message(attribute_type, declarations::first_value(&talker), None))
}

fn listener(words: &mut Words) -> Result<MessageDraft, String> {
    let first_value = words.stream()?.to_be_bytes().to_vec();
    let listener_type = match words.word("asking, ready, readyfailed or ignore")? {
        "ignore" => 0,
        "asking" => 1,
        "ready" => 2,
        "readyfailed" => 3,
        other => return Err(unknown(other)),
    };
    let values = Values::read(words)?;
    Ok(values.message(AttributeType::Listener, first_value, Some(listener_type)))
}

fn domain(words: &mut Words) -> Result<MessageDraft, String> {
    let mut first_value = vec![words.number(CLASS_ID)?, words.number(DOMAIN_PRIORITY)?];
    first_value.extend(words.number::<u16>(VLAN)?.to_be_bytes());
    let values = Values::read(words)?;
    Ok(values.message(AttributeType::Domain, first_value, None))
}

fn leave_all(words: &mut Words) -> Result<MessageDraft, String> {
    let attribute_type = match words.word("advertise, failed, listener or domain")? {
        "advertise" => AttributeType::TalkerAdvertise,
        "failed" => AttributeType::TalkerFailed,
        "listener" => AttributeType::Listener,
        "domain" => AttributeType::Domain,
        other => return Err(unknown(other)),
    };
    let vector = leave_all_vector(attribute_type.first_value_length());
    Ok(MessageDraft::new(attribute_type, vec![vector]))
}

/// A vector of LeaveAll without values.
fn leave_all_vector(first_value_length: usize) -> VectorDraft {
    VectorDraft {
        leave_all_event: 1,
        first_value: vec![0; first_value_length],
        ..VectorDraft::default()
    }
}

fn mac(words: &mut Words) -> Result<MessageDraft, String> {
    let first_value = words.address()?.to_be_bytes()[2..].to_vec();
    let values = Values::read(words)?;
    Ok(MessageDraft::of_mmrp(MmrpType::Mac, vec![values.vector(first_value, None)]))
}

fn service(words: &mut Words) -> Result<MessageDraft, String> {
    let first_value = vec![words.number(SERVICE)?];
    let values = Values::read(words)?;
    let vectors = vec![values.vector(first_value, None)];
    Ok(MessageDraft::of_mmrp(MmrpType::ServiceRequirement, vectors))
}

fn leave_all_mmrp(words: &mut Words) -> Result<MessageDraft, String> {
    let attribute_type = match words.word("mac or service")? {
        "mac" => MmrpType::Mac,
        "service" => MmrpType::ServiceRequirement,
        other => return Err(unknown(other)),
    };
    let vector = leave_all_vector(attribute_type.first_value_length());
    Ok(MessageDraft::of_mmrp(attribute_type, vec![vector]))
}

/// The standard's JoinMt, where a line has no event.
const JOIN: u8 = 3;

/// How many values a vector has, and the event of each, where the line says it.
#[derive(Default)]
struct Values {
    count: Option<usize>,
    event: Option<u8>,
}

impl Values {
    fn read(words: &mut Words) -> Result<Values, String> {
        let mut values = Values::default();
        while let Some(word) = words.next_option()? {
            values.word(word, words)?;
        }
        Ok(values)
    }

    fn word(&mut self, word: &str, words: &mut Words) -> Result<(), String> {
        if word == "values" {
            self.count = Some(words.number(VALUES)?);
            return Ok(());
        }
        let event = match word {
            "new" => 0,
            "joinin" => 1,
            "in" => 2,
            "join" => JOIN,
            "mt" => 4,
            "leave" => 5,
            _ => return Err(unknown(word)),
        };
        match self.event.replace(event) {
            None => Ok(()),
            Some(_) => Err(format!("{word} is a second event of one Message")),
        }
    }

    fn message(
        &self,
        attribute_type: AttributeType,
        first_value: Vec<u8>,
        listener_type: Option<u8>,
    ) -> MessageDraft {
        MessageDraft::new(attribute_type, vec![self.vector(first_value, listener_type)])
    }

    fn vector(&self, first_value: Vec<u8>, listener_type: Option<u8>) -> VectorDraft {
        let count = self.count.unwrap_or(1);
        VectorDraft {
            first_value,
            events: vec![self.event.unwrap_or(JOIN); count],
            listener_types: listener_type.map_or(Vec::new(), |part| vec![part; count]),
            ..VectorDraft::default()
        }
    }
}
