//! Inputs written by hand: lines of words in, records out. The format's reference is
//! docs/TEXT.md.
//!
//! * `words`: the words of a line, with numbers, units and names;
//! * `settings_lines`: settings;
//! * `messages`: the PDU of a line.

mod messages;
mod settings_lines;
mod words;

use crate::settings::{self, Settings};
use crate::sheet::LONGEST_INPUT;
use crate::why::LONGEST_LIST;
use words::{unknown, Field, Measure, Names, Words};

const PORT: Field = Field::plain("a port", 4);
const TIME: Field = Field::measured("a time", 32, Measure::Hundredths);
const PLACE: Field = Field::plain("a place", 16);
const LENGTH: Field = Field::plain("a length", 16);

/// Which program the records are for.
#[derive(Clone, Copy, Debug, PartialEq, Eq)]
pub enum Program {
    Sheet,
    Calls,
}

/// The records of a text, and the lines, from 1, that they were made of.
#[derive(Debug, Default)]
pub struct Script {
    pub octets: Vec<u8>,
    /// Where the octets of a line begin, and the line.
    begins: Vec<(usize, usize)>,
    /// The line of the last frame, where no time follows it.
    unsettled: Option<usize>,
    /// The line of settings that no start follows.
    unstarted: Option<usize>,
    /// The names of streams.
    streams: Vec<(String, u64)>,
}

impl Script {
    /// The line that the octet at a place was made of; nothing where no line made octets.
    pub fn line_at(&self, place: usize) -> Option<usize> {
        let later = self.begins.partition_point(|(begin, _)| *begin <= place);
        self.begins[..later].last().map(|(_, line)| *line)
    }

    /// What else a program over texts shows: a line `stream ID NAME` for each name of a stream, and
    /// a line `octet PLACE LINE` for each line of the text that made octets, with where they begin.
    pub fn index(&self) -> String {
        let streams = self.streams.iter().map(|(name, id)| format!("stream {id:016x} {name}\n"));
        let octets = self.begins.iter().map(|(place, line)| format!("octet {place} {line}\n"));
        streams.chain(octets).collect()
    }

    /// What the writer of the text should know.
    pub fn warnings(&self) -> Vec<String> {
        let warning = |line: &usize, words| format!("line {line}: warning: {words}");
        let unstarted = "no start follows these settings, so no bridge has them";
        let unsettled = "no time follows this frame, so nothing is decided by it";
        let mut warnings = Vec::new();
        warnings.extend(self.unstarted.iter().map(|line| warning(line, unstarted)));
        warnings.extend(self.unsettled.iter().map(|line| warning(line, unsettled)));
        warnings
    }

    /// The fault of records that srpsheet would not read to their end.
    pub fn too_long_for_a_sheet(&self) -> Option<String> {
        let line = self.line_at(LONGEST_INPUT).filter(|_| self.octets.len() > LONGEST_INPUT)?;
        Some(format!(
            "line {line}: here the records pass 65,536 octets, and srpsheet reads no more \
             (01, \"The printed sheet\"): use ./calls"
        ))
    }
}

/// The octets of a text as letters, without a byte-order mark.
pub fn text(octets: &[u8]) -> Result<String, String> {
    match octets {
        [0xff, 0xfe, ..] | [0xfe, 0xff, ..] => Err("the text is UTF-16, not UTF-8".to_string()),
        [0xef, 0xbb, 0xbf, rest @ ..] => Ok(String::from_utf8_lossy(rest).into_owned()),
        _ => Ok(String::from_utf8_lossy(octets).into_owned()),
    }
}

/// The records of a text; or the line that cannot be read, and why.
pub fn records(text: &str, program: Program) -> Result<Vec<u8>, String> {
    Ok(read(text, program)?.octets)
}

/// The same, with the lines that they were made of.
pub fn read(text: &str, program: Program) -> Result<Script, String> {
    let mut names = Names::default();
    let mut reader =
        Reader { program, settings: None, are_written: false, script: Script::default() };
    for (place, line) in text.lines().enumerate() {
        let line = line.split('#').next().unwrap_or_default();
        let words: Vec<&str> = line.split_whitespace().collect();
        let done = match words.first() {
            None => Ok(()),
            Some(&"stream") | Some(&"address") => names.line(&words),
            Some(_) => reader.line(place + 1, &mut Words::new(&words, &names)),
        };
        done.map_err(|fault| format!("line {}: {fault}", place + 1))?;
    }
    reader.settings_of_a_sheet();
    reader.script.streams = names.streams();
    Ok(reader.script)
}

struct Reader {
    program: Program,
    /// The settings, and the line on which they begin.
    settings: Option<(usize, Settings)>,
    /// Whether a sheet's settings stand in the octets already.
    are_written: bool,
    script: Script,
}

impl Reader {
    fn line(&mut self, line: usize, words: &mut Words) -> Result<(), String> {
        let first = words.word("a first word")?;
        match first {
            "bridge" if self.are_written => {
                return Err("settings stand before the first call".to_string());
            }
            "bridge" => {
                self.settings = Some((line, settings_lines::bridge(words)?));
                self.script.unstarted = Some(line).filter(|_| self.program == Program::Calls);
            }
            "ports" => match &mut self.settings {
                Some((_, settings)) if !self.are_written => settings_lines::ports(words, settings)?,
                _ => return Err("ports stand after bridge, before the first call".to_string()),
            },
            _ => {
                self.settings_of_a_sheet();
                let record = self.call(first, words)?;
                self.put(line, &record);
                self.watch(line, first);
            }
        }
        words.end()
    }

    /// Keeps what warnings are made of.
    fn watch(&mut self, line: usize, first: &str) {
        match first {
            "on" | "mmrp" => self.script.unsettled = Some(line),
            "time" | "start" | "raw" => self.script.unsettled = None,
            _ => {}
        }
        if matches!(first, "start" | "raw") {
            self.script.unstarted = None;
        }
    }

    /// The record of a line that is a call.
    fn call(&self, first: &str, words: &mut Words) -> Result<Vec<u8>, String> {
        match (first, self.program) {
            ("on", _) => {
                let port: u8 = words.number(PORT)?;
                counted(0x10 | port, &messages::pdu(words)?)
            }
            ("time", _) => Ok(fixed(0x20, &words.number::<u32>(TIME)?.to_be_bytes())),
            ("raw", _) => words.octets(),
            ("start", Program::Calls) => {
                let (_, settings) = self.settings.as_ref().ok_or("no bridge line before start")?;
                counted(0x00, &settings::write(settings))
            }
            ("mmrp", Program::Calls) => {
                let port: u8 = words.number(PORT)?;
                counted(0x70 | port, &messages::mmrp_pdu(words)?)
            }
            ("write", Program::Calls) => write(words),
            ("report", Program::Calls) => report(words),
            ("why", Program::Calls) => why(words),
            ("store", Program::Calls) => {
                let mut rest = words.number::<u16>(PLACE)?.to_be_bytes().to_vec();
                rest.push(words.hexadecimal("an octet", 8)? as u8);
                Ok(fixed(0x50, &rest))
            }
            ("lend", Program::Calls) => {
                Ok(fixed(0x51, &words.number::<u16>(LENGTH)?.to_be_bytes()))
            }
            ("sum", Program::Calls) => Ok(vec![0x60]),
            ("table", Program::Calls) => Ok(vec![0x61]),
            (
                "start" | "mmrp" | "write" | "report" | "why" | "store" | "lend" | "sum" | "table",
                Program::Sheet,
            ) => Err(format!(
                "{first} stands in texts of calls alone, which have a start behind their settings: \
                 use ./calls, or ./srp sheet for the sheet of one"
            )),
            _ => Err(unknown(first)),
        }
    }

    /// A sheet begins with its settings.
    fn settings_of_a_sheet(&mut self) {
        if self.program == Program::Sheet && !self.are_written {
            if let Some((line, settings)) = self.settings.take() {
                self.put(line, &settings::write(&settings));
            }
            self.are_written = true;
        }
    }

    fn put(&mut self, line: usize, octets: &[u8]) {
        if !octets.is_empty() {
            self.script.begins.push((self.script.octets.len(), line));
            self.script.octets.extend(octets);
        }
    }
}

/// A record: its first octet and the rest.
fn fixed(first: u8, rest: &[u8]) -> Vec<u8> {
    let mut record = vec![first];
    record.extend(rest);
    record
}

/// A record with a 16-bit length and so many octets.
fn counted(first: u8, octets: &[u8]) -> Result<Vec<u8>, String> {
    let length = u16::try_from(octets.len())
        .map_err(|_| format!("a PDU of {} octets, and a record holds 65535", octets.len()))?;
    let mut record = fixed(first, &length.to_be_bytes());
    record.extend(octets);
    Ok(record)
}

fn write(words: &mut Words) -> Result<Vec<u8>, String> {
    let port: u8 = words.number(PORT)?;
    let (mut from, mut buffer) = (0_u16, 1_500_u16);
    while let Some(word) = words.next_option()? {
        match word {
            "from" => from = words.number(PLACE)?,
            "buffer" => buffer = words.number(LENGTH)?,
            _ => return Err(unknown(word)),
        }
    }
    let mut rest = from.to_be_bytes().to_vec();
    rest.extend(buffer.to_be_bytes());
    Ok(fixed(0x30 | port, &rest))
}

fn report(words: &mut Words) -> Result<Vec<u8>, String> {
    let port: u8 = words.number(PORT)?;
    let mut place = 0_u16;
    while let Some(word) = words.next_option()? {
        match word {
            "place" => place = words.number(PLACE)?,
            _ => return Err(unknown(word)),
        }
    }
    Ok(fixed(0x40 | port, &place.to_be_bytes()))
}

fn why(words: &mut Words) -> Result<Vec<u8>, String> {
    let port: u8 = words.number(PORT)?;
    let mut rest = words.stream()?.to_be_bytes().to_vec();
    let mut buffer = LONGEST_LIST as u16;
    while let Some(word) = words.next_option()? {
        match word {
            "buffer" => buffer = words.number(LENGTH)?,
            _ => return Err(unknown(word)),
        }
    }
    rest.extend(buffer.to_be_bytes());
    Ok(fixed(0x80 | port, &rest))
}
