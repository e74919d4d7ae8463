//! What a program printed of a text, with the text's line of each refused call.
//!
//! A sheet doesn't show which call was refused. The reference makes the same calls, and must refuse
//! as many with the same numbers in the same order; otherwise no line is told.

use std::io::{self, BufRead, Write};

use crate::lent::Table;
use crate::numbers::{self, Number};
use crate::records::{Call, Watcher};
use crate::script::{self, Program};
use crate::{calls, settings, sheet};

/// The most letters that are shown of a line.
const SHOWN: usize = 100;

/// Where each refused call's record begins, its number, and that in words.
#[derive(Default)]
struct Refused {
    begin: usize,
    calls: Vec<(usize, Number, String)>,
}

impl Watcher for Refused {
    fn begins(&mut self, place: usize) {
        self.begin = place;
    }

    fn called(&mut self, call: &Call, number: Number, _: &Table) {
        if number != numbers::ACCEPTED {
            self.calls.push((self.begin, number, in_words(call, number)));
        }
    }
}

/// A refusal in words; that of settings is the rule that they break.
fn in_words(call: &Call, number: Number) -> String {
    match call {
        Call::Start(octets) if number == numbers::SETTINGS => {
            settings::checked(octets).err().unwrap_or_default()
        }
        _ => numbers::in_words(number).to_string(),
    }
}

/// What is told of a text's refused calls, in their order, and of the place where its reading stops.
pub struct Refusals {
    program: Program,
    told: std::vec::IntoIter<(Number, String)>,
    stop: String,
}

impl Refusals {
    /// Those of a text; or the line that cannot be read, and why.
    pub fn of(text: &str, program: Program) -> Result<Refusals, String> {
        let script = script::read(text, program)?;
        let mut refused = Refused::default();
        match program {
            Program::Sheet => sheet::run_watched(&script.octets, &mut refused),
            Program::Calls => calls::run_watched(&script.octets, &mut refused),
        };
        let lines: Vec<&str> = text.lines().collect();
        let line_at = |place| match script.line_at(place) {
            Some(line) => shown(line, lines[line - 1].trim()),
            None => "the text makes no record".to_string(),
        };
        let told = |(begin, number, words): &(usize, Number, String)| {
            (*number, format!("{}: {words}", line_at(*begin)))
        };
        let told: Vec<(Number, String)> = refused.calls.iter().map(told).collect();
        let stop = match (program, refused.calls.first()) {
            (Program::Sheet, Some((_, numbers::SETTINGS, _))) => told[0].1.clone(),
            _ => format!("{}: no record begins so, or it is cut", line_at(refused.begin)),
        };
        Ok(Refusals { program, told: told.into_iter(), stop })
    }

    /// Copies what the program printed, and tells after each refused call its line.
    pub fn tell(
        mut self,
        printed: &mut dyn BufRead,
        out: &mut dyn Write,
        told: &mut dyn Write,
    ) -> io::Result<()> {
        let mut line = Vec::new();
        while printed.read_until(b'\n', &mut line)? > 0 {
            out.write_all(&line)?;
            out.flush()?;
            if let Some(words) = self.of_printed(String::from_utf8_lossy(&line).trim_end()) {
                writeln!(told, "{words}")?;
            }
            line.clear();
        }
        Ok(())
    }

    /// What is told of a printed line.
    fn of_printed(&mut self, line: &str) -> Option<String> {
        if line == "stop" {
            return Some(self.stop.clone());
        }
        let number = refusal(line, self.program)?;
        let told = self.told.next().filter(|(expected, _)| *expected == number);
        let words = told.map(|(_, words)| words);
        Some(words.unwrap_or_else(|| {
            self.told = Vec::new().into_iter();
            format!("the reference refuses other calls: {}", numbers::in_words(number))
        }))
    }
}

/// The number of a printed line that tells of a refused call.
fn refusal(line: &str, program: Program) -> Option<Number> {
    let (first, rest) = line.split_once(' ')?;
    let is_call = match program {
        Program::Sheet => first == "refused",
        Program::Calls => {
            ["start", "receive", "mmrp", "advance", "write", "report", "why"].contains(&first)
        }
    };
    let number = rest.split(' ').next().filter(|_| is_call)?.parse().ok()?;
    Some(number).filter(|number| *number != numbers::ACCEPTED)
}

/// A line of a text with its number.
fn shown(number: usize, line: &str) -> String {
    let cut: String = line.chars().take(SHOWN).collect();
    let more = if cut.len() < line.len() { ".." } else { "" };
    format!("line {number}: {cut}{more}")
}
