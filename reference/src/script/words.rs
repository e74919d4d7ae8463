//! The words of a line, taken from the front: numbers that fit their fields, with units and
//! separators, hexadecimal numbers, octets, and names.

use std::collections::BTreeMap;

/// What a decimal number counts, which decides the units that may stand behind it.
#[derive(Clone, Copy, Debug, PartialEq, Eq)]
pub enum Measure {
    Plain,
    BitsPerSecond,
    Hundredths,
    Nanoseconds,
}

impl Measure {
    /// Each unit with the power of ten that it is of what is counted.
    fn units(self) -> &'static [(&'static str, i32)] {
        match self {
            Measure::Plain => &[],
            Measure::BitsPerSecond => &[("K", 3), ("M", 6), ("G", 9)],
            Measure::Hundredths => &[("s", 2), ("ms", -1)],
            Measure::Nanoseconds => &[("s", 9), ("ms", 6), ("us", 3)],
        }
    }

    fn name(self) -> &'static str {
        match self {
            Measure::Plain => "ones",
            Measure::BitsPerSecond => "bits per second",
            Measure::Hundredths => "hundredths of a second",
            Measure::Nanoseconds => "nanoseconds",
        }
    }
}

/// A field that holds a decimal number.
#[derive(Clone, Copy, Debug)]
pub struct Field {
    name: &'static str,
    bits: u32,
    measure: Measure,
}

impl Field {
    pub const fn plain(name: &'static str, bits: u32) -> Field {
        Field { name, bits, measure: Measure::Plain }
    }

    pub const fn measured(name: &'static str, bits: u32, measure: Measure) -> Field {
        Field { name, bits, measure }
    }
}

/// Why a word is no number of a field.
enum Misfit {
    NoNumber,
    NotWhole,
    TooLarge,
}

/// The digits of a whole number without the separators of its thousands: all commas or all
/// underscores, or none at all.
fn digits(word: &str) -> Option<String> {
    let separator = if word.contains('_') { '_' } else { ',' };
    let groups: Vec<&str> = word.split(separator).collect();
    let (first, rest) = groups.split_first()?;
    let in_thousands = first.len() <= 3 && rest.iter().all(|group| group.len() == 3);
    let digits = groups.concat();
    let is_number = !first.is_empty() && digits.bytes().all(|digit| digit.is_ascii_digit());
    Some(digits).filter(|_| is_number && (rest.is_empty() || in_thousands))
}

/// The number of a word. A fraction stands before a unit alone, and comes out whole.
fn value(word: &str, measure: Measure) -> Result<u128, Misfit> {
    let unit_at = word.find(|letter: char| letter.is_ascii_alphabetic()).unwrap_or(word.len());
    let (number, unit) = word.split_at(unit_at);
    let (whole, fraction) = number.split_once('.').unwrap_or((number, ""));
    let mut all = digits(whole).ok_or(Misfit::NoNumber)?;
    let mut power = 0;
    if !unit.is_empty() {
        let known = measure.units().iter().find(|(name, _)| *name == unit);
        power = known.ok_or(Misfit::NoNumber)?.1;
    }
    if number.contains('.') {
        let is_fraction = !fraction.is_empty() && fraction.bytes().all(|d| d.is_ascii_digit());
        if unit.is_empty() || !is_fraction {
            return Err(Misfit::NoNumber);
        }
        all.push_str(fraction);
        power -= fraction.len() as i32;
    }
    let all: u128 = all.parse().map_err(|_| Misfit::TooLarge)?;
    let scale = 10_u128.checked_pow(power.unsigned_abs());
    if power >= 0 {
        return scale.and_then(|scale| all.checked_mul(scale)).ok_or(Misfit::TooLarge);
    }
    scale.filter(|scale| all % scale == 0).map(|scale| all / scale).ok_or(Misfit::NotWhole)
}

/// The names that a text gives.
#[derive(Debug, Default)]
pub struct Names {
    streams: BTreeMap<String, u64>,
    addresses: BTreeMap<String, u64>,
}

impl Names {
    /// The names of streams with their StreamIDs, by name.
    pub fn streams(&self) -> Vec<(String, u64)> {
        self.streams.iter().map(|(name, id)| (name.clone(), *id)).collect()
    }

    /// Takes a line `stream NAME ID` or `address NAME MAC`.
    pub fn line(&mut self, words: &[&str]) -> Result<(), String> {
        let no_names = Names::default();
        let mut words = Words::new(words, &no_names);
        let kind = words.word("stream or address")?;
        let name = words.word("a name")?;
        if !is_name(name) {
            return Err(format!(
                "{name} is no name: a name begins with a letter, has letters, digits, '-', '_' \
                 and '.' alone, and is no hexadecimal number"
            ));
        }
        let (names, number) = match kind {
            "stream" => (&mut self.streams, words.hexadecimal("a StreamID", 64)?),
            _ => (&mut self.addresses, words.hexadecimal("a MAC address", 48)?),
        };
        if names.insert(name.to_string(), number).is_some() {
            return Err(format!("{name} names a {kind} already"));
        }
        words.end()
    }
}

fn is_name(word: &str) -> bool {
    word.starts_with(char::is_alphabetic)
        && word.chars().all(|part| part.is_alphanumeric() || "-_.".contains(part))
        && !word.chars().all(|part| part.is_ascii_hexdigit())
}

/// The words of a line.
pub struct Words<'a> {
    rest: &'a [&'a str],
    names: &'a Names,
    /// The options of this line, or of this Message of it, that were taken.
    taken: Vec<&'a str>,
}

impl<'a> Words<'a> {
    pub fn new(rest: &'a [&'a str], names: &'a Names) -> Words<'a> {
        Words { rest, names, taken: Vec::new() }
    }

    pub fn first(&self) -> Option<&'a str> {
        self.rest.first().copied()
    }

    pub fn next(&mut self) -> Option<&'a str> {
        let (first, rest) = self.rest.split_first()?;
        self.rest = rest;
        Some(first)
    }

    /// The next of the options that stand in any order, up to the line's end or an `and`. Each
    /// stands once.
    pub fn next_option(&mut self) -> Result<Option<&'a str>, String> {
        if matches!(self.first(), None | Some("and")) {
            self.taken.clear();
            return Ok(None);
        }
        let option = self.next();
        match option {
            Some(word) if self.taken.contains(&word) => Err(format!("{word} stands here twice")),
            _ => {
                self.taken.extend(option);
                Ok(option)
            }
        }
    }

    pub fn word(&mut self, wanted: &str) -> Result<&'a str, String> {
        self.next().ok_or_else(|| format!("the line ends where {wanted} was expected"))
    }

    /// A decimal number that its field holds.
    pub fn number<T: TryFrom<u64>>(&mut self, field: Field) -> Result<T, String> {
        let word = self.word(field.name)?;
        let most = u64::MAX >> (64 - field.bits);
        let number = value(word, field.measure).and_then(|number| {
            let number = u64::try_from(number).ok().filter(|number| *number <= most);
            number.and_then(|number| T::try_from(number).ok()).ok_or(Misfit::TooLarge)
        });
        number.map_err(|misfit| match misfit {
            Misfit::NoNumber => format!("{word} where {} was expected", field.name),
            Misfit::NotWhole => format!("{word} is no whole number of {}", field.measure.name()),
            Misfit::TooLarge => {
                format!("{word} where {} of at most {most} was expected", field.name)
            }
        })
    }

    /// A hexadecimal number of so many bits: all its digits, or at most half of them, or all its
    /// octets with colons between them. One that has nearly all its digits lacks some.
    pub fn hexadecimal(&mut self, wanted: &str, bits: u32) -> Result<u64, String> {
        let word = self.word(wanted)?;
        let octets: Vec<&str> = word.split(':').collect();
        let in_octets =
            octets.len() == bits as usize / 8 && octets.iter().all(|octet| octet.len() == 2);
        let digits = if in_octets { octets.concat() } else { word.to_string() };
        if digits.is_empty() || !digits.bytes().all(|digit| digit.is_ascii_hexdigit()) {
            return Err(format!("{word} where {wanted} was expected"));
        }
        let all = bits as usize / 4;
        if digits.len() > all / 2 && digits.len() < all {
            let short = digits.len();
            return Err(format!(
                "{word} has {short} digits, where {wanted} has {all} or at most {}",
                all / 2
            ));
        }
        let number = u64::from_str_radix(&digits, 16).ok();
        number.filter(|number| bits == 64 || number >> bits == 0).ok_or_else(|| {
            format!("{word} where {wanted} was expected, of at most {} digits", bits / 4)
        })
    }

    /// A StreamID, or the name of a stream.
    pub fn stream(&mut self) -> Result<u64, String> {
        let names = &self.names.streams;
        self.named(names, "a StreamID or the name of a stream", 64)
    }

    /// A MAC address, or the name of one.
    pub fn address(&mut self) -> Result<u64, String> {
        let names = &self.names.addresses;
        self.named(names, "a MAC address or the name of one", 48)
    }

    fn named(
        &mut self,
        names: &BTreeMap<String, u64>,
        wanted: &str,
        bits: u32,
    ) -> Result<u64, String> {
        match self.first().and_then(|word| names.get(word)) {
            Some(number) => {
                self.next();
                Ok(*number)
            }
            None => self.hexadecimal(wanted, bits),
        }
    }

    /// The rest of the line as octets, with or without spaces between them.
    pub fn octets(&mut self) -> Result<Vec<u8>, String> {
        let digits = self.rest.concat();
        self.rest = &[];
        if digits.len() % 2 != 0 || !digits.is_ascii() {
            return Err("octets are pairs of hexadecimal digits".to_string());
        }
        (0..digits.len() / 2)
            .map(|place| {
                let pair = &digits[2 * place..2 * place + 2];
                Some(pair)
                    .filter(|pair| pair.bytes().all(|digit| digit.is_ascii_hexdigit()))
                    .and_then(|pair| u8::from_str_radix(pair, 16).ok())
                    .ok_or_else(|| format!("{pair} is no octet"))
            })
            .collect()
    }

    pub fn end(&self) -> Result<(), String> {
        match self.first() {
            None => Ok(()),
            Some(word) => Err(unknown(word)),
        }
    }
}

pub fn unknown(word: &str) -> String {
    format!("{word} is not known here")
}
