//! The stream-reservation bridge from Rust: a safe wrapper of the seven calls of libembed.a. What each call does stands in
//! include/srp.h, whose names and sizes these are.
#![no_std]

/// Sizes in octets, ports, streams and addresses, as srp.h has them.
pub const PORTS: usize = 8;
pub const STREAMS: usize = 64;
pub const ADDRESSES: usize = 64;
pub const TABLE: usize = 65307;
pub const SETTINGS_HEAD: usize = 14;
pub const SETTINGS_PORT: usize = 22;
pub const PDU: usize = 1500;
pub const PDU_EMPTY: usize = 3;
pub const LIST: usize = 1008;

/// A stream in the list of a why, of which there are all but one at most.
const LISTED: usize = LIST / (STREAMS - 1);

/// The length of the settings of so many ports.
pub const fn settings(ports: usize) -> usize {
    SETTINGS_HEAD + SETTINGS_PORT * ports
}

/// The boundary. Nothing holds these declarations against the archive but the tests.
mod boundary {
    #[repr(C)]
    #[derive(Default)]
    pub struct Reported {
        pub count: u64,
        pub total_a: u64,
        pub limit_a: u64,
        pub total_b: u64,
        pub limit_b: u64,
        pub id: u64,
        pub column: u64,
        pub code: u64,
        pub listener: u64,
        pub entry: u64,
    }

    #[repr(C)]
    #[derive(Default)]
    pub struct Explained {
        pub step: u64,
        pub count: u64,
        pub limit: u64,
        pub shortfall: u64,
    }

    extern "C" {
        pub fn srp_start(
            table: *mut u8,
            table_length: usize,
            settings: *const u8,
            settings_length: usize,
        ) -> u8;
        pub fn srp_receive(
            table: *mut u8,
            table_length: usize,
            port: u32,
            pdu: *const u8,
            pdu_length: usize,
        ) -> u8;
        pub fn srp_receive_mmrp(
            table: *mut u8,
            table_length: usize,
            port: u32,
            pdu: *const u8,
            pdu_length: usize,
        ) -> u8;
        pub fn srp_advance(table: *mut u8, table_length: usize, time: u32) -> u8;
        pub fn srp_write(
            table: *mut u8,
            table_length: usize,
            port: u32,
            place: u32,
            buffer: *mut u8,
            buffer_length: usize,
            length: *mut usize,
            next: *mut usize,
        ) -> u8;
        pub fn srp_report(
            table: *const u8,
            table_length: usize,
            port: u32,
            place: u32,
            reported: *mut Reported,
        ) -> u8;
        pub fn srp_why(
            table: *const u8,
            table_length: usize,
            id: u64,
            port: u32,
            buffer: *mut u8,
            buffer_length: usize,
            explained: *mut Explained,
        ) -> u8;
    }
}

/// Why a call was refused. Nothing was changed then.
#[derive(Clone, Copy, Debug, PartialEq, Eq)]
pub enum Refusal {
    Port,
    PduLength,
    PastEnd,
    AttributeType,
    AttributeLength,
    Event,
    Value,
    Streams,
    Time,
    Buffer,
    Settings,
    Table,
    Place,
    Addresses,
    Stream,
    /// A number that this wrapper doesn't know: the archive is a newer one.
    Other(u8),
}

impl Refusal {
    /// What a number says.
    fn answer(number: u8) -> Result<(), Refusal> {
        Err(match number {
            0 => return Ok(()),
            1 => Refusal::Port,
            2 => Refusal::PduLength,
            3 => Refusal::PastEnd,
            4 => Refusal::AttributeType,
            5 => Refusal::AttributeLength,
            6 => Refusal::Event,
            7 => Refusal::Value,
            8 => Refusal::Streams,
            9 => Refusal::Time,
            10 => Refusal::Buffer,
            11 => Refusal::Settings,
            12 => Refusal::Table,
            13 => Refusal::Place,
            14 => Refusal::Addresses,
            15 => Refusal::Stream,
            other => Refusal::Other(other),
        })
    }
}

/// The Talker declared on a port. A failure has its code (srp.h, enum srp_code).
#[derive(Clone, Copy, Debug, PartialEq, Eq)]
pub enum Column {
    None,
    Advertise,
    Failed(u8),
}

/// The Listener declared on a port.
#[derive(Clone, Copy, Debug, PartialEq, Eq)]
pub enum Listener {
    None,
    AskingFailed,
    Ready,
    ReadyFailed,
}

/// What a port does with a stream's frames.
#[derive(Clone, Copy, Debug, PartialEq, Eq)]
pub enum Entry {
    None,
    Filter,
    Forward,
}

/// A PDU that was written: its length in the buffer, and the place to go on from. One of `PDU_EMPTY` octets says that nothing is left,
/// and isn't sent.
#[derive(Clone, Copy, Debug, PartialEq, Eq)]
pub struct Written {
    pub length: usize,
    pub next: u32,
}

/// What a class has reserved on a port and its limit, in bits per second.
#[derive(Clone, Copy, Debug, PartialEq, Eq)]
pub struct Class {
    pub total: u64,
    pub limit: u64,
}

/// A stream on a port, as the last advance left it.
#[derive(Clone, Copy, Debug, PartialEq, Eq)]
pub struct Stream {
    pub id: u64,
    pub column: Column,
    pub listener: Listener,
    pub entry: Entry,
}

/// A report: the streams held, the port's classes, and the stream at the place; none where the place is the count.
#[derive(Clone, Copy, Debug, PartialEq, Eq)]
pub struct Report {
    pub count: u32,
    pub a: Class,
    pub b: Class,
    pub stream: Option<Stream>,
}

/// What decides a stream's column on a port: the letter of the step, as docs/SRPCALLS.md has them. For step h, which gives code 1, so
/// many streams are listed in the buffer, and limit and shortfall are in bits per second; for all others they are 0.
#[derive(Clone, Copy, Debug, PartialEq, Eq)]
pub struct Explained {
    pub step: char,
    pub count: usize,
    pub limit: u64,
    pub shortfall: u64,
}

/// A more important stream that reserves on a port, and its demand in bits per second.
#[derive(Clone, Copy, Debug, PartialEq, Eq)]
pub struct Listed {
    pub id: u64,
    pub demand: u64,
}

impl Explained {
    /// The streams that a why has listed in its buffer, most important first.
    pub fn listed<'b>(&self, buffer: &'b [u8]) -> impl Iterator<Item = Listed> + 'b {
        buffer.chunks_exact(LISTED).take(self.count).map(|octets| {
            let (id, demand) = octets.split_at(LISTED / 2);
            Listed { id: number(id), demand: number(demand) }
        })
    }
}

/// A number in octets, most significant first.
fn number(octets: &[u8]) -> u64 {
    octets.iter().fold(0, |number, octet| number << 8 | u64::from(*octet))
}

/// A bridge, in a table that is lent to it. The table is its whole state: a copy of it is another bridge.
pub struct Bridge<'a> {
    table: &'a mut [u8; TABLE],
}

impl<'a> Bridge<'a> {
    /// Starts a bridge, whatever the table holds: no streams, clock 0.
    pub fn start(table: &'a mut [u8; TABLE], settings: &[u8]) -> Result<Bridge<'a>, Refusal> {
        // SAFETY: as everywhere below, each pointer and length are those of one slice or value, and a `&mut` overlaps with no other
        let number = unsafe {
            boundary::srp_start(table.as_mut_ptr(), TABLE, settings.as_ptr(), settings.len())
        };
        Refusal::answer(number).map(|()| Bridge { table })
    }

    /// A bridge that was started before. Where its table is none, each call is refused with `Refusal::Table`.
    pub fn held(table: &'a mut [u8; TABLE]) -> Bridge<'a> {
        Bridge { table }
    }

    /// Takes a PDU that arrived on a port, numbered from 1.
    pub fn receive(&mut self, port: u32, pdu: &[u8]) -> Result<(), Refusal> {
        Refusal::answer(unsafe {
            boundary::srp_receive(self.table.as_mut_ptr(), TABLE, port, pdu.as_ptr(), pdu.len())
        })
    }

    /// Takes an MMRP PDU that arrived on a port, numbered from 1.
    pub fn receive_mmrp(&mut self, port: u32, pdu: &[u8]) -> Result<(), Refusal> {
        Refusal::answer(unsafe {
            boundary::srp_receive_mmrp(
                self.table.as_mut_ptr(),
                TABLE,
                port,
                pdu.as_ptr(),
                pdu.len(),
            )
        })
    }

    /// Sets the clock, in hundredths of a second, and decides what every port admits.
    pub fn advance(&mut self, time: u32) -> Result<(), Refusal> {
        Refusal::answer(unsafe { boundary::srp_advance(self.table.as_mut_ptr(), TABLE, time) })
    }

    /// Writes a PDU of what a port has to say, from a place of its declarations on. What is written counts as sent.
    pub fn write(&mut self, port: u32, place: u32, buffer: &mut [u8]) -> Result<Written, Refusal> {
        let (mut length, mut next) = (0, 0);
        let number = unsafe {
            boundary::srp_write(
                self.table.as_mut_ptr(),
                TABLE,
                port,
                place,
                buffer.as_mut_ptr(),
                buffer.len(),
                &mut length,
                &mut next,
            )
        };
        Refusal::answer(number).map(|()| Written { length, next: next as u32 })
    }

    /// Reports a port, and the stream at a place.
    pub fn report(&self, port: u32, place: u32) -> Result<Report, Refusal> {
        let mut told = boundary::Reported::default();
        let number =
            unsafe { boundary::srp_report(self.table.as_ptr(), TABLE, port, place, &mut told) };
        Refusal::answer(number).map(|()| Report {
            count: told.count as u32,
            a: Class { total: told.total_a, limit: told.limit_a },
            b: Class { total: told.total_b, limit: told.limit_b },
            stream: (u64::from(place) < told.count).then(|| stream(&told)),
        })
    }

    /// Tells which step would decide a stream's column on a port in an advance to the held clock, and lists in the buffer, of at least
    /// `LIST` octets, who leaves too little.
    pub fn why(&self, id: u64, port: u32, buffer: &mut [u8]) -> Result<Explained, Refusal> {
        let mut told = boundary::Explained::default();
        let number = unsafe {
            boundary::srp_why(
                self.table.as_ptr(),
                TABLE,
                id,
                port,
                buffer.as_mut_ptr(),
                buffer.len(),
                &mut told,
            )
        };
        Refusal::answer(number).map(|()| Explained {
            step: char::from(told.step as u8),
            count: told.count as usize,
            limit: told.limit,
            shortfall: told.shortfall,
        })
    }
}

/// The stream of a report that has one. Its numbers are among those of srp.h, by what the call promises.
fn stream(told: &boundary::Reported) -> Stream {
    Stream {
        id: told.id,
        column: match told.column {
            0 => Column::None,
            1 => Column::Advertise,
            _ => Column::Failed(told.code as u8),
        },
        listener: match told.listener {
            0 => Listener::None,
            1 => Listener::AskingFailed,
            2 => Listener::Ready,
            _ => Listener::ReadyFailed,
        },
        entry: match told.entry {
            0 => Entry::None,
            1 => Entry::Filter,
            _ => Entry::Forward,
        },
    }
}
