//! The worked example of examples/worked-example by calls from Rust: a Talker on port 1, a Listener on port 2, what each port then
//! says, and the sheet that the bridge gives. docs/EMBEDDING.md tells how to build it.
use srp::{Bridge, Column, Entry, Listener, Refusal, Stream};
use srp::{PDU, PDU_EMPTY, SETTINGS_HEAD, SETTINGS_PORT, TABLE};

const PORTS: usize = 2;

/// Before the ports: Bridge ID; ports (4 bits), priorities 3 and 2 (3 and 3), leave time 60 (14); VLAN 2. The rest is 0.
const HEAD: [u8; 13] = [0, 0, 0, 0, 0, 0, 0, 0, 0x26, 0x80, 0x3C, 0x00, 0x02];

/// Of each port: classes A and B; overhead 42; largest frame 1,522; limit A 75,000,000. Limit B and both latencies are 0.
const PORT: [u8; 9] = [0xC0, 42, 0x05, 0xF2, 0x00, 0x04, 0x78, 0x68, 0xC0];

/// The neighbour is in the bridge's domain: class B (5) with priority 2, class A (6) with priority 3.
const DOMAIN: [u8; 16] = [
    0x00, 0x04, 0x04, 0x00, 0x09, 0x00, 0x02, 0x05, 0x02, 0x00, 0x02, 0x7E, 0x00, 0x00, 0x00, 0x00,
];

const TALKER: [u8; 37] = [
    0x00, 0x01, 0x19, 0x00, 0x1E, 0x00, 0x01, 0x02, 0x00, 0x00, 0x00, 0x00, 0x01, 0x00, 0x01, 0x91,
    0xE0, 0xF0, 0x00, 0xFE, 0x00, 0x00, 0x02, 0x00, 0xE0, 0x00, 0x01, 0x70, 0x00, 0x00, 0x00, 0x00,
    0x6C, 0x00, 0x00, 0x00, 0x00,
];

const LISTENER: [u8; 21] = [
    0x00, 0x03, 0x08, 0x00, 0x0E, 0x00, 0x01, 0x02, 0x00, 0x00, 0x00, 0x00, 0x01, 0x00, 0x01, 0x6C,
    0x80, 0x00, 0x00, 0x00, 0x00,
];

fn settings() -> [u8; srp::settings(PORTS)] {
    let mut settings = [0; srp::settings(PORTS)];
    settings[..HEAD.len()].copy_from_slice(&HEAD);
    for port in settings[SETTINGS_HEAD..].chunks_exact_mut(SETTINGS_PORT) {
        port[..PORT.len()].copy_from_slice(&PORT);
    }
    settings
}

/// The line of a stream on a port.
fn print_stream(stream: Stream, port: u32) {
    let (column, code) = match stream.column {
        Column::None => ("none", 0),
        Column::Advertise => ("advertise", 0),
        Column::Failed(code) => ("failed", code),
    };
    let listener = match stream.listener {
        Listener::None => "none",
        Listener::AskingFailed => "asking",
        Listener::Ready => "ready",
        Listener::ReadyFailed => "readyfailed",
    };
    let entry = match stream.entry {
        Entry::None => "none",
        Entry::Filter => "filter",
        Entry::Forward => "forward",
    };
    println!("{:016x} {port} {column} {code} {listener} {entry}", stream.id);
}

/// Where a product sends a PDU, behind EtherType 22-EA.
fn send(_port: u32, _pdu: &[u8]) {}

/// All that a port has to say: PDU by PDU from place 0, until one says that nothing is left.
fn write_port(bridge: &mut Bridge, port: u32) -> Result<(), Refusal> {
    let mut buffer = [0; PDU];
    let mut written = bridge.write(port, 0, &mut buffer)?;
    while written.length != PDU_EMPTY {
        send(port, &buffer[..written.length]);
        written = bridge.write(port, written.next, &mut buffer)?;
    }
    Ok(())
}

fn main() -> Result<(), Refusal> {
    let mut table = Box::new([0; TABLE]);
    let mut bridge = Bridge::start(&mut table, &settings())?;
    for port in 1..=PORTS as u32 {
        bridge.receive(port, &DOMAIN)?;
    }
    bridge.receive(1, &TALKER)?;
    bridge.receive(2, &LISTENER)?;
    bridge.advance(100)?;
    for port in 1..=PORTS as u32 {
        write_port(&mut bridge, port)?;
    }

    for port in 1..=PORTS as u32 {
        let told = bridge.report(port, 0)?;
        println!(
            "port {port} A {}/{} B {}/{}",
            told.a.total, told.a.limit, told.b.total, told.b.limit
        );
    }
    for place in 0..bridge.report(1, 0)?.count {
        for port in 1..=PORTS as u32 {
            if let Some(stream) = bridge.report(port, place)?.stream {
                print_stream(stream, port);
            }
        }
    }
    Ok(())
}
