//! Settings (01, "Numbers given back", the paragraph on settings; 02, (ii), (x) and (vi)).

/// The two stream reservation classes. Each has its own priority, limit, latency and interval.
#[derive(Clone, Copy, Debug, PartialEq, Eq, PartialOrd, Ord)]
pub enum Class {
    A,
    B,
}

pub const CLASSES: [Class; 2] = [Class::A, Class::B];

/// One value for each class.
#[derive(Clone, Copy, Debug, Default, PartialEq, Eq)]
pub struct PerClass<T> {
    pub a: T,
    pub b: T,
}

impl<T: Copy> PerClass<T> {
    pub fn of(&self, class: Class) -> T {
        match class {
            Class::A => self.a,
            Class::B => self.b,
        }
    }

    pub fn of_mut(&mut self, class: Class) -> &mut T {
        match class {
            Class::A => &mut self.a,
            Class::B => &mut self.b,
        }
    }
}

/// The settings of one port.
#[derive(Clone, Debug, PartialEq, Eq)]
pub struct PortSettings {
    pub supports: PerClass<bool>,
    pub sends_twice: bool,
    pub overhead: u8,
    pub largest_frame: u16,
    /// Bits per second, 40 bits.
    pub limit: PerClass<u64>,
    /// Nanoseconds.
    pub latency: PerClass<u32>,
}

impl PortSettings {
    /// A port of 01's worked example.
    pub fn of_the_worked_example() -> PortSettings {
        PortSettings {
            supports: PerClass { a: true, b: true },
            sends_twice: false,
            overhead: 42,
            largest_frame: 1522,
            limit: PerClass { a: 75_000_000, b: 0 },
            latency: PerClass { a: 0, b: 0 },
        }
    }
}

/// The settings of a bridge. `ports[0]` is port 1.
#[derive(Clone, Debug, PartialEq, Eq)]
pub struct Settings {
    pub bridge_id: u64,
    pub priority: PerClass<u8>,
    /// Hundredths of a second, 1 or more.
    pub leave_time: u32,
    /// talkerPruning: a Talker isn't declared on a port that didn't ask for its destination.
    pub pruning: bool,
    /// That of the Domain declarations, 1 to 4,094.
    pub vlan: u16,
    /// msrpMaxFanInPorts, at most 8; 0 means no limit.
    pub fan_in_limit: u8,
    pub ports: Vec<PortSettings>,
}

/// A bridge has 1 to 8 ports.
pub const MOST_PORTS: usize = 8;
/// Octets before the ports' own settings.
pub const HEAD_LENGTH: usize = 14;
/// Octets of one port's settings.
pub const PORT_LENGTH: usize = 22;
/// The greatest VLAN.
pub const GREATEST_VLAN: u16 = 4_094;
/// The greatest msrpMaxFanInPorts.
pub const GREATEST_FAN_IN: u8 = 8;

/// Length of settings with that ports field: 14 + 22 x ports.
pub fn length(ports_field: usize) -> usize {
    HEAD_LENGTH + PORT_LENGTH * ports_field
}

/// The 4-bit ports field, where there are octets enough to have one. It follows the 64 bits of
/// the Bridge ID.
pub fn ports_field(octets: &[u8]) -> Option<usize> {
    octets.get(8).map(|octet| usize::from(octet >> 4))
}

/// Takes fields from octets, most significant bit first.
struct Fields<'a> {
    octets: &'a [u8],
    bits_taken: usize,
}

impl Fields<'_> {
    fn take(&mut self, bits: usize) -> u64 {
        let mut field = 0;
        for _ in 0..bits {
            let octet = self.octets[self.bits_taken / 8];
            let bit = octet >> (7 - self.bits_taken % 8) & 1;
            field = field << 1 | u64::from(bit);
            self.bits_taken += 1;
        }
        field
    }

    fn take_flag(&mut self) -> bool {
        self.take(1) == 1
    }
}

/// Reads settings; nothing where they are not as laid out (number 11).
pub fn read(octets: &[u8]) -> Option<Settings> {
    checked(octets).ok()
}

/// The number of ports of settings that are as long as it says; or the rule that they break.
fn checked_ports(octets: &[u8]) -> Result<usize, String> {
    let have = octets.len();
    let ports = ports_field(octets).ok_or_else(|| {
        format!("the settings have {have} octets, and end before their ports field")
    })?;
    if ports == 0 || ports > MOST_PORTS {
        return Err(format!(
            "a bridge has 1 to {MOST_PORTS} ports, and these settings say {ports}"
        ));
    }
    let wanted = length(ports);
    if have == wanted {
        return Ok(ports);
    }
    Err(format!("settings of {ports} ports have {wanted} octets, and these have {have}"))
}

/// Reads settings; or the rule of docs/TABLE.md that they break (number 11).
pub fn checked(octets: &[u8]) -> Result<Settings, String> {
    let port_count = checked_ports(octets)?;
    let mut fields = Fields { octets, bits_taken: 0 };
    let bridge_id = fields.take(64);
    fields.take(4); // the ports field, read above
    let priority = PerClass { a: fields.take(3) as u8, b: fields.take(3) as u8 };
    let leave_time = fields.take(14) as u32;
    if priority.a == priority.b {
        return Err(format!(
            "the classes have different priorities, and both of these are {}",
            priority.a
        ));
    }
    if leave_time == 0 {
        return Err("the leave time is 1 or more, and this one is 0".to_string());
    }
    let pruning = fields.take_flag();
    let zero = fields.take(3);
    let vlan = fields.take(12) as u16;
    if zero != 0 {
        return Err("the three bits above the VLAN are zero, and one of these is set".to_string());
    }
    if vlan == 0 || vlan > GREATEST_VLAN {
        return Err(format!("the bridge's vlan is 1 to {GREATEST_VLAN}, and this one is {vlan}"));
    }
    let fan_in_limit = fields.take(8) as u8;
    if fan_in_limit > GREATEST_FAN_IN {
        return Err(format!(
            "the limit of inbound ports is 0 to {GREATEST_FAN_IN}, and this one is {fan_in_limit}"
        ));
    }
    let mut ports = Vec::new();
    for port in 1..=port_count {
        ports.push(read_port(&mut fields, port)?);
    }
    Ok(Settings { bridge_id, priority, leave_time, pruning, vlan, fan_in_limit, ports })
}

/// Reads the settings of one port; or the rule that they break.
fn read_port(fields: &mut Fields, port: usize) -> Result<PortSettings, String> {
    let supports = PerClass { a: fields.take_flag(), b: fields.take_flag() };
    let sends_twice = fields.take_flag();
    if fields.take(5) != 0 {
        return Err(format!("the last five bits of port {port}'s flags are zero, and one is set"));
    }
    Ok(PortSettings {
        supports,
        sends_twice,
        overhead: fields.take(8) as u8,
        largest_frame: fields.take(16) as u16,
        limit: PerClass { a: fields.take(40), b: fields.take(40) },
        latency: PerClass { a: fields.take(32) as u32, b: fields.take(32) as u32 },
    })
}

/// Puts fields into octets, most significant bit first.
#[derive(Default)]
struct FieldsOut {
    octets: Vec<u8>,
    bits_put: usize,
}

impl FieldsOut {
    fn put(&mut self, bits: usize, field: u64) {
        for place in (0..bits).rev() {
            if self.bits_put / 8 == self.octets.len() {
                self.octets.push(0);
            }
            let bit = (field >> place & 1) as u8;
            *self.octets.last_mut().expect("pushed above") |= bit << (7 - self.bits_put % 8);
            self.bits_put += 1;
        }
    }
}

/// The octets of settings, for tests and generated inputs. A number that its field cannot hold
/// loses its upper bits.
pub fn write(settings: &Settings) -> Vec<u8> {
    let mut out = FieldsOut::default();
    out.put(64, settings.bridge_id);
    out.put(4, settings.ports.len() as u64);
    out.put(3, u64::from(settings.priority.a));
    out.put(3, u64::from(settings.priority.b));
    out.put(14, u64::from(settings.leave_time));
    out.put(1, u64::from(settings.pruning));
    out.put(3, 0);
    out.put(12, u64::from(settings.vlan));
    out.put(8, u64::from(settings.fan_in_limit));
    for port in &settings.ports {
        out.put(1, u64::from(port.supports.a));
        out.put(1, u64::from(port.supports.b));
        out.put(1, u64::from(port.sends_twice));
        out.put(5, 0);
        out.put(8, u64::from(port.overhead));
        out.put(16, u64::from(port.largest_frame));
        out.put(40, port.limit.a);
        out.put(40, port.limit.b);
        out.put(32, u64::from(port.latency.a));
        out.put(32, u64::from(port.latency.b));
    }
    out.octets
}

impl Settings {
    /// The class whose priority this is, if any.
    pub fn class_of(&self, priority: u8) -> Option<Class> {
        CLASSES.into_iter().find(|class| self.priority.of(*class) == priority)
    }
}
