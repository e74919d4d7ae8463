//! Numbers in octets.

/// A number of up to eight octets, most significant octet first.
pub fn number_of(octets: &[u8]) -> u64 {
    octets.iter().fold(0, |number, octet| number << 8 | u64::from(*octet))
}
