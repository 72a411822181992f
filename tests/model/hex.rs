//! Bytes as hex digits, two a byte, in capitals; and back.

/// The bytes of an even number of upper-case hex digits.
pub fn read_hex(hex: &[u8]) -> Option<Vec<u8>> {
    if hex.len() % 2 != 0 {
        return None;
    }
    let mut bytes = Vec::new();
    for pair in hex.chunks(2) {
        bytes.push(16 * hex_value(pair[0])? + hex_value(pair[1])?);
    }
    Some(bytes)
}

pub fn hex_of(bytes: &[u8]) -> String {
    bytes.iter().map(|byte| format!("{byte:02X}")).collect()
}

fn hex_value(digit: u8) -> Option<u8> {
    match digit {
        b'0'..=b'9' => Some(digit - b'0'),
        b'A'..=b'F' => Some(digit - b'A' + 10),
        _ => None,
    }
}
