//! Fixed lines of another shape than the listing asks for, each one step off a good one.
//! A few good ones stand among them, where the step stays within the shape.

/// Bytes just outside the digits and letters that count, and bytes that other readers strip.
const NO_DIGIT: &[u8] = b"\0/:A\xFF";
const NO_HEX_DIGIT: &[u8] = b"\0\r/:@G`afg\xFF";

pub fn lines() -> Vec<Vec<u8>> {
    let mut lines = Vec::new();
    for text in TEXTS {
        lines.push(text.to_vec());
    }
    for byte in NO_DIGIT {
        lines.push([b"1", &[*byte][..], b" 25A0"].concat());
    }
    for byte in NO_HEX_DIGIT {
        lines.push([b"11 25", &[*byte][..], b"0"].concat());
    }
    for digits in [510, 511, 512, 513, 514, 1024] {
        lines.push([b"11 25A", &vec![b'0'; digits - 3][..]].concat());
    }
    lines.push([b"11 25A0", &vec![b' '; 505][..]].concat());
    lines.push([&vec![b'0'; 600][..], b"11 25A0"].concat());
    lines.push([b"11 25A0", &vec![b'0'; 9000][..]].concat());
    lines
}

const TEXTS: [&[u8]; 35] = [
    b"",
    b" ",
    b"11",
    b"1125A0",
    b"25A0",
    b" 25A0",
    b" 11 25A0",
    b"11  25A0",
    b"11\t25A0",
    b"11 25A0 ",
    b"11 25 A0",
    b"11 25A0\r",
    b"11 25A0\x00",
    b"\x0011 25A0",
    b"11\r 25A0",
    b"11 25a0",
    b"11 25A",
    b"11 25A00",
    b"11 0x25A0",
    b"11,25A0",
    b"+11 25A0",
    b"-11 25A0",
    b"B 25A0",
    b"00011 25A0",
    b"10000 25A0",
    b"65547 25A0",
    b"4294967307 25A0",
    b"18446744073709551627 25A0",
    b"1 ACCEPTED",
    b"\xEF\xBB\xBF11 25A0",
    b"11\xC2\xA025A0",
    b"\xD9\xA1\xD9\xA1 25A0",
    b"11 \xEF\xBC\x92\xEF\xBC\x95A0",
    b"\xB1\xB1 25A0",
    b"11 25A0\x1A",
];
