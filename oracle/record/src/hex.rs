//! Bytes in hexadecimal.

/// The text of bytes.
pub fn text(bytes: &[u8]) -> String {
    bytes.iter().map(|byte| format!("{byte:02x}")).collect()
}

/// The bytes of a text.
pub fn bytes(text: &str) -> Vec<u8> {
    let byte = |pair: &[u8]| u8::from_str_radix(str::from_utf8(pair).expect("hexadecimal"), 16).expect("two hexadecimal digits");
    text.as_bytes().chunks(2).map(byte).collect()
}
