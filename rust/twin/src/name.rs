//! The characters of a name.

/// The most characters of a name.
pub const MOST_BYTES: usize = 16;

fn may_begin(byte: u8) -> bool {
    byte.is_ascii_alphabetic() || byte == b'_'
}

fn may_follow(byte: u8) -> bool {
    byte.is_ascii_alphanumeric() || matches!(byte, b'_' | b'-' | b'.')
}

/// How many bytes, from the first on, may be a name; 0 where the first may not begin one. It may be more than a name has.
pub fn run(bytes: &[u8]) -> usize {
    match bytes {
        [first, rest @ ..] if may_begin(*first) => 1 + rest.iter().take_while(|byte| may_follow(**byte)).count(),
        _ => 0,
    }
}
