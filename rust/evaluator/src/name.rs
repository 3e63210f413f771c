//! What a name is, in an index and in a question.

const LONGEST_NAME: usize = 16;

/// A name has 1 to 16 characters. The first is an ASCII letter or `_`; the others are ASCII letters, digits, `_`, `-` or `.`.
pub fn is_name(text: &[u8]) -> bool {
    match text {
        [] => false,
        [first, others @ ..] => text.len() <= LONGEST_NAME && may_be_first(*first) && others.iter().all(|other| may_follow(*other)),
    }
}

fn may_be_first(character: u8) -> bool {
    character.is_ascii_alphabetic() || character == b'_'
}

/// Whether the character may stand in a name after its first one. All that may be first may follow, too.
pub fn may_follow(character: u8) -> bool {
    character.is_ascii_alphanumeric() || b"_-.".contains(&character)
}
