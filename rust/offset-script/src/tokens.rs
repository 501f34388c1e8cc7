// Printed by rust/erase from crates/offset_script/src/tokens.rt: change it there.

//! Parts of a text between separators, and the number that a word spells. It only reads the text.

/// The most digits that a number has.
pub const MOST_DIGITS: usize = 10;

// The index of the first separator, if there is one.
fn index_of(text: &[u8], separator: u8) -> Option<usize> {
    text.iter().position(|b| *b == separator)
}

/// The part before the first separator, and what comes after it. All of the text and `None` where there is
/// none.
pub fn split_once(text: &[u8], separator: u8) -> (&[u8], Option<&[u8]>) {
    match index_of(text, separator) {
        None => (text, None),
        Some(i) => (&text[..i], Some(&text[i + 1..])),
    }
}

/// The number that 1 to 10 digits spell, where 32 bits hold it.
pub fn number(word: &[u8]) -> Option<u32> {
    if word.is_empty() || word.len() > MOST_DIGITS {
        return None;
    }
    let mut n = 0u64;
    for b in word {
        if !b.is_ascii_digit() {
            return None;
        }
        n = n * 10 + u64::from(*b - b'0');
    }
    u32::try_from(n).ok()
}
