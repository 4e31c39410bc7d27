//! Words of a file as an error shows them, and files that are no ASCII.

/// So many characters of a word are shown.
const LONGEST: usize = 40;

const BYTE_ORDER_MARKS: [&[u8]; 4] = [b"\xef\xbb\xbf", b"\xff\xfe", b"\xfe\xff", b"\0\0\xfe\xff"];

/// In quotes, with escapes for what is no letter, digit or sign of ASCII, and cut if it is long.
pub fn shown(word: &[u8]) -> String {
    let quoted = |bytes: &[u8]| format!("'{}'", bytes.escape_ascii());
    match word.get(..LONGEST) {
        Some(first) if word.len() > LONGEST => {
            format!("{}.. ({} characters)", quoted(first), word.len())
        }
        _ => quoted(word),
    }
}

pub fn has_byte_order_mark(bytes: &[u8]) -> bool {
    BYTE_ORDER_MARKS.iter().any(|mark| bytes.starts_with(mark))
}

/// What is said of a file that begins with one.
pub const BYTE_ORDER_MARK: &str =
    "begins with a byte order mark; save the text as ASCII or UTF-8 without one";

pub fn is_blank(byte: u8) -> bool {
    matches!(byte, b' ' | b'\t'..=b'\r')
}
