//! Names of files in messages, and files that are read up to a limit, so that one without an end is
//! an error.

use std::fs::File;
use std::io::{self, Read};
use std::path::Path;

/// No file that is read may have more bytes.
const MOST_BYTES: u64 = 64 << 20;

/// A name for a message of one line: as it stands, or in quotes with escapes.
pub fn shown(name: &Path) -> String {
    let quoted = format!("{name:?}");
    match name.to_str() {
        Some(text) if text.trim() == text && quoted == format!("\"{text}\"") => text.to_string(),
        _ => quoted,
    }
}

/// Why a call of the system failed, without its number.
pub fn reason(why: &io::Error) -> String {
    let why = why.to_string();
    why.split(" (os error").next().unwrap_or(&why).to_string()
}

/// What is said of a file where a call of the system failed.
pub fn error<'a>(name: &'a Path) -> impl Fn(io::Error) -> String + 'a {
    |why| format!("{}: {}", shown(name), reason(&why))
}

/// The bytes of a file.
pub fn read(name: &Path) -> Result<Vec<u8>, String> {
    let file = File::open(name).map_err(error(name))?;
    let mut bytes = Vec::new();
    let read = file.take(MOST_BYTES + 1).read_to_end(&mut bytes);
    read.map_err(error(name))?;
    match bytes.len() as u64 > MOST_BYTES {
        true => Err(format!(
            "{}: over {MOST_BYTES} bytes, the most that is read",
            shown(name)
        )),
        false => Ok(bytes),
    }
}
