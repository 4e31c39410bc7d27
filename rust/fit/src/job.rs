//! Jobs: rules 13.1 to 13.7 of docs/MEMORY.md, and why a job is stopped as a whole.

use crate::files;
use crate::text;
use crate::words::has_byte_order_mark;
use cam::{Geometry, CASCADED, SEGMENTED};
use std::collections::BTreeSet;
use std::path::Path;

/// The bytes of a header (rule 13.2) and of a command (rule 13.3).
pub const HEADER: usize = 24;
pub const COMMAND: usize = 12;

/// What is over one of these stops a job file, as it stops `camrun` (rule 13.6).
const LONGEST_FILE: usize = 16_384;
const DEEPEST: u32 = 1024;
const MOST_INDICATORS: usize = 4096;

/// A job, of a text or a file.
pub struct Job {
    pub name: String,
    /// The line of a text that has the geometry.
    pub line: Option<usize>,
    pub bytes: Vec<u8>,
    /// The bytes at which next-matches begin. Only a text has any, as no operation asks for one.
    pub next_matches: BTreeSet<usize>,
    /// Whether the limits of size apply.
    pub has_limits: bool,
}

/// A job that no number stops.
pub struct Accepted {
    pub geometry: Geometry,
    pub commands: Vec<Command>,
}

/// What a command asks for (rule 13.4), or that 8 stops it (rule 13.7).
pub enum Command {
    Write(u32, u32),
    Erase(u32),
    FirstMatch(u32),
    AllMatch(u32),
    Read(u32),
    Clear,
    NextMatch(u32, u32),
    Unknown,
}

/// The number that stops a job, and why.
pub struct Stop {
    pub number: u32,
    pub reason: String,
}

/// Where in the file the commands of a text stand. An offset that is not in a file's reach is only
/// written into the header.
pub fn place_of_commands(offset: u32) -> usize {
    match offset as usize {
        offset @ HEADER..=LONGEST_FILE => offset,
        _ => HEADER,
    }
}

/// The job in a file, which is a text or a job file by what is in it. A text has no limits of size.
pub fn read(name: &Path, any_size: bool) -> Result<Job, String> {
    let bytes = files::read(name)?;
    let name = files::shown(name);
    if is_text(&bytes) {
        return text::job(&name, &bytes);
    }
    Ok(Job {
        name,
        line: None,
        bytes,
        next_matches: BTreeSet::new(),
        has_limits: !any_size,
    })
}

/// As `tools/camjob job` has it: the kind of a job that runs is under 3, so that three of the first
/// bytes are zero, and a text has no zero byte there.
fn is_text(bytes: &[u8]) -> bool {
    let first = &bytes[..bytes.len().min(HEADER)];
    has_byte_order_mark(bytes) || !bytes.is_empty() && !first.contains(&0)
}

impl Job {
    /// The job's geometry and commands, or its stop: 7, then 1, then 9 (rule 13.6).
    pub fn accepted(&self) -> Result<Accepted, Stop> {
        let stop = |number| move |reason| Stop { number, reason };
        let places = self.places().map_err(stop(7))?;
        let geometry = geometry(self.fields(0));
        let words = indicator_words(geometry).map_err(stop(1))?;
        if self.has_limits {
            fits(geometry, words).map_err(stop(9))?;
        }
        let commands = places.map(|place| self.command(place)).collect();
        Ok(Accepted { geometry, commands })
    }

    /// What is said of a stop.
    pub fn stopped(&self, stop: &Stop) -> String {
        let Stop { number, reason } = stop;
        let name = &self.name;
        match self.line {
            // Only 7 is about other lines.
            Some(line) if *number != 7 => format!("{name}:{line}: stopped with {number}: {reason}"),
            _ => format!("{name}: stopped with {number}: {reason}"),
        }
    }

    /// The bytes at which the commands begin.
    fn places(&self) -> Result<impl Iterator<Item = usize>, String> {
        let length = self.bytes.len();
        if length < HEADER {
            return Err(format!(
                "the job has {length} bytes, and a header has {HEADER}"
            ));
        }
        if self.has_limits && length > LONGEST_FILE {
            return Err(too_large(format!(
                "the job has {length} bytes, over {LONGEST_FILE}"
            )));
        }
        let [count, offset] = self.fields(16);
        let start = offset as usize;
        if start < HEADER {
            return Err(format!("the offset is {offset}, under {HEADER}"));
        }
        let end = start + COMMAND * count as usize;
        if end > length {
            return Err(format!(
                "{count} commands at {offset} need {end} bytes, and the job has {length}"
            ));
        }
        Ok((start..end).step_by(COMMAND))
    }

    fn command(&self, place: usize) -> Command {
        let [operation, address, pattern] = self.fields(place);
        if self.next_matches.contains(&place) {
            return Command::NextMatch(address, pattern);
        }
        match (operation, address, pattern) {
            (1, address, pattern) => Command::Write(address, pattern),
            (2, address, 0) => Command::Erase(address),
            (3, 0, key) => Command::FirstMatch(key),
            (4, 0, key) => Command::AllMatch(key),
            (5, address, 0) => Command::Read(address),
            (6, 0, 0) => Command::Clear,
            _ => Command::Unknown,
        }
    }

    /// Fields of four bytes, the lowest first (rule 13.1).
    fn fields<const N: usize>(&self, place: usize) -> [u32; N] {
        std::array::from_fn(|i| {
            let bytes = &self.bytes[place + 4 * i..][..4];
            u32::from_le_bytes(bytes.try_into().expect("a field has four bytes"))
        })
    }
}

/// A limit that only a job file has.
fn too_large(reason: String) -> String {
    format!("{reason}; --any-size lifts this limit")
}

/// What of a geometry is too large for a job file.
fn fits(geometry: Geometry, words: usize) -> Result<(), String> {
    let depth = geometry.depth;
    if depth > DEEPEST {
        return Err(too_large(format!("depth {depth} is over {DEEPEST}")));
    }
    if words > MOST_INDICATORS {
        return Err(too_large(format!(
            "the indicators have {words} words, over {MOST_INDICATORS}"
        )));
    }
    Ok(())
}

/// The four numbers in their order (rule 13.2).
pub fn geometry([kind, depth, pattern_width, set_width]: [u32; 4]) -> Geometry {
    Geometry {
        kind,
        depth,
        pattern_width,
        set_width,
    }
}

/// The length of the indicators, or which rule of a geometry is broken. The library decides.
pub fn indicator_words(geometry: Geometry) -> Result<usize, String> {
    geometry.indicator_words().map_err(|_| broken(geometry))
}

/// The first of rules 2.2 to 2.4 that these numbers break.
fn broken(geometry: Geometry) -> String {
    let Geometry {
        kind,
        depth,
        pattern_width,
        set_width,
    } = geometry;
    if kind > SEGMENTED {
        return format!("kind {kind} is not 0, 1 or 2");
    }
    let widest = if kind == CASCADED { 27 } else { 12 };
    let widest_set = if kind == SEGMENTED { 64 } else { 1 };
    let limits = [
        ("depth", depth, 4096),
        ("width", pattern_width, widest),
        ("set", set_width, widest_set),
    ];
    let over = limits
        .iter()
        .find(|(_, value, most)| !(1..=*most).contains(value));
    match over {
        Some((name, value, 1)) => format!("{name} {value} is not 1 in kind {kind}"),
        Some((name, value, most)) => format!("{name} {value} is not 1 to {most} in kind {kind}"),
        None => format!("set {set_width} is above depth {depth}"),
    }
}
