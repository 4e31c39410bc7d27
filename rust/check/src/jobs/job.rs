//! Job files, section 13 of docs/MEMORY.md: the fields of a job, and the stops of a whole file.

use crate::binary::call::Call;
use crate::family::AnyCall;
use crate::geometry::{geometry, Geometry};
use crate::tables::MATCH_WORD;
use std::fmt;
use std::ops::Range;

/// The bytes of a header (rule 13.2) and of a command (rule 13.3).
pub const HEADER: usize = 24;
pub const COMMAND: usize = 12;

/// What is over one of these stops the whole file (rule 13.6).
pub const LONGEST_FILE: usize = 16_384;
pub const DEEPEST: u32 = 1024;
pub const MOST_INDICATORS: usize = 4096;

/// The calls in the order of their operations, from 1 on (rule 13.4). A next-match has none.
const OPERATIONS: [&str; 6] = [
    "write",
    "erase",
    "first-match",
    "all-match",
    "read",
    "clear",
];

/// What the six fields of a header say (rule 13.2).
#[derive(Clone, Copy)]
pub struct Header {
    pub geometry: Geometry,
    pub commands: u32,
    pub offset: u32,
}

impl Header {
    pub fn of_fields(fields: [u32; 6]) -> Header {
        let [kind, depth, pattern_width, set_width, commands, offset] = fields;
        Header {
            geometry: geometry(kind, depth, pattern_width, set_width),
            commands,
            offset,
        }
    }

    pub fn fields(&self) -> [u32; 6] {
        let g = &self.geometry;
        [
            g.kind,
            g.depth,
            g.pattern_width,
            g.set_width,
            self.commands,
            self.offset,
        ]
    }

    /// Where the commands end (rule 13.6): 64 bits, as 32 may not hold the sum.
    pub fn end(&self) -> u64 {
        u64::from(self.offset) + COMMAND as u64 * u64::from(self.commands)
    }

    /// The number that stops a file of this length, which has a whole header: 7, then 1, then 9
    /// (rule 13.6).
    pub fn stop(&self, length: usize) -> Option<u32> {
        let starts_in_header = (self.offset as usize) < HEADER;
        if length > LONGEST_FILE || starts_in_header || self.end() > length as u64 {
            return Some(7);
        }
        self.stop_of_geometry()
    }

    /// The stop of a file in which nothing else is wrong.
    pub fn stop_of_geometry(&self) -> Option<u32> {
        let g = &self.geometry;
        if !g.is_valid() {
            Some(1)
        } else if g.depth > DEEPEST || g.indicator_words() > MOST_INDICATORS {
            Some(9)
        } else {
            None
        }
    }
}

/// The three fields of a command (rule 13.3).
#[derive(Clone, Copy)]
pub struct Command {
    pub operation: u32,
    pub address: u32,
    pub pattern: u32,
}

impl Command {
    pub fn of_call(call: &Call) -> Command {
        let place = OPERATIONS.iter().position(|&name| name == call.name());
        Command {
            operation: place.expect("it is no next-match") as u32 + 1,
            address: call.address().unwrap_or(0),
            pattern: call.pattern().unwrap_or(0),
        }
    }

    /// What the command asks for (rule 13.4). None if 8 stops it (rule 13.7).
    pub fn call(&self, g: &Geometry) -> Option<Call> {
        match (self.operation, self.address, self.pattern) {
            (1, address, pattern) => Some(Call::Write { address, pattern }),
            (2, address, 0) => Some(Call::Erase { address }),
            (3, 0, key) => Some(Call::FirstMatch { key }),
            (4, 0, key) => {
                let lent = MATCH_WORD.table(&vec![0; g.match_words()]);
                Some(Call::AllMatch { key, lent })
            }
            (5, address, 0) => Some(Call::Read { address }),
            (6, 0, 0) => Some(Call::Clear),
            _ => None,
        }
    }

    /// The name of the operation, whether or not the fields fit it.
    pub fn name(&self) -> &'static str {
        let place = (self.operation as usize).wrapping_sub(1);
        OPERATIONS.get(place).unwrap_or(&"another operation")
    }
}

/// A job file, and in how many pieces it is written to the program.
#[derive(Clone)]
pub struct Job {
    pub bytes: Vec<u8>,
    pub pieces: usize,
}

impl Job {
    /// A job with bytes that are not read between the header and the commands, and after them.
    pub fn new(geometry: Geometry, before: &[u8], commands: &[Command], after: &[u8]) -> Job {
        let mut job = Job {
            bytes: vec![0; HEADER],
            pieces: 1,
        };
        job.set_header(Header {
            geometry,
            commands: commands.len() as u32,
            offset: (HEADER + before.len()) as u32,
        });
        job.bytes.extend(before);
        for c in commands {
            let fields = [c.operation, c.address, c.pattern];
            job.bytes.extend(bytes_of(&fields));
        }
        job.bytes.extend(after);
        job
    }

    /// None where the file is too short for one.
    pub fn header(&self) -> Option<Header> {
        let bytes = self.bytes.get(..HEADER)?;
        Some(Header::of_fields(fields_of(bytes)))
    }

    pub fn set_header(&mut self, header: Header) {
        self.bytes[..HEADER].copy_from_slice(&bytes_of(&header.fields()));
    }

    /// The header of a job that runs, or the number of its whole-file stop.
    pub fn accepted(&self) -> Result<Header, u32> {
        let header = self.header().ok_or(7u32)?;
        header.stop(self.bytes.len()).map_or(Ok(header), Err)
    }

    /// The commands that run: none after a whole-file stop.
    pub fn commands(&self) -> Vec<Command> {
        let Ok(header) = self.accepted() else {
            return Vec::new();
        };
        let read = self.bytes[header.offset as usize..header.end() as usize].chunks(COMMAND);
        read.map(|bytes| {
            let [operation, address, pattern] = fields_of(bytes);
            Command {
                operation,
                address,
                pattern,
            }
        })
        .collect()
    }

    /// Takes commands out of a job that runs.
    pub fn remove(&mut self, run: Range<usize>) {
        let mut header = self.accepted().expect("it has commands");
        let at = |number| header.offset as usize + COMMAND * number;
        self.bytes.drain(at(run.start)..at(run.end));
        header.commands -= run.len() as u32;
        self.set_header(header);
    }

    pub fn notation(&self, number: usize) -> Option<String> {
        let geometry = self.accepted().ok()?.geometry;
        let command = *self.commands().get(number)?;
        Some(match command.call(&geometry) {
            Some(call) => call.to_string(),
            None => format!(
                "operation {} with address {} and pattern {}",
                command.operation, command.address, command.pattern
            ),
        })
    }
}

impl fmt::Display for Job {
    fn fmt(&self, f: &mut fmt::Formatter) -> fmt::Result {
        const SHOWN: usize = 12;
        write!(f, "{} bytes", self.bytes.len())?;
        if self.pieces > 1 {
            write!(f, " in {} pieces", self.pieces)?;
        }
        if let Some(header) = self.header() {
            let (g, commands, offset) = (header.geometry, header.commands, header.offset);
            write!(f, ", {g}, number of commands {commands}, offset {offset}")?;
        }
        let shown: Vec<String> = (0..SHOWN).map_while(|i| self.notation(i)).collect();
        if !shown.is_empty() {
            write!(f, ": {}", shown.join(", "))?;
        }
        match self.commands().len() - shown.len() {
            0 => Ok(()),
            more => write!(f, " and {more} more"),
        }
    }
}

/// Four bytes for each field, in the order of rule 13.1.
fn bytes_of(fields: &[u32]) -> Vec<u8> {
    let bytes = fields.iter().flat_map(|field| field.to_le_bytes());
    bytes.collect()
}

fn fields_of<const N: usize>(bytes: &[u8]) -> [u32; N] {
    std::array::from_fn(|i| {
        let field = bytes[4 * i..4 * i + 4].try_into();
        u32::from_le_bytes(field.expect("a field has four bytes"))
    })
}
