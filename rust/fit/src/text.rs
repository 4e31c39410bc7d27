//! The language of `tools/camjob`, and a line more: `next ADDRESS PATTERN`. A text is turned into
//! the bytes of its job file, so that it means what its job file means.

use crate::job::{self, place_of_commands, Job, COMMAND, HEADER};
use crate::words::{has_byte_order_mark, is_blank, shown, BYTE_ORDER_MARK};
use cam::Geometry;
use std::collections::BTreeSet;

const GEOMETRY: [&str; 4] = ["kind", "depth", "width", "set"];
const SETTINGS: [&str; 3] = ["offset", "count", "length"];
const COMMANDS: &str = "write, erase, first, all, read, clear, next, raw";

/// The most that a line `length` can ask for.
const LONGEST_LENGTH: u32 = 1 << 20;

/// The job of a text. An error names the line.
pub fn job(name: &str, data: &[u8]) -> Result<Job, String> {
    if has_byte_order_mark(data) {
        return Err(format!("{name}:1: {BYTE_ORDER_MARK}"));
    }
    let mut text = Text::default();
    let mut last = 1;
    for (line, number) in lines(data).zip(1..) {
        last = number;
        let words = words(line);
        if let [first, rest @ ..] = words.as_slice() {
            let taken = text.take(number, first, rest);
            taken.map_err(|what| format!("{name}:{number}: {what}"))?;
        }
    }
    let Some((geometry, line)) = text.geometry else {
        return Err(format!("{name}:{last}: the first line must be: {}", form()));
    };
    Ok(Job {
        name: name.to_string(),
        line: Some(line),
        next_matches: text.next_matches(),
        bytes: text.bytes(geometry),
        has_limits: false,
    })
}

/// A geometry by itself, if these words are one as a text has it in its first line.
pub fn geometry(line: &[u8]) -> Option<Result<Geometry, String>> {
    let fields = geometry_of(&words(line))?;
    Some(fields.and_then(|fields| {
        let geometry = job::geometry(fields);
        job::indicator_words(geometry).map(|_| geometry)
    }))
}

/// The lines, which end as those of any system do.
fn lines(data: &[u8]) -> impl Iterator<Item = &[u8]> {
    let mut rest = Some(data).filter(|data| !data.is_empty());
    std::iter::from_fn(move || {
        let data = rest?;
        let end = data.iter().position(|byte| matches!(byte, b'\n' | b'\r'));
        let end = end.unwrap_or(data.len());
        let two = data[end..].starts_with(b"\r\n");
        let next = data.get(end + 1 + usize::from(two)..);
        rest = next.filter(|next| !next.is_empty());
        Some(&data[..end])
    })
}

/// The words of a line before its comment. They are bytes, since a comment may have any.
fn words(line: &[u8]) -> Vec<&[u8]> {
    let before = line.split(|&byte| byte == b'#').next().unwrap_or(line);
    let words = before.split(|&byte| is_blank(byte));
    words.filter(|word| !word.is_empty()).collect()
}

/// What a line with a geometry looks like.
pub fn form() -> String {
    let fields = GEOMETRY.map(|name| format!("{name} N"));
    fields.join(" ")
}

/// The four numbers, if these words are those of a geometry.
fn geometry_of(words: &[&[u8]]) -> Option<Result<[u32; 4], String>> {
    let names = words.iter().step_by(2).copied();
    let fits = words.len() == 8 && names.eq(GEOMETRY.map(str::as_bytes));
    fits.then(|| numbers(&words[1..].iter().step_by(2).copied().collect::<Vec<_>>()))
}

fn numbers<const N: usize>(words: &[&[u8]]) -> Result<[u32; N], String> {
    let mut numbers = [0; N];
    for (number, word) in numbers.iter_mut().zip(words) {
        *number = self::number(word)?;
    }
    Ok(numbers)
}

/// A number of 32 bits, decimal or `0x` and hexadecimal. No sign and no `_`.
fn number(word: &[u8]) -> Result<u32, String> {
    let (digits, radix) = match word.strip_prefix(b"0x") {
        Some(digits) => (digits, 16),
        None => (word, 10),
    };
    let digit = |byte: u8| char::from(byte).to_digit(radix);
    let value = digits.iter().try_fold(0u32, |value, &byte| {
        value.checked_mul(radix)?.checked_add(digit(byte)?)
    });
    let value = value.filter(|_| !digits.is_empty());
    value.ok_or_else(|| format!("{} is not a number from 0 to {}", shown(word), u32::MAX))
}

/// The numbers that stand behind a name, which takes so many.
fn numbers_after<const N: usize>(name: &[u8], words: &[&[u8]]) -> Result<[u32; N], String> {
    if words.len() == N {
        return numbers(words);
    }
    let s = if N == 1 { "" } else { "s" };
    let (name, given) = (name.escape_ascii(), words.len());
    Err(format!("{name} takes {N} number{s}, not {given}"))
}

/// What the lines have said so far.
#[derive(Default)]
struct Text {
    /// The four numbers, and their line.
    geometry: Option<([u32; 4], usize)>,
    settings: [Option<u32>; 3],
    commands: Vec<[u32; 3]>,
    /// Which of the commands are next-matches.
    next_matches: Vec<usize>,
}

impl Text {
    fn take(&mut self, line: usize, name: &[u8], rest: &[&[u8]]) -> Result<(), String> {
        if self.geometry.is_none() {
            let words = [&[name], rest].concat();
            let fields = geometry_of(&words);
            let fields = fields.ok_or_else(|| format!("the first line must be: {}", form()))?;
            self.geometry = Some((fields?, line));
            return Ok(());
        }
        if name == GEOMETRY[0].as_bytes() {
            return Err("the geometry is given a second time".to_string());
        }
        match SETTINGS.iter().position(|known| name == known.as_bytes()) {
            Some(setting) => self.take_setting(setting, rest),
            None => self.take_command(name, rest),
        }
    }

    fn take_setting(&mut self, setting: usize, words: &[&[u8]]) -> Result<(), String> {
        let name = SETTINGS[setting];
        if !self.commands.is_empty() {
            return Err(format!("{name} must stand before the first command"));
        }
        if self.settings[setting].is_some() {
            return Err(format!("{name} is given a second time"));
        }
        let [value] = numbers_after(name.as_bytes(), words)?;
        if name == "length" && value > LONGEST_LENGTH {
            return Err(format!("length {value} is over {LONGEST_LENGTH}"));
        }
        self.settings[setting] = Some(value);
        Ok(())
    }

    /// Operations have the numbers of rule 13.4; a next-match has none.
    fn take_command(&mut self, name: &[u8], words: &[&[u8]]) -> Result<(), String> {
        let of_address = |operation| Ok([operation, numbers_after::<1>(name, words)?[0], 0]);
        let of_pattern = |operation| Ok([operation, 0, numbers_after::<1>(name, words)?[0]]);
        let of_both = |operation| {
            let [address, pattern] = numbers_after(name, words)?;
            Ok([operation, address, pattern])
        };
        let command = match name {
            b"write" => of_both(1),
            b"erase" => of_address(2),
            b"first" => of_pattern(3),
            b"all" => of_pattern(4),
            b"read" => of_address(5),
            b"clear" => numbers_after::<0>(name, words).map(|[]| [6, 0, 0]),
            b"next" => of_both(0),
            b"raw" => numbers_after(name, words),
            _ => {
                let (name, settings) = (shown(name), SETTINGS.join(", "));
                Err(format!("{name} is none of {settings}, {COMMANDS}"))
            }
        };
        if name == b"next" {
            self.next_matches.push(self.commands.len());
        }
        self.commands.push(command?);
        Ok(())
    }

    /// The byte at which the commands stand, and the header's offset.
    fn offset(&self) -> (usize, u32) {
        let offset = self.settings[0].unwrap_or(HEADER as u32);
        (place_of_commands(offset), offset)
    }

    /// The bytes at which next-matches begin.
    fn next_matches(&self) -> BTreeSet<usize> {
        let (start, _) = self.offset();
        let numbers = self.next_matches.iter();
        numbers.map(|number| start + COMMAND * number).collect()
    }

    /// The bytes of the job file.
    fn bytes(&self, geometry: [u32; 4]) -> Vec<u8> {
        let (start, offset) = self.offset();
        let [_, count, length] = self.settings;
        let count = count.unwrap_or(self.commands.len() as u32);
        let header = geometry.iter().chain([&count, &offset]);
        let mut bytes: Vec<u8> = header.flat_map(|field| field.to_le_bytes()).collect();
        bytes.resize(start, 0);
        let fields = self.commands.iter().flatten();
        bytes.extend(fields.flat_map(|field| field.to_le_bytes()));
        if let Some(length) = length {
            bytes.resize(length as usize, 0);
        }
        bytes
    }
}
