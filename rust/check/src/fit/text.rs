//! Texts of jobs with commands of every sort, spelt in all the ways that `tools/camjob` takes, and
//! their reports (section 14 of docs/MEMORY.md).

use crate::binary::answer::Answer;
use crate::binary::array::Array;
use crate::binary::call::Call;
use crate::binary::generate::random_call;
use crate::family::{AnyCall, InJob};
use crate::fit::board::listed;
use crate::geometry::Geometry;
use crate::jobs::job::Command;
use crate::jobs::report::items;
use crate::pool::Pool;
use crate::random::Random;
use crate::tables::MATCH_WORD;
use std::fmt::{self, Display};

#[derive(Clone)]
pub enum Line {
    Call(Call),
    /// Any three fields.
    Raw(Command),
}

pub struct Text {
    pub geometry: Geometry,
    pub lines: Vec<Line>,
}

impl Text {
    pub fn random(random: &mut Random, geometry: Geometry, count: u32) -> Text {
        let pool = Pool::random(random, &geometry);
        let lines = (0..count).map(|_| any_line(random, &geometry, &pool));
        Text {
            geometry,
            lines: lines.collect(),
        }
    }

    /// What is printed of the lines, which the array follows.
    pub fn report(&self, array: &mut Array) -> String {
        let mut text = self.geometry.line() + "\n";
        for (number, line) in self.lines.iter().enumerate() {
            let answer = line.answer(array);
            text += &format!("{number} {}\n", items(&answer));
        }
        text
    }

    /// All lines in plain words.
    pub fn plain(&self) -> Vec<String> {
        let lines = self.lines.iter().map(Line::plain);
        [self.geometry.line()].into_iter().chain(lines).collect()
    }
}

impl Line {
    /// 8 comes before anything that the call itself may be refused for (rule 13.7).
    fn answer(&self, array: &mut Array) -> Answer {
        let call = match self {
            Line::Call(call) => Some(call.clone()),
            Line::Raw(command) => command.call(&array.geometry()),
        };
        call.map_or(Answer::Refused(8), |call| array.call(&call))
    }

    /// As a command of a job file, which a next-match is not.
    pub fn command(&self) -> Option<Command> {
        match self {
            Line::Raw(command) => Some(*command),
            Line::Call(Call::NextMatch { .. }) => None,
            Line::Call(call) => Some(Command::of_call(call)),
        }
    }

    fn plain(&self) -> String {
        let call = match self {
            Line::Raw(c) => return format!("raw {} {} {}", c.operation, c.address, c.pattern),
            Line::Call(call) => call,
        };
        match (call, call.in_job()) {
            (Call::NextMatch { address, key }, _) => format!("next {address} {key}"),
            (_, InJob::Command(line)) => line,
            _ => unreachable!("a next-match alone is no command"),
        }
    }
}

/// The geometry and the first lines.
impl Display for Text {
    fn fmt(&self, f: &mut fmt::Formatter) -> fmt::Result {
        let lines: Vec<String> = self.lines.iter().map(Line::plain).collect();
        write!(f, "{}: {}", self.geometry, listed(&lines, "no command"))
    }
}

fn any_line(random: &mut Random, g: &Geometry, pool: &Pool) -> Line {
    if random.one_in(8) {
        return Line::Raw(any_fields(random, g, pool));
    }
    let mut call = random_call(random, g, pool);
    if let Call::AllMatch { lent, .. } = &mut call {
        // A job's match word always fits.
        *lent = MATCH_WORD.table(&vec![0; g.match_words()]);
    }
    Line::Call(call)
}

/// Mostly such as 8 stops. No operation is a next-match, nor is 7, which a program may have for it.
fn any_fields(random: &mut Random, g: &Geometry, pool: &Pool) -> Command {
    let known = random.between(1, 6);
    let (address, key) = (pool.any_address(random, g), pool.any_key(random, g));
    Command {
        operation: random.pick(&[known, known, known, 0, 7, 7, 8, 256 + known, u32::MAX]),
        address: random.pick(&[0, address]),
        pattern: random.pick(&[0, key]),
    }
}

/// The lines as somebody may write them.
pub fn spelt(random: &mut Random, lines: &[String]) -> Vec<u8> {
    let end = random.pick(&["\n", "\n", "\n", "\r\n"]);
    let mut text = Vec::new();
    for line in lines {
        if random.one_in(16) {
            let odd: &[u8] = random.pick(&[b"", b"# write 0 0", b"  ", b"\t# any bytes: \xff\xfe"]);
            text.extend(odd);
            text.extend(end.as_bytes());
        }
        text.extend(spelt_line(random, line).as_bytes());
        text.extend(end.as_bytes());
    }
    if random.one_in(8) {
        text.truncate(text.len() - end.len());
    }
    text
}

fn spelt_line(random: &mut Random, line: &str) -> String {
    let words = line.split(' ').map(|word| match word.parse() {
        Ok(number) => spelt_number(random, number),
        Err(_) => word.to_string(),
    });
    let words: Vec<String> = words.collect();
    let blank = random.pick(&[" ", " ", "\t", "   "]);
    let before = random.pick(&["", "", "", "  "]);
    let behind = random.pick(&["", "", "", " ", " # more", "# more"]);
    format!("{before}{}{behind}", words.join(blank))
}

fn spelt_number(random: &mut Random, number: u32) -> String {
    match random.below(16) {
        0 => format!("{number:#x}"),
        1 => format!("0x{number:010X}"),
        2 => format!("00{number}"),
        _ => number.to_string(),
    }
}
