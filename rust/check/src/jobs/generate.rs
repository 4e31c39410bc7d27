//! Random jobs: files of all sorts, with commands that get in one another's way.

use crate::binary::call::Call;
use crate::binary::generate::call_of_jobs;
use crate::geometry::{geometry, Geometry, CASCADED, SEGMENTED, TRANSPOSED};
use crate::jobs::job::{Command, Header, Job, COMMAND, HEADER, LONGEST_FILE};
use crate::pool::Pool;
use crate::random::Random;
use crate::shapes::{break_rule, random_geometry};

/// As many commands as a file has room for.
pub const MOST_COMMANDS: usize = (LONGEST_FILE - HEADER) / COMMAND;

/// As deep as a job may be, and with as many indicator words as it may have.
const DEEP: [Geometry; 7] = [
    geometry(TRANSPOSED, 1024, 8, 1),
    geometry(CASCADED, 1024, 8, 1),
    geometry(SEGMENTED, 1024, 8, 1),
    geometry(SEGMENTED, 1024, 11, 8),
    geometry(SEGMENTED, 1024, 12, 16),
    geometry(SEGMENTED, 1024, 12, 64),
    geometry(SEGMENTED, 1024, 12, 63),
];

/// As many indicator words as a job may have, and the cascaded kind at its widest.
const LARGEST: [Geometry; 7] = [
    geometry(TRANSPOSED, 64, 12, 1),
    geometry(TRANSPOSED, 512, 9, 1),
    geometry(CASCADED, 512, 9, 1),
    geometry(CASCADED, 256, 18, 1),
    geometry(CASCADED, 128, 27, 1),
    geometry(SEGMENTED, 128, 12, 2),
    geometry(SEGMENTED, 127, 12, 2),
];

/// Just over a limit: stop 9.
const TOO_LARGE: [Geometry; 10] = [
    geometry(TRANSPOSED, 1025, 1, 1),
    geometry(CASCADED, 1025, 7, 1),
    geometry(SEGMENTED, 1025, 7, 25),
    geometry(TRANSPOSED, 65, 12, 1),
    geometry(TRANSPOSED, 513, 9, 1),
    geometry(CASCADED, 256, 19, 1),
    geometry(CASCADED, 1024, 9, 1),
    geometry(SEGMENTED, 1024, 9, 1),
    geometry(SEGMENTED, 130, 12, 2),
    geometry(SEGMENTED, 129, 12, 2),
];

pub fn random_job(random: &mut Random) -> Job {
    let (geometry, commands) = match random.below(64) {
        0 => longest_lines(random),
        _ => any_commands(random),
    };
    let mut job = laid_out(random, geometry, &commands);
    for _ in 0..random.pick(&[0, 0, 0, 0, 1, 1, 2]) {
        spoil(random, &mut job);
    }
    if random.one_in(8) {
        job.pieces = random.between(2, 8) as usize;
    }
    job
}

/// A deep memory filled with one pattern, and as many commands as there can be.
fn longest_lines(random: &mut Random) -> (Geometry, Vec<Command>) {
    let g = random.pick(&DEEP);
    let pool = Pool::random(random, &g);
    let pattern = pool.patterns[0];
    let fill = (0..g.depth).map(|address| Command::of_call(&Call::Write { address, pattern }));
    let mut commands: Vec<Command> = fill.collect();
    commands.resize_with(MOST_COMMANDS, || random_command(random, &g, &pool));
    (g, commands)
}

fn any_commands(random: &mut Random) -> (Geometry, Vec<Command>) {
    let g = match random.below(16) {
        0 => random.pick(&DEEP),
        1 => random.pick(&LARGEST),
        2 => random.pick(&TOO_LARGE),
        _ => random_geometry(random),
    };
    let pool = Pool::random(random, &g);
    let count = match random.below(64) {
        0 => MOST_COMMANDS as u32,
        1..=3 => random.between(100, 300),
        4..=9 => 0,
        _ => random.between(1, 40),
    };
    let commands = (0..count).map(|_| random_command(random, &g, &pool));
    (g, commands.collect())
}

fn random_command(random: &mut Random, g: &Geometry, pool: &Pool) -> Command {
    let mut command = Command::of_call(&call_of_jobs(random, g, pool));
    match random.below(32) {
        0 => command.operation = random.pick(&[0, 7, 8, u32::MAX]),
        1 => command.operation += high_byte(random),
        2..=4 => *address_or_pattern(random, &mut command) = stray(random, g),
        5 => {
            let high = high_byte(random);
            let field = address_or_pattern(random, &mut command);
            *field = field.wrapping_add(high);
        }
        _ => {}
    }
    command
}

fn address_or_pattern<'a>(random: &mut Random, command: &'a mut Command) -> &'a mut u32 {
    match random.one_in(2) {
        true => &mut command.address,
        false => &mut command.pattern,
    }
}

/// A number for a field that has to be 0, if the operation does not use it.
fn stray(random: &mut Random, g: &Geometry) -> u32 {
    let high = high_byte(random);
    random.pick(&[1, g.depth - 1, g.depth, g.patterns(), high, u32::MAX])
}

/// What a reader of too few bytes does not see.
fn high_byte(random: &mut Random) -> u32 {
    1 << random.pick(&[8, 16, 24, 31])
}

/// The job with bytes that are not read around the commands, at times up to the longest file.
fn laid_out(random: &mut Random, geometry: Geometry, commands: &[Command]) -> Job {
    let room = LONGEST_FILE - HEADER - COMMAND * commands.len();
    let before = match random.below(4) {
        0 | 1 => 0,
        2 => random.between(1, 4) as usize,
        _ => random.between(1, 64) as usize,
    };
    let before = before.min(room);
    let after = match random.below(8) {
        0..=3 => 0,
        4 | 5 => random.between(1, 11) as usize,
        6 => random.between(12, 100) as usize,
        _ => room,
    };
    let after = after.min(room - before);
    let before = junk(random, before);
    let after = junk(random, after);
    Job::new(geometry, &before, commands, &after)
}

fn junk(random: &mut Random, length: usize) -> Vec<u8> {
    (0..length).map(|_| random.word() as u8).collect()
}

/// Gives the file a reason for a whole-file stop.
fn spoil(random: &mut Random, job: &mut Job) {
    let Some(mut header) = job.header() else {
        return;
    };
    let length = job.bytes.len();
    match random.below(12) {
        0 => {
            let short = random.below(HEADER as u32) as usize;
            job.bytes.truncate(random.pick(&[0, HEADER - 1, short]));
            return;
        }
        1 => {
            let over = LONGEST_FILE + 1;
            let long = random.pick(&[over, over, 2 * LONGEST_FILE, 100_000, 100_000]);
            let more = junk(random, long.saturating_sub(length));
            job.bytes.extend(more);
        }
        2 => header.offset = random.pick(&[0, 12, 23, 23]),
        3 | 4 => commands_past_end(random, length as u32, &mut header),
        5 | 6 => {
            let mut fields = header.fields();
            let field = random.below(6) as usize;
            fields[field] = fields[field].wrapping_add(high_byte(random));
            header = Header::of_fields(fields);
        }
        _ => break_rule(random, &mut header.geometry),
    }
    job.set_header(header);
}

/// Commands that end after the file: by one byte, by one command, or so far that 32 bits do not
/// hold the place; and an offset after the file, with no command.
fn commands_past_end(random: &mut Random, length: u32, header: &mut Header) {
    let bytes = header.commands.wrapping_mul(COMMAND as u32);
    match random.below(6) {
        0 | 1 => header.offset = (length + 1).wrapping_sub(bytes),
        2 => header.commands = length.saturating_sub(header.offset) / COMMAND as u32 + 1,
        // 12 times the first is 2^32 + 8, 12 times the second 3 × 2^32.
        3 => header.commands = random.pick(&[357_913_942, 1 << 30, u32::MAX]),
        4 => header.offset = (HEADER as u32).wrapping_sub(bytes),
        _ => {
            header.commands = 0;
            header.offset = random.pick(&[length + 1, u32::MAX]);
        }
    }
}
