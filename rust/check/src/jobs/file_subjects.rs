//! What the files of the random jobs are made to meet, by name, and how each is recognised.

use crate::coverage::Tally;
use crate::jobs::generate::MOST_COMMANDS;
use crate::jobs::job::{Header, Job, DEEPEST, HEADER, LONGEST_FILE, MOST_INDICATORS};
use crate::subjects::{alone, broken_rules, low_bytes, those, Subject};

const DEPTH_9: Subject = "9 by D alone";
const INDICATORS_9: Subject = "9 by the indicators alone";
const DEEPEST_TAKEN: Subject = "D 1,024 taken";
const MOST_INDICATORS_TAKEN: Subject = "4,096 indicator words taken";
const FIRST_LINE_ALONE: Subject = "no command";

/// What a job of each kind must meet.
pub const OF_EACH_KIND: &[Subject] = &[
    DEPTH_9,
    INDICATORS_9,
    DEEPEST_TAKEN,
    MOST_INDICATORS_TAKEN,
    FIRST_LINE_ALONE,
];

const EMPTY_FILE: Subject = "7: an empty file";
const FILE_OF_23: Subject = "7: a file of 23 bytes";
const FILE_OVER: Subject = "7 alone: a file over 16,384 bytes";
const FILE_JUST_OVER: Subject = "7 alone: a file of 16,385 bytes";
const FILE_OVER_PIPE: Subject = "7 alone: a file longer than a pipe holds";
const OFFSET_UNDER: Subject = "7 alone: an offset under 24";
const OFFSET_OF_23: Subject = "7 alone: an offset of 23";
const END_OVER: Subject = "7 alone: commands that end after the file";
const END_JUST_OVER: Subject = "7 alone: commands that end one byte after the file";
const PRODUCT_WRAPS: Subject = "7 alone: 12 × the number of commands fits when cut to 32 bits";
const SUM_WRAPS: Subject = "7 alone: the sum with the offset fits when cut to 32 bits";
const NOTHING_OVER: Subject = "7 alone: an offset after the file, with no command";
const SEVEN_BEFORE_1: Subject = "7 where 1 would apply too";
const SEVEN_BEFORE_9: Subject = "7 where 9 would apply too";
const ONE_BEFORE_9: Subject = "1 where D is over 1,024 too";

/// For each field of the header.
pub const HIGH_BYTES: [Subject; 6] = [
    "a kind that is right but for its high bytes",
    "a depth that is right but for its high bytes",
    "a pattern width that is right but for its high bytes",
    "a set width that is right but for its high bytes",
    "a number of commands that is right but for its high bytes",
    "an offset that is right but for its high bytes",
];

const HEADER_ALONE: Subject = "a file of 24 bytes";
const LONGEST: Subject = "a file of 16,384 bytes";
const MOST: Subject = "1,363 commands, the most that a file has room for";
const UNALIGNED: Subject = "an offset that is no multiple of four";
const JUNK_BEFORE: Subject = "bytes that are not 0 between header and commands";
const JUNK_AFTER: Subject = "twelve bytes or more after the commands, not all 0";
const END_AT_END: Subject = "commands that end with the file";
const NOTHING_AT_END: Subject = "an offset at the end of the file, with no command";
const PIECES: Subject = "a job with commands, written in pieces";

pub const OF_FILES: &[Subject] = &[
    EMPTY_FILE,
    FILE_OF_23,
    FILE_OVER,
    FILE_JUST_OVER,
    FILE_OVER_PIPE,
    OFFSET_UNDER,
    OFFSET_OF_23,
    END_OVER,
    END_JUST_OVER,
    PRODUCT_WRAPS,
    SUM_WRAPS,
    NOTHING_OVER,
    SEVEN_BEFORE_1,
    SEVEN_BEFORE_9,
    ONE_BEFORE_9,
    HEADER_ALONE,
    LONGEST,
    MOST,
    UNALIGNED,
    JUNK_BEFORE,
    JUNK_AFTER,
    END_AT_END,
    NOTHING_AT_END,
    PIECES,
];

/// What the file of a job meets, whatever its commands are.
pub fn of_file(job: &Job, tally: &mut Tally) {
    let length = job.bytes.len();
    let Some(header) = job.header() else {
        let of_23 = length == HEADER - 1;
        tally.meet(those(&[(length == 0, EMPTY_FILE), (of_23, FILE_OF_23)]));
        return;
    };
    let g = &header.geometry;
    let causes = causes(&header, length);
    let in_its_kind = if causes.is_empty() {
        tally.meet(of_layout(job, &header));
        let most_indicators = g.indicator_words() == MOST_INDICATORS;
        those(&[
            (g.depth == DEEPEST, DEEPEST_TAKEN),
            (most_indicators, MOST_INDICATORS_TAKEN),
            (header.commands == 0, FIRST_LINE_ALONE),
        ])
    } else {
        tally.meet(of_causes(&header, length, &causes));
        tally.meet(high_bytes(&header, length));
        alone(causes)
    };
    for subject in in_its_kind {
        tally.meet_in(g.kind, "job", subject);
    }
}

/// All that speaks for a whole-file stop.
fn causes(header: &Header, length: usize) -> Vec<Subject> {
    let g = &header.geometry;
    let valid = g.is_valid();
    let mut causes = those(&[
        (length > LONGEST_FILE, FILE_OVER),
        (header.offset < HEADER as u32, OFFSET_UNDER),
        (header.end() > length as u64, END_OVER),
        (valid && g.depth > DEEPEST, DEPTH_9),
        (valid && g.indicator_words() > MOST_INDICATORS, INDICATORS_9),
    ]);
    causes.extend(broken_rules(g));
    causes
}

fn of_causes(header: &Header, length: usize, causes: &[Subject]) -> Vec<Subject> {
    let g = &header.geometry;
    let only = |cause| causes == [cause];
    let cut = |n: u64| n as u32 as u64;
    let (end, length) = (header.end(), length as u64);
    let commands = end - u64::from(header.offset);
    let product_fits = cut(commands) + u64::from(header.offset) <= length;
    let sum_fits = commands == cut(commands) && cut(end) <= length;
    let stop = header.stop(length as usize);
    let mut met = alone(causes.to_vec());
    met.extend(those(&[
        (
            only(FILE_OVER) && length == LONGEST_FILE as u64 + 1,
            FILE_JUST_OVER,
        ),
        (only(FILE_OVER) && length > 65_536, FILE_OVER_PIPE),
        (only(OFFSET_UNDER) && header.offset == 23, OFFSET_OF_23),
        (only(END_OVER) && end == length + 1, END_JUST_OVER),
        (only(END_OVER) && product_fits, PRODUCT_WRAPS),
        (only(END_OVER) && sum_fits, SUM_WRAPS),
        (only(END_OVER) && header.commands == 0, NOTHING_OVER),
        (stop == Some(7) && !g.is_valid(), SEVEN_BEFORE_1),
        (
            stop == Some(7) && header.stop_of_geometry() == Some(9),
            SEVEN_BEFORE_9,
        ),
        (
            stop == Some(1) && (DEEPEST + 1..=4096).contains(&g.depth),
            ONE_BEFORE_9,
        ),
    ]));
    met
}

/// The fields that alone stand against the job, and only for a reader of all their bytes.
fn high_bytes(header: &Header, length: usize) -> Vec<Subject> {
    let fits = |field: usize| {
        low_bytes(header.fields()[field]).iter().any(|&low| {
            let mut fields = header.fields();
            fields[field] = low;
            Header::of_fields(fields).stop(length).is_none()
        })
    };
    let fields = (0..6).filter(|&field| fits(field));
    fields.map(|field| HIGH_BYTES[field]).collect()
}

/// Where the commands stand in a job that runs.
fn of_layout(job: &Job, header: &Header) -> Vec<Subject> {
    let length = job.bytes.len();
    let (start, end) = (header.offset as usize, header.end() as usize);
    let some = header.commands > 0;
    let after = &job.bytes[end..];
    let is_junk = |bytes: &[u8]| bytes.iter().any(|&byte| byte != 0);
    those(&[
        (length == HEADER, HEADER_ALONE),
        (length == LONGEST_FILE, LONGEST),
        (header.commands as usize == MOST_COMMANDS, MOST),
        (some && start % 4 != 0, UNALIGNED),
        (some && is_junk(&job.bytes[HEADER..start]), JUNK_BEFORE),
        (some && after.len() >= 12 && is_junk(after), JUNK_AFTER),
        (some && end == length, END_AT_END),
        (!some && start == length && start > HEADER, NOTHING_AT_END),
        (some && job.pieces > 1, PIECES),
    ])
}
