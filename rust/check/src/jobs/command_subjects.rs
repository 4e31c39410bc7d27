//! What the commands of the random jobs are made to meet, by name, and how each is recognised.

use crate::binary::answer::Answer;
use crate::binary::call::Call;
use crate::binary::short_subjects::{FIRST, FIRST_OF_ONE, SHARED, WORD_GOES_ON};
use crate::binary::subjects::{
    ADDRESS_AND_PATTERN, CLEARED_LATER, EARLIER_PLACE, HELD_AGAIN, LATER_PLACE, LATER_WORD,
    WORDS_OF_HITS,
};
use crate::geometry::Geometry;
use crate::jobs::job::Command;
use crate::subjects::{low_bytes, those, Subject};

const OPERATION_0: Subject = "8: operation 0";
const OPERATION_7: Subject = "8: operation 7";
const OPERATION_HIGH: Subject = "8: an operation that is right but for its high bytes";
const CLEAR_ADDRESS: Subject = "8: a clear with an address";
const CLEAR_PATTERN: Subject = "8: a clear with a pattern";
const STRAY_HIGH: Subject = "8: a stray field whose lowest byte is 0";
const STRAY_ADDRESS_OVER: Subject = "8: a stray address of D or more, the pattern in range";
const STRAY_PATTERN_OVER: Subject = "8: a stray pattern of 2^P or more, the address in range";
const EIGHT_BEFORE_3: Subject = "8: a stray pattern where 3 would apply too";
const EIGHT_BEFORE_4: Subject = "8: a stray address where 4 would apply too";
const OPERATION_BEFORE_BOTH: Subject = "8: another operation, address and pattern out of range";

const ADDRESS_D: Subject = "3: address D";
const ADDRESS_HIGH: Subject = "3: an address that is right but for its high bytes";
const PATTERN_OVER: Subject = "4: pattern 2^P";
const PATTERN_HIGH: Subject = "4: a pattern that is right but for its high bytes";
const LAST_ADDRESS: Subject = "address D - 1 taken";
const LAST_PATTERN: Subject = "pattern 2^P - 1 taken";
const NINE_DIGITS: Subject = "an entry of nine digits";
const LONGEST_LINE: Subject = "the longest line: four digits, four digits, sixteen words";

pub const OF_COMMANDS: &[Subject] = &[
    OPERATION_0,
    OPERATION_7,
    OPERATION_HIGH,
    CLEAR_ADDRESS,
    CLEAR_PATTERN,
    STRAY_HIGH,
    STRAY_ADDRESS_OVER,
    STRAY_PATTERN_OVER,
    EIGHT_BEFORE_3,
    EIGHT_BEFORE_4,
    OPERATION_BEFORE_BOTH,
    ADDRESS_D,
    ADDRESS_HIGH,
    PATTERN_OVER,
    PATTERN_HIGH,
    ADDRESS_AND_PATTERN,
    LAST_ADDRESS,
    LAST_PATTERN,
    NINE_DIGITS,
    LONGEST_LINE,
    CLEARED_LATER,
    LATER_WORD,
    LATER_PLACE,
    EARLIER_PLACE,
    HELD_AGAIN,
    WORDS_OF_HITS,
    FIRST,
    FIRST_OF_ONE,
    SHARED,
    WORD_GOES_ON,
];

/// What a command meets that stops with 8.
pub fn of_8(g: &Geometry, command: &Command) -> Vec<Subject> {
    let Command {
        operation,
        address,
        pattern,
    } = *command;
    let fits = |operation, address, pattern| {
        let command = Command {
            operation,
            address,
            pattern,
        };
        command.call(g).is_some()
    };
    let operation_fits = |&low: &u32| fits(low, address, pattern);
    let (far, wide) = (address >= g.depth, pattern >= g.patterns());
    let at_address = matches!(operation, 2 | 5);
    let is_match = matches!(operation, 3 | 4);
    let is_clear = operation == 6;
    let another = !(1..=6).contains(&operation);
    those(&[
        (operation == 0, OPERATION_0),
        (operation == 7, OPERATION_7),
        (
            low_bytes(operation).iter().any(operation_fits),
            OPERATION_HIGH,
        ),
        (is_clear && pattern == 0, CLEAR_ADDRESS),
        (is_clear && address == 0, CLEAR_PATTERN),
        (fits(operation, address & 0xff, pattern & 0xff), STRAY_HIGH),
        (is_match && far && !wide, STRAY_ADDRESS_OVER),
        (at_address && wide && !far, STRAY_PATTERN_OVER),
        (at_address && far, EIGHT_BEFORE_3),
        (is_match && wide, EIGHT_BEFORE_4),
        (another && far && wide, OPERATION_BEFORE_BOTH),
    ])
}

/// What the call of a command meets, besides what it meets in any history.
pub fn of_call(g: &Geometry, number: usize, call: &Call, answer: &Answer) -> Vec<Subject> {
    let (address, pattern) = (call.address(), call.pattern());
    let stop = match *answer {
        Answer::Refused(number) => number,
        _ => 0,
    };
    let cut_below = |field: Option<u32>, limit: u32| {
        field.is_some_and(|n| low_bytes(n).iter().any(|&low| low < limit))
    };
    let nine_digits = matches!(answer, Answer::Entry(Some(p)) if *p >= 100_000_000);
    let most_hits = matches!(answer, Answer::Matches { hits, .. } if *hits >= 1000);
    let too_wide = pattern.is_some_and(|p| p >= g.patterns());
    those(&[
        (stop == 3 && address == Some(g.depth), ADDRESS_D),
        (stop == 3 && cut_below(address, g.depth), ADDRESS_HIGH),
        (stop == 3 && too_wide, ADDRESS_AND_PATTERN),
        (stop == 4 && pattern == Some(g.patterns()), PATTERN_OVER),
        (stop == 4 && cut_below(pattern, g.patterns()), PATTERN_HIGH),
        (stop == 0 && address == Some(g.depth - 1), LAST_ADDRESS),
        (stop == 0 && pattern == Some(g.patterns() - 1), LAST_PATTERN),
        (nine_digits, NINE_DIGITS),
        (most_hits && number >= 1000, LONGEST_LINE),
    ])
}
