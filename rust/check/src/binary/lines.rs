//! Scripts of the seven calls, and their lines.

use crate::binary::answer::Answer;
use crate::binary::call::Call;
use crate::binary::library::wrapped;
use crate::binary::{Binary, Tables};
use crate::geometry::Geometry;
use crate::script;
use crate::tables::{INDICATORS, MATCH_WORD, STORE};
use cam::Refusal;

pub type Script = script::Script<Binary>;
pub type Line = script::Line<Binary>;

/// A script on a store and indicators of these lengths, which hold something before the first
/// clear.
pub fn script(
    name: &'static str,
    geometry: Geometry,
    lengths: (usize, usize),
    lines: Vec<Line>,
) -> Script {
    let before = Tables {
        store: STORE.table(&vec![7; lengths.0]),
        indicators: INDICATORS.table(&vec![5; lengths.1]),
    };
    Script {
        name,
        geometry,
        before,
        lines,
    }
}

pub fn clear() -> Line {
    Line::Call(Call::Clear, Answer::Cleared)
}

pub fn write(address: u32, pattern: u32, previous: Option<u32>) -> Line {
    Line::Call(Call::Write { address, pattern }, Answer::Entry(previous))
}

pub fn erase(address: u32, previous: Option<u32>) -> Line {
    Line::Call(Call::Erase { address }, Answer::Entry(previous))
}

pub fn read(address: u32, entry: Option<u32>) -> Line {
    Line::Call(Call::Read { address }, Answer::Entry(entry))
}

/// A first-match that hits at the address, with w and c.
pub fn at(key: u32, address: u32, words_read: u32, entries_compared: u32) -> Line {
    let right = Answer::At {
        address,
        words_read,
        entries_compared,
    };
    Line::Call(Call::FirstMatch { key }, right)
}

/// A first-match that hits nothing, with w and c.
pub fn none(key: u32, words_read: u32, entries_compared: u32) -> Line {
    let right = Answer::NoMatch {
        words_read,
        entries_compared,
    };
    Line::Call(Call::FirstMatch { key }, right)
}

/// A next-match above the address that comes to this one, or to none.
pub fn next(key: u32, address: u32, next: Option<u32>) -> Line {
    Line::Call(Call::NextMatch { address, key }, Answer::Next(next))
}

/// A walk of the wrapper that comes to these addresses and then to a refusal, which is its end.
pub fn walk_refused(key: u32, right: &'static [u32], number: u32) -> Line {
    Line::look(move |memory| {
        let (g, tables) = (wrapped(&memory.geometry), &memory.tables);
        let places = g.places(&tables.store, &tables.indicators, key);
        let given = places.take(right.len() + 2);
        let given: Vec<_> = given.map(|place| place.map_err(Refusal::number)).collect();
        let right: Vec<_> = right.iter().copied().map(Ok).chain([Err(number)]).collect();
        match given == right {
            true => Ok(()),
            false => Err(format!("a walk gives {given:?}; right is {right:?}")),
        }
    })
}

/// An all-match, lent a match word that is not zero.
pub fn all(key: u32, matches: &[u64], hits: u32) -> Line {
    let right = Answer::Matches {
        matches: MATCH_WORD.table(matches),
        hits,
    };
    let lent = vec![0xdead_beef_0bad_cafe; matches.len()];
    Line::Call(all_match(key, &lent), right)
}

pub fn all_match(key: u32, lent: &[u64]) -> Call {
    Call::AllMatch {
        key,
        lent: MATCH_WORD.table(lent),
    }
}

pub fn refused(call: Call, number: u32) -> Line {
    Line::Call(call, Answer::Refused(number))
}

/// A word of the indicators is made this value by hand.
pub fn make(word: usize, value: u64) -> Line {
    Line::look(move |memory| {
        memory.tables.indicators[word] = value;
        Ok(())
    })
}

/// A word of the store is made this number by hand.
pub fn put(address: usize, number: u32) -> Line {
    Line::look(move |memory| {
        memory.tables.store[address] = number;
        Ok(())
    })
}

/// These words of the indicators have these values, and all others are 0.
pub fn indicators(words: &'static [(usize, u64)]) -> Line {
    Line::look(move |memory| {
        let mut right = memory.tables.clone();
        right.indicators.fill(0);
        for &(word, value) in words {
            right.indicators[word] = value;
        }
        memory.compare_tables(&right)
    })
}

/// For every set, the number of rows that have its bit. Rows of one word each.
pub fn column_sums(right: &'static [u32]) -> Line {
    Line::look(move |memory| {
        for (set, &right) in right.iter().enumerate() {
            let rows = memory.tables.indicators.iter();
            let sum: u64 = rows.map(|row| row >> set & 1).sum();
            if sum != u64::from(right) {
                return Err(format!("column {set} sums to {sum}; right is {right}"));
            }
        }
        Ok(())
    })
}

/// The bits that are 1 in a block RAM that gives 32 bits to each row, bit n of it being bit n mod
/// 32 of row n / 32. Rows of one word each, of which the upper half is unused.
pub fn block_ram(right: &'static [usize]) -> Line {
    Line::look(move |memory| {
        for (p, row) in memory.tables.indicators.iter().enumerate() {
            for a in 0..64 {
                let expected = a < 32 && right.contains(&(32 * p + a));
                if (row >> a & 1 == 1) != expected {
                    return Err(format!(
                        "bit of data {p} and address {a}; right is {expected}"
                    ));
                }
            }
        }
        Ok(())
    })
}
