//! The cases of section 15 of docs/MEMORY.md under the names they have there, those at the limits
//! and of last sets that are short, and the calls of examples/listing.txt.

use crate::binary::call::Call;
use crate::binary::lines::{
    all, all_match, at, clear, erase, indicators, make, next, none, put, read, refused, script,
    walk_refused, write, Line, Script,
};
use crate::geometry::{geometry, Geometry, CASCADED, SEGMENTED, TRANSPOSED};

/// The geometries that most cases have, under their names.
const S: Geometry = geometry(SEGMENTED, 8, 2, 2);
const K: Geometry = geometry(CASCADED, 2, 10, 1);

pub fn cases() -> Vec<Script> {
    let mut cases = vec![
        absent_pattern(),
        pattern_zero(),
        neighbour_holds_it(),
        same_again(),
        two_sets(),
        mixed_stages(),
        one_stage_changed(),
        second_row_word(),
        empty_erased(),
        false_set(),
        listing(),
    ];
    cases.extend(depth_limits());
    cases.extend(set_width_limits());
    cases.extend(address_limits());
    cases.extend(pattern_limits());
    cases.extend(next_in_s());
    cases.extend(next_on_changed_tables());
    cases.extend([walk_of_three_words(), next_joined()]);
    cases.extend(short_sets());
    cases.extend(on_changed_short_sets());
    cases
}

fn on_s(name: &'static str, lines: Vec<Line>) -> Script {
    script(name, S, (8, 4), lines)
}

fn on_k(name: &'static str, lines: Vec<Line>) -> Script {
    script(name, K, (2, 514), lines)
}

/// An empty address does not hold 0.
fn absent_pattern() -> Script {
    on_s("P1", vec![clear(), none(0, 1, 0)])
}

/// 0 is a pattern like the others (rule 3.2).
fn pattern_zero() -> Script {
    on_s("P2", vec![clear(), write(3, 0, None), at(0, 3, 1, 2)])
}

/// The last write leaves the bit of 1, which the other address of the set still has (rule 8.3).
fn neighbour_holds_it() -> Script {
    let writes = [write(2, 1, None), write(3, 1, None), write(3, 2, Some(1))];
    on_s("P3", from_clear(writes, [at(1, 2, 1, 2)]))
}

/// The row that is set is not cleared afterwards: q is p (rule 8.3).
fn same_again() -> Script {
    let writes = [write(2, 1, None), write(2, 1, Some(1))];
    on_s("P4", from_clear(writes, [at(1, 2, 1, 2)]))
}

/// The smaller address is found, though it was written last (rule 5.5); both are hits (rule 5.6).
fn two_sets() -> Script {
    let writes = [write(6, 3, None), write(1, 3, None)];
    on_s("P5", from_clear(writes, [at(3, 1, 1, 2), all(3, &[66], 2)]))
}

/// Each stage of 513 is that of some entry, but of two different ones (rule 8.6).
fn mixed_stages() -> Script {
    let writes = [write(0, 1, None), write(1, 514, None)];
    on_k(
        "P6",
        from_clear(writes, [none(513, 1, 0), at(514, 1, 1, 0)]),
    )
}

/// Stage 0 keeps its value and its bit, in stage 1 the bit moves (rule 8.3).
fn one_stage_changed() -> Script {
    let writes = [write(0, 1, None), write(0, 513, Some(1))];
    on_k("P7", from_clear(writes, [at(513, 0, 1, 0), none(1, 1, 0)]))
}

/// The only bit stands in word 1 of its row (rule 3.5), so w is 2 (rule 8.10).
fn second_row_word() -> Script {
    let lines = from_clear([write(64, 1, None)], [at(1, 64, 2, 0)]);
    script("P8", geometry(TRANSPOSED, 65, 1, 1), (65, 4), lines)
}

/// An address that has nothing may be erased (rule 5.3).
fn empty_erased() -> Script {
    on_s("P9", vec![clear(), erase(5, None)])
}

/// A bit that no entry stands behind, made by hand (rule 8.9).
fn false_set() -> Script {
    let lines = from_clear([make(1, 2)], [refused(Call::FirstMatch { key: 1 }, 6)]);
    on_s("P10", lines)
}

/// A clear, what is then done, and what is then asked.
fn from_clear<const N: usize, const M: usize>(done: [Line; N], asked: [Line; M]) -> Vec<Line> {
    let mut lines = vec![clear()];
    lines.extend(done);
    lines.extend(asked);
    lines
}

/// The calls of examples/listing.txt.
fn listing() -> Script {
    let lines = vec![
        clear(),
        write(3, 1, None),
        write(2, 1, None),
        write(3, 2, Some(1)),
        at(1, 2, 1, 2),
        at(2, 3, 1, 2),
        all(1, &[4], 1),
        erase(2, Some(1)),
        none(1, 1, 0),
        refused(write_call(8, 0), 3),
        refused(Call::FirstMatch { key: 4 }, 4),
    ];
    on_s("the listing", lines)
}

/// The largest depth, and one more (rule 2.3) with tables as long as it would ask for.
fn depth_limits() -> Vec<Script> {
    let passes = || vec![clear(), write(4095, 1, None), read(4095, Some(1))];
    let refuses = || every_call_refused(65, 1);
    let deepest = |kind, set_width| geometry(kind, 4096, 1, set_width);
    let deeper = |kind, set_width| geometry(kind, 4097, 1, set_width);
    vec![
        script("D 4,096, kind 0", deepest(0, 1), (4096, 128), passes()),
        script("D 4,096, kind 1", deepest(1, 1), (4096, 128), passes()),
        script("D 4,096, kind 2", deepest(2, 64), (4096, 2), passes()),
        script("D 4,097, kind 0", deeper(0, 1), (4097, 130), refuses()),
        script("D 4,097, kind 1", deeper(1, 1), (4097, 130), refuses()),
        script("D 4,097, kind 2", deeper(2, 17), (4097, 8), refuses()),
    ]
}

/// In kind 1 a set is one address; in kind 2 it may have all addresses, and is no wider (rule 2.4).
fn set_width_limits() -> Vec<Script> {
    let k_with_w_2 = geometry(CASCADED, 2, 10, 2);
    let (widest, wider) = (geometry(SEGMENTED, 5, 1, 5), geometry(SEGMENTED, 5, 1, 6));
    let widest_of_all = geometry(SEGMENTED, 63, 1, 64);
    let one_set = [write(4, 1, None), at(1, 4, 1, 5), all(1, &[16], 1)];
    let refuses = || every_call_refused(1, 1);
    vec![
        script("K with W 2", k_with_w_2, (2, 514), refuses()),
        script("D 5, W 5", widest, (5, 2), from_clear([], one_set)),
        script("D 5, W 6", wider, (5, 2), refuses()),
        script("D 63, W 64", widest_of_all, (63, 2), refuses()),
    ]
}

/// The last address of S, and the number behind it (row 3 of rule 9.1).
fn address_limits() -> Vec<Script> {
    let passes = [write(7, 1, None), read(7, Some(1)), erase(7, Some(1))];
    let refuses = [
        refused(write_call(8, 1), 3),
        refused(Call::Read { address: 8 }, 3),
        refused(Call::Erase { address: 8 }, 3),
    ];
    vec![
        on_s("S, address 7", from_clear([], passes)),
        on_s("S, address 8", from_clear([], refuses)),
    ]
}

/// The largest pattern of S, and the number behind it (row 4 of rule 9.1).
fn pattern_limits() -> Vec<Script> {
    let passes = [write(0, 3, None), at(3, 0, 1, 2), all(3, &[1], 1)];
    let refuses = [
        refused(write_call(0, 4), 4),
        refused(Call::FirstMatch { key: 4 }, 4),
        refused(all_match(4, &[9]), 4),
    ];
    vec![
        on_s("S, pattern 3", from_clear([], passes)),
        on_s("S, pattern 4", from_clear([], refuses)),
    ]
}

/// From the own set, from a later one, and none (rules 8.13 and 8.14); that the address itself has
/// the key does not count (rule 5.9). 3 comes before 4 (rule 9.1).
fn next_in_s() -> Vec<Script> {
    let writes = || [write(2, 1, None), write(3, 1, None), write(6, 1, None)];
    let own_set = [next(1, 2, Some(3))];
    let other_set = [
        next(1, 0, Some(2)),
        next(1, 1, Some(2)),
        next(1, 3, Some(6)),
        next(1, 5, Some(6)),
    ];
    let none = [next(1, 6, None), next(2, 0, None), next(0, 0, None)];
    let last = [write(7, 1, None), next(1, 6, Some(7)), next(1, 7, None)];
    let out_of_range = [
        refused(next_call(8, 4), 3),
        refused(next_call(8, 1), 3),
        refused(next_call(7, 4), 4),
    ];
    vec![
        on_s("S, next in the own set", from_clear(writes(), own_set)),
        on_s("S, next in another set", from_clear(writes(), other_set)),
        on_s("S, no next", from_clear(writes(), none)),
        on_s("S, next above address 7", from_clear([], last)),
        on_s("S, next, out of range", from_clear([], out_of_range)),
    ]
}

/// The own set is asked whatever its bit is and whatever the address has (rule 8.13); a false set
/// hides the true one behind it (rule 8.14).
fn next_on_changed_tables() -> Vec<Script> {
    let no_bit = [
        write(2, 1, None),
        write(3, 1, None),
        make(1, 8),
        next(1, 2, Some(3)),
        refused(next_call(3, 1), 6),
    ];
    let false_set = [
        write(1, 1, None),
        write(6, 1, None),
        make(1, 11),
        next(1, 0, Some(1)),
        refused(next_call(1, 1), 6),
        next(1, 2, Some(6)),
        next(1, 3, Some(6)),
        at(1, 1, 1, 2),
        walk_refused(1, &[1], 6),
    ];
    let no_pattern = [
        put(2, 4),
        write(3, 1, None),
        refused(Call::Read { address: 2 }, 5),
        next(1, 2, Some(3)),
        next(1, 3, None),
    ];
    vec![
        on_s("S, next, no bit of its own", from_clear([], no_bit)),
        on_s("S, next, a false set", from_clear([], false_set)),
        on_s("S, next, no pattern", from_clear([], no_pattern)),
    ]
}

/// A row of three words, where one ends and another begins, by next-matches and by the walk that
/// follows an all-match (rule 10.8).
fn walk_of_three_words() -> Script {
    let held = [0, 63, 64, 127, 128, 129];
    let mut lines = vec![clear()];
    lines.extend(held.map(|address| write(address, 1, None)));
    lines.push(at(1, 0, 1, 0));
    lines.extend(held.windows(2).map(|two| next(1, two[0], Some(two[1]))));
    lines.extend([
        next(1, 129, None),
        next(1, 1, Some(63)),
        next(1, 65, Some(127)),
    ]);
    lines.push(all(1, &[1 << 63 | 1, 1 << 63 | 1, 3], 6));
    // To a lower bit than that of the address; past a whole word.
    lines.extend([write(9, 0, None), write(66, 0, None), next(0, 9, Some(66))]);
    lines.extend([
        erase(64, Some(1)),
        erase(127, Some(1)),
        next(1, 63, Some(128)),
    ]);
    let g = geometry(TRANSPOSED, 130, 1, 1);
    script("D 130, a walk", g, (130, 6), lines)
}

/// In kind 1 the joined row is searched: address 1 shares a stage with the key, and no more
/// (rule 8.6).
fn next_joined() -> Script {
    let g = geometry(CASCADED, 3, 10, 1);
    let writes = [write(0, 513, None), write(1, 1, None), write(2, 513, None)];
    let asked = [
        next(513, 0, Some(2)),
        next(513, 1, Some(2)),
        next(513, 2, None),
        next(1, 0, Some(1)),
        next(512, 0, None),
    ];
    script("K with D 3, next", g, (3, 514), from_clear(writes, asked))
}

/// A last set that is short (rule 2.7): c is its own length (rule 5.7), and there is nothing behind
/// it, neither in the store nor for a match word.
fn short_sets() -> Vec<Script> {
    let short = |name, depth, set_width, words, lines: Vec<Line>| {
        let g = geometry(SEGMENTED, depth, 1, set_width);
        script(name, g, (depth as usize, words), lines)
    };
    vec![
        on_t("D 5, W 2", from_clear([write(4, 3, None)], short_of_one())),
        short("D 1,000, W 64", 1000, 64, 2, from_clear([], short_of_40())),
        short("D 65, W 64", 65, 64, 2, from_clear([], behind_one())),
        short("D 129, W 2", 129, 2, 4, from_clear([], in_second_word())),
        short("D 4,096, W 63", 4096, 63, 4, from_clear([], last_of_all())),
        short("D 7, W 4", 7, 4, 2, from_clear([], shared_in_short())),
    ]
}

/// Fifteen sets of 64 addresses come before it.
fn short_of_40() -> [Line; 11] {
    let mut matches = [0; 16];
    (matches[14], matches[15]) = (1 << 63, 1 << 39);
    [
        write(999, 1, None),
        at(1, 999, 1, 40),
        write(959, 1, None),
        at(1, 959, 1, 64),
        indicators(&[(1, 0xc000)]),
        next(1, 959, Some(999)),
        next(1, 960, Some(999)),
        next(1, 999, None),
        all(1, &matches, 2),
        refused(write_call(1000, 1), 3),
        refused(next_call(1000, 1), 3),
    ]
}

/// One set of 64 addresses, and one of a single address.
fn behind_one() -> [Line; 5] {
    [
        write(64, 0, None),
        at(0, 64, 1, 1),
        write(0, 0, None),
        at(0, 0, 1, 64),
        all(0, &[1, 1], 2),
    ]
}

/// Of 65 sets the last has bit 0 of its row's second word.
fn in_second_word() -> [Line; 8] {
    [
        write(128, 1, None),
        at(1, 128, 2, 1),
        all(1, &[0, 0, 1], 1),
        indicators(&[(3, 1)]),
        none(0, 2, 0),
        write(127, 1, None),
        at(1, 127, 1, 2),
        next(1, 127, Some(128)),
    ]
}

/// T has the sets of addresses 0 and 1, 2 and 3, and 4.
fn on_t(name: &'static str, lines: Vec<Line>) -> Script {
    script(name, geometry(SEGMENTED, 5, 2, 2), (5, 4), lines)
}

/// After the write of 3 at address 4, which has no neighbour.
fn short_of_one() -> [Line; 11] {
    [
        at(3, 4, 1, 1),
        all(3, &[16], 1),
        indicators(&[(3, 4)]),
        write(3, 3, None),
        at(3, 3, 1, 2),
        next(3, 3, Some(4)),
        next(3, 4, None),
        refused(Call::Read { address: 5 }, 3),
        refused(Call::FirstMatch { key: u32::MAX }, 4),
        erase(4, Some(3)),
        indicators(&[(3, 2)]),
    ]
}

/// Of 66 sets the last has the last address alone.
fn last_of_all() -> [Line; 4] {
    let mut matches = [0; 64];
    matches[63] = 1 << 63;
    [
        write(4095, 1, None),
        at(1, 4095, 2, 1),
        all(1, &matches, 1),
        indicators(&[(3, 2)]),
    ]
}

/// Addresses 4 to 6 are neighbours, and 7 is none.
fn shared_in_short() -> [Line; 12] {
    [
        write(4, 1, None),
        write(6, 1, None),
        next(1, 4, Some(6)),
        write(4, 0, Some(1)),
        at(1, 6, 1, 3),
        write(4, 1, Some(0)),
        write(6, 0, Some(1)),
        at(1, 4, 1, 3),
        at(0, 6, 1, 3),
        erase(4, Some(1)),
        none(1, 1, 0),
        indicators(&[(0, 2)]),
    ]
}

/// A short set may be false (rule 8.9), is asked without its bit (rule 8.13), and has padding beside
/// its bit (rule 3.6).
fn on_changed_short_sets() -> Vec<Script> {
    let false_set = [
        write(0, 3, None),
        make(3, 5),
        at(3, 0, 1, 2),
        walk_refused(3, &[0], 6),
        refused(next_call(2, 3), 6),
        next(3, 4, None),
        refused(all_match(3, &[9]), 6),
        make(3, 4),
        refused(Call::FirstMatch { key: 3 }, 6),
    ];
    let padding = [
        make(3, 8),
        none(3, 1, 0),
        next(3, 0, None),
        next(3, 4, None),
        all(3, &[0], 0),
    ];
    let no_bit = [
        write(4, 1, None),
        write(6, 1, None),
        make(1, 0),
        next(1, 4, Some(6)),
        next(1, 6, None),
        none(1, 1, 0),
    ];
    let g = geometry(SEGMENTED, 7, 1, 4);
    vec![
        on_t("D 5, W 2, a false set", from_clear([], false_set)),
        on_t("D 5, W 2, padding", from_clear([], padding)),
        script("D 7, W 4, no bit", g, (7, 2), from_clear([], no_bit)),
    ]
}

fn next_call(address: u32, key: u32) -> Call {
    Call::NextMatch { address, key }
}

fn write_call(address: u32, pattern: u32) -> Call {
    Call::Write { address, pattern }
}

/// All seven calls, which are good but for the geometry.
fn every_call_refused(match_words: usize, number: u32) -> Vec<Line> {
    let (address, key) = (0, 0);
    let calls = [
        Call::Clear,
        write_call(0, 0),
        Call::Erase { address },
        Call::Read { address },
        Call::FirstMatch { key },
        next_call(address, key),
        all_match(key, &vec![9; match_words]),
    ];
    calls
        .into_iter()
        .map(|call| refused(call, number))
        .collect()
}
