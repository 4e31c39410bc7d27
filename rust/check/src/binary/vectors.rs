//! Examples from elsewhere with their own figures, in the words of docs/MEMORY.md. XAPP260 is the
//! Xilinx application note of that number, version 1.1 of 2002; Abdelhadi stands for the doctoral
//! thesis of A. M. S. Abdelhadi (University of British Columbia, 2016).

use crate::binary::call::Call;
use crate::binary::lines::{
    all, at, block_ram, clear, column_sums, erase, indicators, none, refused, script, write, Line,
    Script,
};
use crate::geometry::{geometry, Geometry, CASCADED, SEGMENTED, TRANSPOSED};

/// XAPP260's CAM32x9: a location is an address, its nine bits of data are a pattern, so 512 rows.
const CAM32X9: Geometry = geometry(TRANSPOSED, 32, 9, 1);

pub fn vectors() -> Vec<Script> {
    let mut vectors = one_macro();
    vectors.extend([four_macros_deep(), two_macros_wide()]);
    vectors.extend(indicators_of_one_pattern());
    vectors.extend(number_of_sets());
    vectors.extend([sums_of_addresses(), sums_of_sets()]);
    vectors
}

/// A single CAM32x9.
fn one_macro() -> Vec<Script> {
    let cam32x9 = |name, lines| script(name, CAM32X9, (32, 512), lines);
    let one_match = vec![
        clear(),
        write(2, 7, None),
        at(7, 2, 1, 0),
        all(7, &[4], 1),
        indicators(&[(7, 4)]),
    ];
    let absent = vec![clear(), write(2, 7, None), none(8, 1, 0), all(8, &[0], 0)];
    // The bit of data p and address a is number 32 × p + a.
    let bits = vec![
        clear(),
        write(0, 0, None),
        write(5, 1, None),
        write(2, 7, None),
        write(31, 511, None),
        block_ram(&[0, 37, 226, 16_383]),
    ];
    vec![
        cam32x9("XAPP260: data 7 at location 2", one_match),
        cam32x9("XAPP260: data at seven locations", seven_locations()),
        cam32x9("XAPP260: absent data", absent),
        cam32x9("XAPP260: bits of the block RAM", bits),
        cam32x9("XAPP260: new data over old, then erase", overwritten()),
    ]
}

fn seven_locations() -> Vec<Line> {
    let mut lines = vec![clear()];
    lines.extend([0, 1, 11, 12, 20, 24, 27].map(|address| write(address, 300, None)));
    lines.extend([
        all(300, &[0x0910_1803], 7),
        at(300, 0, 1, 0),
        indicators(&[(300, 0x0910_1803)]),
    ]);
    lines
}

fn overwritten() -> Vec<Line> {
    vec![
        clear(),
        write(2, 7, None),
        write(2, 5, Some(7)),
        none(7, 1, 0),
        at(5, 2, 1, 0),
        indicators(&[(5, 4)]),
        erase(2, Some(5)),
        none(5, 1, 0),
        indicators(&[]),
    ]
}

/// Four blocks for 128 locations: the two high bits of the address choose the block. Location 2 of
/// block 1 is address 34, location 2 of block 3 is address 98.
fn four_macros_deep() -> Script {
    let lines = vec![
        clear(),
        write(98, 8, None),
        at(8, 98, 2, 0),
        write(34, 7, None),
        write(98, 7, Some(8)),
        at(7, 34, 1, 0),
        all(7, &[0x4_0000_0000, 0x4_0000_0000], 2),
        none(8, 2, 0),
        indicators(&[(14, 0x4_0000_0000), (15, 0x4_0000_0000)]),
    ];
    let deep = geometry(TRANSPOSED, 128, 9, 1);
    script("XAPP260: 128 locations", deep, (128, 1024), lines)
}

/// Two blocks for 18 bits: a match only if both nine-bit parts match. 2567 is 5 and 7, the low part
/// last; 4616 is 9 and 8. The keys that are not found mix the parts of the two (5 and 8, 9 and 7),
/// exchange them, or lack one.
fn two_macros_wide() -> Script {
    let lines = vec![
        clear(),
        write(2, 2567, None),
        write(3, 4616, None),
        indicators(&[(7, 4), (8, 8), (517, 4), (521, 8)]),
        at(2567, 2, 1, 0),
        at(4616, 3, 1, 0),
        none(2568, 1, 0),
        none(4615, 1, 0),
        none(3589, 1, 0),
        none(7, 1, 0),
        all(2567, &[4], 1),
        all(2568, &[0], 0),
    ];
    let wide = geometry(CASCADED, 32, 18, 1);
    script("XAPP260: 18 bits", wide, (32, 1024), lines)
}

/// Abdelhadi's pictures of one pattern: binary 10 at address 4 (figure 2.10), and in a memory with
/// D 8, P 3 and sets of 4 pattern 4 in set 1 at offset 2 (section 6.3).
fn indicators_of_one_pattern() -> Vec<Script> {
    let by_address = vec![
        clear(),
        write(4, 2, None),
        indicators(&[(2, 16)]),
        at(2, 4, 1, 0),
    ];
    let by_set = vec![
        clear(),
        write(6, 4, None),
        indicators(&[(4, 2)]),
        at(4, 6, 1, 4),
        all(4, &[64], 1),
    ];
    let (transposed, segmented) = (geometry(TRANSPOSED, 8, 2, 1), geometry(SEGMENTED, 8, 3, 4));
    vec![
        script(
            "Abdelhadi: pattern 2 at address 4",
            transposed,
            (8, 4),
            by_address,
        ),
        script("Abdelhadi: pattern 4 in set 1", segmented, (8, 8), by_set),
    ]
}

/// Abdelhadi's formula 5.1: depth 128 in sets of 2 has 64 sets, not 65, which would need a second
/// word in each row.
fn number_of_sets() -> Vec<Script> {
    let g = geometry(SEGMENTED, 128, 1, 2);
    let passes = vec![clear(), write(127, 1, None), at(1, 127, 1, 2)];
    let refuses = vec![refused(Call::Clear, 2)];
    vec![
        script("Abdelhadi: 64 sets", g, (128, 2), passes),
        script("Abdelhadi: not 65 sets", g, (128, 4), refuses),
    ]
}

/// Abdelhadi's lemma 6.2.1, with empty addresses allowed: of all rows one has the bit of an address
/// that is not empty.
fn sums_of_addresses() -> Script {
    let lines = vec![
        clear(),
        column_sums(&[0, 0, 0, 0, 0, 0, 0, 0]),
        write(0, 5, None),
        write(3, 5, None),
        write(4, 0, None),
        write(7, 7, None),
        write(7, 1, Some(7)),
        write(4, 0, Some(0)),
        column_sums(&[1, 0, 0, 1, 1, 0, 0, 1]),
        erase(3, Some(5)),
        column_sums(&[1, 0, 0, 0, 1, 0, 0, 1]),
    ];
    let g = geometry(TRANSPOSED, 8, 3, 1);
    script("Abdelhadi: column sums, 6.2.1", g, (8, 8), lines)
}

/// Abdelhadi's theorem 6.2.2, with empty addresses allowed: as many rows have the bit of a set as
/// there are different patterns in it. Here set 0 holds 5 and 6, set 1 holds 0 twice, set 2
/// nothing, set 3 four patterns.
fn sums_of_sets() -> Script {
    let first = [
        (0, 5),
        (1, 6),
        (3, 5),
        (4, 0),
        (6, 0),
        (12, 1),
        (13, 2),
        (14, 3),
        (15, 4),
    ];
    let mut lines = vec![clear()];
    lines.extend(first.map(|(address, pattern)| write(address, pattern, None)));
    lines.extend([
        column_sums(&[2, 1, 0, 4]),
        write(0, 7, Some(5)),
        column_sums(&[3, 1, 0, 4]),
        erase(4, Some(0)),
        column_sums(&[3, 1, 0, 4]),
        erase(6, Some(0)),
        write(15, 1, Some(4)),
        column_sums(&[3, 0, 0, 3]),
    ]);
    let g = geometry(SEGMENTED, 16, 3, 4);
    script("Abdelhadi: column sums, 6.2.2", g, (16, 8), lines)
}
