//! Every address that holds a pattern, one after the other; the same addresses by an all-match.

use cam::{Geometry, Memory, Refusal, SEGMENTED};

fn main() -> Result<(), Refusal> {
    // Fifteen addresses in sets of four, of which the last has three.
    let mut memory = Memory::new(Geometry {
        kind: SEGMENTED,
        depth: 15,
        pattern_width: 3,
        set_width: 4,
    })?;
    // 5 stands in sets 0, 1 and 3, in set 0 twice.
    for (address, pattern) in [(14, 5), (3, 5), (4, 5), (1, 5), (2, 6), (9, 6)] {
        memory.write(address, pattern)?;
    }
    for key in [5, 6, 0] {
        walk(&memory, key)?;
    }
    println!("walk of 8: {}", walk(&memory, 8).unwrap_err());
    println!("5 above address 7: {:?}", memory.next_match(7, 5)?);

    // While the iterator is lent the memory, nothing can be erased; so the calls themselves. A
    // next-match does not look at what its address holds.
    let mut found = memory.first_match(5)?.address;
    while let Some(address) = found {
        memory.erase(address)?;
        found = memory.next_match(address, 5)?;
    }
    println!("5 erased");
    walk(&memory, 5)?;
    walk(&memory, 6)
}

fn walk(memory: &Memory, key: u32) -> Result<(), Refusal> {
    let mut walked = Vec::new();
    for address in memory.places(key) {
        walked.push(address?);
    }
    let same = memory
        .all_match(key)?
        .addresses()
        .eq(walked.iter().copied());
    println!("walk of {key}: {walked:?}, the same by all-match: {same}");
    Ok(())
}
