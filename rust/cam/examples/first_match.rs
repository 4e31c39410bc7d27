//! A segmented memory of eight addresses in sets of two: clear, a few writes, both matches.

use cam::{Geometry, Refusal, SEGMENTED};

fn main() -> Result<(), Refusal> {
    let memory = Geometry {
        kind: SEGMENTED,
        depth: 8,
        pattern_width: 2,
        set_width: 2,
    };
    // Eight entries; four rows, one for each pattern, of one word; one bit of the match word for
    // each address.
    let mut store = [0; 8];
    let mut indicators = [0; 4];
    let mut matches = [0; 1];

    memory.clear(&mut store, &mut indicators)?;
    for (address, pattern) in [(6, 3), (1, 3), (2, 1), (3, 1), (3, 2)] {
        let previous = memory.write(&mut store, &mut indicators, address, pattern)?;
        println!("write {pattern} at {address}: {} before", entry(previous));
    }
    for key in 0..4 {
        let found = memory.first_match(&store, &indicators, key)?;
        let place = match found.address {
            Some(address) => format!("at {address}"),
            None => "nowhere".to_string(),
        };
        println!(
            "first match of {key}: {place} (row words read: {}, entries compared: {})",
            found.words_read, found.entries_compared
        );
    }
    let hits = memory.all_match(&store, &indicators, &mut matches, 3)?;
    println!(
        "all matches of 3: {hits}, match word {:08b}, bit 0 at the right",
        matches[0]
    );
    let previous = memory.erase(&mut store, &mut indicators, 1)?;
    println!("erase 1: {} before", entry(previous));
    let refused = memory.write(&mut store, &mut indicators, 8, 0).unwrap_err();
    println!("write 0 at 8: {refused}");
    Ok(())
}

fn entry(entry: Option<u32>) -> String {
    entry.map_or("empty".to_string(), |pattern| pattern.to_string())
}
