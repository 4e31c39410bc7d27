//! A cascaded memory with tables of its own: patterns of twenty bits, of which one is found twice.

use cam::{Geometry, Memory, Refusal, CASCADED};

fn main() -> Result<(), Refusal> {
    let mut memory = Memory::new(Geometry {
        kind: CASCADED,
        depth: 100,
        pattern_width: 20,
        set_width: 1,
    })?;
    println!(
        "store of {} numbers, indicators of {} words",
        memory.store().len(),
        memory.indicators().len()
    );
    memory.write(3, 0xabcde)?;
    memory.write(40, 0x12345)?;
    memory.write(70, 0xabcde)?;
    for key in [0xabcde, 0x12345, 0x00000] {
        let first = memory.first_match(key)?;
        let all = memory.all_match(key)?;
        let addresses: Vec<u32> = all.addresses().collect();
        println!(
            "{key:#07x}: first {:?}, all {addresses:?}, hits {}",
            first.address, all.hits
        );
    }
    memory.erase(3)?;
    println!(
        "{:#07x}: first {:?}",
        0xabcde,
        memory.first_match(0xabcde)?.address
    );
    println!("write at 100: {}", memory.write(100, 0).unwrap_err());
    Ok(())
}
