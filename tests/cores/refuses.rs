//! A core in Rust for tests/core that refuses everything, and panics at depth 4,097. It uses the standard library.
use std::collections::HashMap;
use std::sync::Mutex;

static REFUSED: Mutex<Option<HashMap<u32, u64>>> = Mutex::new(None);

fn refuse(depth: u32) -> u64 {
    let mut refused = REFUSED.lock().unwrap();
    *refused.get_or_insert_with(HashMap::new).entry(depth).or_default() += 1;
    assert!(depth != 4097, "no such depth");
    1
}

macro_rules! refusing {
    ($($name:ident($($more:ty),*);)*) => {
        $(#[no_mangle]
        pub extern "C" fn $name(_: u32, depth: u32, _: u32, _: u32 $(, _: $more)*) -> u64 {
            refuse(depth)
        })*
    };
}

refusing! {
    cam_indicator_words();
    cam_match_words();
    cam_resume(*const u32, usize, *const u64, usize);
    cam_clear(*mut u32, usize, *mut u64, usize);
    cam_write(*mut u32, usize, *mut u64, usize, u32, u32);
    cam_erase(*mut u32, usize, *mut u64, usize, u32);
    cam_read(*const u32, usize, *const u64, usize, u32);
    cam_first_match(*const u32, usize, *const u64, usize, u32);
    cam_next_match(*const u32, usize, *const u64, usize, u32, u32);
    cam_all_match(*const u32, usize, *const u64, usize, *mut u64, usize, u32);
}
