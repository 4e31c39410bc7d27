//! Where the run is: which trial, which of its calls, and what was counted so far. It is kept where
//! a parent process can read it, which so can say where a core died.

use crate::system;
use std::sync::atomic::{AtomicBool, AtomicPtr, AtomicU64, AtomicUsize, Ordering::Relaxed};

/// What the judge of a trial says fits in here; the rest is cut off.
const SAID: usize = 4096;

pub struct Note {
    part: AtomicU64,
    index: AtomicU64,
    calls: AtomicU64,
    inside: AtomicBool,
    walking: AtomicBool,
    ticks: AtomicU64,
    passed: AtomicU64,
    failed: AtomicU64,
    done: AtomicBool,
    length: AtomicUsize,
    said: [AtomicU64; SAID / 8],
}

/// The place that a note speaks of.
#[derive(Clone, Copy)]
pub struct Place {
    /// The number of the part, 0 for none.
    pub part: u64,
    pub index: u64,
    /// How many calls of the trial were begun, 0 where they all ended well.
    pub calls: u64,
    /// Whether the last of them had not come back.
    pub inside: bool,
    /// Whether it had, and what did not come back is a step of the walk after it.
    pub walking: bool,
}

static SHARED: AtomicPtr<Note> = AtomicPtr::new(std::ptr::null_mut());

/// The note of this run, shared with all processes that it starts.
pub fn note() -> &'static Note {
    if SHARED.load(Relaxed).is_null() {
        // Zero bytes are a note on which nothing stands.
        let zeros = system::shared_zeros(size_of::<Note>());
        SHARED.store(zeros.cast(), Relaxed);
    }
    unsafe { &*SHARED.load(Relaxed) }
}

impl Note {
    pub fn begin_trial(&self, part: u64, index: u64) {
        self.part.store(part, Relaxed);
        self.index.store(index, Relaxed);
        self.begin_calls();
    }

    /// What follows belongs to no trial.
    pub fn end_part(&self) {
        self.begin_trial(0, 0);
    }

    pub fn begin_calls(&self) {
        self.calls.store(0, Relaxed);
        self.inside.store(false, Relaxed);
    }

    pub fn enter_call(&self) {
        self.calls.store(self.calls.load(Relaxed) + 1, Relaxed);
        self.enter(false);
    }

    /// A step of a walk counts as no call of its own.
    pub fn enter_walk(&self) {
        self.enter(true);
    }

    fn enter(&self, walking: bool) {
        self.ticks.store(self.ticks.load(Relaxed) + 1, Relaxed);
        self.walking.store(walking, Relaxed);
        self.inside.store(true, Relaxed);
    }

    pub fn leave_call(&self) {
        self.inside.store(false, Relaxed);
    }

    pub fn place(&self) -> Place {
        Place {
            part: self.part.load(Relaxed),
            index: self.index.load(Relaxed),
            calls: self.calls.load(Relaxed),
            inside: self.inside.load(Relaxed),
            walking: self.walking.load(Relaxed),
        }
    }

    /// A number that changes with every call and every trial.
    pub fn ticks(&self) -> u64 {
        let trials = self.passed.load(Relaxed) + self.failed.load(Relaxed);
        self.ticks.load(Relaxed).wrapping_add(trials)
    }

    pub fn count(&self, passed: bool) {
        let counter = if passed { &self.passed } else { &self.failed };
        counter.store(counter.load(Relaxed) + 1, Relaxed);
    }

    /// What passed and what failed.
    pub fn counts(&self) -> (u64, u64) {
        (self.passed.load(Relaxed), self.failed.load(Relaxed))
    }

    pub fn set_done(&self, done: bool) {
        self.done.store(done, Relaxed);
    }

    pub fn is_done(&self) -> bool {
        self.done.load(Relaxed)
    }

    pub fn say(&self, what: &str) {
        let bytes = &what.as_bytes()[..what.len().min(SAID)];
        for (word, piece) in self.said.iter().zip(bytes.chunks(8)) {
            let mut eight = [0; 8];
            eight[..piece.len()].copy_from_slice(piece);
            word.store(u64::from_ne_bytes(eight), Relaxed);
        }
        self.length.store(bytes.len(), Relaxed);
    }

    /// What was said last.
    pub fn said(&self) -> String {
        let words = self.said.iter();
        let bytes: Vec<u8> = words
            .flat_map(|word| word.load(Relaxed).to_ne_bytes())
            .take(self.length.load(Relaxed))
            .collect();
        String::from_utf8_lossy(&bytes).into_owned()
    }
}
