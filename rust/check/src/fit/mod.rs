//! The program `camfit`, run as a child on boards, small and large: every byte that it prints on
//! standard output, its exit status and every file that it leaves are held to the second writing,
//! which shares no code with it.

mod asked;
mod begun;
mod board;
mod damage;
mod folder;
mod found;
mod hex;
mod job_files;
mod names;
mod runs;
mod several;
mod single;
mod stops;
mod text;
mod trial;
mod wide;
mod written;

use crate::parts::{Counts, SHOWN_FAILURES};
use crate::random::Random;
use folder::Folder;
use std::collections::BTreeMap;
use std::path::Path;
use std::sync::atomic::{AtomicUsize, Ordering::Relaxed};
use std::thread;
use trial::Trial;

/// Makes a trial when its turn comes: all of them at once would fill much memory.
type Make = Box<dyn Fn() -> Trial + Send + Sync>;

/// Trials of one sort. Each counts one.
struct Group {
    name: &'static str,
    trials: Vec<Make>,
}

/// Runs the program some thousand times. Says what stands against it.
pub fn run(program: &Path, seed: u64) -> Result<Counts, String> {
    let shown = program.display();
    if !program.is_file() {
        return Err(format!(
            "{shown} is not there.\nBuild the program camfit first, and name it with --camfit."
        ));
    }
    // Each trial runs in a folder of its own, from which a path of ours would lead elsewhere.
    let program = program.canonicalize();
    let program = program.map_err(|why| format!("{shown}: {why}"))?;
    let mut counts = Counts::default();
    for group in groups(seed) {
        counts.add(group.run(&program, seed));
    }
    Ok(counts)
}

fn groups(seed: u64) -> Vec<Group> {
    let mut groups = single::groups(seed);
    groups.push(several::group(seed));
    groups.push(wide::group(seed));
    groups.extend(written::groups(seed));
    groups.extend(runs::groups(seed));
    groups.extend(begun::groups(seed));
    groups.push(stops::group(seed));
    groups.extend(job_files::groups(seed));
    groups
}

/// A group of so many random trials. The number keeps its generator apart.
fn random_group(
    name: &'static str,
    seed: u64,
    number: u64,
    count: u64,
    make: fn(&mut Random) -> Trial,
) -> Group {
    let one =
        |index| -> Make { Box::new(move || make(&mut Random::of_trial(seed, number, index))) };
    Group {
        name,
        trials: (0..count).map(one).collect(),
    }
}

impl Group {
    fn run(&self, program: &Path, seed: u64) -> Counts {
        let failures = self.failures(program);
        let mut counts = Counts::default();
        for index in 0..self.trials.len() {
            let failure = failures.get(&index);
            if let (Some(what), true) = (failure, counts.failed < SHOWN_FAILURES) {
                println!("FAILED, {} {index} (--seed {seed})\n    {what}", self.name);
            }
            counts.count(failure.is_none());
        }
        println!("{}: {counts}", self.name);
        counts
    }

    /// The trials that fail, by their numbers, and what is wrong. There is a thread for each core,
    /// which takes the next trial that no other has.
    fn failures(&self, program: &Path) -> BTreeMap<usize, String> {
        let next = AtomicUsize::new(0);
        let work = |thread| {
            let folder = Folder::new(thread);
            let mut failures = BTreeMap::new();
            loop {
                let index = next.fetch_add(1, Relaxed);
                let Some(make) = self.trials.get(index) else {
                    return failures;
                };
                if let Err(what) = make().judge(program, &folder) {
                    failures.insert(index, what);
                }
            }
        };
        let threads = thread::available_parallelism().map_or(1, usize::from);
        thread::scope(|scope| {
            let work = &work;
            let threads: Vec<_> = (0..threads).map(|i| scope.spawn(move || work(i))).collect();
            let failures = threads.into_iter().map(|thread| thread.join());
            failures
                .flat_map(|failures| failures.expect("no trial is amiss"))
                .collect()
        })
    }
}
