//! Files that are written whole or not at all: under another name first, and renamed once all of
//! them stand there.

use crate::files::{error, shown};
use std::fs::{self, File, OpenOptions, Permissions};
use std::io::{self, ErrorKind, Read, Write};
use std::path::{Path, PathBuf};
use std::process;

/// What a file begins with that was written here. Any other may be a board's, and is not replaced.
pub const MARK: &str = "// camfit ";

/// Puts files into a folder, which is made if it is not there. Signals are passed over from here
/// on, so that the program must end soon.
pub fn write_all(folder: &Path, texts: &[(&str, String)]) -> Result<(), String> {
    let names = texts.iter().map(|(name, _)| folder.join(name));
    let targets = targets(names)?;
    let is_new = match fs::create_dir(folder) {
        Ok(()) => true,
        Err(why) if why.kind() == ErrorKind::AlreadyExists => false,
        Err(why) => return Err(error(folder)(why)),
    };
    pass_over_signals();
    let files = targets.into_iter().zip(texts);
    let files = files.map(|(target, (_, text))| Staged::new(target, text));
    let named = files.collect::<Result<Vec<Staged>, String>>();
    let named = named.and_then(name_all);
    if named.is_err() && is_new {
        // What is told is the error before.
        let _ = fs::remove_dir(folder);
    }
    named
}

fn targets(names: impl Iterator<Item = PathBuf>) -> Result<Vec<Target>, String> {
    let mut targets: Vec<Target> = Vec::new();
    for name in names {
        let target = Target::new(name)?;
        if targets.iter().any(|other| other.place == target.place) {
            let name = shown(&target.name);
            return Err(format!("{name}: leads to another of its files"));
        }
        targets.push(target);
    }
    Ok(targets)
}

/// HUP, INT and TERM end the program no more, and a limit on the size of files becomes an error of
/// the call.
fn pass_over_signals() {
    extern "C" {
        fn signal(number: i32, action: usize) -> usize;
    }
    const PASS_OVER: usize = 1;
    // The numbers of HUP, INT, TERM and XFSZ on x86-64 Linux.
    for number in [1, 2, 15, 25] {
        // It stores two numbers: no function of this program is called by a signal.
        unsafe { signal(number, PASS_OVER) };
    }
}

/// Gives all files their names. Where one cannot have its own, those before it give way again.
fn name_all(mut files: Vec<Staged>) -> Result<(), String> {
    for at in 0..files.len() {
        if let Err(what) = files[at].name() {
            files[..at].iter().for_each(Staged::give_way);
            return Err(what);
        }
    }
    Ok(())
}

/// Where a file is to stand.
struct Target {
    /// As it was given, for messages.
    name: PathBuf,
    /// For a link, where it leads to.
    place: PathBuf,
    /// Those of the file that stands there.
    permissions: Option<Permissions>,
}

impl Target {
    /// A file that is there must be one that was written here, or a board's tables could be lost.
    fn new(name: PathBuf) -> Result<Target, String> {
        let place = match fs::canonicalize(&name) {
            Err(why) if why.kind() == ErrorKind::NotFound && !name.is_symlink() => None,
            place => Some(place.map_err(error(&name))?),
        };
        let Some(place) = place else {
            return Ok(Target {
                place: name.clone(),
                name,
                permissions: None,
            });
        };
        let state = fs::metadata(&place).map_err(error(&name))?;
        if !state.is_file() || !has_mark(&place).map_err(error(&name))? {
            return Err(format!(
                "{}: is there already and was not written by camfit; name another folder",
                shown(&name)
            ));
        }
        let permissions = Some(state.permissions());
        match state.permissions().readonly() {
            true => Err(format!("{}: is write-protected", shown(&name))),
            false => Ok(Target {
                name,
                place,
                permissions,
            }),
        }
    }
}

fn has_mark(place: &Path) -> io::Result<bool> {
    let mut first = Vec::new();
    let file = File::open(place)?;
    file.take(MARK.len() as u64).read_to_end(&mut first)?;
    Ok(first == MARK.as_bytes())
}

/// A file that is written whole, under another name at first.
struct Staged {
    target: Target,
    other: PathBuf,
    /// A second name of the old file, under which it outlives the first.
    old: Option<PathBuf>,
}

impl Staged {
    fn new(target: Target, text: &str) -> Result<Staged, String> {
        let (mut file, other) = create_beside(&target.place).map_err(error(&target.name))?;
        let staged = Staged {
            target,
            other,
            old: None,
        };
        let target = &staged.target;
        let mut write = || {
            file.write_all(text.as_bytes())?;
            if let Some(permissions) = &target.permissions {
                file.set_permissions(permissions.clone())?;
            }
            file.sync_all()
        };
        write().map_err(error(&target.name))?;
        Ok(staged)
    }

    fn name(&mut self) -> Result<(), String> {
        let place = &self.target.place;
        let mut old = self.other.clone().into_os_string();
        old.push("-old");
        // Not every file system has second names. Then the old file cannot come back.
        if fs::hard_link(place, &old).is_ok() {
            self.old = Some(old.into());
        }
        fs::rename(&self.other, place).map_err(error(&self.target.name))
    }

    /// Gives the name back to the old file, or removes the new one where there was none.
    fn give_way(&self) {
        let place = &self.target.place;
        // What is told is why the other file has no name.
        let _ = match (&self.old, &self.target.permissions) {
            (Some(old), _) => fs::rename(old, place),
            (None, None) => fs::remove_file(place),
            (None, Some(_)) => Ok(()),
        };
    }
}

/// A new file under a name that no file has.
fn create_beside(place: &Path) -> io::Result<(File, PathBuf)> {
    let mut number = 0;
    loop {
        let other = place.with_file_name(format!(".camfit-{}-{number}", process::id()));
        match OpenOptions::new().write(true).create_new(true).open(&other) {
            Err(why) if why.kind() == ErrorKind::AlreadyExists => number += 1,
            file => return Ok((file?, other)),
        }
    }
}

impl Drop for Staged {
    fn drop(&mut self) {
        for name in self.old.iter().chain([&self.other]) {
            // Once it is renamed there is none.
            let _ = fs::remove_file(name);
        }
    }
}
