//! Folders in which the program runs. Each trial has one to itself, which holds nothing but what
//! the trial gives it.

use crate::fit::trial::Files;
use std::fs;
use std::io::Result as Done;
use std::path::{Path, PathBuf};

/// Where a command may write its files. It is there from the start.
pub const OUT: &str = "out";

/// It is removed in the end.
pub struct Folder(PathBuf);

impl Folder {
    /// The folder of one of the threads of this process.
    pub fn new(thread: usize) -> Folder {
        let name = format!("check-camfit-{}-{thread}", std::process::id());
        Folder(std::env::temp_dir().join(name))
    }

    pub fn path(&self) -> &Path {
        &self.0
    }

    /// Takes away what an earlier trial left, and puts these files.
    pub fn fill(&self, files: &Files) -> Result<(), String> {
        self.filled(files).map_err(|why| self.error(&why))
    }

    fn filled(&self, files: &Files) -> Done<()> {
        if self.0.exists() {
            fs::remove_dir_all(&self.0)?;
        }
        fs::create_dir_all(self.0.join(OUT))?;
        for (name, bytes) in files {
            let path = self.0.join(name);
            let above = path.parent().expect("it is in the folder");
            fs::create_dir_all(above)?;
            fs::write(path, bytes)?;
        }
        Ok(())
    }

    /// All files in it and in its folders.
    pub fn read(&self) -> Result<Files, String> {
        let mut files = Files::new();
        let read = read_into(&mut files, &self.0, "");
        read.map_err(|why| self.error(&why)).map(|()| files)
    }

    fn error(&self, why: &std::io::Error) -> String {
        format!("the folder {}: {why}", self.0.display())
    }
}

impl Drop for Folder {
    fn drop(&mut self) {
        // There is none where no trial ran.
        let _ = fs::remove_dir_all(&self.0);
    }
}

fn read_into(files: &mut Files, folder: &Path, before: &str) -> Done<()> {
    for entry in fs::read_dir(folder)? {
        let entry = entry?;
        let name = format!("{before}{}", entry.file_name().to_string_lossy());
        match entry.file_type()?.is_dir() {
            true => read_into(files, &entry.path(), &format!("{name}/"))?,
            false => {
                files.insert(name, fs::read(entry.path())?);
            }
        }
    }
    Ok(())
}
