//! The few calls of the system that the standard library does not have: a process that goes on from
//! here, and memory that it shares with its parent.

use std::ffi::{c_int, c_long, c_void};
use std::fs::File;
use std::os::fd::AsRawFd;
use std::os::unix::process::ExitStatusExt;
use std::process::ExitStatus;

mod exported {
    use super::{c_int, c_long, c_void};
    extern "C" {
        pub fn fork() -> c_int;
        pub fn waitpid(process: c_int, status: *mut c_int, options: c_int) -> c_int;
        pub fn kill(process: c_int, signal: c_int) -> c_int;
        pub fn _exit(status: c_int) -> !;
        pub fn fflush(stream: *mut c_void) -> c_int;
        pub fn dup2(file: c_int, place: c_int) -> c_int;
        pub fn signal(signal: c_int, handler: usize) -> usize;
        pub fn prctl(option: c_int, value: c_long, ...) -> c_int;
        pub fn mmap(
            address: *mut c_void,
            length: usize,
            protection: c_int,
            flags: c_int,
            file: c_int,
            offset: c_long,
        ) -> *mut c_void;
    }
}

const NO_WAIT: c_int = 1;
const KILL: c_int = 9;
const BROKEN_PIPE: c_int = 13;
const USUAL_HANDLER: usize = 0;
const SIGNAL_AT_PARENTS_DEATH: c_int = 1;
const READ_AND_WRITE: c_int = 1 | 2;
const SHARED_WITHOUT_FILE: c_int = 1 | 0x20;

/// Zero bytes that later children write for this process too. They are never given back.
pub fn shared_zeros(length: usize) -> *mut c_void {
    let nowhere = std::ptr::null_mut();
    let zeros =
        unsafe { exported::mmap(nowhere, length, READ_AND_WRITE, SHARED_WITHOUT_FILE, -1, 0) };
    assert!(zeros as isize != -1, "no memory to share");
    zeros
}

pub struct Child(c_int);

impl Child {
    /// Runs the work in a process of its own, which is ended when this one ends. This process must
    /// have one thread alone.
    pub fn start(work: impl FnOnce()) -> Child {
        match unsafe { exported::fork() } {
            -1 => panic!("no process can be started"),
            0 => {
                unsafe { exported::prctl(SIGNAL_AT_PARENTS_DEATH, c_long::from(KILL)) };
                work();
                leave()
            }
            process => Child(process),
        }
    }

    /// How it ended, if it has.
    pub fn ended(&self) -> Option<ExitStatus> {
        self.wait(NO_WAIT)
    }

    /// Ends it, if it has not ended.
    pub fn stop(&self) {
        unsafe { exported::kill(self.0, KILL) };
        self.wait(0);
    }

    fn wait(&self, options: c_int) -> Option<ExitStatus> {
        let mut status = 0;
        let process = unsafe { exported::waitpid(self.0, &mut status, options) };
        (process == self.0).then(|| ExitStatus::from_raw(status))
    }
}

/// This process and its children end without a word when nobody reads what they print.
pub fn end_with_reader() {
    unsafe { exported::signal(BROKEN_PIPE, USUAL_HANDLER) };
}

/// Writes what a core has printed and the C library still holds.
pub fn flush() {
    unsafe { exported::fflush(std::ptr::null_mut()) };
}

/// What this process prints from now on goes nowhere: a trial that is cut down runs many times.
pub fn silence() {
    if let Ok(nowhere) = File::create("/dev/null") {
        for output in [1, 2] {
            unsafe { exported::dup2(nowhere.as_raw_fd(), output) };
        }
    }
}

/// Ends the process with status 0, without what else is done at a program's end: that is for its
/// parent to do.
fn leave() -> ! {
    unsafe { exported::_exit(0) }
}
