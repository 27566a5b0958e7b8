//! Standard output as it was when the program was started. Rust's own start opens
//! /dev/null in the place of a closed one, and its `Stdout` takes for written what a file
//! that isn't open for writing refuses; here both can be told.

use std::fs::File;
use std::io;
use std::os::fd::AsFd;
use std::sync::atomic::{AtomicBool, Ordering};

/// The system's number for a file that isn't open.
const NOT_OPEN: i32 = 9;

static CLOSED: AtomicBool = AtomicBool::new(false);

/// What is listed here is called before Rust's start: later it can't be told any more.
#[used]
#[link_section = ".init_array"]
static BEFORE_THE_START: extern "C" fn() = note;

extern "C" fn note() {
    extern "C" {
        fn fcntl(file: i32, command: i32, ...) -> i32;
    }
    const FLAGS_OF_THE_FILE: i32 = 1;
    // SAFETY: this command takes no third argument, reads no memory and alters nothing.
    let flags = unsafe { fcntl(1, FLAGS_OF_THE_FILE) };
    CLOSED.store(flags < 0, Ordering::Relaxed);
}

/// Standard output, where there is one.
pub fn standard_output() -> io::Result<File> {
    if CLOSED.load(Ordering::Relaxed) {
        return Err(io::Error::from_raw_os_error(NOT_OPEN));
    }
    Ok(File::from(io::stdout().as_fd().try_clone_to_owned()?))
}
