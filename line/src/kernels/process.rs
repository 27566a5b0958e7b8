//! What the system is asked for beyond Rust's library: a child process that does part
//! of this program's work, how long processors worked on it, memory that both see, an end
//! put to a program, and what a pipe holds. This file and the boundary have all of this
//! library's `unsafe` but its tests'.

use std::ffi::{c_int, c_long, c_uint, c_ulong, c_void};
use std::ops::Deref;
use std::os::fd::AsRawFd;
use std::os::unix::process::ExitStatusExt;
use std::panic::{catch_unwind, AssertUnwindSafe};
use std::process::ExitStatus;
use std::ptr;
use std::sync::atomic::AtomicU64;
use std::time::Duration;
use std::{io, slice};

extern "C" {
    fn fork() -> c_int;
    fn _exit(status: c_int) -> !;
    fn waitpid(process: c_int, status: *mut c_int, options: c_int) -> c_int;
    fn ioctl(file: c_int, request: c_ulong, ...) -> c_int;
    fn kill(process: c_int, signal: c_int) -> c_int;
    fn prctl(option: c_int, ...) -> c_int;
    fn signal(signal: c_int, handler: usize) -> usize;
    fn setrlimit(resource: c_int, limits: *const [c_ulong; 2]) -> c_int;
    fn close_range(first: c_uint, last: c_uint, flags: c_uint) -> c_int;
    fn clock_getcpuclockid(process: c_int, clock: *mut c_int) -> c_int;
    fn clock_gettime(clock: c_int, seconds_and_nanoseconds: *mut [c_long; 2]) -> c_int;
    fn mmap(
        address: *mut c_void,
        length: usize,
        protection: c_int,
        flags: c_int,
        file: c_int,
        offset: c_long,
    ) -> *mut c_void;
    fn munmap(address: *mut c_void, length: usize) -> c_int;
    fn mprotect(address: *mut c_void, length: usize, protection: c_int) -> c_int;
}

const SIGKILL: c_int = 9;
const SIGCHLD: c_int = 17;
const SIG_DFL: usize = 0;
const WNOHANG: c_int = 1;
const FIONREAD: c_ulong = 0x541B;
const PR_SET_PDEATHSIG: c_int = 1;
const RLIMIT_CORE: c_int = 4;
const PROT_READ_AND_WRITE: c_int = 3;
const PROT_NONE: c_int = 0;
const MAP_SHARED_AND_ANONYMOUS: c_int = 0x21;
const MAP_RESERVED: c_int = 0x4022; // private, anonymous, and kept by nothing until it is touched
const PAGE: usize = 4096;

/// Memory that was asked for, zero at first, and given back when it is dropped.
struct Memory {
    start: *mut c_void,
    bytes: usize,
}

impl Memory {
    fn new(bytes: usize, flags: c_int) -> io::Result<Memory> {
        // SAFETY: new memory is asked for, at no place in particular.
        let start = unsafe { mmap(ptr::null_mut(), bytes, PROT_READ_AND_WRITE, flags, -1, 0) };
        match start as isize {
            -1 => Err(io::Error::last_os_error()),
            _ => Ok(Memory { start, bytes }),
        }
    }
}

impl Drop for Memory {
    fn drop(&mut self) {
        // SAFETY: it is the memory that was given, and nobody has it any more.
        unsafe { munmap(self.start, self.bytes) };
    }
}

/// Numbers, zero at first, that a child process shares with its parent.
pub struct Shared(Memory, usize);

impl Shared {
    pub fn new(count: usize) -> io::Result<Shared> {
        let bytes = count * size_of::<AtomicU64>();
        Ok(Shared(Memory::new(bytes, MAP_SHARED_AND_ANONYMOUS)?, count))
    }
}

impl Deref for Shared {
    type Target = [AtomicU64];

    fn deref(&self) -> &[AtomicU64] {
        // SAFETY: the memory is there until this is dropped, it is aligned to a page and
        // zero at first, and whoever writes it does so by one whole number at a time.
        unsafe { slice::from_raw_parts(self.0.start.cast(), self.1) }
    }
}

/// Words at whose end nothing may be read or written: whoever goes past them is ended.
pub struct Guarded(Memory);

impl Guarded {
    /// Space for so many words at least.
    pub fn new(words: usize) -> io::Result<Guarded> {
        let bytes = (words * size_of::<u32>()).next_multiple_of(PAGE);
        let memory = Memory::new(bytes + PAGE, MAP_SHARED_AND_ANONYMOUS)?;
        // SAFETY: the last page of the memory that was just given, which nobody has yet.
        match unsafe { mprotect(memory.start.cast::<u8>().add(bytes).cast(), PAGE, PROT_NONE) } {
            0 => Ok(Guarded(memory)),
            _ => Err(io::Error::last_os_error()),
        }
    }

    /// The last words, so many; nothing where there aren't as many.
    pub fn last(&mut self, words: usize) -> Option<&mut [u32]> {
        let bytes = self.last_bytes(words * size_of::<u32>())?;
        // SAFETY: as many words as these bytes; a page's end is aligned for words.
        Some(unsafe { slice::from_raw_parts_mut(bytes.as_mut_ptr().cast(), words) })
    }

    /// The last bytes, so many; nothing where there aren't as many.
    pub fn last_bytes(&mut self, bytes: usize) -> Option<&mut [u8]> {
        let place = (self.0.bytes - PAGE).checked_sub(bytes)?;
        // SAFETY: the bytes from there to the end are this one's memory, borrowed with it
        // alone.
        Some(unsafe { slice::from_raw_parts_mut(self.0.start.cast::<u8>().add(place), bytes) })
    }
}

/// Words, zero at first, of which only those that are touched take memory.
pub struct Reserved(Memory, usize);

impl Reserved {
    pub fn new(count: usize) -> io::Result<Reserved> {
        let bytes = count * size_of::<u32>();
        Ok(Reserved(Memory::new(bytes, MAP_RESERVED)?, count))
    }

    pub fn words(&mut self) -> &mut [u32] {
        // SAFETY: the memory is there until this is dropped, borrowed with it alone, aligned
        // to a page and zero at first.
        unsafe { slice::from_raw_parts_mut(self.0.start.cast(), self.1) }
    }
}

/// A child process that was started here.
pub struct Child {
    id: c_int,
    ended: Option<ExitStatus>,
}

impl Child {
    /// Starts a child process that acts on a copy of all that this one has, and ends
    /// with status 0, or with 101 where it panics. It has no files open but the first
    /// three, leaves no memory image and ends at the latest with this thread.
    pub fn start(act: impl FnOnce()) -> io::Result<Child> {
        // SAFETY: it takes two numbers. Whoever started this program may have asked that
        // ended children are forgotten; then nobody could know how one ended.
        unsafe { signal(SIGCHLD, SIG_DFL) };
        // SAFETY: the child has this thread alone. It takes no lock that another one may
        // have held, but those of the allocator, which the C library keeps usable.
        match unsafe { fork() } {
            -1 => Err(io::Error::last_os_error()),
            0 => Child::act(act),
            id => Ok(Child { id, ended: None }),
        }
    }

    /// What the child itself does.
    fn act(act: impl FnOnce()) -> ! {
        // SAFETY: they take numbers, and limits that are there. Nothing is asked of their
        // outcome: the child does its work without them too.
        unsafe {
            prctl(PR_SET_PDEATHSIG, SIGKILL as c_ulong);
            setrlimit(RLIMIT_CORE, &[0, 0]);
            close_range(3, c_uint::MAX, 0);
        }
        let acted = catch_unwind(AssertUnwindSafe(act));
        // SAFETY: it ends the child at once, and does nothing that its parent will do.
        unsafe { _exit(if acted.is_ok() { 0 } else { 101 }) }
    }

    /// How it ended, if it has.
    pub fn ended(&mut self) -> Option<ExitStatus> {
        let mut status = 0;
        // SAFETY: the child is this program's and wasn't waited for yet; its status is
        // written where it is asked to be.
        if self.ended.is_none() && unsafe { waitpid(self.id, &mut status, WNOHANG) } == self.id {
            self.ended = Some(ExitStatus::from_raw(status));
        }
        self.ended
    }

    /// How long processors have worked on it; none where the system doesn't say.
    pub fn processor_time(&self) -> Duration {
        let (mut clock, mut time) = (0, [0; 2]);
        // SAFETY: the number of a clock and a time are written where they are asked to be.
        let known = unsafe {
            clock_getcpuclockid(self.id, &mut clock) == 0 && clock_gettime(clock, &mut time) == 0
        };
        match known {
            true => Duration::new(time[0] as u64, time[1] as u32),
            false => Duration::ZERO,
        }
    }
}

/// A child that nobody watches any more has no work to do.
impl Drop for Child {
    fn drop(&mut self) {
        if self.ended.is_none() {
            let mut status = 0;
            // SAFETY: the child wasn't waited for yet, so its number is still its own.
            unsafe {
                kill(self.id, SIGKILL);
                waitpid(self.id, &mut status, 0);
            }
        }
    }
}

/// Ends a program that began a group of processes, and whatever it started. Nothing is
/// asked of the outcome: they may have ended meanwhile.
pub fn end_group(program: &std::process::Child) {
    // SAFETY: it takes two numbers and touches no memory of this program.
    unsafe { kill(-(program.id() as c_int), SIGKILL) };
}

/// How many bytes of a pipe nobody has read yet.
pub fn unread(pipe: &impl AsRawFd) -> i32 {
    let mut count: c_int = 0;
    // SAFETY: the file is open, and the request writes one number where it is asked to.
    unsafe { ioctl(pipe.as_raw_fd(), FIONREAD, &mut count as *mut c_int) };
    count
}

/// A signal by its number, those that a faulty program ends by in words too.
pub fn signal_in_words(signal: i32) -> String {
    let known = match signal {
        4 => " (illegal instruction)",
        6 => " (aborted)",
        7 => " (bus error)",
        8 => " (arithmetic error)",
        9 => " (killed)",
        11 => " (segmentation fault)",
        15 => " (terminated)",
        _ => "",
    };
    format!("signal {signal}{known}")
}
