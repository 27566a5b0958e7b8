//! The C boundary: the kernel's exported functions as include/balkwizu.h declares them, and
//! safe wrappers over them.
//!
//! What the header asks of a caller is what Rust's references have: a slice is valid for its
//! length, aligned and never null, two lent parts of which one is written never overlap, and
//! nobody else writes them. So every wrapper is safe.

use reference::calls::LIST_WORDS_MAX;
use reference::words::bits;
use reference::Call;

/// The check of bytes that are valid for reads.
type TableCheck = unsafe fn(bytes: *const [u8]) -> u32;

/// A run on words that are valid for reads, all but those of the list for writes too, and
/// that don't overlap.
type Run = unsafe fn(
    table: *mut [u32],
    list: *const [u32],
    answers: *mut [u32],
    holders: *mut [u32],
) -> u32;

/// A kernel across the C boundary.
#[derive(Clone, Copy)]
pub struct Kernel {
    /// What `--kernel` calls it.
    pub name: &'static str,
    /// What it is, for the head of a table.
    pub title: &'static str,
    table_check: TableCheck,
    run: Run,
}

/// What a run returns, taken apart.
#[derive(Debug, Clone, Copy, PartialEq, Eq)]
pub struct Outcome {
    /// 0, or the entry's refusal 1 to 6.
    pub code: u32,
    pub calls: u32,
}

impl Kernel {
    /// A kernel by its name and title, its check and its run, which `kernel!` takes from two
    /// C functions.
    pub const fn of([name, title]: [&'static str; 2], table_check: TableCheck, run: Run) -> Kernel {
        Kernel {
            name,
            title,
            table_check,
            run,
        }
    }

    /// The check of a table image: 0, or 2 to 5.
    pub fn table_check(&self, bytes: &[u8]) -> u32 {
        // SAFETY: a slice is valid for reads of its length, and nobody writes it.
        unsafe { (self.table_check)(bytes) }
    }

    /// Runs a list on a table, writes the answers and sets the holders' words.
    pub fn run(
        &self,
        table: &mut [u32],
        list: &[u32],
        answers: &mut [u32],
        holders: &mut [u32],
    ) -> Outcome {
        // SAFETY: four slices, each valid for its length and aligned; those that
        // are written are borrowed alone, so that none overlaps another.
        let result = unsafe { (self.run)(table, list, answers, holders) };
        Outcome {
            code: result & 0xFFFF,
            calls: result >> 16,
        }
    }

    /// Whether it is one of the plain C kernels, which the proved ones are measured
    /// against.
    pub fn is_plain(&self) -> bool {
        self.name.starts_with("plain-")
    }

    /// The kernel with another check, for tests of what judges it.
    #[cfg(test)]
    pub const fn with_check(self, name: &'static str, table_check: TableCheck) -> Kernel {
        Kernel {
            name,
            table_check,
            ..self
        }
    }

    /// The kernel with another run, for tests of what judges it.
    pub const fn with_run(self, name: &'static str, run: Run) -> Kernel {
        Kernel { name, run, ..self }
    }
}

/// Calls a C function: a number is given as it is, `const` words and `mut` ones, which it may
/// write, as a pointer and a length. Whoever writes such a call sees to it that the words are
/// valid for their length and aligned, and that those which are written overlap no others.
#[macro_export]
macro_rules! c_call {
    ($name:ident -> $returns:ty, $($given:tt)*) => {
        $crate::c_call!(@ $name, $returns, [], [], $($given)*)
    };
    (@ $name:ident, $returns:ty, [$($type:ty,)*], [$($value:expr,)*], const $words:ident, $($rest:tt)*) => {{
        let words: *const [u32] = $words;
        $crate::c_call!(@ $name, $returns, [$($type,)* *const u32, usize,],
            [$($value,)* words.cast(), words.len(),], $($rest)*)
    }};
    (@ $name:ident, $returns:ty, [$($type:ty,)*], [$($value:expr,)*], mut $words:ident, $($rest:tt)*) => {{
        let words: *mut [u32] = $words;
        $crate::c_call!(@ $name, $returns, [$($type,)* *mut u32, usize,],
            [$($value,)* words.cast(), words.len(),], $($rest)*)
    }};
    (@ $name:ident, $returns:ty, [$($type:ty,)*], [$($value:expr,)*], $number:ident, $($rest:tt)*) => {
        $crate::c_call!(@ $name, $returns, [$($type,)* u32,], [$($value,)* $number,], $($rest)*)
    };
    (@ $name:ident, $returns:ty, [$($type:ty,)*], [$($value:expr,)*],) => {{
        extern "C" {
            fn $name($(_: $type),*) -> $returns;
        }
        // SAFETY: the words are as the function asks for, by whoever writes the call.
        unsafe { $name($($value),*) }
    }};
}

/// A kernel by the names of its check and of its run, as the header declares them.
#[macro_export]
macro_rules! kernel {
    ($name:literal, $title:expr, $table_check:ident, $run:ident) => {{
        extern "C" {
            fn $table_check(bytes: *const u8, len: usize) -> u32;
        }
        $crate::kernels::boundary::Kernel::of(
            [$name, $title],
            // SAFETY: what the caller must see to is what the C function asks for.
            |bytes| unsafe { $table_check(bytes.cast(), bytes.len()) },
            |table, list, answers, holders| {
                $crate::c_call!($run -> u32, mut table, const list, mut answers, mut holders,)
            },
        )
    }};
}

/// The proved kernel, or what the program was built over in its place.
pub const PROVED: Kernel = kernel!(
    "balkwizu",
    env!("ARCHIVE_TITLE"),
    balkwizu_table_check,
    balkwizu_run
);

/// The same with the run that works in a layout of its own. The check is that of the
/// other.
pub const WORKING: Kernel = kernel!(
    "balkwizu-working",
    concat!(env!("ARCHIVE_TITLE"), ", working layout"),
    balkwizu_table_check,
    balkwizu_run_working
);

/// The proved kernel by the run that chooses between the two by the list's length.
pub const BY_LENGTH: Kernel = kernel!(
    "balkwizu-by-length",
    concat!(env!("ARCHIVE_TITLE"), ", by length"),
    balkwizu_table_check,
    balkwizu_run_by_length
);

/// The three runs of the proved archive.
pub const PROVED_RUNS: &[Kernel] = &[PROVED, WORKING, BY_LENGTH];

/// The kernel that has the name. One with a fault isn't listed where there is none of it.
pub fn named(name: &str, kernels: &[Kernel]) -> Result<Kernel, String> {
    let found = kernels.iter().find(|kernel| kernel.name == name);
    found.copied().ok_or_else(|| {
        let right = kernels.iter().map(|kernel| kernel.name);
        let right: Vec<&str> = right.filter(|name| !name.starts_with("wrong-")).collect();
        format!("no kernel `{name}`: there are {}", right.join(", "))
    })
}

/// One call on any table: 0 with three words of the answer written and the holders' words
/// set, the table's 2 to 5, 6 where other than n words are lent for the holders, or
/// [`NO_SPACE`].
pub type Step = fn(table: &mut [u32], call: &Call, answer: &mut [u32], holders: &mut [u32]) -> u32;

/// What the exported step returns for an answer space under three words. No paper
/// uses the number.
pub const NO_SPACE: u32 = 99;

/// The component of a domain in a table, by the proved kernel: its code, and the members
/// as bits.
pub fn component(table: &[u32], domain: u32) -> (u32, u32) {
    halves(c_call!(balkwizu_component -> u32, const table, domain,))
}

/// The lower half of a word, which is a code, and the upper one.
fn halves(answer: u32) -> (u32, u32) {
    (bits(answer, 15, 0), bits(answer, 31, 16))
}

/// Who has a chain of rights to a domain, by the holders' words and the proved kernel: its
/// code, and those domains as bits.
pub fn who_reaches(holders: &[u32], domain: u32) -> (u32, u32) {
    halves(c_call!(balkwizu_who_reaches -> u32, const holders, domain,))
}

/// The potential rights of a table where the actors alone make calls: its code.
pub type Potential = fn(table: &[u32], actors: u32, rights: &mut [u32]) -> u32;

/// The potential rights by the proved kernel.
pub fn potential(table: &[u32], actors: u32, rights: &mut [u32]) -> u32 {
    c_call!(balkwizu_potential -> u32, const table, actors, mut rights,)
}

/// Who could influence a domain of a table where the actors alone make calls: the code, and
/// those domains as bits.
pub type CouldInfluence = fn(table: &[u32], actors: u32, domain: u32) -> (u32, u32);

/// Who could influence a domain by the proved kernel.
pub fn could_influence(table: &[u32], actors: u32, domain: u32) -> (u32, u32) {
    halves(c_call!(balkwizu_could_influence -> u32, const table, actors, domain,))
}

/// A repair of a table: its code, and how many words it altered, each of which has two in
/// the list.
pub type Repair = fn(table: &mut [u32], changes: &mut [u32]) -> (u32, u32);

/// The repair of the proved kernel.
pub fn repair(table: &mut [u32], changes: &mut [u32]) -> (u32, u32) {
    halves(c_call!(balkwizu_repair -> u32, mut table, mut changes,))
}

/// What a writer of lists answers: the code, and the number of words that it wrote or
/// that of the first call that it can't write.
pub type Written = (u32, usize);

/// Writes the words of calls into a list; the calls are five words each.
pub type Writer = fn(calls: &[u32], list: &mut [u32]) -> Written;

/// The writer of the proved kernel.
pub const PROVED_WRITER: Writer =
    |calls, list| written(c_call!(balkwizu_write -> u64, const calls, mut list,));

/// The code and the number of what the proved writer returns: up to 4,096 as many words
/// are written, 4,097 is code 31, and 4,098 + k is code 30 of the call k.
fn written(result: u64) -> Written {
    match result as usize {
        words @ 0..=LIST_WORDS_MAX => (0, words),
        4097 => (31, 0),
        bad => (30, bad - 4098),
    }
}

/// One call by the archive's function for it: its code.
pub fn single(table: &mut [u32], holders: &mut [u32], words: &[u32], answer: &mut [u32]) -> u32 {
    c_call!(balkwizu_step -> u32, mut table, mut holders, const words, mut answer,)
}

#[cfg(test)]
mod tests {
    use super::*;
    use crate::cases::random::run_case;
    use reference::calls::cut;

    #[test]
    fn single_calls_are_the_run_of_their_list() {
        let mut calls = 0;
        for number in 0..2000 {
            let mut case = run_case(1, number);
            let (mut table, mut holders) = (case.table.clone(), case.holders.clone());
            let (answers, kept) = (&mut case.answers, &mut case.holders);
            if PROVED.run(&mut case.table, &case.list, answers, kept).code != 0 {
                continue;
            }
            for (call, wanted) in cut(&case.list).iter().zip(case.answers.chunks(3)) {
                let mut answer = [7; 4];
                let code = single(&mut table, &mut holders, &call.words(), &mut answer);
                assert_eq!((code, answer[3]), (0, 7), "run {number}");
                assert_eq!(answer[..3], *wanted, "run {number}");
                calls += 1;
            }
            assert_eq!(table, case.table, "run {number}");
            assert!(
                case.list.is_empty() || holders == case.holders,
                "run {number}"
            );
        }
        assert!(calls > 10_000, "{calls} calls");
    }
}
