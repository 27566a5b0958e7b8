//! How long one run takes by the length of its list, and from which length on the run in
//! the working layout is the faster of the two proved ones.

use std::fmt;
use std::time::Instant;

use reference::table::domains;

use crate::cases::mixes::Mix;
use crate::judging::timing::{Measured, Subject};
use crate::kernels::plain::KERNELS;
use line::kernels::boundary::{Kernel, PROVED, WORKING};

/// The lengths that are measured, in words.
pub const LENGTHS: [usize; 5] = [1, 8, 64, 512, 4096];

/// Between which two lengths the working run becomes the faster one.
#[derive(Debug, Clone, Copy, PartialEq, Eq)]
pub enum Crossing {
    /// It is at every length that was measured.
    Before(usize),
    Between(usize, usize),
    /// It isn't at any.
    Beyond(usize),
}

impl fmt::Display for Crossing {
    fn fmt(&self, out: &mut fmt::Formatter) -> fmt::Result {
        match self {
            Crossing::Before(words) => write!(out, "at every length, from {words} word on"),
            Crossing::Between(low, high) => write!(out, "from between {low} and {high} words on"),
            Crossing::Beyond(words) => write!(out, "at no length up to {words} words"),
        }
    }
}

/// Runs of lists of so many words, the table handed on from list to list: nothing is
/// reset but before a turn, so that a run of a hundred nanoseconds can be timed.
fn subject<'a>(mix: &'a Mix, lists: &'a [Vec<u32>], kernels: &[Kernel]) -> Subject<'a> {
    Subject {
        name: mix.name.clone(),
        goal: None,
        units: vec![1; lists.len()],
        kernels: kernels.to_vec(),
        act: Box::new(move |kernel, part| {
            let mut table = mix.table.clone();
            let mut answers = vec![0; 3 * lists[0].len()];
            let mut holders = vec![0; domains(&mix.table)];
            let chosen: Vec<&Vec<u32>> = part.of(lists).collect();
            let start = Instant::now();
            for list in chosen {
                let outcome = kernel.run(&mut table, list, &mut answers, &mut holders);
                assert_eq!(outcome.code, 0);
            }
            start.elapsed()
        }),
    }
}

/// Every kernel's runs of lists of so many words.
pub fn at(mix: &Mix, words: usize, rounds: usize) -> Measured {
    Measured::of(&subject(mix, &mix.lists(words), KERNELS), rounds)
}

/// Whether the working run is the slower of the two proved ones.
pub fn working_is_slower(measured: &Measured) -> bool {
    let ratio = measured.ratio(WORKING.name, PROVED.name);
    ratio.is_some_and(|ratio| ratio >= 1.0)
}

/// Where the two cross, given at which of the lengths the working run is slower: between
/// the last of these and the next, halved until the two are a quarter apart.
pub fn crossing(slower: [bool; 5], mut is_slower: impl FnMut(usize) -> bool) -> Crossing {
    let Some(last) = slower.iter().rposition(|&slower| slower) else {
        return Crossing::Before(LENGTHS[0]);
    };
    let Some(&next) = LENGTHS.get(last + 1) else {
        return Crossing::Beyond(LENGTHS[last]);
    };
    let (mut low, mut high) = (LENGTHS[last], next);
    while high - low > 1 && 4 * high > 5 * low {
        let middle = ((low * high) as f64).sqrt() as usize;
        let middle = middle.clamp(low + 1, high - 1);
        if is_slower(middle) {
            low = middle;
        } else {
            high = middle;
        }
    }
    Crossing::Between(low, high)
}

/// The same, measured with the two proved runs alone.
pub fn measured_crossing(mix: &Mix, slower: [bool; 5], rounds: usize) -> Crossing {
    crossing(slower, |words| {
        let lists = mix.lists(words);
        let subject = subject(mix, &lists, &[PROVED, WORKING]);
        working_is_slower(&Measured::of(&subject, rounds))
    })
}

#[cfg(test)]
mod tests {
    use super::*;
    use crate::cases::mixes::mixes;

    /// The crossing where the working run is slower up to so many words.
    fn found(up_to: usize) -> Crossing {
        crossing(LENGTHS.map(|words| words <= up_to), |words| words <= up_to)
    }

    #[test]
    fn the_crossing_is_closed_in() {
        assert_eq!(found(0), Crossing::Before(1));
        assert_eq!(found(4096), Crossing::Beyond(4096));
        assert_eq!(found(1), Crossing::Between(1, 2));
        for up_to in [2, 7, 8, 30, 63, 64, 100, 511, 512, 700, 4095] {
            let Crossing::Between(low, high) = found(up_to) else {
                panic!("{up_to}: {:?}", found(up_to));
            };
            assert!(low <= up_to && up_to < high, "{up_to}: {low} {high}");
            assert!(high - low == 1 || 4 * high <= 5 * low, "{low} {high}");
        }
    }

    #[test]
    fn every_kernel_runs_every_mix() {
        for mix in mixes(1, 4, 4).iter().chain(&mixes(1, 16, 32)) {
            for words in LENGTHS {
                let measured = at(mix, words, 1);
                assert!(KERNELS
                    .iter()
                    .all(|kernel| measured.seconds(kernel.name).is_some()));
            }
        }
    }
}
