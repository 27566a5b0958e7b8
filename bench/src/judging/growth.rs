//! How cost grows: the time of a run by the length of its list, by the number of domains
//! and by that of endpoints, and the time of a check by these two.

use reference::words::to_bytes;

use crate::cases::mixes::{mixes, Mix};
use crate::judging::lengths::at;
use crate::judging::timing::{checks_of, Measured};
use line::cases::tables::open_table;

/// The words of a list where the table's size is what grows.
pub const WORDS: usize = 512;

/// The domains and the endpoints where the other is what grows.
const DOMAINS: usize = 8;
const ENDPOINTS: usize = 8;

/// What is measured at a point.
enum Point {
    /// Runs of mixed lists of so many words.
    Run(Mix, usize),
    /// The check of a table.
    Check(Vec<u32>),
}

/// Points along which one thing grows. The name ends with what that is.
pub struct Series {
    pub name: String,
    points: Vec<(usize, Point)>,
}

/// All that is measured.
pub fn series(seed: u64) -> Vec<Series> {
    let lengths = || (0..=12).map(|power| 1 << power);
    let domains = || (2..=16).step_by(2);
    let endpoints = || [1].into_iter().chain((4..=32).step_by(4));
    let mixed = |n, m| mixes(seed, n, m).remove(0);
    let check = |n, m| Point::Check(open_table(n, m).0);
    vec![
        of("mixed, n 4, m 4, by words", lengths(), |words| {
            Point::Run(mixed(4, 4), words)
        }),
        of("mixed, n 16, m 32, by words", lengths(), |words| {
            Point::Run(mixed(16, 32), words)
        }),
        of("mixed, 512 words, m 8, by n", domains(), |n| {
            Point::Run(mixed(n, ENDPOINTS), WORDS)
        }),
        of("mixed, 512 words, n 8, by m", endpoints(), |m| {
            Point::Run(mixed(DOMAINS, m), WORDS)
        }),
        of("table check, m 8, by n", domains(), |n| check(n, ENDPOINTS)),
        of("table check, n 8, by m", endpoints(), |m| check(DOMAINS, m)),
    ]
}

fn of(name: &str, along: impl Iterator<Item = usize>, point: impl Fn(usize) -> Point) -> Series {
    Series {
        name: name.to_string(),
        points: along.map(|at| (at, point(at))).collect(),
    }
}

impl Series {
    /// The mixes that are run, each with the words of a list.
    pub fn runs(&self) -> impl Iterator<Item = (&Mix, usize)> {
        self.points.iter().filter_map(|(_, point)| match point {
            Point::Run(mix, words) => Some((mix, *words)),
            Point::Check(_) => None,
        })
    }

    /// Measures point after point.
    pub fn measured(&self, rounds: usize) -> impl Iterator<Item = (usize, Measured)> + '_ {
        self.points.iter().map(move |(place, point)| {
            let measured = match point {
                Point::Run(mix, words) => at(mix, *words, rounds),
                Point::Check(table) => {
                    Measured::of(&checks_of(&self.name, to_bytes(table)), rounds)
                }
            };
            (*place, measured)
        })
    }
}

#[cfg(test)]
mod tests {
    use super::*;
    use crate::judging::timing::proved;
    use crate::kernels::plain::KERNELS;

    #[test]
    fn a_series_says_what_grows_and_of_what() {
        let all = series(1);
        let names: Vec<&str> = all.iter().map(|series| &series.name[..]).collect();
        assert!(names[2].contains(&format!("{WORDS} words, m {ENDPOINTS}, by n")));
        assert!(names[3].contains(&format!("{WORDS} words, n {DOMAINS}, by m")));
        assert!(names[4].contains(&format!("m {ENDPOINTS}, by n")));
        assert!(names[5].contains(&format!("n {DOMAINS}, by m")));
        for series in &all {
            let places: Vec<usize> = series.points.iter().map(|(at, _)| *at).collect();
            assert!(places.windows(2).all(|two| two[0] < two[1]), "{places:?}");
            let last = [4096, 16, 32].contains(places.last().unwrap());
            assert!(last, "{}: {places:?}", series.name);
        }
    }

    #[test]
    fn every_point_is_measured() {
        for series in series(1).iter().skip(2) {
            // One check is for all proved kernels.
            let spared = match series.runs().count() {
                0 => proved().count() - 1,
                _ => 0,
            };
            let measured: Vec<_> = series.measured(1).collect();
            assert_eq!(measured.len(), series.points.len());
            for (_, measured) in measured {
                assert_eq!(measured.kernels().count(), KERNELS.len() - spared);
            }
        }
    }
}
