//! What a fuzz has met, of runs and of table images.

use super::trying::Met;
use super::{images, runs};

pub struct Tally {
    pub runs: Met,
    pub images: Met,
}

impl Default for Tally {
    fn default() -> Tally {
        Tally {
            runs: runs::met(),
            images: images::met(),
        }
    }
}
