//! Tables of the checklist's own: a fixed family that together shows everything, and the
//! tables that drills make word by word.

use reference::table::{right, HEADER, INFO, LOST, MESSAGE, NAME, RIGHTS, SLOTS, WAITING};
use reference::words::{word, CONTENT_MAX, EMPTY_SLOT};

/// The numbers of domains and of endpoints that the family has, each with each.
pub const DOMAINS: [usize; 6] = [1, 2, 8, 9, 15, 16];
pub const ENDPOINTS: [usize; 4] = [0, 1, 31, 32];

/// A table in the making.
#[derive(Clone)]
pub struct Shape {
    pub n: usize,
    /// The rights of each holder on each target, row by row.
    pub rights: Vec<u32>,
    pub queues: Vec<Queue>,
}

/// An endpoint in the making.
#[derive(Clone)]
pub struct Queue {
    pub name: u32,
    pub owner: usize,
    pub capacity: usize,
    pub messages: Vec<u32>,
    pub lost: u32,
}

/// A number with bits all over, another one for each number that is given.
pub fn spread(number: usize) -> u32 {
    (number as u32 + 1).wrapping_mul(0x9E3_779B) & CONTENT_MAX
}

/// The numbers of 28 bits that are one byte again and again, as a space is that was filled
/// with it.
pub fn patterns() -> impl Iterator<Item = u32> {
    (0..=0xFF).map(|byte| byte * 0x0101_0101 & CONTENT_MAX)
}

impl Shape {
    /// A table on which nobody has a right, and each queue is empty and holds eight.
    pub fn new(n: usize, m: usize) -> Shape {
        let queue = |e: usize| Queue {
            name: spread(e),
            owner: e % n,
            capacity: SLOTS,
            messages: Vec::new(),
            lost: 0,
        };
        Shape {
            n,
            rights: vec![0; n * n],
            queues: (0..m).map(queue).collect(),
        }
    }

    /// The same with these rights of each holder on each target.
    pub fn with_rights(mut self, of: impl Fn(usize, usize) -> u32) -> Shape {
        let n = self.n;
        self.rights = (0..n * n).map(|place| of(place / n, place % n)).collect();
        self
    }

    pub fn give(mut self, holder: usize, target: usize, set: u32) -> Shape {
        self.rights[holder * self.n + target] = set;
        self
    }

    pub fn words(&self) -> Vec<u32> {
        let sizes = (self.n << 8 | self.queues.len()) as u32;
        let mut words = vec![word(HEADER, sizes)];
        words.extend(self.rights.iter().map(|&set| word(RIGHTS, set)));
        words.extend(self.queues.iter().flat_map(Queue::words));
        words
    }
}

impl Queue {
    fn words(&self) -> Vec<u32> {
        let info = (self.owner << 8 | self.capacity) as u32;
        let mut words = vec![
            word(NAME, self.name),
            word(INFO, info),
            word(WAITING, self.messages.len() as u32),
            word(LOST, self.lost),
        ];
        words.extend(self.messages.iter().map(|&message| word(MESSAGE, message)));
        words.resize(4 + SLOTS, EMPTY_SLOT);
        words
    }
}

/// The family: each number of domains with each number of endpoints, smallest first. By
/// turns everyone has all rights, each has all on the next one, or each pair has a set of
/// its own; queues hold 1 or 8, some 2 to 7, and some are empty, full or in between.
pub fn family() -> Vec<Vec<u32>> {
    let sizes = DOMAINS.iter().flat_map(|&n| ENDPOINTS.map(|m| (n, m)));
    let tables = sizes.enumerate().map(|(place, (n, m))| {
        let rights = move |holder: usize, target: usize| match (place + place / 4) % 3 {
            0 => right::ALL,
            1 if target == (holder + 1) % n => right::ALL,
            1 => 0,
            _ => spread(holder * n + target) >> 9 & right::ALL,
        };
        let mut shape = Shape::new(n, m).with_rights(rights);
        for (e, queue) in shape.queues.iter_mut().enumerate() {
            queue.owner = (e * 7 + place) % n;
            queue.capacity = [1, 8, 8, 1, 2 + e % 6][(e + place) % 5];
            let waits = [0, queue.capacity, e % (queue.capacity + 1)][e % 3];
            queue.messages = (0..waits).map(|slot| spread(100 * e + slot)).collect();
            queue.lost = spread(e) >> (e % 28);
        }
        shape.words()
    });
    tables.collect()
}

#[cfg(test)]
mod tests {
    use super::*;
    use reference::table::{capacity, check_table, domains, endpoints};

    #[test]
    fn the_family_is_accepted_and_has_every_size_and_capacity() {
        let family = family();
        assert_eq!(family.len(), DOMAINS.len() * ENDPOINTS.len());
        let mut capacities = [0; SLOTS + 1];
        for table in &family {
            assert_eq!(check_table(table), 0);
            assert!(DOMAINS.contains(&domains(table)) && ENDPOINTS.contains(&endpoints(table)));
            (0..endpoints(table)).for_each(|e| capacities[capacity(table, e)] += 1);
        }
        assert!(
            capacities[1..].iter().all(|&count| count > 0),
            "{capacities:?}"
        );
    }
}
