//! Plain tables to try something on.

use reference::calls::STRAY;
use reference::table::{HEADER, INFO, LOST, NAME, RIGHTS, SLOTS, WAITING};
use reference::words::{word, EMPTY_SLOT};

/// A table in which every domain has every right on every domain, and the endpoints'
/// owners, which go round.
pub fn open_table(n: usize, m: usize) -> (Vec<u32>, Vec<usize>) {
    let owners: Vec<usize> = (0..m).map(|e| e % n).collect();
    (table_with(&vec![15; n * n], n, &owners), owners)
}

/// A table with the given rights, row by row, and endpoints of capacity 8, empty,
/// named from 101 on.
pub fn table_with(rights: &[u32], n: usize, owners: &[usize]) -> Vec<u32> {
    let mut table = vec![word(HEADER, (n << 8 | owners.len()) as u32)];
    table.extend(rights.iter().map(|&set| word(RIGHTS, set)));
    for (endpoint, owner) in owners.iter().enumerate() {
        table.push(word(NAME, (101 + endpoint) as u32));
        table.push(word(INFO, (owner << 8 | SLOTS) as u32));
        table.extend([word(WAITING, 0), word(LOST, 0)]);
        table.extend([EMPTY_SLOT; SLOTS]);
    }
    table
}

pub fn second(content: u32) -> u32 {
    word(STRAY, content)
}
