//! Images of every length, whole words or not: with the bytes of a sound table after their
//! end, which a check that reads on would take for theirs, and at the edge of memory, where
//! it stops.

use reference::check_bytes;
use reference::words::to_bytes;

use super::tables::Shape;
use super::{Given, Tables, Take};
use crate::cases::Case;
use crate::judging::images::rows;
use crate::kernels::boundary::Kernel;
use crate::kernels::lent::Edges;
use crate::text::explain::counted;

/// An image: the first bytes, so many, of what is there from a place on; and the code that
/// it is checked with.
#[derive(Clone)]
pub struct Image {
    space: Vec<u8>,
    start: usize,
    length: usize,
    should: u32,
}

/// So many bytes more than its table an image has at most, and so many places it begins at.
const MORE: usize = 32;
const STARTS: usize = 4;

/// The drill: every length on the line's table and on two others, and for each size of table
/// the lengths around its own.
pub fn images(tables: &Tables, take: &mut Take) {
    for table in tables.few() {
        for length in 0..=4 * table.len() + MORE {
            given(table, length, take);
        }
    }
    for (n, m) in (1..=16).flat_map(|n| (0..=32).map(move |m| (n, m))) {
        let table = Shape::new(n, m).words();
        for length in 4 * table.len() - 4..=4 * table.len() + 4 {
            given(&table, length, take);
        }
    }
}

/// A table's first bytes, so many, or as many after its end; at each place a word may begin
/// where they are few.
fn given(table: &[u32], length: usize, take: &mut Take) {
    let starts = match length {
        0..=MORE => 0..STARTS,
        _ => length % STARTS..length % STARTS + 1,
    };
    for start in starts {
        let after = to_bytes(&[0xF000_0000; 2 * MORE / 4]);
        let space = [&vec![0xA5; start][..], &to_bytes(table), &after].concat();
        let should = check_bytes(&space[start..start + length]);
        take(Given::Image(Image {
            space,
            start,
            length,
            should,
        }));
    }
}

impl Image {
    /// The image that a table is, at an odd address.
    pub fn of(table: &[u32]) -> Image {
        Image::with_code(table, check_bytes(&to_bytes(table)))
    }

    /// The same of the table of a run that rightly ends with a code, which says what is
    /// wrong with the table unless the list is looked at first.
    pub fn of_run(case: &Case, code: u32) -> Image {
        match code {
            1 => Image::of(&case.table),
            2..=5 => Image::with_code(&case.table, code),
            _ => Image::with_code(&case.table, 0),
        }
    }

    fn with_code(table: &[u32], should: u32) -> Image {
        let bytes = to_bytes(table);
        Image {
            space: [&[0xA5], &bytes[..]].concat(),
            start: 1,
            length: bytes.len(),
            should,
        }
    }

    fn bytes(&self) -> &[u8] {
        &self.space[self.start..self.start + self.length]
    }

    /// What is wrong with a kernel's check of the image amid other bytes.
    pub fn difference(&self, kernel: &Kernel) -> Option<String> {
        self.wrong_with(kernel.table_check(self.bytes()))
    }

    /// The same where nothing may be read after its end.
    pub fn difference_at_the_edge(&self, kernel: &Kernel, edges: &mut Edges) -> Option<String> {
        self.wrong_with(edges.check(kernel, self.bytes()))
    }

    fn wrong_with(&self, code: u32) -> Option<String> {
        let should = self.should;
        (code != should)
            .then(|| format!("the table's image is checked with {code}, it should be {should}"))
    }

    pub fn in_words(&self) -> String {
        let length = counted(self.length, "byte");
        format!("An image of {length}:\n{}", rows(self.bytes()))
    }
}

#[cfg(test)]
mod tests {
    use super::*;
    use crate::kernels::boundary::PROVED;

    #[test]
    fn a_check_that_reads_on_is_found() {
        let three = Image {
            length: 3,
            should: 2,
            ..Image::of(&Shape::new(1, 1).words())
        };
        let edges = &mut Edges::new().unwrap();
        assert_eq!(three.difference(&PROVED), None);
        assert_eq!(three.difference_at_the_edge(&PROVED, edges), None);
        let reads_on = PROVED.with_check("reads on", |bytes| unsafe {
            match bytes.len() {
                3 => 3,
                _ => PROVED.table_check(&*bytes),
            }
        });
        let said = "the table's image is checked with 3, it should be 2".to_string();
        assert_eq!(three.difference(&reads_on), Some(said.clone()));
        let at_the_edge = three.difference_at_the_edge(&reads_on, edges);
        assert_eq!(at_the_edge, Some(said));
        assert_eq!(three.in_words(), "An image of 3 bytes:\n0000  01 01 00\n");
    }
}
