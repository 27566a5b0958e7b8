//! The end-of-shift sheet (document 02, request (e)): rows for what it counts, its codes
//! on both sides and their order, what is read of an input that is held open, and drawn
//! inputs against accounts that are kept from the lists' answers alone.

use std::io::{self, Read};

use crate::support::{bare_table, code_of, place, run_from, table_with};
use reference::example::{LIST_L, TABLE_T};
use reference::generate::{totals_input, Limits, Rng};
use reference::table::{capacity, endpoints, lost, waiting};
use reference::words::to_bytes;
use reference::{check_table, cut, totals, totals_of};

/// An input: the table and each list with its length before it.
fn input(table: &[u32], lists: &[&[u32]]) -> Vec<u8> {
    let mut bytes = with_length(table);
    for list in lists {
        bytes.extend(with_length(list));
    }
    bytes
}

fn with_length(words: &[u32]) -> Vec<u8> {
    to_bytes(&[&[words.len() as u32], words].concat())
}

fn printed(input: &[u8]) -> String {
    String::from_utf8(totals(input)).unwrap()
}

/// The last line alone.
fn last(input: &[u8]) -> String {
    printed(input).lines().last().unwrap().to_owned()
}

/// The lines for table T where only endpoint 1, which is empty at the start, is used.
fn sheet_t(sent: u32, received: u32, lost: u32, end: u32, last: &str) -> String {
    format!(
        "endpoint 0 sent 0 received 0 lost 0 start 0 end 0\n\
         endpoint 1 sent {sent} received {received} lost {lost} start 0 end {end}\n{last}\n"
    )
}

/// Domain 1, which has the right, sends to endpoint 1 of table T.
const SEND: [u32; 2] = [0x2040_0100, 0xF000_0005];
const RECEIVE: [u32; 1] = [0x3080_0100];

#[test]
fn list_l_once_and_twice() {
    let once = input(&TABLE_T, &[&LIST_L]);
    assert_eq!(printed(&once), sheet_t(2, 1, 1, 0, "lists 1 code 0"));
    // Domain 0 has the right to send from the start of the second list.
    let twice = input(&TABLE_T, &[&LIST_L, &LIST_L]);
    assert_eq!(printed(&twice), sheet_t(5, 2, 3, 0, "lists 2 code 0"));
    // Two lists are as one: the second goes on from the table that the first leaves.
    let both = [LIST_L, LIST_L].concat();
    let joined = input(&TABLE_T, &[&both]);
    assert_eq!(printed(&joined), sheet_t(5, 2, 3, 0, "lists 1 code 0"));
}

#[test]
fn sends_and_receives_that_are_refused_are_not_counted() {
    // 17, 14, 16, 18 and 19; a send that is done; 13.
    let list = [
        0x2000_0100,
        0xF000_0001,
        0x2040_0100,
        0x3080_0200,
        0x3040_0100,
        0x3080_0100,
        0x2040_0100,
        0xF000_0001,
        0x3080_0101,
    ];
    let printed = printed(&input(&TABLE_T, &[&list]));
    assert_eq!(printed, sheet_t(1, 0, 0, 1, "lists 1 code 0"));
}

#[test]
fn no_list_and_empty_lists() {
    assert_eq!(
        printed(&input(&TABLE_T, &[])),
        sheet_t(0, 0, 0, 0, "lists 0 code 0")
    );
    // An empty list is a list that ran.
    let empty = input(&TABLE_T, &[&[], &SEND, &[]]);
    assert_eq!(printed(&empty), sheet_t(1, 0, 0, 1, "lists 3 code 0"));
    assert_eq!(
        printed(&input(&bare_table(2, 0), &[&[]])),
        "lists 1 code 0\n"
    );
}

#[test]
fn waiting_at_the_start_and_the_end() {
    let table = table_with(&[
        (place::WAITING_0, 0x5000_0002),
        (place::WAITING_1, 0x5000_0001),
        (place::LOST_1, 0x6000_0009),
    ]);
    let list = [SEND.as_slice(), &RECEIVE, &RECEIVE, &SEND].concat();
    let expected = "endpoint 0 sent 0 received 0 lost 0 start 2 end 2\n\
                    endpoint 1 sent 2 received 1 lost 1 start 1 end 1\n\
                    lists 1 code 0\n";
    assert_eq!(printed(&input(&table, &[&list])), expected);
}

/// The table's lost count stops at its largest, the sheet's goes on.
#[test]
fn lost_is_not_the_tables_count() {
    let table = table_with(&[(place::LOST_1, 0x6FFF_FFFE)]);
    let list = SEND.repeat(100);
    let printed = printed(&input(&table, &[&list, &list]));
    assert_eq!(printed, sheet_t(200, 0, 199, 1, "lists 2 code 0"));
}

#[test]
fn a_table_refused_prints_the_last_line_alone() {
    let of = |words: &[u32], length: u32| {
        let mut bytes = input(words, &[&LIST_L, &[0; 5000]]);
        bytes[..4].copy_from_slice(&length.to_le_bytes());
        printed(&bytes)
    };
    for (place, code) in [(0, 2), (1, 4), (10, 5)] {
        let table = table_with(&[(place, 0)]);
        assert_eq!(of(&table, 34), format!("lists 0 code {code}\n"));
    }
    assert_eq!(of(&TABLE_T, 33), "lists 0 code 3\n");
    assert_eq!(of(&TABLE_T, 0), "lists 0 code 2\n");
    assert_eq!(of(&TABLE_T, 641), "lists 0 code 3\n");
    assert_eq!(of(&TABLE_T, 642), "lists 0 code 7\n");
    assert_eq!(of(&TABLE_T, u32::MAX), "lists 0 code 7\n");
    let whole = input(&TABLE_T, &[]);
    for length in 0..whole.len() {
        assert_eq!(printed(&whole[..length]), "lists 0 code 7\n");
    }
}

#[test]
fn code_1_length_above_4096() {
    let longest = [0x5000_0000; 4097];
    let runs = input(&TABLE_T, &[&SEND, &longest[..4096], &SEND]);
    assert_eq!(printed(&runs), sheet_t(2, 0, 1, 1, "lists 3 code 0"));
    let refused = input(&TABLE_T, &[&SEND, &longest, &SEND]);
    assert_eq!(printed(&refused), sheet_t(1, 0, 0, 1, "lists 1 code 1"));
    // Before 7, whether its list is there or cut short.
    for length in [4097_u32, 5000, 0x8000_0000, u32::MAX] {
        for words in [0, 1, 5000] {
            let mut bytes = input(&TABLE_T, &[]);
            bytes.extend(length.to_le_bytes());
            bytes.extend(vec![0; 4 * words]);
            assert_eq!(last(&bytes), "lists 0 code 1");
        }
    }
}

#[test]
fn code_7_list_or_length_word_cut_short() {
    let before = input(&TABLE_T, &[&SEND]);
    let whole = input(&TABLE_T, &[&SEND, &LIST_L]);
    for length in before.len()..whole.len() {
        let expected = match length - before.len() {
            0 => "lists 1 code 0",
            _ => "lists 1 code 7",
        };
        let printed = printed(&whole[..length]);
        assert_eq!(printed, sheet_t(1, 0, 0, 1, expected));
    }
    assert_eq!(last(&whole), "lists 2 code 0");
    for left_over in 1..4 {
        let bytes = [&whole[..], &vec![0; left_over]].concat();
        assert_eq!(last(&bytes), "lists 2 code 7");
    }
}

/// Table T, 65,535 empty lists and one more of one send.
fn most_lists() -> Vec<u8> {
    let mut bytes = input(&TABLE_T, &[]);
    bytes.extend(vec![0; 4 * 65_535]);
    bytes.extend(with_length(&SEND));
    bytes
}

#[test]
fn code_1_length_word_after_the_65536th() {
    let mut bytes = most_lists();
    let all_ran = sheet_t(1, 0, 0, 1, "lists 65536 code 0");
    let one_more = sheet_t(1, 0, 0, 1, "lists 65536 code 1");
    assert_eq!(printed(&bytes), all_ran);
    // A whole one, of an empty list too, and one that is cut short.
    for _ in 0..8 {
        bytes.push(0);
        assert_eq!(printed(&bytes), one_more);
    }
    // At place 65,536 it is as before.
    let mut bytes = most_lists();
    bytes.truncate(bytes.len() - 1);
    assert_eq!(last(&bytes), "lists 65535 code 7");
    bytes.truncate(bytes.len() - 11 + 3);
    assert_eq!(last(&bytes), "lists 65535 code 7");
    bytes.truncate(bytes.len() - 3);
    assert_eq!(last(&bytes), "lists 65535 code 0");
    bytes.extend(4097_u32.to_le_bytes());
    assert_eq!(last(&bytes), "lists 65535 code 1");
}

/// Every list of the most does its send.
#[test]
fn totals_of_65536_lists() {
    let mut bytes = input(&TABLE_T, &[]);
    bytes.extend(with_length(&SEND).repeat(65_536));
    let expected = sheet_t(65_536, 0, 65_535, 1, "lists 65536 code 0");
    assert_eq!(printed(&bytes), expected);
}

/// An input of which no more comes, and that doesn't end either: to read past it would
/// be to wait for good.
struct HeldOpen<'a>(&'a [u8]);

impl Read for HeldOpen<'_> {
    fn read(&mut self, space: &mut [u8]) -> io::Result<usize> {
        assert!(
            !self.0.is_empty() || space.is_empty(),
            "read past the input"
        );
        self.0.read(space)
    }
}

fn printed_held_open(bytes: &[u8]) -> String {
    String::from_utf8(totals_of(&mut HeldOpen(bytes))).unwrap()
}

#[test]
fn an_input_held_open_is_answered_as_soon_as_it_can_be() {
    // The length word of a table that no table has.
    assert_eq!(
        printed_held_open(&642_u32.to_le_bytes()),
        "lists 0 code 7\n"
    );
    assert_eq!(printed_held_open(&[0; 4]), "lists 0 code 2\n");
    // The last word of a table that is refused.
    for (place, code) in [(0, 2), (1, 4), (33, 5)] {
        let table = table_with(&[(place, 0)]);
        let held = printed_held_open(&input(&table, &[]));
        assert_eq!(held, format!("lists 0 code {code}\n"));
    }
    // A length word above 4,096, without its list.
    let mut bytes = input(&TABLE_T, &[&SEND]);
    bytes.extend(4097_u32.to_le_bytes());
    let held = printed_held_open(&bytes);
    assert_eq!(held, sheet_t(1, 0, 0, 1, "lists 1 code 1"));
    // The first byte past the most lists.
    let mut bytes = most_lists();
    bytes.push(0);
    let held = printed_held_open(&bytes);
    assert_eq!(held, sheet_t(1, 0, 0, 1, "lists 65536 code 1"));
}

/// An input that comes one byte at a time, now and then interrupted, and that ends in a
/// read that fails.
struct Dribble<'a> {
    rest: &'a [u8],
    reads: usize,
}

impl Read for Dribble<'_> {
    fn read(&mut self, space: &mut [u8]) -> io::Result<usize> {
        self.reads += 1;
        if self.reads.is_multiple_of(5) {
            return Err(io::ErrorKind::Interrupted.into());
        }
        if self.rest.is_empty() {
            return Err(io::ErrorKind::BrokenPipe.into());
        }
        let some = space.len().min(1);
        self.rest.read(&mut space[..some])
    }
}

/// Sends, receives and lost of one endpoint, kept from answers alone.
struct Account {
    capacity: usize,
    waiting: usize,
    start: usize,
    sent: u64,
    received: u64,
    lost: u64,
}

impl Account {
    fn open(table: &[u32], e: usize) -> Account {
        Account {
            capacity: capacity(table, e),
            waiting: waiting(table, e),
            start: waiting(table, e),
            sent: 0,
            received: 0,
            lost: 0,
        }
    }

    fn send(&mut self) {
        self.sent += 1;
        if self.waiting == self.capacity {
            self.lost += 1;
        } else {
            self.waiting += 1;
        }
    }

    fn receive(&mut self) {
        self.received += 1;
        self.waiting -= 1;
    }

    fn line(&self, e: usize) -> String {
        let came = self.sent + self.start as u64;
        let went = self.received + self.lost + self.waiting as u64;
        assert_eq!(came, went, "endpoint {e}");
        let (sent, received, lost) = (self.sent, self.received, self.lost);
        let (start, end) = (self.start, self.waiting);
        format!(
            "endpoint {e} sent {sent} received {received} lost {lost} start {start} end {end}\n"
        )
    }
}

/// The words of some bytes from a place on, where there are so many.
fn words_at(bytes: &[u8], place: usize, count: usize) -> Option<Vec<u32>> {
    let end = place.checked_add(count.checked_mul(4)?)?;
    let word = |four: &[u8]| u32::from_le_bytes(four.try_into().unwrap());
    Some(bytes.get(place..end)?.chunks(4).map(word).collect())
}

/// The table of an input, or the code that refuses it.
fn table_of(bytes: &[u8]) -> Result<Vec<u32>, u32> {
    let length = words_at(bytes, 0, 1).ok_or(7_u32)?[0] as usize;
    if length > 641 {
        return Err(7);
    }
    let table = words_at(bytes, 4, length).ok_or(7_u32)?;
    match check_table(&table) {
        0 => Ok(table),
        code => Err(code),
    }
}

/// The lists of an input that run, from a place on, and the code at their end.
fn lists_of(bytes: &[u8], mut place: usize) -> (Vec<Vec<u32>>, u32) {
    let mut lists = Vec::new();
    while place < bytes.len() {
        let length = words_at(bytes, place, 1).map(|word| word[0] as usize);
        if lists.len() == 65_536 || length.is_some_and(|length| length > 4096) {
            return (lists, 1);
        }
        match length.and_then(|length| words_at(bytes, place + 4, length)) {
            Some(list) => {
                place += 4 + 4 * list.len();
                lists.push(list);
            }
            None => return (lists, 7),
        }
    }
    (lists, 0)
}

/// What must be printed, by running every list and keeping accounts from its answers.
/// Of lost counts the table's are compared too, which stop at their largest.
fn expected(bytes: &[u8]) -> String {
    let table = match table_of(bytes) {
        Ok(table) => table,
        Err(code) => return format!("lists 0 code {code}\n"),
    };
    let (lists, code) = lists_of(bytes, 4 + 4 * table.len());
    let mut accounts: Vec<Account> = (0..endpoints(&table))
        .map(|e| Account::open(&table, e))
        .collect();
    let mut now = table.clone();
    for list in lists.iter().filter(|list| !list.is_empty()) {
        let ran = run_from(&now, list);
        assert_eq!(ran.code, 0);
        for (call, answer) in cut(list).iter().zip(ran.answers.chunks(3)) {
            match (call.kind(), code_of(answer)) {
                (2, 0) => accounts[call.b() as usize].send(),
                (3, 0) => accounts[call.b() as usize].receive(),
                _ => {}
            }
        }
        now = ran.table;
    }
    for (e, account) in accounts.iter().enumerate() {
        assert_eq!(account.waiting, waiting(&now, e));
        let count = u64::from(lost(&table, e)) + account.lost;
        assert_eq!(u64::from(lost(&now, e)), count.min(0x0FFF_FFFF));
    }
    let lines = accounts
        .iter()
        .enumerate()
        .map(|(e, account)| account.line(e));
    lines.collect::<String>() + &format!("lists {} code {code}\n", lists.len())
}

#[test]
fn sheets_of_drawn_inputs() {
    let mut met = std::collections::BTreeMap::new();
    let mut after_others = 0;
    for seed in 0..600 {
        let most = Limits {
            domains: 6,
            endpoints: 6,
            lists: 6,
            words: 30,
        };
        let bytes = totals_input(&mut Rng::new(seed), most);
        let text = printed(&bytes);
        assert_eq!(text, expected(&bytes), "seed {seed}");
        let mut dribble = Dribble {
            rest: &bytes,
            reads: 0,
        };
        if bytes.len() < 10_000 {
            let slowly = String::from_utf8(totals_of(&mut dribble)).unwrap();
            assert_eq!(slowly, text, "seed {seed}");
        }
        let line = last(&bytes);
        let code = line.rsplit(' ').next().unwrap().to_owned();
        after_others += usize::from(code != "0" && !line.starts_with("lists 0 "));
        *met.entry(code).or_insert(0) += 1;
    }
    for code in ["0", "1", "2", "3", "4", "5", "7"] {
        assert!(met.get(code).is_some_and(|&times| times > 2), "{met:?}");
    }
    assert!(met["0"] > 200 && met["1"] > 40 && met["7"] > 60, "{met:?}");
    assert!(after_others > 80, "{after_others}");
}
