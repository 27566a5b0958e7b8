//! Kernels with one fault each, for tests of what judges them: every
//! comparison must tell them from a right one.

use reference::calls::GRANT;
use reference::table::LOST;
use reference::words::kind;

use crate::kernels::boundary::{Kernel, PROVED};

/// A kernel that does one more thing once the proved one has run: to the table, the
/// list, the answer space and the returned word, or to the holders' words.
macro_rules! faulty {
    ($name:literal, |$table:ident, $list:ident, $answers:ident, $result:ident| $fault:block) => {
        PROVED.with_run($name, |table, list, answers, holders| unsafe {
            let ($table, $list, $answers) = (&mut *table, &*list, &mut *answers);
            let outcome = PROVED.run($table, $list, $answers, &mut *holders);
            let $result = outcome.calls << 16 | outcome.code;
            $fault
        })
    };
    ($name:literal, |$holders:ident| $fault:block) => {
        PROVED.with_run($name, |table, list, answers, holders| unsafe {
            let $holders = &mut *holders;
            let outcome = PROVED.run(&mut *table, &*list, &mut *answers, $holders);
            $fault
            outcome.calls << 16 | outcome.code
        })
    };
}

/// Says that a table with a bad endpoint is sound.
pub const LENIENT_CHECK: Kernel = PROVED.with_check("lenient check", |bytes| unsafe {
    PROVED.table_check(&*bytes) % 5
});

pub const WRONG_ANSWER: Kernel = faulty!("wrong answer", |_t, _l, answers, result| {
    let calls = (result >> 16) as usize;
    if calls > 0 {
        answers[3 * calls - 2] ^= 1;
    }
    result
});

pub const WRONG_TABLE: Kernel = faulty!("wrong table", |table, _l, _a, result| {
    if let Some(last) = table.last_mut() {
        *last ^= 1;
    }
    result
});

pub const WRITES_WORD_0: Kernel = faulty!("writes word 0", |table, _l, _a, result| {
    if let Some(first) = table.first_mut() {
        *first = 0x1000_1020;
    }
    result
});

pub const WRONG_CODE: Kernel = faulty!("wrong code", |_t, _l, _a, result| {
    result & 0xFFFF_0000 | 6
});

pub const WRONG_COUNT: Kernel = faulty!("wrong count", |_t, _l, _a, result| { result + 0x1_0000 });

pub const WRITES_BEYOND_ANSWERS: Kernel =
    faulty!("writes beyond the answers", |_t, _l, answers, result| {
        if let Some(word) = answers.get_mut(3 * (result >> 16) as usize) {
            *word = 0;
        }
        result
    });

pub const WRITES_OUTSIDE: Kernel = faulty!("writes outside", |_t, _l, answers, result| {
    // The comparison lends the answers from the middle of a larger space.
    *answers.as_mut_ptr().add(answers.len()) = 0;
    result
});

pub const WRITES_LIST: Kernel = faulty!("writes the list", |_t, list, _a, result| {
    if !list.is_empty() {
        // The comparison lends the list from words that may be written.
        *list.as_ptr().cast_mut() ^= 1;
    }
    result
});

pub const WRONG_HOLDERS: Kernel = faulty!("wrong holders", |holders| {
    if let Some(last) = holders.last_mut() {
        *last ^= 1;
    }
});

pub const WRITES_AFTER_HOLDERS: Kernel = faulty!("writes after the holders", |holders| {
    // The comparison lends them from the middle of a larger space.
    *holders.as_mut_ptr().add(holders.len()) = 0;
});

pub const LOSES_COUNT: Kernel = faulty!("loses the lost count", |table, _l, _a, result| {
    for word in table.iter_mut().filter(|word| kind(**word) == LOST) {
        *word = reference::words::word(LOST, 0);
    }
    result
});

/// Whether a list has a call of the kind.
fn has(list: &[u32], kind: u32) -> bool {
    reference::cut(list).iter().any(|call| call.kind() == kind)
}

pub const FAULTS_AT_A_GRANT: Kernel = faulty!("faults", |_t, list, _a, result| {
    if has(list, GRANT) {
        let nowhere = std::hint::black_box(8 as *mut u32);
        nowhere.write_volatile(result);
    }
    result
});

pub const LOOPS_AT_A_GRANT: Kernel = faulty!("loops", |_t, list, _a, result| {
    while has(list, GRANT) {
        std::hint::spin_loop();
    }
    result
});

pub const EXITS_AT_A_GRANT: Kernel = faulty!("exits", |_t, list, _a, result| {
    if has(list, GRANT) {
        std::process::exit(0);
    }
    result
});

/// Its check faults where bytes are left over after the last whole word.
pub const CHECK_FAULTS: Kernel = PROVED.with_check("check faults", |bytes| unsafe {
    let nowhere = std::hint::black_box(8 as *mut u32);
    if bytes.len() % 4 != 0 {
        nowhere.write_volatile(0);
    }
    PROVED.table_check(&*bytes)
});
