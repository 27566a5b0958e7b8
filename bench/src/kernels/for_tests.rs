//! The functions that archives for tests have, where the program was built with them: the
//! kernel's public step, its queue's functions and its check of a table's words.

#[cfg(any(test_export, check))]
use line::c_call;
use line::kernels::boundary::{Kernel, Step};

/// The public step of the proved kernel, where the program was built with it.
#[cfg(not(test_export))]
pub const PROVED_STEP: Option<Step> = None;

#[cfg(test_export)]
pub const PROVED_STEP: Option<Step> = Some(|table, call, answer, holders| {
    let (first, second) = (call.first, call.second.unwrap_or(0));
    let has_second = u32::from(call.second.is_some());
    c_call!(balkwizu_test_step -> u32, mut table, first, second, has_second, mut answer, mut holders,)
});

/// A send of a message to an endpoint's words, and a receive from them: whether it
/// was done, or the words stayed as they were.
#[derive(Clone, Copy)]
pub struct Queue {
    pub send: fn(words: &mut [u32], message: u32) -> bool,
    pub receive: fn(words: &mut [u32]) -> bool,
}

/// The queue's functions of the proved kernel, where the program was built with them.
#[cfg(not(test_export))]
pub const PROVED_QUEUE: Option<Queue> = None;

#[cfg(test_export)]
pub const PROVED_QUEUE: Option<Queue> = Some(Queue {
    send: |words, message| c_call!(balkwizu_test_send -> u32, mut words, message,) != 0,
    receive: |words| c_call!(balkwizu_test_receive -> u32, mut words,) != 0,
});

/// Whether the proved check of words is in this program.
pub const HAS_WORDS_CHECK: bool = cfg!(check);

/// The check of a table's words by a kernel: 0, or 2 to 5. Of the proved kernel it is the
/// check of words where the program has it, of others that of the bytes that the words are
/// in memory.
pub fn words_check(kernel: &Kernel, table: &[u32]) -> u32 {
    #[cfg(check)]
    if kernel.name == line::kernels::boundary::PROVED.name {
        return c_call!(balkwizu_test_check -> u32, const table,);
    }
    // SAFETY: the bytes of the words, which are valid for as long as they are.
    let bytes = unsafe { std::slice::from_raw_parts(table.as_ptr().cast(), 4 * table.len()) };
    kernel.table_check(bytes)
}

#[cfg(test)]
mod tests {
    use super::*;
    use crate::kernels::plain::KERNELS;
    use reference::example::TABLE_T;

    #[test]
    fn every_kernel_checks_words() {
        let (mut rights, mut slot) = (TABLE_T, TABLE_T);
        rights[1] ^= 1 << 4;
        slot[33] ^= 1;
        for kernel in KERNELS {
            assert_eq!(words_check(kernel, &TABLE_T), 0, "{}", kernel.name);
            assert_eq!(words_check(kernel, &[]), 2, "{}", kernel.name);
            assert_eq!(words_check(kernel, &TABLE_T[..33]), 3, "{}", kernel.name);
            assert_eq!(words_check(kernel, &rights), 4, "{}", kernel.name);
            assert_eq!(words_check(kernel, &slot), 5, "{}", kernel.name);
        }
    }
}

#[cfg(all(test, test_export))]
mod both_ways {
    use line::c_call;
    use line::cases::random::run_case;
    use line::cases::Case;
    use line::kernels::boundary::PROVED;
    use reference::example::{LIST_L, TABLE_T};

    /// Both runs of a list by the one function of the proved kernel that runs both, in
    /// place on a case and on the working layout of its copy: whether it says that they
    /// ended the same.
    fn both_ways(case: &mut Case, copy: &mut Case) -> bool {
        let (table, copied_table) = (&mut case.table[..], &mut copy.table[..]);
        let (list, answers, copied_answers) =
            (&case.list[..], &mut case.answers[..], &mut copy.answers[..]);
        let (holders, copied_holders) = (&mut case.holders[..], &mut copy.holders[..]);
        let same = c_call!(balkwizu_test_both_ways -> u32, mut table, mut copied_table,
            const list, mut answers, mut copied_answers, mut holders, mut copied_holders,);
        same == 1
    }

    #[test]
    fn both_runs_of_a_list_leave_the_same_words() {
        for number in 0..5000 {
            let mut case = run_case(1, number);
            let mut copy = case.clone();
            let mut alone = case.clone();
            assert!(both_ways(&mut case, &mut copy), "run {number}");
            assert_eq!(case, copy, "run {number}");
            let Case {
                table,
                list,
                answers,
                holders,
            } = &mut alone;
            PROVED.run(table, list, answers, holders);
            assert_eq!(case, alone, "run {number}");
        }
    }

    #[test]
    fn runs_of_different_tables_do_not_end_the_same() {
        let mut case = Case {
            table: TABLE_T.to_vec(),
            list: LIST_L.to_vec(),
            answers: vec![0; 27],
            holders: vec![0; 3],
        };
        let mut copy = case.clone();
        copy.table.clear();
        assert!(!both_ways(&mut case, &mut copy));
    }
}
