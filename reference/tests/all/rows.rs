//! What each call does to the table and gives as data, on tables written out.

use crate::support::{bare_table, call, place, run_from, table_with};
use reference::example::TABLE_T;
use reference::generate::call_word;
use reference::step;
use reference::words::hex;

/// Feeds one call to the machine: it must be done, give the data, and leave the
/// table with just these words changed.
fn done(table: &[u32], words: &[u32], data: [u32; 2], changes: &[(usize, u32)]) {
    let mut left = table.to_vec();
    let answer = step(&mut left, &call(words));
    assert_eq!(answer, [words[0] & 0xFFC0_0000, data[0], data[1]]);
    let mut expected = table.to_vec();
    for &(place, word) in changes {
        expected[place] = word;
    }
    assert_eq!(left, expected, "{}", hex(words));
}

#[test]
fn look_up_gives_the_number() {
    done(&TABLE_T, &[0x1080_0000, 0xF000_0011], [0, 0], &[]);
    done(&TABLE_T, &[0x1000_0000, 0xF000_0012], [1, 0], &[]);
    let table = bare_table(2, 32);
    done(&table, &[0x1040_0000, 0xF000_0020], [31, 0], &[]);
}

/// Table T where endpoint 0 has a capacity and holds some messages.
fn holding(capacity: u32, messages: &[u32]) -> Vec<u32> {
    let mut table = table_with(&[
        (place::INFO_0, 0x4000_0100 | capacity),
        (place::WAITING_0, 0x5000_0000 | messages.len() as u32),
    ]);
    for (slot, message) in messages.iter().enumerate() {
        table[place::SLOTS_0 + slot] = 0xF000_0000 | message;
    }
    table
}

#[test]
fn send_puts_the_message_last() {
    let send = [0x2000_0000, 0xFFFF_FFFF];
    for capacity in 1..=8 {
        for count in 0..capacity {
            let messages: Vec<u32> = (1..=count).collect();
            let changes = [
                (place::WAITING_0, 0x5000_0001 + count),
                (place::SLOTS_0 + count as usize, 0xFFFF_FFFF),
            ];
            done(&holding(capacity, &messages), &send, [0, 0], &changes);
        }
    }
}

#[test]
fn send_to_a_full_queue_drops_the_oldest() {
    let send = [0x2000_0000, 0xF000_0063];
    for capacity in 1..=8 {
        let messages: Vec<u32> = (1..=capacity).collect();
        let mut table = holding(capacity, &messages);
        // Messages 2, 3 and so on, then the newcomer.
        let mut changes: Vec<(usize, u32)> = (2..=capacity)
            .map(|message| (place::SLOTS_0 + message as usize - 2, 0xF000_0000 | message))
            .collect();
        changes.push((place::SLOTS_0 + capacity as usize - 1, 0xF000_0063));
        for lost in [0, 1, 0x0FFF_FFFD, 0x0FFF_FFFE, 0x0FFF_FFFF] {
            table[place::LOST_0] = 0x6000_0000 | lost;
            let risen = 0x0FFF_FFFF.min(lost + 1);
            changes.push((place::LOST_0, 0x6000_0000 | risen));
            done(&table, &send, [0, 0], &changes);
        }
    }
}

#[test]
fn receive_takes_the_oldest() {
    let receive = [0x3040_0000];
    for count in 1..=8 {
        let messages: Vec<u32> = (1..=count).map(|number| 16 * number).collect();
        let mut table = holding(8, &messages);
        table[place::LOST_0] = 0x6FFF_FFF7;
        let mut changes = vec![(place::WAITING_0, 0x5000_0000 + count - 1)];
        for slot in 1..count {
            let up = place::SLOTS_0 + slot as usize - 1;
            changes.push((up, 0xF000_0000 | messages[slot as usize]));
        }
        changes.push((place::SLOTS_0 + count as usize - 1, 0xF000_0000));
        done(&table, &receive, [16, 0x0FFF_FFF7], &changes);
    }
}

/// On any twelve words: slots from the waiting count on stay as they are.
#[test]
fn receive_leaves_the_slots_past_the_waiting_count() {
    let mut table = holding(8, &[5, 6]);
    table[place::SLOTS_0 + 2] = 0x1234_5678;
    table[place::SLOTS_0 + 7] = 0xF000_0007;
    let changes = [
        (place::WAITING_0, 0x5000_0001),
        (place::SLOTS_0, 0xF000_0006),
        (place::SLOTS_0 + 1, 0xF000_0000),
    ];
    done(&table, &[0x3040_0000], [5, 0], &changes);
}

#[test]
fn my_endpoints_sets_a_bit_for_each_owned() {
    done(&TABLE_T, &[0x4000_0000], [0, 0], &[]);
    done(&TABLE_T, &[0x4040_0000], [1, 0], &[]);
    done(&TABLE_T, &[0x4080_0000], [2, 0], &[]);
    let mut table = bare_table(2, 32);
    done(&table, &[0x4000_0000], [0xFFFF_FFFF, 0], &[]);
    table[5 + 12 * 31 + 1] = 0x4000_0101;
    done(&table, &[0x4000_0000], [0x7FFF_FFFF, 0], &[]);
    done(&table, &[0x4040_0000], [0x8000_0000, 0], &[]);
}

#[test]
fn my_rights_gives_four_bits_for_each_target() {
    done(&TABLE_T, &[0x5000_0000], [0x010, 0], &[]);
    done(&TABLE_T, &[0x5040_0000], [0x701, 0], &[]);
    done(&TABLE_T, &[0x5080_0000], [0, 0], &[]);
    let mut table = bare_table(16, 0);
    for target in 0..16 {
        table[1 + 16 * 5 + target] |= target as u32;
    }
    let data = [0x7654_3210, 0xFEDC_BA98];
    done(&table, &[0x5140_0000], data, &[]);
    table[1 + 16 * 5 + 8] = 0x2000_0007;
    let data = [0x7654_3210, 0xFEDC_BA97];
    done(&table, &[0x5140_0000], data, &[]);
}

#[test]
fn grant_adds_to_the_recipients_rights_on_the_target() {
    for had in 0..16 {
        for given in 1..16 {
            let at = place::rights(0, 2);
            let all = (place::rights(1, 2), 0x2000_000F);
            let table = table_with(&[all, (at, 0x2000_0000 | had)]);
            let changes = [(at, 0x2000_0000 | had | given)];
            done(&table, &[call_word(6, 1, 2, 0, given)], [0, 0], &changes);
        }
    }
    // Caller, target and recipient may all be one domain.
    let at = place::rights(0, 0);
    let table = table_with(&[(at, 0x2000_0002)]);
    done(&table, &[call_word(6, 0, 0, 0, 2)], [0, 0], &[]);
}

#[test]
fn remove_clears_a_set_of_the_callers_own_together() {
    let at = place::rights(1, 2);
    // Whatever set with REMOVE is held, and each set within it.
    for held in [4, 5, 6, 7, 12, 13, 14, 15] {
        let table = table_with(&[(at, 0x2000_0000 | held)]);
        for set in (1..16).filter(|set| held & set == *set) {
            let changes = [(at, 0x2000_0000 | (held - set))];
            done(&table, &[call_word(7, 1, 2, 0, set)], [0, 0], &changes);
        }
    }
    let table = table_with(&[(place::rights(0, 0), 0x2000_0004)]);
    let changes = [(place::rights(0, 0), 0x2000_0000)];
    done(&table, &[call_word(7, 0, 0, 0, 4)], [0, 0], &changes);
}

#[test]
fn revoke_clears_a_set_of_the_holders_whether_held_or_not() {
    let at = place::rights(0, 2);
    for held in 0..16 {
        let may = (place::rights(1, 2), 0x2000_0008);
        let table = table_with(&[may, (at, 0x2000_0000 | held)]);
        for set in 1..16 {
            let changes = [(at, 0x2000_0000 | (held & (15 - set)))];
            done(&table, &[call_word(8, 1, 2, 0, set)], [0, 0], &changes);
        }
    }
    // One's own rights, REVOKE among them, and all three domains being one.
    let at = place::rights(1, 2);
    let table = table_with(&[(at, 0x2000_000B)]);
    let revoke = [call_word(8, 1, 2, 1, 9)];
    done(&table, &revoke, [0, 0], &[(at, 0x2000_0002)]);
    let at = place::rights(0, 0);
    let table = table_with(&[(at, 0x2000_000F)]);
    let revoke = [call_word(8, 0, 0, 0, 15)];
    done(&table, &revoke, [0, 0], &[(at, 0x2000_0000)]);
}

#[test]
fn answers_carry_kind_caller_and_code() {
    let list = [0x3080_0100, 0x6042_0301, 0x2040_0100, 0xF000_0007];
    let answers = run_from(&TABLE_T, &list).answers;
    assert_eq!(answers[..3], [0x3080_0013, 0, 0]);
    assert_eq!(answers[3..6], [0x6040_0014, 0, 0]);
    assert_eq!(answers[6..9], [0x2040_0000, 0, 0]);
}
