//! Cases worked out by hand from the request. Behind what a store needs lies `BEHIND`, which stays.

use repair::memories::example;
use repair::memory::{Memory, State};
use repair::rules::{answer, Answer};

/// Four entries in a table of two buckets.
fn resting(old_used: u32, free_head: u32) -> State {
    State {
        old_size: 2,
        old_used,
        free_head,
        capacity: 4,
        resize_allowed: true,
        ..State::default()
    }
}

/// The same during a rehash to four buckets.
fn rehashing(old_used: u32, new_used: u32, rehash_index: u32, free_head: u32) -> State {
    State {
        new_size: 4,
        new_used,
        rehashing: true,
        rehash_index,
        safe_iterators: 2,
        ..resting(old_used, free_head)
    }
}

#[track_caller]
fn expect(before: &Memory, undamaged: u32, after: Memory) {
    let expected = Answer {
        verify: 0,
        undamaged,
        repair: 0,
        after,
    };
    assert_eq!(answer(before), expected);
}

#[test]
fn an_undamaged_store_keeps_its_chains() {
    let entries = [[3, 5, 50], [0, 4, 40], [0, 7, 70], [0, 8, 9]];
    let before = Memory::lent(resting(3, 4), &[2, 1], &[], &entries);
    // The free entry had a key, which nothing forbids.
    let entries = [[3, 5, 50], [0, 4, 40], [0, 7, 70], [0, 0, 0]];
    expect(
        &before,
        1,
        Memory::lent(resting(3, 4), &[2, 1], &[], &entries),
    );
}

#[test]
fn the_free_list_runs_upwards() {
    let entries = [[0, 0, 0], [1, 0, 0], [0, 7, 70], [2, 0, 0]];
    let before = Memory::lent(resting(1, 4), &[0, 3], &[], &entries);
    let entries = [[2, 0, 0], [4, 0, 0], [0, 7, 70], [0, 0, 0]];
    expect(
        &before,
        1,
        Memory::lent(resting(1, 1), &[0, 3], &[], &entries),
    );
}

#[test]
fn a_chain_stops_before_a_key_out_of_its_bucket() {
    let entries = [[3, 5, 50], [0, 4, 40], [0, 6, 70], [0, 0, 0]];
    let before = Memory::lent(resting(3, 4), &[2, 1], &[], &entries);
    let entries = [[0, 5, 50], [0, 4, 40], [4, 0, 0], [0, 0, 0]];
    expect(
        &before,
        0,
        Memory::lent(resting(2, 3), &[2, 1], &[], &entries),
    );
}

#[test]
fn a_chain_stops_where_it_loops_and_where_it_leaves_the_range() {
    let entries = [[3, 5, 50], [5, 4, 40], [1, 7, 70], [0, 0, 0]];
    let before = Memory::lent(resting(3, 4), &[2, 1], &[], &entries);
    let entries = [[3, 5, 50], [0, 4, 40], [0, 7, 70], [0, 0, 0]];
    expect(
        &before,
        0,
        Memory::lent(resting(3, 4), &[2, 1], &[], &entries),
    );
}

#[test]
fn a_head_out_of_range_is_no_chain() {
    let entries = [[3, 5, 50], [0, 4, 40], [0, 7, 70], [0, 0, 0]];
    let before = Memory::lent(resting(3, 4), &[2, 5], &[], &entries);
    let entries = [[3, 0, 0], [0, 4, 40], [4, 0, 0], [0, 0, 0]];
    expect(
        &before,
        0,
        Memory::lent(resting(1, 1), &[2, 0], &[], &entries),
    );
}

#[test]
fn a_key_that_is_kept_already_leaves_its_chain_which_goes_on() {
    let entries = [[3, 5, 50], [0, 4, 40], [4, 5, 51], [0, 7, 70]];
    let before = Memory::lent(resting(4, 0), &[2, 1], &[], &entries);
    let entries = [[4, 5, 50], [0, 4, 40], [0, 0, 0], [0, 7, 70]];
    expect(
        &before,
        0,
        Memory::lent(resting(3, 3), &[2, 1], &[], &entries),
    );
}

#[test]
fn of_a_key_in_both_tables_the_old_one_is_kept() {
    let entries = [[0, 5, 50], [0, 4, 40], [4, 5, 51], [0, 1, 10]];
    let before = Memory::lent(rehashing(2, 2, 0, 0), &[2, 1], &[0, 3, 0, 0], &entries);
    let entries = [[0, 5, 50], [0, 4, 40], [0, 0, 0], [0, 1, 10]];
    let after = Memory::lent(rehashing(2, 1, 0, 3), &[2, 1], &[0, 4, 0, 0], &entries);
    expect(&before, 0, after);
}

#[test]
fn a_shared_tail_stays_in_the_old_table() {
    let entries = [[2, 5, 50], [0, 9, 90], [2, 1, 10], [0, 0, 0]];
    let before = Memory::lent(rehashing(2, 1, 0, 4), &[0, 1], &[0, 3, 0, 0], &entries);
    let entries = [[2, 5, 50], [0, 9, 90], [0, 1, 10], [0, 0, 0]];
    let after = Memory::lent(rehashing(2, 1, 0, 4), &[0, 1], &[0, 3, 0, 0], &entries);
    expect(&before, 0, after);
}

#[test]
fn an_entry_out_of_its_bucket_can_be_met_elsewhere() {
    // Entry 1 has key 5, which does not belong to bucket 0 of the old table, and does to bucket 1 of the new one.
    let entries = [[0, 5, 50], [3, 0, 0], [4, 0, 0], [0, 0, 0]];
    let before = Memory::lent(rehashing(1, 0, 0, 2), &[1, 0], &[0, 1, 0, 0], &entries);
    let after = Memory::lent(rehashing(0, 1, 0, 2), &[0, 0], &[0, 1, 0, 0], &entries);
    expect(&before, 0, after);
}

#[test]
fn the_next_bucket_drops_to_a_filled_one_before_it() {
    let entries = [[0, 5, 50], [3, 0, 0], [4, 0, 0], [0, 0, 0]];
    let with_next = |next| Memory::lent(rehashing(1, 0, next, 2), &[0, 1], &[0; 4], &entries);
    expect(&with_next(2), 0, with_next(1));
    expect(&with_next(1), 1, with_next(1));
    expect(&with_next(0), 1, with_next(0));
}

/// A step would end this rehash; a repair does not.
#[test]
fn a_rehash_goes_on_with_no_old_key() {
    let entries = [[0, 6, 50], [3, 0, 0], [4, 0, 0], [0, 0, 0]];
    let before = Memory::lent(rehashing(1, 0, 1, 2), &[0, 1], &[0; 4], &entries);
    let entries = [[2, 0, 0], [3, 0, 0], [4, 0, 0], [0, 0, 0]];
    let after = Memory::lent(rehashing(0, 0, 1, 1), &[0, 0], &[0; 4], &entries);
    expect(&before, 0, after);
}

#[test]
fn false_counts_are_set_right() {
    let entries = [[0, 5, 50], [0, 2, 20], [4, 0, 0], [0, 0, 0]];
    let with_counts =
        |old, new| Memory::lent(rehashing(old, new, 0, 3), &[0, 1], &[0, 0, 2, 0], &entries);
    expect(&with_counts(1, 1), 1, with_counts(1, 1));
    for (old, new) in [(0, 1), (1, 0), (2, 1), (1, 2), (0, 2), (2, 0), (2, 2)] {
        expect(&with_counts(old, new), 0, with_counts(1, 1));
    }
}

#[test]
fn an_entry_on_no_chain_is_freed() {
    let entries = [[0, 5, 50], [0, 4, 40], [0, 7, 70], [0, 0, 0]];
    let before = Memory::lent(resting(2, 4), &[2, 1], &[], &entries);
    let entries = [[0, 5, 50], [0, 4, 40], [4, 0, 0], [0, 0, 0]];
    expect(
        &before,
        0,
        Memory::lent(resting(2, 3), &[2, 1], &[], &entries),
    );
}

/// The free list has the right length, and ends in a bucket's entry.
#[test]
fn a_free_list_that_ends_in_a_bucket_is_noticed() {
    let entries = [[0, 5, 50], [0, 4, 40], [1, 0, 0], [0, 0, 0]];
    let before = Memory::lent(resting(2, 3), &[2, 1], &[], &entries);
    let entries = [[0, 5, 50], [0, 4, 40], [4, 0, 0], [0, 0, 0]];
    expect(
        &before,
        0,
        Memory::lent(resting(2, 3), &[2, 1], &[], &entries),
    );
}

#[test]
fn with_the_second_buffer_current_the_old_table_lies_there() {
    let state = State {
        second_is_current: true,
        ..rehashing(1, 0, 2, 2)
    };
    let entries = [[0, 5, 50], [3, 0, 0], [4, 0, 0], [0, 0, 0]];
    let before = Memory::lent(state, &[0; 4], &[0, 1], &entries);
    let state = State {
        rehash_index: 1,
        ..state
    };
    expect(&before, 0, Memory::lent(state, &[0; 4], &[0, 1], &entries));
}

#[test]
fn an_unsound_state_is_refused_and_nothing_changes() {
    let entries = [[9, 9, 9]; 4];
    for state in [
        State::default(),
        resting(5, 0),
        resting(1, 5),
        rehashing(0, 0, 3, 0),
        State {
            safe_iterators: 256,
            ..resting(0, 1)
        },
    ] {
        let before = Memory::lent(state, &[9, 9], &[9; 4], &entries);
        let refused = Answer {
            verify: 1,
            undamaged: 0,
            repair: 1,
            after: before.clone(),
        };
        assert_eq!(answer(&before), refused);
    }
}

#[test]
fn the_example_of_the_specification() {
    let before = example();
    let state = State {
        new_used: 1,
        rehash_index: 1,
        free_head: 5,
        ..before.state
    };
    let entries = [
        [3, 5, 50],
        [0, 2, 20],
        [0, 9, 90],
        [0, 7, 70],
        [6, 0, 0],
        [7, 0, 0],
        [8, 0, 0],
        [0, 0, 0],
    ];
    let after = Memory::lent(state, &[0, 1, 2, 0], &[0, 0, 0, 0, 0, 0, 0, 4], &entries);
    expect(&before, 0, after);
}
