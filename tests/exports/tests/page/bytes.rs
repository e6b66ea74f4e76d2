//! "Calls over bytes" of `docs/SPECIFICATION.md`.

use exports::call::Call;
use exports::model::numbers::Table;
use exports::random::Random;
use exports::slices::{
    Field, Slice, Slices, ANSWER_BYTES, FIELDS, FLAGS, MOST_BUCKET_BYTES, MOST_ENTRY_BYTES,
    STATE_BYTES,
};

use crate::shape::{
    answer, as_bytes, at_rest, at_rest_for, find, iterate, moving, scan, value, Shape,
};

use Table::{New, Old};

/// A call of each export. On the store below none of them is answered 1.
const CALLS: [Call; 15] = [
    Call::Init {
        capacity: 8,
        size: 4,
    },
    Call::Find { key: 2 },
    Call::Update { key: 2, value: 1 },
    Call::Add { key: 5, value: 1 },
    Call::Delete { key: 2 },
    Call::Resize { size: 8 },
    Call::RehashStep,
    Call::Scan { cursor: 0 },
    Call::Iterate { place: 0 },
    Call::BeginIterator,
    Call::EndIterator { fingerprint: 1 },
    Call::BeginSafe,
    Call::EndSafe,
    Call::SuggestedSize { growing: 1 },
    Call::AllowResize { allowed: 0 },
];

fn random() -> Random {
    Random::new(1)
}

/// A store of keys 2 and 4 during a move, as bytes, with a list for three keys.
fn slices() -> Slices {
    as_bytes(&moving(2, 4).with(Old, 0, &[2]).with(New, 0, &[4]), 6)
}

/// The call is answered 1 by the first check: nothing is written but an answer of eight bytes, which becomes zeros.
fn refused_first(call: Call, slices: &Slices) {
    let mut after = slices.clone();
    assert_eq!(answer(call, &mut after), 1, "{call:?}");
    if after.answer.len() == ANSWER_BYTES {
        assert_eq!(after.answer.get(), [0; ANSWER_BYTES], "{call:?}");
        after.answer.clone_from(&slices.answer);
    }
    assert!(after == *slices, "{call:?} has written something");
}

fn passes_first_check(call: Call, slices: &Slices) {
    assert_ne!(answer(call, &mut slices.clone()), 1, "{call:?}");
}

fn with(change: impl FnOnce(&mut Slices)) -> Slices {
    let mut slices = slices();
    change(&mut slices);
    slices
}

#[test]
fn lengths_of_state_and_answer() {
    for call in CALLS {
        for length in 0..=60 {
            let slices = with(|slices| slices.state.set_length(&mut random(), length));
            match length {
                STATE_BYTES => passes_first_check(call, &slices),
                _ => refused_first(call, &slices),
            }
        }
        for length in 0..=16 {
            let slices = with(|slices| slices.answer.set_length(&mut random(), length));
            match length {
                ANSWER_BYTES => passes_first_check(call, &slices),
                _ => refused_first(call, &slices),
            }
        }
    }
}

#[test]
fn flags_above_one() {
    for number in [2, 255, 256, 1 << 31, u32::MAX] {
        for flag in FLAGS {
            let slices = with(|slices| slices.set_field(flag, number));
            for call in CALLS {
                match call {
                    Call::Init { .. } => passes_first_check(call, &slices),
                    _ => refused_first(call, &slices),
                }
            }
        }
        refused_first(Call::SuggestedSize { growing: number }, &slices());
        refused_first(Call::AllowResize { allowed: number }, &slices());
    }
}

/// A buffer among the slices, and the most bytes that it may have.
type Buffer = (usize, fn(&mut Slices) -> &mut Slice);

#[test]
fn lengths_of_buffers() {
    let buffers: [Buffer; 3] = [
        (MOST_BUCKET_BYTES, |slices| &mut slices.first),
        (MOST_BUCKET_BYTES, |slices| &mut slices.second),
        (MOST_ENTRY_BYTES, |slices| &mut slices.entries),
    ];
    for call in CALLS {
        for (most, buffer) in buffers {
            let of_length =
                |length| with(|slices| buffer(slices).set_length(&mut random(), length));
            let now = buffer(&mut slices()).len();
            for length in [now + 1, now + 2, now + 3, most + 1, most + 4, 2 * most] {
                refused_first(call, &of_length(length));
            }
            for length in [now, now + 4, most - 4, most] {
                passes_first_check(call, &of_length(length));
            }
        }
    }
}

#[test]
fn lengths_of_lists() {
    for call in [scan(0), iterate(0)] {
        for length in 0..=70_000 {
            if length > 64 && length % 9_001 > 8 {
                continue;
            }
            let slices = with(|slices| slices.list.set_length(&mut random(), length));
            match length % 4 {
                0 => passes_first_check(call, &slices),
                _ => refused_first(call, &slices),
            }
        }
    }
}

/// The number that a call returns, and the bytes of its answer, as two numbers.
fn answered(call: Call, slices: &mut Slices) -> (u32, u32, u32) {
    let number = answer(call, slices);
    (number, slices.answer.number(0), slices.answer.number(1))
}

#[test]
fn what_is_written_to_the_answer() {
    assert_eq!(answered(find(4), &mut slices()), (0, value(4), 0));
    assert_eq!(answered(find(6), &mut slices()), (3, 0, 0));
    assert_eq!(answered(Call::RehashStep, &mut slices()), (0, 1, 0));
    assert_eq!(answered(scan(1), &mut slices()), (0, 0, 0));
    assert_eq!(answered(scan(0), &mut slices()), (0, 1, 2));
    assert_eq!(
        answered(Call::SuggestedSize { growing: 1 }, &mut slices()),
        (0, 4, 0)
    );
    assert_eq!(answered(Call::BeginSafe, &mut slices()), (0, 0, 0));
    let mut short = with(|slices| slices.list.set_length(&mut random(), 12));
    assert_eq!(answered(scan(0), &mut short), (9, 0, 2));

    let mut new = as_bytes(&at_rest(4), 0);
    assert_eq!(answer(Call::BeginIterator, &mut new), 0);
    assert_eq!(
        new.answer.get(),
        13_078_267_905_649_422_074_u64.to_le_bytes()
    );
}

#[test]
fn what_is_written_to_the_list() {
    let before = slices();
    let mut after = before.clone();
    assert_eq!(answer(scan(0), &mut after), 0);
    let pairs: Vec<u32> = (0..4).map(|index| after.list.number(index)).collect();
    assert_eq!(pairs, [2, value(2), 4, value(4)]);
    assert_eq!(after.list.get()[16..], before.list.get()[16..]);
}

#[test]
fn numbers_lie_with_their_lowest_byte_first() {
    let mut slices = as_bytes(&at_rest(4), 0);
    let call = Call::Add {
        key: 0x0403_0201,
        value: 0x0807_0605,
    };
    assert_eq!(answer(call, &mut slices), 0);
    assert_eq!(
        slices.entries.get()[..12],
        [0, 0, 0, 0, 1, 2, 3, 4, 5, 6, 7, 8]
    );
    assert_eq!(
        slices.first.get()[4..8],
        [1, 0, 0, 0],
        "entry 1 is the head of bucket 1"
    );
}

#[test]
fn a_start_takes_no_state() {
    let any_state = || with(|slices| slices.state.get_mut().fill(255));
    let mut slices = any_state();
    assert_eq!(
        answered(
            Call::Init {
                capacity: 8,
                size: 4
            },
            &mut slices
        ),
        (0, 0, 0)
    );
    let state = FIELDS.map(|field| slices.field(field));
    assert_eq!(state, [0, 4, 0, 0, 0, 0, 0, 1, 8, 1, 0]);
    for (capacity, size, number) in [
        (0, 4, 6),
        (8, 3, 6),
        (65_537, 4, 6),
        (8, 131_072, 6),
        (4_097, 4, 1),
        (8, 8_192, 1),
    ] {
        let mut slices = any_state();
        assert_eq!(
            answered(Call::Init { capacity, size }, &mut slices),
            (number, 0, 0)
        );
        assert_eq!(slices.state.get(), [255; STATE_BYTES]);
    }
}

#[test]
fn tables_of_at_most_4096_buckets() {
    let mut slices = slices();
    slices.first = Slice::random(&mut random(), MOST_BUCKET_BYTES);
    slices.second = Slice::random(&mut random(), MOST_BUCKET_BYTES);
    slices.entries = Slice::random(&mut random(), MOST_ENTRY_BYTES);
    let start = Call::Init {
        capacity: 4_096,
        size: 4_096,
    };
    assert_eq!(answered(start, &mut slices), (0, 0, 0));
    assert_eq!(
        answered(Call::Resize { size: 8_192 }, &mut slices),
        (6, 0, 0)
    );
    for key in 0..4_096 {
        assert_eq!(
            answered(Call::Add { key, value: key }, &mut slices),
            (0, 0, 0)
        );
    }
    assert_eq!(
        slices.field(Field::Rehashing),
        0,
        "for the 8,192 buckets that are due there is no room"
    );
    assert_eq!(
        answered(Call::SuggestedSize { growing: 1 }, &mut slices),
        (0, 8_192, 0)
    );
    assert_eq!(
        answered(
            Call::Add {
                key: 4_096,
                value: 0
            },
            &mut slices
        ),
        (5, 0, 0)
    );
}

/// "Cases of bytes": a store of one entry, with key 7 that failed 513 times.
fn of_one_entry() -> Slices {
    let mut store = at_rest_for(1, 1);
    assert_eq!(store.make(Call::Add { key: 7, value: 513 }), (0, 0, 0));
    as_bytes(&store, 0)
}

fn with_list(length: usize) -> Slices {
    let mut slices = of_one_entry();
    slices.list.replace(&mut random(), &vec![9; length]);
    slices
}

#[test]
fn cases_of_lengths() {
    let longest = || {
        let mut slices = of_one_entry();
        slices.first.set_length(&mut random(), MOST_BUCKET_BYTES);
        slices.second.set_length(&mut random(), MOST_BUCKET_BYTES);
        slices.entries.set_length(&mut random(), MOST_ENTRY_BYTES);
        slices.list.set_length(&mut random(), 1 << 20);
        slices
    };
    passes_first_check(scan(0), &longest());
    let which: [fn(&mut Slices) -> &mut Slice; 6] = [
        |slices| &mut slices.state,
        |slices| &mut slices.first,
        |slices| &mut slices.second,
        |slices| &mut slices.entries,
        |slices| &mut slices.list,
        |slices| &mut slices.answer,
    ];
    let lengths: [&[usize]; 6] = [
        &[43, 48],
        &[16_388, 16_382],
        &[16_388, 16_382],
        &[49_156, 49_150],
        &[6],
        &[7, 16],
    ];
    for (slice, lengths) in which.into_iter().zip(lengths) {
        for &length in lengths {
            let mut slices = longest();
            slice(&mut slices).set_length(&mut random(), length);
            refused_first(scan(0), &slices);
        }
    }
}

#[test]
fn cases_of_starts() {
    let of_nines = |length| {
        let mut slices = of_one_entry();
        slices.state.replace(&mut random(), &vec![9; length]);
        slices
    };
    let mut slices = of_nines(44);
    assert_eq!(
        answered(
            Call::Init {
                capacity: 1,
                size: 1
            },
            &mut slices
        ),
        (0, 0, 0)
    );
    assert_eq!(
        FIELDS.map(|field| slices.field(field)),
        [0, 1, 0, 0, 0, 0, 0, 1, 1, 1, 0]
    );
    let mut slices = of_nines(44);
    assert_eq!(
        answered(
            Call::Init {
                capacity: 1,
                size: 3
            },
            &mut slices
        ),
        (6, 0, 0)
    );
    assert_eq!(slices.state.get(), [9; 44]);
    refused_first(
        Call::Init {
            capacity: 1,
            size: 1,
        },
        &of_nines(40),
    );
}

#[test]
fn cases_of_finds() {
    let mut slices = of_one_entry();
    assert_eq!(answer(find(7), &mut slices), 0);
    assert_eq!(slices.answer.get(), [1, 2, 0, 0, 0, 0, 0, 0]);
    assert_eq!(answered(find(8), &mut slices), (3, 0, 0));
    for flag in FLAGS {
        let mut slices = of_one_entry();
        slices.set_field(flag, 2);
        refused_first(find(7), &slices);
    }
    slices.answer.set_length(&mut random(), 7);
    refused_first(find(7), &slices);
}

#[test]
fn cases_of_lists() {
    let mut slices = with_list(12);
    assert_eq!(answered(scan(0), &mut slices), (0, 0, 1));
    assert_eq!(slices.list.get(), [7, 0, 0, 0, 1, 2, 0, 0, 9, 9, 9, 9]);
    let mut slices = with_list(4);
    assert_eq!(answered(scan(0), &mut slices), (9, 0, 1));
    assert_eq!(slices.list.get(), [9; 4]);
    assert_eq!(answered(iterate(0), &mut with_list(8)), (0, 1, 1));
}

#[test]
fn cases_of_flags() {
    assert_eq!(
        answered(Call::SuggestedSize { growing: 1 }, &mut of_one_entry()),
        (0, 4, 0)
    );
    refused_first(Call::SuggestedSize { growing: 2 }, &of_one_entry());
    let mut slices = of_one_entry();
    assert_eq!(slices.state.get()[36], 1);
    assert_eq!(
        answered(Call::AllowResize { allowed: 0 }, &mut slices),
        (0, 0, 0)
    );
    assert_eq!(slices.state.get()[36], 0);
    refused_first(Call::AllowResize { allowed: 256 }, &of_one_entry());
}

#[test]
fn case_of_a_fingerprint() {
    let mut slices = as_bytes(&at_rest(4), 0);
    assert_eq!(answer(Call::BeginIterator, &mut slices), 0);
    assert_eq!(slices.answer.get(), [250, 46, 160, 89, 94, 87, 127, 181]);
}
