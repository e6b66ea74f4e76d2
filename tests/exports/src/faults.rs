//! Models with one known fault each. A run that does not notice them would compare too little.

use crate::call::{Call, Model, Side};
use crate::model::bytes::checked;
use crate::model::numbers::{Store, Table};
use crate::slices::{
    Field, Slice, Slices, ANSWER_BYTES, FLAGS, MOST_BUCKET_BYTES, MOST_ENTRY_BYTES, STATE_BYTES,
};
use crate::told::{told, Rule};

#[derive(Clone, Copy, Debug, PartialEq, Eq)]
pub enum Fault {
    BytesInTheWrongOrder,
    StateFlagOfTwo,
    FlagArgumentOfTwo,
    StartReadsFlags,
    LongerState,
    LongerBucketBuffer,
    LongerEntryBuffer,
    RestOfTheListCleared,
    AnswerLeftOnRefusal,
    ShortWithoutItsNumber,
    FingerprintHalvesSwapped,
    RefusedStartWritesZeros,
    StepNotPaused,
    AddNotPaused,
    TenthBucketPassedThoughTheLast,
    GroupNotCountedTogether,
    RefusedAddKeepsItsStep,
    ResizeClearsTooMuch,
    FreedEntryKeepsItsKey,
    FlagsByOneByte,
    OneByteBehindTheAnswer,
    /// One of the rules by which an add or a delete is told to be refused before its step is taken.
    Forgets(Rule),
}

pub const FAULTS: [Fault; 27] = [
    Fault::BytesInTheWrongOrder,
    Fault::StateFlagOfTwo,
    Fault::FlagArgumentOfTwo,
    Fault::StartReadsFlags,
    Fault::LongerState,
    Fault::LongerBucketBuffer,
    Fault::LongerEntryBuffer,
    Fault::RestOfTheListCleared,
    Fault::AnswerLeftOnRefusal,
    Fault::ShortWithoutItsNumber,
    Fault::FingerprintHalvesSwapped,
    Fault::RefusedStartWritesZeros,
    Fault::StepNotPaused,
    Fault::AddNotPaused,
    Fault::TenthBucketPassedThoughTheLast,
    Fault::GroupNotCountedTogether,
    Fault::RefusedAddKeepsItsStep,
    Fault::ResizeClearsTooMuch,
    Fault::FreedEntryKeepsItsKey,
    Fault::FlagsByOneByte,
    Fault::OneByteBehindTheAnswer,
    Fault::Forgets(Rule::FewerInTheOldTable),
    Fault::Forgets(Rule::MoreInTheNewTable),
    Fault::Forgets(Rule::LessThoseThatCameFirst),
    Fault::Forgets(Rule::NoEntryOfTheMovedChain),
    Fault::Forgets(Rule::LinkToTheOneMovedBefore),
    Fault::Forgets(Rule::LinkToTheFormerHead),
];

/// The model with a fault.
pub struct Faulty(pub Fault);

impl Side for Faulty {
    fn answer(&self, call: Call, slices: &mut Slices) -> u32 {
        match self.0 {
            Fault::Forgets(rule) => Told {
                forgotten: Some(rule),
            }
            .answer(call, slices),
            Fault::BytesInTheWrongOrder => after(call, slices, |_, slices| {
                if slices.answer.len() == ANSWER_BYTES {
                    slices
                        .answer
                        .get_mut()
                        .chunks_exact_mut(4)
                        .for_each(<[u8]>::reverse);
                }
            }),
            Fault::StateFlagOfTwo => {
                with_flags(call, slices, |number| if number == 2 { 1 } else { number })
            }
            Fault::FlagsByOneByte => with_flags(call, slices, |number| number & 255),
            Fault::FlagArgumentOfTwo => {
                let call = match call {
                    Call::SuggestedSize { growing: 2 } => Call::SuggestedSize { growing: 1 },
                    Call::AllowResize { allowed: 2 } => Call::AllowResize { allowed: 1 },
                    other => other,
                };
                Model.answer(call, slices)
            }
            Fault::StartReadsFlags => {
                let flags_are_good = FLAGS.iter().all(|&flag| slices.field(flag) <= 1);
                match call {
                    // Every other call on these bytes reads the flags, and does just what such a start would do.
                    Call::Init { .. } if !flags_are_good => Model.answer(Call::BeginSafe, slices),
                    _ => Model.answer(call, slices),
                }
            }
            Fault::LongerState => {
                with_shorter(call, slices, STATE_BYTES + 4, STATE_BYTES, |slices| {
                    &mut slices.state
                })
            }
            Fault::LongerBucketBuffer => with_shorter(
                call,
                slices,
                MOST_BUCKET_BYTES + 4,
                MOST_BUCKET_BYTES,
                |slices| &mut slices.first,
            ),
            Fault::LongerEntryBuffer => with_shorter(
                call,
                slices,
                MOST_ENTRY_BYTES + 4,
                MOST_ENTRY_BYTES,
                |slices| &mut slices.entries,
            ),
            Fault::RestOfTheListCleared => after(call, slices, |number, slices| {
                if number == 0 && call.has_a_list() {
                    let written = 8 * slices.answer.number(1) as usize;
                    slices.list.get_mut()[written..].fill(0);
                }
            }),
            Fault::AnswerLeftOnRefusal => {
                let before = slices.answer.clone();
                after(call, slices, |number, slices| {
                    if number != 0 {
                        slices.answer.clone_from(&before);
                    }
                })
            }
            Fault::ShortWithoutItsNumber => after(call, slices, |number, slices| {
                if number == 9 {
                    slices.answer.get_mut().fill(0);
                }
            }),
            Fault::FingerprintHalvesSwapped => after(call, slices, |_, slices| {
                if call == Call::BeginIterator && slices.answer.len() == ANSWER_BYTES {
                    slices.answer.get_mut().rotate_left(4);
                }
            }),
            Fault::RefusedStartWritesZeros => after(call, slices, |number, slices| {
                if number == 6 {
                    slices.state.get_mut().fill(0);
                }
            }),
            Fault::StepNotPaused => match call {
                Call::RehashStep => not_paused(call, slices),
                _ => Model.answer(call, slices),
            },
            Fault::AddNotPaused => match call {
                Call::Add { .. } => not_paused(call, slices),
                _ => Model.answer(call, slices),
            },
            Fault::TenthBucketPassedThoughTheLast => {
                let number = Model.answer(call, slices);
                if (call, number) == (Call::RehashStep, 2) && ten_empty_buckets_left(slices) {
                    slices.set_field(Field::RehashIndex, slices.field(Field::OldSize));
                    return 0;
                }
                number
            }
            Fault::GroupNotCountedTogether => {
                let number = Model.answer(call, slices);
                match (call, number) {
                    (Call::Scan { cursor }, 2) if chains_are_sound(slices, cursor) => 0,
                    _ => number,
                }
            }
            Fault::RefusedAddKeepsItsStep => after(call, slices, |number, slices| {
                if number != 0 && matches!(call, Call::Add { .. }) {
                    Model.answer(Call::RehashStep, slices);
                    if slices.answer.len() == ANSWER_BYTES {
                        slices.answer.get_mut().fill(0);
                    }
                }
            }),
            Fault::ResizeClearsTooMuch => after(call, slices, |number, slices| {
                if number == 0 && matches!(call, Call::Resize { .. }) {
                    slices.buffer_mut(Table::New).get_mut().fill(0);
                }
            }),
            Fault::FreedEntryKeepsItsKey => after(call, slices, |number, slices| {
                if let (Call::Delete { key }, 0) = (call, number) {
                    slices.set_key(slices.field(Field::FreeHead), key);
                }
            }),
            Fault::OneByteBehindTheAnswer => after(call, slices, |_, slices| {
                if let Some(byte) = slices.answer.behind_mut().first_mut() {
                    *byte ^= 1;
                }
            }),
        }
    }
}

/// The model, but that of an add or a delete whose step comes first the number is told beforehand, and the free head
/// that it leaves, maybe with a rule forgotten.
pub struct Told {
    pub forgotten: Option<Rule>,
}

impl Side for Told {
    fn answer(&self, call: Call, slices: &mut Slices) -> u32 {
        let store = match call {
            Call::Add { .. } | Call::Delete { .. } => store_of(slices),
            _ => None,
        };
        let told = store.and_then(|store| told(&store, call, self.forgotten));
        let number = Model.answer(call, slices);
        match told {
            None => number,
            Some(Err(refusal)) => refusal.number(),
            Some(Ok(free_head)) => {
                if let Some(free_head) = free_head {
                    slices.set_field(Field::FreeHead, free_head);
                }
                0
            }
        }
    }
}

/// The store that the slices are, if they pass the first check.
fn store_of(slices: &Slices) -> Option<Store> {
    let (state, first) = (slices.state.get(), slices.first.get());
    let (second, entries) = (slices.second.get(), slices.entries.get());
    checked(state, first, second, entries, slices.answer.get())
}

/// Whether each chain of the group is sound by itself.
fn chains_are_sound(slices: &Slices, cursor: u32) -> bool {
    store_of(slices).is_some_and(|store| {
        let (group, _) = store.group(cursor);
        let mut chains = group.into_iter();
        chains.all(|(table, bucket)| store.chain(table, bucket).is_ok())
    })
}

fn ten_empty_buckets_left(slices: &Slices) -> bool {
    let next = slices.field(Field::RehashIndex);
    let end = slices.field(Field::OldSize);
    let table = slices.buffer(Table::Old);
    next + 10 == end && (next..end).all(|bucket| table.number(bucket as usize) == 0)
}

/// The model's answer, and something done behind it.
fn after(call: Call, slices: &mut Slices, then: impl FnOnce(u32, &mut Slices)) -> u32 {
    let number = Model.answer(call, slices);
    then(number, slices);
    number
}

/// The model's answer to other flags. Behind it the flags that were others are what they were.
fn with_flags(call: Call, slices: &mut Slices, read: impl Fn(u32) -> u32) -> u32 {
    let before = FLAGS.map(|flag| slices.field(flag));
    for (flag, number) in FLAGS.into_iter().zip(before) {
        slices.set_field(flag, read(number));
    }
    let answered = Model.answer(call, slices);
    for (flag, number) in FLAGS.into_iter().zip(before) {
        if read(number) != number {
            slices.set_field(flag, number);
        }
    }
    answered
}

/// The model's answer to a slice of one length as if it had another.
fn with_shorter(
    call: Call,
    slices: &mut Slices,
    length: usize,
    taken_for: usize,
    which: impl Fn(&mut Slices) -> &mut Slice,
) -> u32 {
    if which(slices).len() != length {
        return Model.answer(call, slices);
    }
    which(slices).set_end(taken_for);
    let number = Model.answer(call, slices);
    which(slices).set_end(length);
    number
}

/// The model's answer with no careful pass under way.
fn not_paused(call: Call, slices: &mut Slices) -> u32 {
    let count = slices.field(Field::SafeIterators);
    if count > 255 {
        return Model.answer(call, slices);
    }
    slices.set_field(Field::SafeIterators, 0);
    let number = Model.answer(call, slices);
    slices.set_field(Field::SafeIterators, count);
    number
}
