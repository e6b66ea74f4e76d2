//! What happened inside a call, told from the states before and after it: a run must have met all of it.

use crate::call::Call;
use crate::slices::{field_of, Field, Slice, Slices};

/// The bytes of a list for the keys of a store of 4,096 entries.
const LONGEST_NEEDED: usize = 32_768;

#[derive(Clone, Copy, Debug, PartialEq, Eq)]
#[repr(usize)]
pub enum Event {
    /// A resize that begins a move, and one that begins a paused one.
    ResizeBegan,
    ResizeWhilePaused,
    /// A step that moves keys, or passes ten empty buckets, and the move goes on,
    StepMoved,
    StepPassedTen,
    /// or that ends it, with keys moved or none.
    StepMovedAndEnded,
    StepEndedWithNone,
    /// An add by the step that comes first, and by the growth behind it.
    AddAtRest,
    AddWhilePaused,
    AddWithStep,
    AddWhoseStepEnded,
    AddAndGrowth,
    AddWhoseStepEndedAndGrowth,
    AddRefusedDuringAMove,
    /// A delete by the step that comes first.
    DeleteAtRest,
    DeleteWhilePaused,
    DeleteWithStep,
    DeleteWhoseStepEnded,
    DeleteRefusedDuringAMove,
    /// A walk call that hands out keys, or has none to hand out.
    ScanOfOneTable,
    ScanOfTwoTables,
    ScanOfNoKeys,
    /// A pass call that hands out a bucket, or finds none left.
    IterateHandsOut,
    IterateComesToTheEnd,
    /// What a list was beside the keys to be handed out; a store of the largest capacity needs 32,768 bytes.
    ListExactlyLongEnough,
    ListLongerThanNeeded,
    ListLongerThanAnyNeeded,
    ListShortByOneNumber,
    ListShortByOnePair,
    /// A list that only just holds the keys of a store of about the largest capacity.
    ListOfAboutTheMostKeys,
}

pub const EVENTS: [Event; 29] = [
    Event::ResizeBegan,
    Event::ResizeWhilePaused,
    Event::StepMoved,
    Event::StepPassedTen,
    Event::StepMovedAndEnded,
    Event::StepEndedWithNone,
    Event::AddAtRest,
    Event::AddWhilePaused,
    Event::AddWithStep,
    Event::AddWhoseStepEnded,
    Event::AddAndGrowth,
    Event::AddWhoseStepEndedAndGrowth,
    Event::AddRefusedDuringAMove,
    Event::DeleteAtRest,
    Event::DeleteWhilePaused,
    Event::DeleteWithStep,
    Event::DeleteWhoseStepEnded,
    Event::DeleteRefusedDuringAMove,
    Event::ScanOfOneTable,
    Event::ScanOfTwoTables,
    Event::ScanOfNoKeys,
    Event::IterateHandsOut,
    Event::IterateComesToTheEnd,
    Event::ListExactlyLongEnough,
    Event::ListLongerThanNeeded,
    Event::ListLongerThanAnyNeeded,
    Event::ListShortByOneNumber,
    Event::ListShortByOnePair,
    Event::ListOfAboutTheMostKeys,
];

/// What happened. A call that the first check refuses tells nothing.
pub fn events(
    call: Call,
    number: u32,
    state_before: &Slice,
    slices: &Slices,
) -> impl Iterator<Item = Event> {
    let told = number != 1;
    let of_the_store = told.then(|| of_the_store(call, number, state_before, slices));
    let of_the_list = (told && call.has_a_list()).then(|| of_the_list(number, slices));
    [of_the_store, of_the_list].into_iter().flatten().flatten()
}

fn of_the_store(call: Call, number: u32, state_before: &Slice, slices: &Slices) -> Option<Event> {
    let was = |field| field_of(state_before, field);
    let is = |field| slices.field(field);
    let moving = was(Field::Rehashing) == 1;
    let moves_on = is(Field::Rehashing) == 1;
    let paused = was(Field::SafeIterators) > 0;
    let ended = was(Field::SecondIsCurrent) != is(Field::SecondIsCurrent);
    let (one, other) = (slices.answer.number(0), slices.answer.number(1));
    match (call, number) {
        (Call::Resize { .. }, 0) if paused => Some(Event::ResizeWhilePaused),
        (Call::Resize { .. }, 0) => Some(Event::ResizeBegan),
        (Call::RehashStep, 0) => Some(match (one, other) {
            (0, 0) => Event::StepEndedWithNone,
            (0, _) => Event::StepPassedTen,
            (_, 0) => Event::StepMovedAndEnded,
            (_, _) => Event::StepMoved,
        }),
        (Call::Add { .. }, 0) => Some(match (moving, moves_on) {
            (false, false) => Event::AddAtRest,
            (false, true) => Event::AddAndGrowth,
            (true, _) if paused => Event::AddWhilePaused,
            (true, false) => Event::AddWhoseStepEnded,
            (true, true) if ended => Event::AddWhoseStepEndedAndGrowth,
            (true, true) => Event::AddWithStep,
        }),
        (Call::Delete { .. }, 0) => Some(match (moving, moves_on) {
            (false, _) => Event::DeleteAtRest,
            (true, _) if paused => Event::DeleteWhilePaused,
            (true, false) => Event::DeleteWhoseStepEnded,
            (true, true) => Event::DeleteWithStep,
        }),
        (Call::Add { .. }, _) if moving && !paused => Some(Event::AddRefusedDuringAMove),
        (Call::Delete { .. }, _) if moving && !paused => Some(Event::DeleteRefusedDuringAMove),
        (Call::Scan { .. }, 0) if was(Field::OldUsed) == 0 && was(Field::NewUsed) == 0 => {
            Some(Event::ScanOfNoKeys)
        }
        (Call::Scan { .. }, 0) if other > 0 && moving => Some(Event::ScanOfTwoTables),
        (Call::Scan { .. }, 0) if other > 0 => Some(Event::ScanOfOneTable),
        (Call::Iterate { .. }, 0) if other > 0 => Some(Event::IterateHandsOut),
        (Call::Iterate { .. }, 0) => Some(Event::IterateComesToTheEnd),
        _ => None,
    }
}

/// What the length of the list was, beside the keys that were to be handed out.
fn of_the_list(number: u32, slices: &Slices) -> Option<Event> {
    let (list, answer) = (&slices.list, &slices.answer);
    let needed = 8 * answer.number(1) as usize;
    match number {
        0 if list.len() > LONGEST_NEEDED => Some(Event::ListLongerThanAnyNeeded),
        0 if list.len() == needed && needed > LONGEST_NEEDED / 2 => {
            Some(Event::ListOfAboutTheMostKeys)
        }
        0 if needed > 0 && list.len() == needed => Some(Event::ListExactlyLongEnough),
        0 if needed > 0 => Some(Event::ListLongerThanNeeded),
        9 if list.len() + 4 == needed => Some(Event::ListShortByOneNumber),
        9 if list.len() + 8 == needed => Some(Event::ListShortByOnePair),
        _ => None,
    }
}
