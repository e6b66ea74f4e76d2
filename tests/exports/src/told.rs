//! What an add or a delete answers during a move that is not paused, told from the memory before its step: the rules
//! at the end of "The step that comes first" in `docs/SPECIFICATION.md`. The model takes the step on a copy and needs
//! none of them. Each of them matters only on damaged memory of a certain kind; a run that meets that kind notices if
//! one is forgotten.

use crate::call::Call;
use crate::model::numbers::{Answer, Refusal, Store, Table};

#[derive(Clone, Copy, Debug, PartialEq, Eq)]
pub enum Rule {
    /// An old chain is read with the old count less the number of entries moved.
    FewerInTheOldTable,
    /// A new chain is read with the new count, more by the number of entries moved,
    MoreInTheNewTable,
    /// less by those of them that come before it.
    LessThoseThatCameFirst,
    /// It must have no entry of the chain that was moved.
    NoEntryOfTheMovedChain,
    /// The link of a first free entry on the moved chain is the entry moved to the same bucket just before it,
    LinkToTheOneMovedBefore,
    /// or that bucket's head before the step.
    LinkToTheFormerHead,
}

/// What the step will do.
struct Step {
    /// The chain that it moves, and its bucket.
    moved: Option<(u32, Vec<u32>)>,
    ends_the_move: bool,
}

/// What is told of a call: that it is refused, or that it is answered and leaves this free head, if it is told.
pub type Told = Answer<Option<u32>>;

/// What the call will answer, where a rule may be forgotten. None for another call, and where no step comes first.
pub fn told(store: &Store, call: Call, forgotten: Option<Rule>) -> Option<Told> {
    if !store.state_is_sound() || !store.state.rehashing || store.state.paused() {
        return None;
    }
    match call {
        Call::Add { key, .. } => Some(add(store, key, forgotten).map(Some)),
        Call::Delete { key } => Some(delete(store, key, forgotten).map(|()| None)),
        _ => None,
    }
}

/// The free head that the add leaves.
fn add(store: &Store, key: u32, forgotten: Option<Rule>) -> Answer<u32> {
    let step = step(store)?;
    if is_held(store, &step, key, forgotten)? {
        return Err(Refusal::Present);
    }
    if store.state.held() == u64::from(store.state.capacity) {
        return Err(Refusal::Full);
    }
    let head = store.state.free_head;
    if head == 0 {
        return Err(Refusal::Damaged);
    }
    let link = free_link(store, &step, head, forgotten);
    if link > store.state.capacity {
        return Err(Refusal::Damaged);
    }
    Ok(link)
}

fn delete(store: &Store, key: u32, forgotten: Option<Rule>) -> Answer<()> {
    let step = step(store)?;
    match is_held(store, &step, key, forgotten)? {
        true => Ok(()),
        false => Err(Refusal::Absent),
    }
}

fn step(store: &Store) -> Answer<Step> {
    let state = &store.state;
    if state.old_used == 0 {
        return Ok(Step {
            moved: None,
            ends_the_move: true,
        });
    }
    let left = state.rehash_index..state.old_size;
    let filled = left
        .clone()
        .take(10)
        .find(|&bucket| store.head(Table::Old, bucket) != 0);
    match filled {
        Some(bucket) => {
            let chain = store.chain(Table::Old, bucket)?;
            let ends_the_move = chain.len() == state.old_used as usize;
            Ok(Step {
                moved: Some((bucket, chain)),
                ends_the_move,
            })
        }
        None if left.len() > 10 => Ok(Step {
            moved: None,
            ends_the_move: false,
        }),
        None => Err(Refusal::Damaged),
    }
}

/// Whether the key is on one of the chains that find would read behind the step.
fn is_held(store: &Store, step: &Step, key: u32, forgotten: Option<Rule>) -> Answer<bool> {
    let keeps = |rule| forgotten != Some(rule);
    let no_chain = Vec::new();
    let (moved_bucket, moved) = match &step.moved {
        Some((bucket, chain)) => (Some(*bucket), chain),
        None => (None, &no_chain),
    };
    let count = moved.len() as u32;
    let mut read = Vec::new();

    let old_bucket = store.bucket(Table::Old, key);
    if !step.ends_the_move && moved_bucket != Some(old_bucket) {
        let fewer = if keeps(Rule::FewerInTheOldTable) {
            count
        } else {
            0
        };
        let most = store.state.old_used - fewer;
        read.extend(store.chain_of_at_most(most, Table::Old, old_bucket)?);
    }

    let new_bucket = store.bucket(Table::New, key);
    let came_first = moved
        .iter()
        .filter(|&&entry| store.bucket(Table::New, store.key(entry)) == new_bucket);
    let came_first: Vec<u32> = came_first.copied().collect();
    let more = if keeps(Rule::MoreInTheNewTable) {
        count
    } else {
        0
    };
    let less = if keeps(Rule::LessThoseThatCameFirst) {
        came_first.len() as u32
    } else {
        0
    };
    let most = (store.state.new_used + more).saturating_sub(less);
    let as_it_is = store.chain_of_at_most(most, Table::New, new_bucket)?;
    let shares = as_it_is.last().is_some() && as_it_is.last() == moved.last();
    if shares && keeps(Rule::NoEntryOfTheMovedChain) {
        return Err(Refusal::Damaged);
    }
    read.extend(came_first);
    read.extend(as_it_is);
    Ok(read.into_iter().any(|entry| store.key(entry) == key))
}

/// The link of the first free entry behind the step.
fn free_link(store: &Store, step: &Step, head: u32, forgotten: Option<Rule>) -> u32 {
    let keeps = |rule| forgotten != Some(rule);
    let Some((_, moved)) = &step.moved else {
        return store.link(head);
    };
    let Some(at) = moved.iter().position(|&entry| entry == head) else {
        return store.link(head);
    };
    let bucket_of = |entry| store.bucket(Table::New, store.key(entry));
    let bucket = bucket_of(head);
    match moved[..at]
        .iter()
        .rev()
        .find(|&&entry| bucket_of(entry) == bucket)
    {
        Some(&before) if keeps(Rule::LinkToTheOneMovedBefore) => before,
        None if keeps(Rule::LinkToTheFormerHead) => store.head(Table::New, bucket),
        _ => store.link(head),
    }
}
