//! The fifteen exports as values, and those who answer them.

use crate::model;
use crate::slices::Slices;

/// A call, with its own numbers.
#[derive(Clone, Copy, Debug, PartialEq, Eq)]
pub enum Call {
    Init { capacity: u32, size: u32 },
    Find { key: u32 },
    Update { key: u32, value: u32 },
    Add { key: u32, value: u32 },
    Delete { key: u32 },
    Resize { size: u32 },
    RehashStep,
    Scan { cursor: u32 },
    Iterate { place: u32 },
    BeginIterator,
    EndIterator { fingerprint: u64 },
    BeginSafe,
    EndSafe,
    SuggestedSize { growing: u32 },
    AllowResize { allowed: u32 },
}

/// An export alone.
#[derive(Clone, Copy, Debug, PartialEq, Eq)]
#[repr(usize)]
pub enum Export {
    Init,
    Find,
    Update,
    Add,
    Delete,
    Resize,
    RehashStep,
    Scan,
    Iterate,
    BeginIterator,
    EndIterator,
    BeginSafe,
    EndSafe,
    SuggestedSize,
    AllowResize,
}

/// All exports, and the numbers that each can answer: those of its row in "Answers", and 0.
pub const EXPORTS: [(Export, &str, &[u32]); 15] = [
    (Export::Init, "init", &[0, 1, 6]),
    (Export::Find, "find", &[0, 1, 2, 3]),
    (Export::Update, "update", &[0, 1, 2, 3]),
    (Export::Add, "add", &[0, 1, 2, 4, 5]),
    (Export::Delete, "delete", &[0, 1, 2, 3]),
    (Export::Resize, "resize", &[0, 1, 6, 7]),
    (Export::RehashStep, "rehash_step", &[0, 1, 2, 8, 18]),
    (Export::Scan, "scan", &[0, 1, 2, 9]),
    (Export::Iterate, "iterate", &[0, 1, 2, 9]),
    (Export::BeginIterator, "begin_iterator", &[0, 1]),
    (Export::EndIterator, "end_iterator", &[0, 1, 15]),
    (Export::BeginSafe, "begin_safe", &[0, 1, 17]),
    (Export::EndSafe, "end_safe", &[0, 1, 16]),
    (Export::SuggestedSize, "suggested_size", &[0, 1]),
    (Export::AllowResize, "allow_resize", &[0, 1]),
];

impl Call {
    pub fn export(&self) -> Export {
        match self {
            Call::Init { .. } => Export::Init,
            Call::Find { .. } => Export::Find,
            Call::Update { .. } => Export::Update,
            Call::Add { .. } => Export::Add,
            Call::Delete { .. } => Export::Delete,
            Call::Resize { .. } => Export::Resize,
            Call::RehashStep => Export::RehashStep,
            Call::Scan { .. } => Export::Scan,
            Call::Iterate { .. } => Export::Iterate,
            Call::BeginIterator => Export::BeginIterator,
            Call::EndIterator { .. } => Export::EndIterator,
            Call::BeginSafe => Export::BeginSafe,
            Call::EndSafe => Export::EndSafe,
            Call::SuggestedSize { .. } => Export::SuggestedSize,
            Call::AllowResize { .. } => Export::AllowResize,
        }
    }

    /// Whether the call is lent a list.
    pub fn has_a_list(&self) -> bool {
        matches!(self, Call::Scan { .. } | Call::Iterate { .. })
    }
}

/// Someone who answers the calls.
pub trait Side {
    fn answer(&self, call: Call, slices: &mut Slices) -> u32;
}

/// The model and the archive have the same functions, and a call is handed on to them in the same way.
macro_rules! hand_on {
    ($($side:ident)::+, $call:expr, $slices:expr) => {{
        let state = $slices.state.get_mut();
        let first = $slices.first.get_mut();
        let second = $slices.second.get_mut();
        let entries = $slices.entries.get_mut();
        let list = $slices.list.get_mut();
        let answer = $slices.answer.get_mut();
        use $($side)::+ as side;
        match $call {
            Call::Init { capacity, size } => side::init(state, first, second, entries, answer, capacity, size),
            Call::Find { key } => side::find(state, first, second, entries, answer, key),
            Call::Update { key, value } => side::update(state, first, second, entries, answer, key, value),
            Call::Add { key, value } => side::add(state, first, second, entries, answer, key, value),
            Call::Delete { key } => side::delete(state, first, second, entries, answer, key),
            Call::Resize { size } => side::resize(state, first, second, entries, answer, size),
            Call::RehashStep => side::rehash_step(state, first, second, entries, answer),
            Call::Scan { cursor } => side::scan(state, first, second, entries, list, answer, cursor),
            Call::Iterate { place } => side::iterate(state, first, second, entries, list, answer, place),
            Call::BeginIterator => side::begin_iterator(state, first, second, entries, answer),
            Call::EndIterator { fingerprint } => {
                side::end_iterator(state, first, second, entries, answer, fingerprint)
            }
            Call::BeginSafe => side::begin_safe(state, first, second, entries, answer),
            Call::EndSafe => side::end_safe(state, first, second, entries, answer),
            Call::SuggestedSize { growing } => side::suggested_size(state, first, second, entries, answer, growing),
            Call::AllowResize { allowed } => side::allow_resize(state, first, second, entries, answer, allowed),
        }
    }};
}

/// The model of the specification.
pub struct Model;

impl Side for Model {
    fn answer(&self, call: Call, slices: &mut Slices) -> u32 {
        hand_on!(model::bytes, call, slices)
    }
}

/// The exports of the archive, by way of the safe functions of `bindings/rust`.
pub struct Archive;

impl Side for Archive {
    fn answer(&self, call: Call, slices: &mut Slices) -> u32 {
        hand_on!(suspects::raw, call, slices)
    }
}

#[cfg(test)]
mod tests {
    use super::EXPORTS;

    #[test]
    fn exports_stand_in_their_order() {
        for (index, (export, _, _)) in EXPORTS.iter().enumerate() {
            assert_eq!(*export as usize, index);
        }
    }
}
