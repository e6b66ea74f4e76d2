//! A call made on both sides, and every byte compared.

use std::fmt;

use crate::call::{Call, Export, Side, EXPORTS};
use crate::events::{events, Event, EVENTS};
use crate::slices::{field_of, Field, Slice, Slices, FIELDS};

/// One more than the highest number that a call answers.
pub const NUMBERS: usize = 19;

/// How often each export answered each number, and how often each event came.
#[derive(Clone, Debug, Default)]
pub struct Tally {
    answers: [[u64; NUMBERS]; EXPORTS.len()],
    events: [u64; EVENTS.len()],
}

impl Tally {
    pub fn answered(&self, export: Export, number: u32) -> u64 {
        self.answers[export as usize][number as usize]
    }

    pub fn events(&self, event: Event) -> u64 {
        self.events[event as usize]
    }
}

/// A call that the two sides answered differently, and how.
#[derive(Debug)]
pub struct Difference {
    pub number_of_call: u64,
    pub call: Call,
    pub what: What,
    lengths: Vec<(&'static str, usize)>,
    state_before: Vec<(Field, u32)>,
}

#[derive(Debug, PartialEq, Eq)]
pub enum What {
    Returned {
        model: u32,
        other: u32,
    },
    /// A place below 0, or from the length of the slice on, is in a margin.
    Byte {
        slice: &'static str,
        at: isize,
        model: u8,
        other: u8,
    },
    /// Both sides answer a number that the page does not give to this call.
    NoAnswerOfThisCall(u32),
}

impl fmt::Display for Difference {
    fn fmt(&self, out: &mut fmt::Formatter) -> fmt::Result {
        writeln!(out, "call {} differs: {:?}", self.number_of_call, self.call)?;
        match &self.what {
            What::Returned { model, other } => {
                writeln!(out, "  returned: the model {model}, the other side {other}")?;
            }
            What::Byte {
                slice,
                at,
                model,
                other,
            } => {
                write!(out, "  the first differing byte is byte {at} of {slice}: ")?;
                writeln!(out, "the model has {model}, the other side {other}")?;
            }
            What::NoAnswerOfThisCall(number) => {
                writeln!(out, "  both returned {number}, no answer of this call")?;
            }
        }
        write!(out, "  lengths in bytes:")?;
        for (name, length) in &self.lengths {
            write!(out, " {name} {length}")?;
        }
        write!(out, "\n  the state before:")?;
        for (field, number) in &self.state_before {
            write!(out, " {field:?} {number}")?;
        }
        Ok(())
    }
}

/// The two sides, and what has been compared so far.
pub struct Comparison<'a> {
    model: &'a dyn Side,
    other: &'a dyn Side,
    calls: u64,
    tally: Tally,
    /// Kept from call to call, so that it need not be allocated for each.
    theirs: Slices,
    state_before: Slice,
}

impl<'a> Comparison<'a> {
    pub fn new(model: &'a dyn Side, other: &'a dyn Side) -> Self {
        Comparison {
            model,
            other,
            calls: 0,
            tally: Tally::default(),
            theirs: Slices::default(),
            state_before: Slice::default(),
        }
    }

    pub fn calls(&self) -> u64 {
        self.calls
    }

    pub fn tally(&self) -> &Tally {
        &self.tally
    }

    /// Makes the call on both sides, each on the same bytes. The slices become what the call leaves of them.
    ///
    /// The model cannot write what an export takes as const; so the bytes of these slices are compared with what they
    /// were before the call.
    pub fn make(&mut self, call: Call, slices: &mut Slices) -> Result<u32, Difference> {
        self.calls += 1;
        self.theirs.clone_from(slices);
        self.state_before.clone_from(&slices.state);
        let model = self.model.answer(call, slices);
        let other = self.other.answer(call, &mut self.theirs);
        match self.what_differs(call, slices, model, other) {
            Some(what) => Err(self.difference(call, slices, what)),
            None => {
                self.count(call, slices, model);
                Ok(model)
            }
        }
    }

    fn what_differs(&self, call: Call, slices: &Slices, model: u32, other: u32) -> Option<What> {
        if model != other {
            return Some(What::Returned { model, other });
        }
        let (_, _, possible) = EXPORTS[call.export() as usize];
        if !possible.contains(&model) {
            return Some(What::NoAnswerOfThisCall(model));
        }
        let pairs = slices.all().into_iter().zip(self.theirs.all());
        for ((slice, mine), (_, theirs)) in pairs {
            if let Some((at, model, other)) = mine.first_difference(theirs) {
                return Some(What::Byte {
                    slice,
                    at,
                    model,
                    other,
                });
            }
        }
        None
    }

    fn count(&mut self, call: Call, slices: &Slices, number: u32) {
        self.tally.answers[call.export() as usize][number as usize] += 1;
        for event in events(call, number, &self.state_before, slices) {
            self.tally.events[event as usize] += 1;
        }
    }

    fn difference(&self, call: Call, slices: &Slices, what: What) -> Difference {
        let state_before = FIELDS.map(|field| (field, field_of(&self.state_before, field)));
        Difference {
            number_of_call: self.calls,
            call,
            what,
            lengths: slices
                .all()
                .map(|(name, slice)| (name, slice.len()))
                .to_vec(),
            state_before: state_before.to_vec(),
        }
    }
}
