//! The list that walks and passes are lent.

use std::iter::{self, FusedIterator};

use crate::bytes::{self, Answer};
use crate::{Cell, Error, Memory, Store, Suspect};

/// A call that hands out keys: `scan` with a cursor, or `iterate` with a place.
type HandOut = fn(&[u8], &[u8], &[u8], &[u8], &mut [u8], &mut [u8], from: u32) -> u32;

/// The bytes of a key and its value.
const PAIR: usize = 8;

/// A list, and what has been handed out to it last.
#[derive(Clone, Debug, Default)]
pub(crate) struct List {
    bytes: Vec<u8>,
    suspects: Vec<Suspect>,
}

impl List {
    pub(crate) fn suspects(&self) -> &[Suspect] {
        &self.suspects
    }

    /// Makes the call with a list that is long enough, and answers the next cursor or place.
    ///
    /// How long that is the call says itself, by [`Error::Short`]. It says the same the second
    /// time, since the store is borrowed, so this refuses as the call does, but never as short.
    pub(crate) fn fill(
        &mut self,
        store: &Store,
        hand_out: HandOut,
        from: u32,
    ) -> Result<u32, Error> {
        let answer = match self.call(store, hand_out, from) {
            Err(Error::Short { keys }) => {
                // A power of two, so that few calls are made twice.
                self.bytes.resize(PAIR * keys.next_power_of_two() as usize, 0);
                self.call(store, hand_out, from)
            }
            answered => answered,
        }?;
        let keys = answer.second() as usize;
        let pairs = &self.bytes.as_chunks::<PAIR>().0[..keys];
        self.suspects.clear();
        self.suspects.extend(
            pairs.iter().map(|pair| (Cell::from(bytes::number(pair, 0)), bytes::number(pair, 1))),
        );
        Ok(answer.first())
    }

    fn call(&mut self, store: &Store, hand_out: HandOut, from: u32) -> Result<Answer, Error> {
        let Memory { state, first, second, entries } = store.memory();
        Answer::of(|answer| hand_out(state, first, second, entries, &mut self.bytes, answer, from))
    }
}

/// One by one what some calls hand out, until one hands out nothing more, or is refused. Behind a
/// refusal the same would come again, as long as the store does not change.
pub(crate) fn one_by_one(
    mut call: impl FnMut() -> Result<Option<Vec<Suspect>>, Error>,
) -> impl FusedIterator<Item = Result<Suspect, Error>> {
    let mut group = Vec::new().into_iter();
    let mut refused = false;
    let suspects = iter::from_fn(move || {
        loop {
            if let Some(suspect) = group.next() {
                return Some(Ok(suspect));
            }
            if refused {
                return None;
            }
            match call() {
                Ok(next) => group = next?.into_iter(),
                Err(error) => {
                    refused = true;
                    return Some(Err(error));
                }
            }
        }
    });
    suspects.fuse()
}
