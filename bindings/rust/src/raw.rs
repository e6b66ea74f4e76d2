//! The fifteen exports as safe functions over slices, one for one.
//!
//! Each has the name of its export without the prefix `suspects_`, and the same arguments in the
//! same order: the slices, and then the call's own numbers. It returns the answer's number, 0 for
//! done. What each call does, and how the bytes lie, is in `docs/SPECIFICATION.md`, "Calls over
//! bytes". All numbers in the slices are little-endian.
//!
//! | slice | what it is |
//! |---|---|
//! | `state` | [`STATE_BYTES`]: eleven 32-bit numbers, three of which are flags, 0 or 1 |
//! | `first`, `second` | the bucket buffers: 32-bit numbers, up to [`MAX_BUCKET_BYTES`] each |
//! | `entries` | the entry buffer: three 32-bit numbers for each entry, up to [`MAX_ENTRY_BYTES`] |
//! | `list` | gets the keys that are handed out, each with its value: pairs of 32-bit numbers |
//! | `answer` | [`ANSWER_BYTES`]: gets the results, on a refusal too |
//!
//! Nothing need be true of the slices: any lengths and any bytes are answered. Lengths that the
//! exports do not take, and flags above 1, are answered 1 before anything else; damaged memory is
//! answered 2 where the call meets the damage. "Refused", at each function, lists the numbers other
//! than 0 that it may answer, in their order: where more than one applies, the first is given.
//! [`Error::check`](crate::Error::check) makes a `Result` of the number and the answer.
//!
//! ```
//! use suspects::raw;
//!
//! let mut state = [0; raw::STATE_BYTES];
//! let mut answer = [0; raw::ANSWER_BYTES];
//! let (mut first, mut second, mut entries) = ([0; 16], [0; 32], [0; 96]);
//!
//! // A store for eight cells, of four buckets, which has room to grow to eight.
//! let done = raw::init(&mut state, &mut first, &mut second, &mut entries, &mut answer, 8, 4);
//! assert_eq!(done, 0);
//! let done = raw::add(&mut state, &mut first, &mut second, &mut entries, &mut answer, 65_541, 3);
//! assert_eq!(done, 0);
//! let done = raw::find(&state, &first, &second, &entries, &mut answer, 65_541);
//! assert_eq!((done, answer), (0, [3, 0, 0, 0, 0, 0, 0, 0]));
//! ```
//!
//! # Why the functions are safe
//!
//! To call a function of another language is sound as long as what that function counts on is
//! given. For these fifteen it is given by their Rust signatures alone.
//!
//! - **Valid memory.** A slice goes over as its pointer and its length. The pointer of a Rust
//!   slice is never null, its bytes stay for the whole call, and those of a `&mut` may be written.
//!   A byte needs no alignment.
//! - **No overlap.** While a `&mut` lives there is no other reference to its bytes, so nothing
//!   that an export writes overlaps with another slice. Where slices that are only read overlap,
//!   that makes no difference.
//! - **No precondition.** Each export's contract is proved for all bytes, all lengths and all
//!   numbers. It says what every byte that is lent is after the call. That the call comes to an end
//!   is proved too.
//! - **Nothing is kept.** An export keeps no pointer, allocates nothing, and has no memory of its
//!   own from one call to the next. So calls may run at the same time wherever Rust lets them:
//!   on different slices, or on the same ones if they only read them.
//!
//! # What a call costs
//!
//! An export works on copies of the buffers that it is lent, as numbers, in room for the longest
//! ones. So a part of its time is the same for every call, and the rest goes by the lengths, used
//! or not. With buffers of the greatest lengths a find was measured at 5 microseconds and an add at
//! 6; with those of 16 entries each at 2.
//!
//! The copies lie on the stack: 113 KiB for a walk call or a pass call and 81 KiB for any other,
//! whatever the lengths are. A thread's first call may need some 4 KB more: where the dynamic
//! linker binds `memcpy` and `memset` lazily, the first call that comes to them in the process binds
//! them. A thread of Rust has 2 MiB, if it is not told otherwise. Where there is too little, the
//! process ends as it does for a function of Rust, since an export too touches its stack page by
//! page, and so meets the guard page.

#![allow(unsafe_code)]

/// The length of a state.
pub const STATE_BYTES: usize = 44;

/// The length of an answer.
pub const ANSWER_BYTES: usize = 8;

/// The greatest length of a bucket buffer: 4,096 buckets.
pub const MAX_BUCKET_BYTES: usize = 16_384;

/// The greatest length of an entry buffer: 4,096 entries.
pub const MAX_ENTRY_BYTES: usize = 49_152;

/// Declares exports, and defines a safe function for each. Behind the name of a slice stands what
/// the export does with it: `read` for a C pointer to const, `write` for one that is not.
macro_rules! exports {
    (@slice read) => { &[u8] };
    (@slice write) => { &mut [u8] };
    (@pointer read) => { *const u8 };
    (@pointer write) => { *mut u8 };
    (@address read $slice:ident) => { $slice.as_ptr() };
    (@address write $slice:ident) => { $slice.as_mut_ptr() };
    ($(
        $(#[$documentation:meta])*
        $name:ident = $export:ident(
            $($slice:ident: $access:ident),+;
            $($number:ident: $type:ty),*
        );
    )+) => {$(
        $(#[$documentation])*
        pub fn $name($($slice: exports!(@slice $access),)+ $($number: $type),*) -> u32 {
            unsafe extern "C" {
                fn $export(
                    $($slice: exports!(@pointer $access), _: usize,)+
                    $($number: $type),*
                ) -> u32;
            }
            // SAFETY: each pointer and length is that of a Rust slice, so it is not null, and is
            // valid for the whole call. What is written comes from a `&mut`, and overlaps with no
            // other slice. Any bytes, lengths and numbers will do, since the export's contract is
            // proved for all of them with no precondition; and it keeps no pointer.
            unsafe {
                $export(
                    $(exports!(@address $access $slice), $slice.len(),)+
                    $($number),*
                )
            }
        }
    )+};
}

// These may write the store.
exports! {
    /// Start: makes an empty store. The state is not read, and it is written only on 0.
    ///
    /// Refused: 1, 6, 1. The first 1 is for lengths that the exports do not take: a state or an
    /// answer of another length, or a buffer whose length is not divisible by four or is above its
    /// limit. 6 is for a capacity or a size outside its limits, and the second 1 for a first bucket
    /// buffer or an entry buffer that is too short for them.
    init = suspects_init(
        state: write, first: write, second: write, entries: write, answer: write;
        capacity: u32, size: u32
    );

    /// Change: gives a held key another value. Refused: 1, 2, 3.
    update = suspects_update(
        state: write, first: write, second: write, entries: write, answer: write;
        key: u32, value: u32
    );

    /// Add: adds a key that is not held, with a value. Refused: 1, 2, 4, 5, 2; the last 2 is for
    /// the free chain.
    add = suspects_add(
        state: write, first: write, second: write, entries: write, answer: write;
        key: u32, value: u32
    );

    /// Delete: removes a key. Refused: 1, 2, 3.
    delete = suspects_delete(
        state: write, first: write, second: write, entries: write, answer: write;
        key: u32
    );

    /// Resize: begins a move of all keys to a table of another size. Refused: 1, 7, 6.
    resize = suspects_resize(
        state: write, first: write, second: write, entries: write, answer: write;
        size: u32
    );

    /// Step: moves the keys of one bucket, or passes empty ones. The answer gets the number of
    /// entries moved, and 1 if the move goes on or 0 if not. Refused: 1, 8, 18, 2.
    rehash_step = suspects_rehash_step(
        state: write, first: write, second: write, entries: write, answer: write;
    );

    /// Permission: says whether the table may grow by itself, 1 or 0. Refused: 1.
    allow_resize = suspects_allow_resize(
        state: write, first: write, second: write, entries: write, answer: write;
        allowed: u32
    );

    /// Begin of a careful pass: counts one more. Refused: 1, 17.
    begin_safe = suspects_begin_safe(
        state: write, first: write, second: write, entries: write, answer: write;
    );

    /// End of a careful pass: counts one fewer. Refused: 1, 16.
    end_safe = suspects_end_safe(
        state: write, first: write, second: write, entries: write, answer: write;
    );
}

// These only read it.
exports! {
    /// Find: the answer gets the key's value. Refused: 1, 2, 3.
    find = suspects_find(
        state: read, first: read, second: read, entries: read, answer: write;
        key: u32
    );

    /// Suggested size: the answer gets a size that suits the keys held, to grow to if `growing` is
    /// 1, and to shrink to if it is 0. Refused: 1.
    suggested_size = suspects_suggested_size(
        state: read, first: read, second: read, entries: read, answer: write;
        growing: u32
    );

    /// Begin of a plain pass: the answer gets the fingerprint, one 64-bit number. Refused: 1.
    begin_iterator = suspects_begin_iterator(
        state: read, first: read, second: read, entries: read, answer: write;
    );

    /// End of a plain pass: says whether the store still has this fingerprint. Refused: 1, 15.
    end_iterator = suspects_end_iterator(
        state: read, first: read, second: read, entries: read, answer: write;
        fingerprint: u64
    );

    /// Walk call: the list gets the keys of the cursor's group. The answer gets the next cursor
    /// and the number of keys. Refused: 1, 2, 9; with 9 the number of keys comes all the same.
    scan = suspects_scan(
        state: read, first: read, second: read, entries: read, list: write, answer: write;
        cursor: u32
    );

    /// Pass call: the list gets the keys of the first filled bucket from the place on. The answer
    /// gets the next place and the number of keys. Refused: 1, 2, 9; with 9 the number of keys
    /// comes all the same.
    iterate = suspects_iterate(
        state: read, first: read, second: read, entries: read, list: write, answer: write;
        place: u32
    );
}
