//! A viewer that is handed suspect cells a few at a time, while failures still arrive.
//!
//! It writes what `viewer.stdout` has.

use suspects::{CarefulPass, Cell, Error, Store, Walk};

/// The failures that a tester reports: scan chain and position.
const FAILURES: [(u16, u16); 16] = [
    (0, 8),
    (0, 2),
    (1, 7),
    (0, 1),
    (0, 8),
    (1, 5),
    (2, 4),
    (0, 8),
    (0, 2),
    (3, 0),
    (1, 5),
    (2, 9),
    (2, 6),
    (0, 1),
    (3, 3),
    (1, 5),
];

fn main() -> Result<(), Error> {
    let mut failures = FAILURES.map(|(chain, position)| Cell::new(chain, position)).into_iter();
    let mut store = Store::new(64, 4)?;
    println!("Before the walk:");
    for cell in failures.by_ref().take(3) {
        fail(&mut store, cell)?;
    }

    let mut walk = Walk::new();
    while let Some(group) = walk.next(&store)? {
        println!("A walk call, {}:", tables(&store));
        show(group);
        for cell in failures.by_ref().take(2) {
            fail(&mut store, cell)?;
        }
    }

    // A careful pass may delete what it is handed, and failures may arrive all the same.
    let mut pass = CarefulPass::begin(&mut store)?;
    println!("A careful pass, {}:", tables(&store));
    while let Some(bucket) = pass.next(&store)? {
        show(bucket);
        for &(cell, fails) in bucket {
            if fails == 1 {
                store.delete(cell)?;
                println!("    dropped: {cell}");
            }
        }
        if let Some(cell) = failures.next() {
            fail(&mut store, cell)?;
        }
    }
    pass.end(&mut store)?;

    // Now the move can go on.
    while store.is_rehashing() {
        store.rehash_step()?;
    }
    println!("What is left, {}:", tables(&store));
    let mut left = store.walk().collect::<Result<Vec<_>, _>>()?;
    left.sort();
    show(&left);
    Ok(())
}

/// One more fail of a cell.
fn fail(store: &mut Store, cell: Cell) -> Result<(), Error> {
    println!("    failed: {cell}");
    match store.find(cell) {
        Ok(fails) => store.update(cell, fails.saturating_add(1)),
        Err(Error::Absent) => store.add(cell, 1),
        Err(error) => Err(error),
    }
}

fn show(suspects: &[(Cell, u32)]) {
    for (cell, fails) in suspects {
        println!("  {cell}: {fails}");
    }
}

fn tables(store: &Store) -> String {
    match store.new_size() {
        None => format!("{} buckets", store.size()),
        Some(new_size) => format!("{} buckets, moving to {new_size}", store.size()),
    }
}
