//! Cells are added while a walk goes on, and the table grows.
use suspects::{Cell, Error, Store, Walk};

fn main() -> Result<(), Error> {
    let mut store = Store::new(4096, 4)?; // room for 4,096 cells; 4 buckets at first
    for position in 0..6 {
        store.add(Cell::new(1, position), 1)?; // a cell of scan chain 1, with one fail
    }
    let mut late = (6..9).map(|position| Cell::new(1, position));
    let mut walk = Walk::new();
    while let Some(group) = walk.next(&store)? {
        for (cell, fails) in group {
            println!("{cell}: {fails}");
        }
        if let Some(cell) = late.next() {
            store.add(cell, 1)?; // the walk goes on, and none of the six is lost
        }
    }
    Ok(())
}
