//! That a run compares enough: each of the known faults is noticed within the calls of a default run, and nothing is
//! noticed where there is no fault. Neither side is the archive here.

use exports::call::{Model, Side};
use exports::cases;
use exports::compare::Comparison;
use exports::faults::{Faulty, Told, FAULTS};
use exports::{DEFAULT_CALLS, DEFAULT_SEED};

#[test]
fn each_fault_is_noticed() {
    for fault in FAULTS {
        let faulty = Faulty(fault);
        let mut comparison = Comparison::new(&Model, &faulty);
        let noticed = cases::run(DEFAULT_SEED, DEFAULT_CALLS, &mut comparison).is_err();
        assert!(noticed, "{fault:?} goes unnoticed");
        println!("{fault:?} is noticed by call {}", comparison.calls());
    }
}

/// No call of a shorter run is answered differently by this side.
fn agrees(side: &dyn Side) {
    let calls = DEFAULT_CALLS / 5;
    let mut comparison = Comparison::new(&Model, side);
    if let Err(difference) = cases::run(DEFAULT_SEED, calls, &mut comparison) {
        panic!("{difference}");
    }
    assert!(comparison.calls() >= calls);
}

#[test]
fn the_model_agrees_with_itself() {
    agrees(&Model);
}

/// The rules of "The step that comes first" say what the step, taken on a copy, shows.
#[test]
fn the_model_agrees_with_what_is_told_beforehand() {
    agrees(&Told { forgotten: None });
}
