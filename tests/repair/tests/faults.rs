//! That a run reaches every rule: each of the known faults is noticed on the memories of a default run. The program is not asked
//! here.

use repair::compare::Cases;
use repair::faults::{takes_for_sound, FAULTS};
use repair::memories::kinds;
use repair::memory::Memory;
use repair::random::Random;
use repair::rules::{is_sound, is_undamaged, LIMITS};
use repair::states::UNSOUND;
use repair::{damage::DAMAGES, DEFAULT_MEMORIES, DEFAULT_SEED};

#[test]
fn each_fault_is_noticed() {
    let cases = Cases::new(DEFAULT_SEED, DEFAULT_MEMORIES);
    for (name, model) in FAULTS {
        let noticed = cases.compare(&model).is_err();
        assert!(noticed, "goes unnoticed: {name}");
    }
}

#[test]
fn each_limit_is_broken_alone() {
    let cases = Cases::new(DEFAULT_SEED, DEFAULT_MEMORIES);
    for limit in LIMITS {
        let model = |memory: &Memory| takes_for_sound(memory, limit);
        let noticed = cases.compare(&model).is_err();
        assert!(noticed, "goes unnoticed: {limit:?}");
    }
}

#[test]
fn every_kind_is_what_it_is_called() {
    let [damages, unsound] = [&DAMAGES[..], &UNSOUND[..]]
        .map(|kinds| kinds.iter().map(|(name, _)| *name).collect::<Vec<_>>());
    for kind in kinds() {
        for case in 0..200 {
            let memory = kind.memory(&mut Random::of_case(DEFAULT_SEED, case));
            let name = kind.name;
            if unsound.contains(&name) {
                assert!(!is_sound(&memory), "{name}, sound:\n{memory}");
            } else if name != "any state" {
                assert!(is_sound(&memory), "{name}, not sound:\n{memory}");
            }
            if name == "undamaged" {
                assert!(is_undamaged(&memory), "{name}, damaged:\n{memory}");
            }
            if damages.contains(&name) {
                assert!(!is_undamaged(&memory), "{name}, undamaged:\n{memory}");
            }
        }
    }
}
