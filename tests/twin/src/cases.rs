//! The fixed scripts: the specification's cases and the edges of the script's form.
//! Nothing here is taken from the model.

/// The longest script, from the specification.
const LONGEST: usize = 65_536;

pub struct Case {
    pub name: String,
    pub script: Vec<u8>,
    pub answer: Answer,
}

/// Where the answer to a script comes from. One that does not come from the
/// twin's own model binds the model too.
pub enum Answer {
    /// Written down by hand from the specification: literally, or for a line that
    /// comes again and again once for all of them.
    ByHand(Vec<u8>),
    /// Computed by a rule that the model does not use.
    Computed(Vec<u8>),
    /// Left to the model.
    Modelled,
}

pub fn all() -> Vec<Case> {
    let mut cases = specified();
    cases.extend(walks());
    cases.extend(states());
    cases.extend(moves());
    cases.extend(inner_steps());
    cases.extend(growth());
    cases.extend(outside_the_limits());
    cases.extend(bad_and_odd_lines());
    cases.extend(whole_scripts());
    cases.extend(large());
    cases
}

/// A script given line by line, each line beside its answer.
fn dialogue(name: &str, lines: &[(&str, &str)]) -> Case {
    let join = |side: fn(&(&str, &str)) -> String| {
        let text: String = lines.iter().map(|line| side(line) + "\n").collect();
        text.into_bytes()
    };
    Case {
        name: name.to_string(),
        script: join(|line| line.0.to_string()),
        answer: Answer::ByHand(join(|line| line.1.to_string())),
    }
}

fn by_hand(name: &str, script: impl Into<Vec<u8>>, answer: impl Into<Vec<u8>>) -> Case {
    Case {
        name: name.to_string(),
        script: script.into(),
        answer: Answer::ByHand(answer.into()),
    }
}

fn computed(name: &str, script: impl Into<Vec<u8>>, answer: impl Into<Vec<u8>>) -> Case {
    Case {
        name: name.to_string(),
        script: script.into(),
        answer: Answer::Computed(answer.into()),
    }
}

/// A script whose answer only the model gives.
pub fn modelled(name: &str, script: impl Into<Vec<u8>>) -> Case {
    Case {
        name: name.to_string(),
        script: script.into(),
        answer: Answer::Modelled,
    }
}

/// The worked examples and the cases of the specification, in its order.
fn specified() -> Vec<Case> {
    vec![
        dialogue(
            "the printed script",
            &[
                ("N 8 4", "0"),
                ("A 1 10", "0"),
                ("A 5 50", "0"),
                ("A 9 90", "0"),
                ("C 1", "0 3 3 9 90 5 50 1 10"),
                ("R 8", "0"),
                ("S", "0 3 0"),
                ("C 1", "0 5 2 1 10 9 90"),
                ("S", "8"),
            ],
        ),
        dialogue(
            "walk of size 4, and cursors above the size",
            &[
                ("N 4 4", "0"),
                ("A 0 10", "0"),
                ("A 1 11", "0"),
                ("A 3 13", "0"),
                ("C 0", "0 2 1 0 10"),
                ("C 2", "0 1 0"),
                ("C 1", "0 3 1 1 11"),
                ("C 3", "0 0 1 3 13"),
                ("C 5", "0 3 1 1 11"),
                ("C 4294967295", "0 0 1 3 13"),
            ],
        ),
        dialogue(
            "walk of size 8",
            &[
                ("N 8 8", "0"),
                ("A 7 17", "0"),
                ("A 5 15", "0"),
                ("A 4 14", "0"),
                ("A 3 13", "0"),
                ("A 2 12", "0"),
                ("A 1 11", "0"),
                ("A 0 10", "0"),
                ("C 0", "0 4 1 0 10"),
                ("C 4", "0 2 1 4 14"),
                ("C 2", "0 6 1 2 12"),
                ("C 6", "0 1 0"),
                ("C 1", "0 5 1 1 11"),
                ("C 5", "0 3 1 5 15"),
                ("C 3", "0 7 1 3 13"),
                ("C 7", "0 0 1 7 17"),
            ],
        ),
        dialogue(
            "size 1: any cursor answers 0",
            &[
                ("N 2 4", "0"),
                ("A 7 70", "0"),
                ("A 4294967295 4294967295", "0"),
                // Its one step turns their chain round.
                ("R 1", "0"),
                ("S", "0 2 0"),
                ("C 0", "0 0 2 7 70 4294967295 4294967295"),
                ("C 1", "0 0 2 7 70 4294967295 4294967295"),
                ("C 2147483648", "0 0 2 7 70 4294967295 4294967295"),
                ("C 4294967295", "0 0 2 7 70 4294967295 4294967295"),
            ],
        ),
        dialogue(
            "sizes 4 and 8, cursor 2, growing",
            &[
                ("N 8 4", "0"),
                ("A 0 10", "0"),
                ("A 1 11", "0"),
                ("A 2 20", "0"),
                ("R 8", "0"),
                // The steps of these two move keys 0 and 1.
                ("A 6 60", "0"),
                ("A 10 100", "0"),
                ("C 2", "0 1 3 2 20 10 100 6 60"),
            ],
        ),
        dialogue(
            "sizes 4 and 8, cursor 2, shrinking",
            &[
                ("N 8 8", "0"),
                ("A 0 10", "0"),
                ("A 2 20", "0"),
                ("A 6 60", "0"),
                ("A 3 30", "0"),
                ("R 4", "0"),
                // Its step moves key 0.
                ("A 10 100", "0"),
                ("C 2", "0 1 3 10 100 2 20 6 60"),
            ],
        ),
        // Bucket 0 is the first to move: by the time that the new table has a key,
        // the old one's bucket 0 is empty. Only a shrunk table of four buckets has
        // five keys at rest.
        dialogue(
            "sizes 4 and 16, cursors 0 and 8",
            &[
                ("N 16 8", "0"),
                ("A 0 3", "0"),
                ("A 4 4", "0"),
                ("A 8 5", "0"),
                ("A 12 6", "0"),
                ("A 1 7", "0"),
                ("R 4", "0"),
                ("S", "0 2 1"),
                ("S", "0 1 1"),
                ("S", "0 2 0"),
                ("R 16", "0"),
                ("S", "0 4 1"),
                ("C 0", "0 2 4 0 3 8 5 4 4 12 6"),
                ("C 8", "0 2 3 8 5 4 4 12 6"),
            ],
        ),
        dialogue(
            "sizes 16 and 4, cursors 2 and 10",
            &[
                ("N 16 16", "0"),
                ("A 0 2", "0"),
                ("A 2 3", "0"),
                ("A 6 4", "0"),
                ("A 10 5", "0"),
                ("A 14 6", "0"),
                ("A 1 7", "0"),
                ("R 4", "0"),
                // Its step moves key 0.
                ("A 18 1", "0"),
                ("C 2", "0 1 5 18 1 2 3 10 5 6 4 14 6"),
                ("C 10", "0 1 4 18 1 10 5 6 4 14 6"),
            ],
        ),
        dialogue(
            "8 shrunk to 4, cursor 7",
            &[
                ("N 8 8", "0"),
                ("A 3 30", "0"),
                ("A 7 70", "0"),
                ("R 4", "0"),
                ("S", "0 1 1"),
                ("S", "0 1 0"),
                ("C 7", "0 0 2 7 70 3 30"),
            ],
        ),
        dialogue(
            "sizes at and beyond the limits",
            &[
                ("N 1 4096", "0"),
                ("N 1 4095", "6"),
                ("N 1 8192", "6"),
                ("N 1 0", "6"),
                ("N 1 3", "6"),
                ("N 1 4097", "6"),
                ("N 1 2147483648", "6"),
                ("N 1 4294967295", "6"),
                ("R 4096", "6"),
                ("R 8192", "6"),
                ("N 1 1", "0"),
                ("R 4095", "6"),
                ("R 8192", "6"),
                ("R 0", "6"),
                ("R 1", "6"),
                ("R 4096", "0"),
                ("S", "0 0 0"),
                ("R 8192", "6"),
            ],
        ),
        dialogue(
            "capacities at and beyond the limits",
            &[
                ("N 4096 1", "0"),
                ("N 4097 1", "6"),
                ("N 0 1", "6"),
                ("N 4294967295 1", "6"),
                ("N 3 1", "0"),
                ("N 1 1", "0"),
            ],
        ),
        dialogue(
            "capacity 1: full, freed and added again",
            &[
                ("N 1 2", "0"),
                ("A 1 10", "0"),
                ("A 2 20", "5"),
                ("A 1 11", "4"),
                ("F 1", "0 10"),
                ("D 1", "0"),
                ("A 2 20", "0"),
                ("F 2", "0 20"),
                ("F 1", "3"),
                ("A 1 10", "5"),
                ("C 0", "0 1 1 2 20"),
            ],
        ),
    ]
}

/// How often a walk hands out a key when the table changes its size between
/// two of the walk's calls.
fn walks() -> Vec<Case> {
    vec![
        dialogue(
            "shrunk from 4 to 2 to 1: a key comes three times",
            &[
                ("N 4 4", "0"),
                ("A 0 7", "0"),
                ("C 0", "0 2 1 0 7"),
                ("R 2", "0"),
                ("S", "0 1 0"),
                ("C 2", "0 1 1 0 7"),
                ("R 1", "0"),
                ("S", "0 1 0"),
                ("C 1", "0 0 1 0 7"),
            ],
        ),
        due_at_seven(
            "grown from 8 to 16 behind the seventh call: no key comes twice",
            &[
                ("R 16", "0"),
                ("S", "0 2 1"),
                ("S", "0 2 0"),
                ("C 7", "0 15 1 7 70"),
                ("C 15", "0 0 1 15 150"),
            ],
        ),
        due_at_seven(
            "growing from 8 to 16 behind the seventh call: no key comes twice",
            &[("R 16", "0"), ("S", "0 2 1"), ("C 7", "0 0 2 15 150 7 70")],
        ),
        due_at_seven(
            "grown from 8 to 16 behind the eighth call: the walk has ended",
            &[
                ("C 7", "0 0 2 15 150 7 70"),
                ("R 16", "0"),
                ("S", "0 2 1"),
                ("S", "0 2 0"),
            ],
        ),
        dialogue(
            "keys added ahead of a walk come, and one behind it does not",
            &[
                ("N 8 4", "0"),
                ("A 0 10", "0"),
                ("C 0", "0 2 1 0 10"),
                ("A 2 20", "0"),
                ("A 4 40", "0"),
                ("C 2", "0 1 1 2 20"),
                // Never more than three keys: the fourth would make the table grow.
                ("D 4", "0"),
                ("A 1 11", "0"),
                ("D 0", "0"),
                ("A 0 11", "0"),
                ("C 1", "0 3 1 1 11"),
                ("D 2", "0"),
                ("A 7 70", "0"),
                ("C 3", "0 0 1 7 70"),
            ],
        ),
        // Its fourth key makes the table grow. The steps of the two adds behind that
        // and of the delete move buckets 0, 1 and 3.
        dialogue(
            "the tour",
            &[
                ("N 8 4", "0"),
                ("A 8 40", "0"),
                ("A 2 10", "0"),
                ("A 65543 25", "0"),
                ("C 0", "0 2 1 8 40"),
                ("A 1 31", "0"),
                ("R 16", "7"),
                ("A 5 12", "0"),
                ("C 2", "0 1 1 2 10"),
                ("A 65541 3", "0"),
                ("C 1", "0 3 3 1 31 65541 3 5 12"),
                ("S", "0 1 1"),
                ("F 5", "0 12"),
                ("D 1", "0"),
                ("F 1", "3"),
                ("S", "8"),
                ("C 3", "0 7 0"),
                ("C 7", "0 0 1 65543 25"),
            ],
        ),
    ]
}

/// A walk of size 8 that is due at 7, and the lines that follow.
fn due_at_seven(name: &str, rest: &[(&str, &str)]) -> Case {
    let walk = [
        ("N 8 8", "0"),
        ("A 3 30", "0"),
        ("A 11 110", "0"),
        ("A 7 70", "0"),
        ("A 15 150", "0"),
        ("C 0", "0 4 0"),
        ("C 4", "0 2 0"),
        ("C 2", "0 6 0"),
        ("C 6", "0 1 0"),
        ("C 1", "0 5 0"),
        ("C 5", "0 3 0"),
        ("C 3", "0 7 2 11 110 3 30"),
    ];
    dialogue(name, &[&walk, rest].concat())
}

/// Calls in every state of the store: none, resting, moving, renewed.
fn states() -> Vec<Case> {
    vec![
        dialogue(
            "calls before a good N",
            &[
                ("A 1 10", "1"),
                ("V 1 10", "1"),
                ("D 1", "1"),
                ("F 1", "1"),
                ("R 8", "1"),
                ("R 3", "1"),
                ("S", "1"),
                ("C 0", "1"),
                ("x", "10"),
                ("N 0 4", "6"),
                ("N 4 3", "6"),
                ("F 1", "1"),
                ("N 4 4", "0"),
                ("F 1", "3"),
            ],
        ),
        dialogue(
            "a second good N is a new store",
            &[
                ("N 1 4", "0"),
                ("A 1 10", "0"),
                ("R 8", "0"),
                ("N 2 4", "0"),
                ("S", "8"),
                ("F 1", "3"),
                ("C 3", "0 0 0"),
                ("A 3 30", "0"),
                ("A 7 11", "0"),
                ("A 5 50", "5"),
                ("C 3", "0 0 2 7 11 3 30"),
                ("D 3", "0"),
                ("A 2 20", "0"),
                ("R 4", "6"),
                ("R 8", "0"),
                ("S", "0 1 1"),
                ("N 2 2", "0"),
                ("C 1", "0 0 0"),
                ("A 1 12", "0"),
                ("C 0", "0 1 0"),
            ],
        ),
        dialogue(
            "an empty store answers cursor 0, moving or not",
            &[
                ("N 4 4", "0"),
                ("C 1", "0 0 0"),
                ("R 16", "0"),
                ("C 7", "0 0 0"),
                ("S", "0 0 0"),
                ("A 1 1", "0"),
                ("C 0", "0 8 0"),
                ("D 1", "0"),
                ("C 8", "0 0 0"),
            ],
        ),
        dialogue(
            "resize and step out of turn",
            &[
                ("N 4 4", "0"),
                ("S", "8"),
                ("R 4", "6"),
                ("R 2", "0"),
                ("R 2", "7"),
                ("R 4", "7"),
                ("R 3", "7"),
                ("S", "0 0 0"),
                ("S", "8"),
                ("R 2", "6"),
                ("R 4", "0"),
            ],
        ),
        dialogue(
            "adds during a move lie in the new table",
            &[
                ("N 8 4", "0"),
                ("A 0 1", "0"),
                ("A 1 6", "0"),
                ("A 3 2", "0"),
                ("R 8", "0"),
                // The steps of these two move keys 0 and 1.
                ("A 4 3", "0"),
                ("A 8 4", "0"),
                ("A 3 5", "4"),
                ("A 0 5", "4"),
                ("C 0", "0 2 3 8 4 0 1 4 3"),
                ("S", "0 1 0"),
                ("C 0", "0 4 2 8 4 0 1"),
                ("F 4", "0 3"),
            ],
        ),
        dialogue(
            "change, find and delete reach both tables",
            &[
                ("N 8 8", "0"),
                ("A 0 10", "0"),
                ("A 1 11", "0"),
                ("A 2 20", "0"),
                ("A 3 30", "0"),
                ("R 16", "0"),
                // Its step moves key 0.
                ("A 7 70", "0"),
                ("V 3 33", "0"),
                ("V 7 77", "0"),
                ("V 5 55", "3"),
                ("F 3", "0 33"),
                ("F 7", "0 77"),
                ("F 5", "3"),
                // From the new table behind a step that moves key 1, and from the
                // old one behind a step that moves key 2.
                ("D 7", "0"),
                ("D 7", "3"),
                ("D 3", "0"),
                ("S", "0 0 0"),
                ("C 2", "0 10 1 2 20"),
            ],
        ),
        dialogue(
            "a move ends once its old keys are deleted",
            &[
                ("N 4 8", "0"),
                ("A 0 5", "0"),
                ("A 1 10", "0"),
                ("A 2 20", "0"),
                ("A 3 30", "0"),
                ("R 1", "0"),
                // Their steps move keys 0 and 1.
                ("D 3", "0"),
                ("D 2", "0"),
                ("S", "0 0 0"),
                ("C 9", "0 0 2 1 10 0 5"),
            ],
        ),
        dialogue(
            "a chain is taken from its head, middle and end",
            &[
                ("N 5 8", "0"),
                ("A 8 1", "0"),
                ("A 16 2", "0"),
                ("A 24 3", "0"),
                ("A 32 4", "0"),
                ("A 40 5", "0"),
                ("D 24", "0"),
                ("C 0", "0 4 4 40 5 32 4 16 2 8 1"),
                ("D 40", "0"),
                ("C 0", "0 4 3 32 4 16 2 8 1"),
                ("D 8", "0"),
                ("C 0", "0 4 2 32 4 16 2"),
                ("A 24 6", "0"),
                ("A 8 7", "0"),
                ("A 40 8", "0"),
                ("A 48 9", "5"),
                ("C 0", "0 4 5 40 8 8 7 24 6 32 4 16 2"),
            ],
        ),
        dialogue(
            "full counts the keys of both tables",
            &[
                ("N 4 4", "0"),
                ("A 1 1", "0"),
                ("A 2 2", "0"),
                ("A 3 3", "0"),
                ("R 8", "0"),
                // Its step moves key 1.
                ("A 4 4", "0"),
                ("A 5 5", "5"),
                ("A 1 5", "4"),
                ("A 3 5", "4"),
                ("A 4 5", "4"),
                ("S", "0 1 1"),
                ("A 5 5", "5"),
                ("S", "0 1 0"),
                ("A 5 5", "5"),
            ],
        ),
        dialogue(
            "chains turn round with each move",
            &[
                ("N 4 8", "0"),
                ("A 0 0", "0"),
                ("A 8 1", "0"),
                ("A 16 2", "0"),
                ("A 2 3", "0"),
                ("R 4", "0"),
                ("S", "0 3 1"),
                ("S", "0 1 0"),
                ("C 0", "0 2 3 0 0 8 1 16 2"),
                ("R 2", "0"),
                ("S", "0 3 1"),
                ("S", "0 1 0"),
                ("C 0", "0 1 4 2 3 16 2 8 1 0 0"),
            ],
        ),
    ]
}

/// The empty buckets that a move's steps pass, and where it ends.
fn moves() -> Vec<Case> {
    let mut cases = vec![
        behind_empty_buckets(0, &["0 1 0"]),
        behind_empty_buckets(9, &["0 1 0"]),
        behind_empty_buckets(10, &["0 0 1", "0 1 0"]),
        behind_empty_buckets(11, &["0 0 1", "0 1 0"]),
        behind_empty_buckets(19, &["0 0 1", "0 1 0"]),
        behind_empty_buckets(20, &["0 0 1", "0 0 1", "0 1 0"]),
        behind_empty_buckets(21, &["0 0 1", "0 0 1", "0 1 0"]),
        behind_empty_buckets(31, &["0 0 1", "0 0 1", "0 0 1", "0 1 0"]),
        dialogue(
            "nine, ten, eleven and twenty empty buckets between filled ones",
            &[
                ("N 8 64", "0"),
                ("A 0 1", "0"),
                ("A 10 2", "0"),
                ("A 21 3", "0"),
                ("A 33 4", "0"),
                ("A 54 5", "0"),
                ("R 2", "0"),
                ("S", "0 1 1"),
                ("S", "0 1 1"),
                ("S", "0 0 1"),
                ("S", "0 1 1"),
                ("S", "0 0 1"),
                ("S", "0 1 1"),
                ("S", "0 0 1"),
                ("S", "0 0 1"),
                ("S", "0 1 0"),
                ("S", "8"),
                ("C 0", "0 1 3 54 5 10 2 0 1"),
                ("C 1", "0 0 2 33 4 21 3"),
            ],
        ),
        dialogue(
            "the last chain's step ends the move, and another can begin",
            &[
                ("N 4 4", "0"),
                ("A 1 10", "0"),
                ("A 5 50", "0"),
                ("A 2 20", "0"),
                ("R 8", "0"),
                ("S", "0 2 1"),
                ("R 2", "7"),
                ("S", "0 1 0"),
                ("S", "8"),
                ("R 8", "6"),
                ("R 2", "0"),
                ("S", "0 1 1"),
                ("S", "0 1 1"),
                ("S", "0 1 0"),
                ("C 1", "0 0 2 5 50 1 10"),
            ],
        ),
        dialogue(
            "keys deleted behind a passing step: the next one ends the move",
            &[
                ("N 4 64", "0"),
                ("A 0 1", "0"),
                ("A 40 2", "0"),
                ("A 50 3", "0"),
                ("R 4", "0"),
                ("S", "0 1 1"),
                ("S", "0 0 1"),
                ("D 40", "0"),
                ("D 50", "0"),
                ("S", "0 0 0"),
                ("S", "8"),
                ("C 0", "0 2 1 0 1"),
            ],
        ),
        dialogue(
            "buckets emptied by a delete are passed like others",
            &[
                ("N 4 32", "0"),
                ("A 5 1", "0"),
                ("A 9 2", "0"),
                ("A 20 3", "0"),
                ("A 31 4", "0"),
                ("R 64", "0"),
                // Its step moves key 5, and that of the next passes bucket 9.
                ("D 9", "0"),
                ("D 20", "0"),
                ("S", "0 0 1"),
                ("S", "0 1 0"),
                ("C 5", "0 37 1 5 1"),
            ],
        ),
        dialogue(
            "keys added in buckets that were passed, and in those ahead",
            &[
                ("N 4 64", "0"),
                ("A 55 1", "0"),
                ("R 128", "0"),
                ("S", "0 0 1"),
                // Their steps pass the buckets from 10 to 39.
                ("A 3 2", "0"),
                ("A 42 3", "0"),
                ("A 119 4", "0"),
                ("S", "0 0 1"),
                ("C 55", "0 15 2 55 1 119 4"),
                ("S", "0 1 0"),
                ("S", "8"),
                ("F 3", "0 2"),
                ("C 55", "0 119 1 55 1"),
            ],
        ),
        dialogue(
            "an empty store is moved by one step, whatever its size",
            &[
                ("N 4 4096", "0"),
                ("R 2", "0"),
                ("S", "0 0 0"),
                ("S", "8"),
                ("A 4000 1", "0"),
                ("D 4000", "0"),
                ("R 4096", "0"),
                ("S", "0 0 0"),
                ("S", "8"),
                ("R 2", "0"),
                // Its step is the one.
                ("A 4001 2", "0"),
                ("S", "8"),
                ("C 1", "0 0 1 4001 2"),
            ],
        ),
        dialogue(
            "a walk goes on through passing steps",
            &[
                ("N 8 16", "0"),
                ("A 2 20", "0"),
                ("A 13 130", "0"),
                ("A 15 150", "0"),
                ("C 0", "0 8 0"),
                ("C 8", "0 4 0"),
                ("R 4", "0"),
                ("S", "0 1 1"),
                ("C 4", "0 2 0"),
                ("S", "0 0 1"),
                ("C 2", "0 1 1 2 20"),
                // Its step moves key 13.
                ("A 6 60", "0"),
                ("C 1", "0 3 1 13 130"),
                ("S", "0 1 0"),
                ("C 3", "0 0 1 15 150"),
                ("S", "8"),
            ],
        ),
        dialogue(
            "a walk begun before passing steps goes on behind the move",
            &[
                ("N 8 16", "0"),
                ("A 10 100", "0"),
                ("A 13 130", "0"),
                ("R 2", "0"),
                ("C 0", "0 1 1 10 100"),
                ("S", "0 0 1"),
                ("C 0", "0 1 1 10 100"),
                ("S", "0 1 1"),
                ("C 0", "0 1 1 10 100"),
                ("S", "0 1 0"),
                ("C 1", "0 0 1 13 130"),
            ],
        ),
        dialogue(
            "each of several moves begins at bucket 0",
            &[
                ("N 8 32", "0"),
                ("A 3 30", "0"),
                ("A 28 280", "0"),
                ("R 8", "0"),
                ("S", "0 1 1"),
                ("S", "0 0 1"),
                ("S", "0 0 1"),
                ("S", "0 1 0"),
                ("R 64", "0"),
                ("S", "0 1 1"),
                ("S", "0 1 0"),
                ("R 1", "0"),
                ("S", "0 1 1"),
                ("S", "0 0 1"),
                ("S", "0 0 1"),
                ("S", "0 1 0"),
                ("C 0", "0 0 2 28 280 3 30"),
                ("R 2", "0"),
                ("S", "0 2 0"),
                ("S", "8"),
                ("C 1", "0 0 1 3 30"),
            ],
        ),
        dialogue(
            "a start in the middle of a move, behind a passing step",
            &[
                ("N 4 64", "0"),
                ("A 30 1", "0"),
                ("R 4", "0"),
                ("S", "0 0 1"),
                ("N 0 4", "6"),
                ("S", "0 0 1"),
                ("N 4 32", "0"),
                ("S", "8"),
                ("F 30", "3"),
                ("A 2 20", "0"),
                ("A 12 120", "0"),
                ("R 8", "0"),
                ("S", "0 1 1"),
                ("S", "0 1 0"),
                ("C 2", "0 6 1 2 20"),
            ],
        ),
        dialogue(
            "refused lines between passing steps change nothing",
            &[
                ("N 2 64", "0"),
                ("A 30 1", "0"),
                ("A 63 2", "0"),
                ("R 32", "0"),
                ("S", "0 0 1"),
                ("A 5 5", "5"),
                ("A 30 5", "4"),
                ("V 5 5", "3"),
                ("D 5", "3"),
                ("F 5", "3"),
                ("S", "0 0 1"),
                ("R 64", "7"),
                ("R 8192", "7"),
                ("N 2 8192", "6"),
                ("S 1", "10"),
                ("S", "0 0 1"),
                ("S", "0 1 1"),
                ("S", "0 0 1"),
                ("S", "0 0 1"),
                ("S", "0 0 1"),
                ("S", "0 1 0"),
                ("C 31", "0 0 1 63 2"),
            ],
        ),
        moves_of_the_largest_tables(),
    ];
    cases.extend([3, 10, 11, 20, 21, 100, 2048].map(evenly_spread));
    cases
}

/// A key with so many empty buckets before its own, and what the steps answer.
fn behind_empty_buckets(empty: u32, steps: &[&str]) -> Case {
    let add = format!("A {empty} 7");
    let find = format!("F {empty}");
    let mut lines = vec![("N 1 32", "0"), (&add, "0"), ("R 64", "0")];
    lines.extend(steps.iter().map(|&answer| ("S", answer)));
    lines.extend([("S", "8"), (&find, "0 7")]);
    dialogue(&format!("a key behind {empty} empty buckets"), &lines)
}

/// Into either buffer, and out of it with the only key in the last bucket.
fn moves_of_the_largest_tables() -> Case {
    let into = [
        ("R 4096", "0"),
        ("S", "0 1 0"),
        ("C 4095", "0 0 1 4095 7"),
        ("C 4094", "0 1 0"),
    ];
    // Ten by ten up to bucket 4,090, and then to the key's.
    let passing = [("S", "0 0 1"); 409];
    let out = [&[("R 2", "0")], &passing[..], &[("S", "0 1 0")]].concat();
    let lines = [
        &[("N 1 2", "0"), ("A 4095 7", "0")],
        &into[..],
        &out,
        &[("R 1", "0"), ("S", "0 1 0")],
        &into,
        &out,
        &[("S", "8"), ("F 4095", "0 7")],
    ];
    dialogue("moves to and from 4,096 buckets", &lines.concat())
}

/// Keys of the largest table that lie so far from each other. Each takes a step,
/// and so do each ten of the empty buckets between it and the key before.
fn evenly_spread(distance: u32) -> Case {
    let keys: Vec<u32> = (0..4096).step_by(distance as usize).collect();
    let adds = adds(keys.iter().copied());
    let passing = (distance as usize - 1) / 10;
    let between = "S\n".repeat(passing + 1).repeat(keys.len() - 1);
    let script = format!("N 4096 4096\n{adds}R 1\nS\n{between}S\nC 0\n");

    let done = "0\n".repeat(keys.len() + 2);
    let next = format!("0 1 1\n{}", "0 0 1\n".repeat(passing)).repeat(keys.len() - 1);
    let pairs: String = keys.iter().rev().map(|key| format!(" {key} 1")).collect();
    let count = keys.len();
    let answer = format!("{done}{next}0 1 0\n8\n0 0 {count}{pairs}\n");
    computed(
        &format!("a key in every bucket that {distance} divides"),
        script,
        answer,
    )
}

/// Adds and deletes in the middle of a move take a step first, unless they are
/// refused. Many of these moves are to one bucket. There a walk call at cursor 0
/// hands out everything: the new table's chain, and then the old table's buckets,
/// of eight in the order 0, 4, 2, 6, 1, 5, 3, 7.
fn inner_steps() -> Vec<Case> {
    let mut cases = vec![
        dialogue(
            "an add in the middle of a move moves a bucket first",
            &[
                ("N 8 8", "0"),
                ("A 0 10", "0"),
                ("A 8 18", "0"),
                ("A 1 11", "0"),
                ("A 2 12", "0"),
                ("A 3 13", "0"),
                ("R 1", "0"),
                ("C 0", "0 0 5 8 18 0 10 2 12 1 11 3 13"),
                ("A 5 15", "0"),
                ("C 0", "0 0 6 5 15 0 10 8 18 2 12 1 11 3 13"),
                ("S", "0 1 1"),
                ("C 0", "0 0 6 1 11 5 15 0 10 8 18 2 12 3 13"),
                ("A 6 16", "0"),
                ("C 0", "0 0 7 6 16 2 12 1 11 5 15 0 10 8 18 3 13"),
            ],
        ),
        dialogue(
            "a delete in the middle of a move moves a bucket first",
            &[
                ("N 8 8", "0"),
                ("A 0 10", "0"),
                ("A 8 18", "0"),
                ("A 1 11", "0"),
                ("A 2 12", "0"),
                ("A 3 13", "0"),
                ("R 1", "0"),
                // From the old table, and then from the new one.
                ("D 2", "0"),
                ("C 0", "0 0 4 0 10 8 18 1 11 3 13"),
                ("D 8", "0"),
                ("C 0", "0 0 3 1 11 0 10 3 13"),
                ("S", "0 1 0"),
                ("C 0", "0 0 3 3 13 1 11 0 10"),
            ],
        ),
        dialogue(
            "a step's numbers show what came before it",
            &[
                ("N 8 8", "0"),
                ("A 0 1", "0"),
                ("A 1 2", "0"),
                ("A 9 3", "0"),
                ("A 2 4", "0"),
                ("A 10 5", "0"),
                ("A 18 6", "0"),
                ("A 3 7", "0"),
                ("R 16", "0"),
                ("A 4 8", "0"),
                ("S", "0 2 1"),
                ("D 4", "0"),
                ("S", "0 1 0"),
                ("S", "8"),
            ],
        ),
        dialogue(
            "a delete of a key that its own step moves",
            &[
                ("N 4 8", "0"),
                ("A 0 1", "0"),
                ("A 8 2", "0"),
                ("A 16 3", "0"),
                ("A 1 4", "0"),
                ("R 1", "0"),
                ("C 0", "0 0 4 16 3 8 2 0 1 1 4"),
                ("D 8", "0"),
                ("C 0", "0 0 3 0 1 16 3 1 4"),
                ("S", "0 1 0"),
            ],
        ),
        dialogue(
            "a refused add or delete moves nothing",
            &[
                ("N 4 8", "0"),
                ("A 0 10", "0"),
                ("A 8 18", "0"),
                ("A 1 11", "0"),
                ("A 2 12", "0"),
                ("R 1", "0"),
                ("C 0", "0 0 4 8 18 0 10 2 12 1 11"),
                ("A 1 99", "4"),
                ("C 0", "0 0 4 8 18 0 10 2 12 1 11"),
                ("A 7 70", "5"),
                ("C 0", "0 0 4 8 18 0 10 2 12 1 11"),
                ("D 7", "3"),
                ("C 0", "0 0 4 8 18 0 10 2 12 1 11"),
                ("D 1", "0"),
                ("C 0", "0 0 3 0 10 8 18 2 12"),
                // Held in the old table, and in the new one.
                ("A 2 99", "4"),
                ("A 8 99", "4"),
                ("C 0", "0 0 3 0 10 8 18 2 12"),
                ("D 1", "3"),
                ("C 0", "0 0 3 0 10 8 18 2 12"),
                // Its step ends the move, and then the table of one bucket grows.
                ("A 4 14", "0"),
                ("C 0", "0 0 4 4 14 2 12 0 10 8 18"),
                ("A 9 19", "5"),
                ("S", "0 4 0"),
            ],
        ),
        dialogue(
            "a refused add or delete does not end a move",
            &[
                ("N 1 4", "0"),
                ("A 1 10", "0"),
                ("R 8", "0"),
                ("A 1 11", "4"),
                ("R 2", "7"),
                ("A 2 20", "5"),
                ("R 2", "7"),
                ("D 2", "3"),
                ("R 2", "7"),
                ("C 1", "0 3 1 1 10"),
                ("S", "0 1 0"),
                ("C 1", "0 5 1 1 10"),
                ("D 1", "0"),
                // The same with no keys.
                ("R 4", "0"),
                ("D 1", "3"),
                ("R 2", "7"),
                ("S", "0 0 0"),
                ("S", "8"),
            ],
        ),
        dialogue(
            "a refused add or delete passes no buckets",
            &[
                ("N 2 64", "0"),
                ("A 25 1", "0"),
                ("R 4", "0"),
                ("A 1 2", "0"),
                ("A 1 3", "4"),
                ("A 5 5", "5"),
                ("D 9", "3"),
                ("S", "0 0 1"),
                ("A 25 3", "4"),
                ("S", "0 1 0"),
                ("C 1", "0 3 2 25 1 1 2"),
            ],
        ),
        dialogue(
            "find, change and walk calls take no step, nor do other refused lines",
            &[
                ("N 8 8", "0"),
                ("A 0 10", "0"),
                ("A 8 18", "0"),
                ("A 1 11", "0"),
                ("A 2 12", "0"),
                ("R 1", "0"),
                ("F 0", "0 10"),
                ("F 7", "3"),
                ("V 8 19", "0"),
                ("V 7 70", "3"),
                ("R 2", "7"),
                ("N 0 4", "6"),
                ("A 5", "10"),
                ("C 3", "0 0 0"),
                ("C 0", "0 0 4 8 19 0 10 2 12 1 11"),
                ("S", "0 2 1"),
                ("F 8", "0 19"),
                ("V 1 16", "0"),
                ("C 0", "0 0 4 0 10 8 19 2 12 1 16"),
                ("S", "0 1 1"),
                ("S", "0 1 0"),
                ("C 0", "0 0 4 2 12 1 16 0 10 8 19"),
            ],
        ),
        dialogue(
            "a move ended by adds alone",
            &[
                ("N 8 4", "0"),
                ("A 0 10", "0"),
                ("A 1 11", "0"),
                ("A 2 12", "0"),
                ("R 8", "0"),
                ("A 4 14", "0"),
                ("A 5 15", "0"),
                ("R 16", "7"),
                ("A 6 16", "0"),
                ("S", "8"),
                ("R 8", "6"),
                ("C 2", "0 6 1 2 12"),
                ("C 6", "0 1 1 6 16"),
            ],
        ),
        dialogue(
            "a move ended by deletes alone",
            &[
                ("N 8 4", "0"),
                ("A 0 10", "0"),
                ("A 1 11", "0"),
                ("A 2 12", "0"),
                ("R 8", "0"),
                ("D 0", "0"),
                ("D 1", "0"),
                ("R 16", "7"),
                ("D 2", "0"),
                ("S", "8"),
                ("R 8", "6"),
                ("C 2", "0 0 0"),
            ],
        ),
        dialogue(
            "a delete behind a step ends the move",
            &[
                ("N 8 4", "0"),
                ("A 1 10", "0"),
                ("A 2 20", "0"),
                ("R 8", "0"),
                ("S", "0 1 1"),
                ("D 1", "0"),
                ("S", "8"),
                ("F 1", "3"),
                ("C 2", "0 6 1 2 20"),
            ],
        ),
        dialogue(
            "an add that ends the move goes into the only table then",
            &[
                ("N 4 4", "0"),
                ("A 3 30", "0"),
                ("R 8", "0"),
                ("A 7 70", "0"),
                ("S", "8"),
                ("C 3", "0 7 1 3 30"),
                ("C 7", "0 0 1 7 70"),
                // The next move takes both along, and begins at bucket 0.
                ("R 16", "0"),
                ("A 1 10", "0"),
                ("A 5 50", "0"),
                ("S", "8"),
                ("C 3", "0 11 1 3 30"),
                ("C 5", "0 13 1 5 50"),
                ("C 7", "0 15 1 7 70"),
            ],
        ),
        dialogue(
            "the old table's last key deleted in the middle: the next add ends the move",
            &[
                ("N 2 4", "0"),
                ("A 0 10", "0"),
                ("A 3 13", "0"),
                ("R 8", "0"),
                ("A 7 17", "5"),
                ("D 3", "0"),
                ("R 2", "7"),
                ("C 0", "0 2 1 0 10"),
                ("A 0 11", "4"),
                ("R 2", "7"),
                ("A 7 17", "0"),
                ("S", "8"),
                ("C 0", "0 4 1 0 10"),
                ("C 7", "0 0 1 7 17"),
            ],
        ),
        dialogue(
            "the old table's last key deleted in the middle: the next delete ends the move",
            &[
                ("N 2 4", "0"),
                ("A 0 10", "0"),
                ("A 3 13", "0"),
                ("R 8", "0"),
                ("D 3", "0"),
                ("D 3", "3"),
                ("R 2", "7"),
                ("D 0", "0"),
                ("S", "8"),
                ("C 4", "0 0 0"),
            ],
        ),
        behind_adds_and_deletes(39, &[]),
        behind_adds_and_deletes(40, &["0 1 0"]),
        behind_adds_and_deletes(49, &["0 1 0"]),
        behind_adds_and_deletes(50, &["0 0 1", "0 1 0"]),
        dialogue(
            "a walk goes on while adds and deletes carry the move",
            &[
                ("N 8 4", "0"),
                ("A 0 10", "0"),
                ("A 2 12", "0"),
                ("A 3 13", "0"),
                ("C 0", "0 2 1 0 10"),
                ("R 8", "0"),
                ("A 1 11", "0"),
                ("C 2", "0 1 1 2 12"),
                ("D 0", "0"),
                ("C 1", "0 3 1 1 11"),
                // Its step ends the move.
                ("A 7 17", "0"),
                ("S", "8"),
                ("C 3", "0 7 1 3 13"),
                ("C 7", "0 0 1 7 17"),
            ],
        ),
        due_at_seven(
            "grown from 8 to 16 by adds behind the seventh call: no key comes twice",
            &[
                ("R 16", "0"),
                ("A 0 5", "0"),
                ("A 1 6", "0"),
                ("C 7", "0 15 1 7 70"),
                ("C 15", "0 0 1 15 150"),
            ],
        ),
        dialogue(
            "shrunk from 8 to 4 by an add: a key comes twice",
            &[
                ("N 4 8", "0"),
                ("A 0 7", "0"),
                ("C 0", "0 4 1 0 7"),
                ("R 4", "0"),
                ("A 1 8", "0"),
                ("C 4", "0 2 1 0 7"),
                ("C 2", "0 1 0"),
                ("C 1", "0 3 1 1 8"),
                ("C 3", "0 0 0"),
            ],
        ),
        largest_move_by_adds(),
    ];
    cases.extend([2, 64, 1024].map(moved_by_as_many_adds));
    cases
}

/// A key with so many empty buckets before its own: two adds and two deletes, and
/// then what the steps answer.
fn behind_adds_and_deletes(empty: u32, steps: &[&str]) -> Case {
    let add = format!("A {empty} 7");
    let find = format!("F {empty}");
    let mut lines = vec![("N 2 64", "0"), (&add, "0"), ("R 128", "0")];
    lines.extend([("A 1 2", "0"), ("D 1", "0"), ("A 2 3", "0"), ("D 2", "0")]);
    lines.extend(steps.iter().map(|&answer| ("S", answer)));
    lines.extend([("S", "8"), (&find, "0 7")]);
    let name = format!("adds and deletes before a key behind {empty} empty buckets");
    dialogue(&name, &lines)
}

/// The only key is in the last of 4,096 buckets. 409 adds come up to bucket 4,090,
/// and the next one moves the key and ends the move. Behind it the one bucket has
/// too many keys, and a step moves them all to a larger table.
fn largest_move_by_adds() -> Case {
    let adds = adds(1..=410);
    let script = format!("N 4096 4096\nA 4095 7\nR 1\n{adds}C 0\nS\nS\n");

    let done = "0\n".repeat(3 + 410);
    let passing: String = (1..=409).rev().map(|key| format!(" {key} 1")).collect();
    let answer = format!("{done}0 0 411 410 1 4095 7{passing}\n0 411 0\n8\n");
    computed("a move from 4,096 buckets by adds alone", script, answer)
}

/// A key in each of so many buckets but the last, and as many adds that move them
/// to a table of twice the size. The last but one leaves the move under way.
fn moved_by_as_many_adds(size: u32) -> Case {
    let doubled = 2 * size;
    let last = doubled - 2;
    let held = adds(0..size - 1);
    let added = adds(size..last);
    let end = format!("R 1\nA {last} 1\nS\nC {last}\n");
    let script = format!("N 4096 {size}\n{held}R {doubled}\n{added}{end}");

    let done = "0\n".repeat(doubled as usize - 1);
    let answer = format!("{done}7\n0\n8\n0 1 1 {last} 1\n");
    let keys = size - 1;
    let name = format!("{keys} of {size} buckets moved by as many adds");
    computed(&name, script, answer)
}

/// A table with a key for each bucket grows by itself behind an add. That a move
/// has begun shows in a refused resize or in an answered step, and which size a
/// table has at rest in a resize to the same one, which is refused too.
fn growth() -> Vec<Case> {
    let mut cases = vec![
        dialogue(
            "a table of four buckets grows with its fourth key",
            &[
                ("N 8 4", "0"),
                ("A 0 10", "0"),
                ("A 1 11", "0"),
                ("A 2 12", "0"),
                ("S", "8"),
                ("R 4", "6"),
                ("A 3 13", "0"),
                ("R 16", "7"),
                ("R 3", "7"),
                ("C 0", "0 2 1 0 10"),
                ("S", "0 1 1"),
                ("C 0", "0 2 1 0 10"),
                ("S", "0 1 1"),
                ("S", "0 1 1"),
                ("S", "0 1 0"),
                ("S", "8"),
                ("R 8", "6"),
                ("C 3", "0 7 1 3 13"),
                ("C 7", "0 0 0"),
            ],
        ),
        dialogue(
            "tables of one and of two buckets grow to four",
            &[
                ("N 8 1", "0"),
                ("A 5 50", "0"),
                ("R 1", "7"),
                ("S", "0 1 0"),
                ("R 4", "6"),
                ("C 1", "0 3 1 5 50"),
                ("N 8 2", "0"),
                ("A 5 50", "0"),
                ("R 2", "6"),
                ("A 6 60", "0"),
                ("R 2", "7"),
                ("S", "0 1 1"),
                ("S", "0 1 0"),
                ("R 4", "6"),
                ("C 2", "0 1 1 6 60"),
                ("C 1", "0 3 1 5 50"),
            ],
        ),
        dialogue(
            "a full store of one key grows, and is used again",
            &[
                ("N 1 1", "0"),
                ("A 1 10", "0"),
                ("A 2 20", "5"),
                ("A 1 11", "4"),
                ("R 2", "7"),
                // Its step ends the move.
                ("D 1", "0"),
                ("S", "8"),
                ("R 4", "6"),
                ("A 2 20", "0"),
                ("S", "8"),
                ("C 2", "0 1 1 2 20"),
            ],
        ),
        // The four keys before it would have called for 8.
        dialogue(
            "five keys in two buckets grow to sixteen",
            &[
                ("N 16 8", "0"),
                ("A 0 10", "0"),
                ("A 1 11", "0"),
                ("A 2 12", "0"),
                ("A 3 13", "0"),
                ("R 2", "0"),
                ("S", "0 1 1"),
                ("S", "0 1 1"),
                ("S", "0 1 1"),
                ("S", "0 1 0"),
                ("S", "8"),
                ("A 4 14", "0"),
                ("C 0", "0 1 3 4 14 2 12 0 10"),
                ("S", "0 3 1"),
                ("S", "0 2 0"),
                ("R 16", "6"),
                ("C 4", "0 12 1 4 14"),
            ],
        ),
        dialogue(
            "no other call makes a table grow, nor a refused add",
            &[
                ("N 4 8", "0"),
                ("A 0 10", "0"),
                ("A 1 11", "0"),
                ("A 2 12", "0"),
                ("A 3 13", "0"),
                ("R 2", "0"),
                ("S", "0 1 1"),
                ("S", "0 1 1"),
                ("S", "0 1 1"),
                ("S", "0 1 0"),
                // Four keys in two buckets, and the store is full.
                ("A 9 19", "5"),
                ("R 2", "6"),
                ("A 3 99", "4"),
                ("V 0 20", "0"),
                ("F 0", "0 20"),
                ("C 0", "0 1 2 2 12 0 20"),
                ("R 2", "6"),
                ("D 0", "0"),
                ("R 2", "6"),
                ("A 9 19", "0"),
                ("R 2", "7"),
                ("S", "0 1 1"),
                ("S", "0 3 0"),
                ("R 8", "6"),
            ],
        ),
        dialogue(
            "a delete whose step ends a move leaves a crowded table",
            &[
                ("N 8 8", "0"),
                ("A 0 10", "0"),
                ("A 1 11", "0"),
                ("A 2 12", "0"),
                ("R 1", "0"),
                ("S", "0 1 1"),
                ("S", "0 1 1"),
                ("D 1", "0"),
                ("R 1", "6"),
                ("C 0", "0 0 2 2 12 0 10"),
                ("A 1 21", "0"),
                ("R 1", "7"),
                ("S", "0 3 0"),
                ("R 8", "6"),
            ],
        ),
        dialogue(
            "a step inside an add ends a move, and the table grows at once",
            &[
                ("N 8 8", "0"),
                ("A 8 80", "0"),
                ("R 2", "0"),
                ("A 0 10", "0"),
                ("R 2", "7"),
                ("C 0", "0 1 2 0 10 8 80"),
                ("S", "0 2 0"),
                ("S", "8"),
                ("R 4", "6"),
                ("C 0", "0 2 2 8 80 0 10"),
            ],
        ),
        // Three steps have put keys into the second buffer. The table that grows
        // there behind the second start is empty all the same.
        dialogue(
            "a start in the middle of a move that an add began",
            &[
                ("N 8 4", "0"),
                ("A 0 10", "0"),
                ("A 1 11", "0"),
                ("A 2 12", "0"),
                ("A 3 13", "0"),
                ("S", "0 1 1"),
                ("S", "0 1 1"),
                ("S", "0 1 1"),
                ("N 8 4", "0"),
                ("S", "8"),
                ("R 4", "6"),
                ("A 8 80", "0"),
                ("A 9 90", "0"),
                ("A 10 100", "0"),
                ("R 4", "6"),
                ("A 11 110", "0"),
                ("R 4", "7"),
                ("C 0", "0 2 1 8 80"),
                ("S", "0 1 1"),
                ("C 0", "0 2 1 8 80"),
                ("S", "0 1 1"),
                ("S", "0 1 1"),
                ("S", "0 1 0"),
                ("C 0", "0 4 1 8 80"),
                ("C 3", "0 7 1 11 110"),
            ],
        ),
        // The eighth key ends one move and begins another. The fourth delete takes
        // the last key that was not moved, and the step of the fifth ends the move.
        dialogue(
            "deletes make no table smaller",
            &[
                ("N 32 4", "0"),
                ("A 0 1", "0"),
                ("A 1 1", "0"),
                ("A 2 1", "0"),
                ("A 3 1", "0"),
                ("A 4 1", "0"),
                ("A 5 1", "0"),
                ("A 6 1", "0"),
                ("A 7 1", "0"),
                ("A 8 1", "0"),
                ("D 8", "0"),
                ("D 7", "0"),
                ("D 6", "0"),
                ("R 16", "7"),
                ("D 5", "0"),
                ("D 4", "0"),
                ("R 16", "6"),
                ("D 3", "0"),
                ("D 2", "0"),
                ("D 1", "0"),
                ("D 0", "0"),
                ("R 16", "6"),
                ("A 1 2", "0"),
                ("R 16", "6"),
                ("C 1", "0 9 1 1 2"),
                ("R 4", "0"),
            ],
        ),
        dialogue(
            "a walk goes on while the table grows by itself",
            &[
                ("N 8 4", "0"),
                ("A 0 10", "0"),
                ("A 1 11", "0"),
                ("A 2 12", "0"),
                ("C 0", "0 2 1 0 10"),
                ("A 3 13", "0"),
                ("A 4 14", "0"),
                ("C 2", "0 1 1 2 12"),
                ("D 4", "0"),
                ("C 1", "0 3 1 1 11"),
                ("A 7 17", "0"),
                ("C 3", "0 0 2 3 13 7 17"),
                ("D 0", "0"),
                ("S", "8"),
            ],
        ),
        grown_past_empty_buckets(),
        at_the_edge_of_the_room(
            "2,048 keys grow to as many buckets as there is room for",
            2048,
            &[("S", "0 2047 1"), ("S", "0 1 0"), ("R 4096", "6")],
        ),
        at_the_edge_of_the_room(
            "2,049 keys stay in 2,048 buckets, for want of room",
            2049,
            &[
                ("S", "8"),
                ("R 2048", "6"),
                ("D 1", "0"),
                ("A 1 1", "0"),
                ("R 4096", "0"),
                ("S", "0 2048 1"),
            ],
        ),
        thousand_keys("1,000 keys by adds alone, with a walk", at_growth),
        thousand_keys("1,000 keys by adds alone, with walks", every_third),
    ];
    cases.extend([4, 64, 1024].map(grown_by_as_many_adds));
    cases
}

/// All sixteen keys are in the last of sixteen buckets. The steps of the move that
/// the last one begins pass the others like those of any move.
fn grown_past_empty_buckets() -> Case {
    let adds = adds((0..16).map(|number| 16 * number + 15));
    let script = format!("N 32 16\n{adds}A 0 7\nS\nR 32\nC 0\n");
    let answer = "0\n".repeat(1 + 17) + "0 16 0\n6\n0 16 1 0 7\n";
    by_hand("a table grows past its empty buckets", script, answer)
}

/// All keys but the last are of one bucket, and are moved by one step: that of the
/// last add, which leaves so many keys in 2,048 buckets.
fn at_the_edge_of_the_room(name: &str, keys: u32, rest: &[(&str, &str)]) -> Case {
    let held = adds((1..keys).map(|number| 4096 * number));
    let mut script = format!("N 4096 4096\n{held}R 2048\nA 1 1\n");
    let mut answer = "0\n".repeat(keys as usize + 2);
    for (line, reply) in rest {
        script += &format!("{line}\n");
        answer += &format!("{reply}\n");
    }
    by_hand(name, script, answer)
}

/// A key in each of so many buckets, and as many adds, which move them to a table
/// of twice the size and leave a key in each bucket again. So the last of them ends
/// one move and begins another: the next step moves bucket 0.
fn grown_by_as_many_adds(size: u32) -> Case {
    let last = 2 * size - 1;
    let (held, added) = (adds(0..size), adds(size..last));
    let script = format!("N 4096 {size}\n{held}R 1\n{added}R 1\nA {last} 1\nS\nC {last}\n");

    let filled = "0\n".repeat(size as usize + 1);
    let moved = "0\n".repeat(size as usize - 1);
    let answer = format!("{filled}7\n{moved}7\n0\n0 1 1\n0 0 1 {last} 1\n");
    let name = format!("{size} buckets grow, and are moved by as many adds");
    computed(&name, script, answer)
}

/// When the store holds three keys, and behind each add with which a table grows:
/// one walk then lasts from the first keys to the last.
fn at_growth(held: u32) -> bool {
    held == 3 || (held >= 4 && held.is_power_of_two())
}

/// Behind every third add: a walk ends while the store grows, and the next begins.
fn every_third(held: u32) -> bool {
    held % 3 == 0
}

/// Adds alone fill a store of four buckets with the keys 0 to 999. A walk call
/// comes behind some of them, and behind the last as many as the walk under way
/// still needs; where a walk has ended the next one begins.
fn thousand_keys(name: &str, walked: fn(u32) -> bool) -> Case {
    let mut script = "N 1000 4\n".to_string();
    let mut answer = "0\n".to_string();
    let mut cursor = 0;
    for key in 0..1000 {
        script += &format!("A {key} {}\n", key % 10);
        answer += "0\n";
        if walked(key + 1) {
            cursor = walk_on(cursor, key + 1, &mut script, &mut answer);
        }
    }
    while cursor != 0 {
        cursor = walk_on(cursor, 1000, &mut script, &mut answer);
    }
    computed(name, script, answer)
}

/// One walk call where so many keys are held, and the cursor that it is answered.
///
/// Whenever a table grows there is a key in each of its buckets. So it is moved by
/// as many adds as it has buckets, and behind these the next one grows: the smaller
/// live table has as many buckets as the largest power of two that is not above the
/// keys held, four at least, and during a move the larger one has twice as many. No
/// bucket has two keys.
fn walk_on(cursor: u32, held: u32, script: &mut String, answer: &mut String) -> u32 {
    let digits = held.max(4).ilog2();
    let size = 1 << digits;
    let number = backwards(cursor, digits);
    let next = backwards((number + 1) % size, digits);
    let mut keys = vec![cursor, cursor + size];
    keys.retain(|&key| key < held);
    *script += &format!("C {cursor}\n");
    *answer += &format!("0 {next} {}", keys.len());
    for key in keys {
        *answer += &format!(" {key} {}", key % 10);
    }
    *answer += "\n";
    next
}

/// Adds keys, each with the value 1.
fn adds(keys: impl IntoIterator<Item = u32>) -> String {
    let lines = keys.into_iter().map(|key| format!("A {key} 1\n"));
    lines.collect()
}

/// Lines with a capacity or a size that the program refuses, be it legal for the
/// library or not. Each comes in every state of the store.
fn outside_the_limits() -> Vec<Case> {
    let starts = [
        "N 0 4",
        "N 4097 4",
        "N 5000 4",
        "N 65536 4",
        "N 65537 4",
        "N 4 0",
        "N 4 5",
        "N 4 4095",
        "N 4 8192",
        "N 4 65536",
        "N 4 131072",
        "N 65536 65536",
        "N 4294967295 4294967295",
    ];
    let resizes = [
        "R 0", "R 4095", "R 4097", "R 5000", "R 8192", "R 65536", "R 65537", "R 131072",
    ];
    let starts = starts.into_iter().map(refused_start);
    let resizes = resizes.into_iter().map(refused_resize);
    starts.chain(resizes).collect()
}

/// A refused start keeps the store that there was, and a move under way.
fn refused_start(line: &str) -> Case {
    dialogue(
        &format!("{line} keeps the old store"),
        &[
            (line, "6"),
            ("F 1", "1"),
            ("N 4 4", "0"),
            ("A 1 10", "0"),
            ("A 2 20", "0"),
            ("A 3 30", "0"),
            (line, "6"),
            ("F 1", "0 10"),
            ("R 8", "0"),
            // Its step moves key 1.
            ("A 5 50", "0"),
            (line, "6"),
            ("C 1", "0 3 2 1 10 5 50"),
            ("S", "0 1 1"),
            (line, "6"),
            ("S", "0 1 0"),
            (line, "6"),
            ("S", "8"),
            ("C 1", "0 5 1 1 10"),
            ("A 4 40", "5"),
        ],
    )
}

/// A resize tells of a state of zeros first, then of a move, and then of its size.
fn refused_resize(line: &str) -> Case {
    dialogue(
        &format!("{line} in every state of the store"),
        &[
            (line, "1"),
            ("N 4 4", "0"),
            ("A 1 10", "0"),
            ("A 2 20", "0"),
            (line, "6"),
            ("S", "8"),
            ("R 8", "0"),
            (line, "7"),
            ("S", "0 1 1"),
            (line, "7"),
            ("S", "0 1 0"),
            (line, "6"),
            ("S", "8"),
            ("C 1", "0 5 1 1 10"),
        ],
    )
}

/// Single lines between good ones. None of them changes the store.
fn bad_and_odd_lines() -> Vec<Case> {
    let good: &[(&[u8], &str)] = &[
        (b"F 1", "0 10"),
        (b"F 01", "0 10"),
        (b"F 0000000001", "0 10"),
        (b"F 0", "3"),
        (b"F 0000000000", "3"),
        (b"F 1000000000", "3"),
        (b"F 4294967295", "3"),
        (b"A 0000000001 5", "4"),
        (b"N 4294967295 4", "6"),
        (b"R 4294967295", "6"),
        (b"R 0000000004", "6"),
        (b"S", "8"),
        (b"C 4294967295", "0 0 0"),
        (b"C 0000000001", "0 3 1 1 10"),
    ];
    let bad: &[&[u8]] = &[
        // Spaces.
        b" ",
        b"  ",
        b" F 1",
        b"F 1 ",
        b"F  1",
        b"F ",
        b"S ",
        b" S",
        b"A 2  20",
        b"A  2 20",
        b"A 2 20 ",
        // Other white space, and line ends that are none here.
        b"F\t1",
        b"\tF 1",
        b"F 1\t",
        b"\t",
        b"F 1\r",
        b"S\r",
        b"\r",
        b"F 1\rF 1",
        b"F\x0b1",
        b"F 1\x0b",
        b"F 1\x0c",
        b"F\xc2\xa01",
        b"F 1\xc2\xa0",
        b"F 1\xc2\x85",
        b"F 1\xe2\x80\xa8F 1",
        // Letters.
        b"F1",
        b"FF 1",
        b"X",
        b"X 1",
        b"1",
        b"1 1",
        b"f 1",
        b"n 4 4",
        b"a 2 20",
        b"v 1 11",
        b"d 1",
        b"r 8",
        b"s",
        b"c 0",
        b"SS",
        b"S S",
        b"# 1",
        // Too few numbers, or too many.
        b"N",
        b"N 4",
        b"N 4 4 4",
        b"A",
        b"A 2",
        b"A 2 20 2",
        b"V",
        b"V 1",
        b"V 1 1 1",
        b"D",
        b"D 1 1",
        b"F",
        b"F 1 1",
        b"R",
        b"R 8 8",
        b"S 1",
        b"C",
        b"C 0 0",
        // Numbers that are none, or too long, or too large. Some would be 1
        // if they wrapped at 32 or 64 bits.
        b"F 00000000001",
        b"F 00000000000",
        b"F 4294967296",
        b"F 4294967297",
        b"F 9999999999",
        b"F 10000000000",
        b"F 99999999999",
        b"F 18446744073709551617",
        b"A 4294967296 1",
        b"A 2 4294967296",
        b"V 1 4294967296",
        b"D 4294967297",
        b"N 4294967297 4",
        b"N 4 4294967300",
        b"R 4294967304",
        b"C 4294967296",
        b"F -1",
        b"F +1",
        b"F 0x1",
        b"F 1.0",
        b"F 1,0",
        b"F 1_0",
        b"F 1e0",
        b"F a",
        b"F /",
        b"F :",
        // Bytes that no text of this kind has.
        b"\x00",
        b"F 1\x00",
        b"F\x001",
        b"F \x001",
        b"\x00F 1",
        b"F 1\x1a",
        b"F 1\x7f",
        b"\x80",
        b"\xff",
        b"F \xff",
        b"F 1\xff",
        b"F \xb1",
        b"\xc6 1",
        b"\xd3",
        b"F\xa01",
        b"\xef\xbb\xbfF 1",
        b"F \xd9\xa1",
        b"F \xef\xbc\x91",
    ];
    let all = good
        .iter()
        .copied()
        .chain(bad.iter().map(|&line| (line, "10")));
    all.map(|(line, answer)| {
        // Once in the middle, and once more at the end without a line feed.
        let script = [b"N 4 4\nA 1 10\n", line, b"\nF 1\n", line].concat();
        let answer = format!("0\n0\n{answer}\n0 10\n{answer}\n");
        let name = format!("the line \"{}\"", line.escape_ascii());
        by_hand(&name, script, answer)
    })
    .collect()
}

/// Scripts with something special about their bytes as a whole.
fn whole_scripts() -> Vec<Case> {
    let bytes = || (0..=u8::MAX).filter(|&byte| byte != b'\n');
    let lone_bytes: Vec<u8> = bytes().flat_map(|byte| [byte, b'\n']).collect();
    let lone_answer: String = bytes()
        .map(|byte| if byte == b'S' { "1\n" } else { "10\n" })
        .collect();
    let with_byte = |before: &[u8], after: &[u8]| {
        let mut script = b"N 4 4\nA 1 10\nR 8\n".to_vec();
        for byte in bytes() {
            script.extend([before, &[byte], after, b"\n"].concat());
        }
        script
    };
    vec![
        by_hand("an empty script", "", ""),
        by_hand("one line feed", "\n", "10\n"),
        by_hand("line feeds only", "\n\n\n", "10\n10\n10\n"),
        by_hand(
            "a last line without its line feed",
            "N 4 4\nC 0",
            "0\n0 0 0\n",
        ),
        by_hand("one letter without a line feed", "S", "1\n"),
        by_hand("an empty line at the end", "S\n\n", "1\n10\n"),
        by_hand("an empty line at the beginning", "\nS\n", "10\n1\n"),
        by_hand("empty lines between", "N 4 4\n\n\nS\n", "0\n10\n10\n8\n"),
        by_hand("carriage returns", "N 4 4\r\nS\r\nS\n", "10\n10\n1\n"),
        by_hand("every byte alone on a line", lone_bytes, lone_answer),
        modelled("every byte as a letter", with_byte(b"", b" 1")),
        modelled("every byte as a number", with_byte(b"F ", b"")),
        modelled("every byte as a space", with_byte(b"F", b"1")),
        modelled("every byte behind a number", with_byte(b"F 1", b"")),
        modelled("every byte before a letter", with_byte(b"", b"F 1")),
    ]
}

/// Scripts at and beyond the longest length, and those with large outputs.
fn large() -> Vec<Case> {
    let steps = "S\n".repeat(LONGEST / 2);
    let feeds = "\n".repeat(LONGEST);
    let digits = "1".repeat(LONGEST - 2);
    let one_line = format!("F {digits}");
    vec![
        by_hand(
            "65,536 bytes of steps",
            steps.clone(),
            "1\n".repeat(LONGEST / 2),
        ),
        by_hand(
            "65,537 bytes: steps and one byte",
            steps.clone() + "S",
            "10\n",
        ),
        by_hand(
            "65,537 bytes: steps and a line feed",
            steps.clone() + "\n",
            "10\n",
        ),
        by_hand("65,536 line feeds", feeds.clone(), "10\n".repeat(LONGEST)),
        by_hand("65,537 line feeds", feeds + "\n", "10\n"),
        by_hand("65,536 bytes in one line", one_line.clone(), "10\n"),
        by_hand("65,537 bytes in one line", one_line + "\n", "10\n"),
        by_hand("twice the longest script", steps.repeat(2), "10\n"),
        by_hand("a script of a million bytes", "S\n".repeat(500_000), "10\n"),
        filled_to_the_last_entry(),
        walk_of_the_largest_table(),
        modelled("4,096 keys of one bucket moved to 4,096", {
            // Filled by adds, a table of one bucket would have grown.
            let one = "R 1\n".to_string() + &"S\n".repeat(4096) + "C 0\nS\n";
            let tail = "R 4096\nC 0\nS\nC 0\nC 1\nC 4095\nS\nC 0\nR 1\nS\nC 0\nS\nC 0\n";
            fill("N 4096 4096\n", 4096) + &one + tail
        }),
        modelled("4,096 buckets moved into one, step by step", {
            let step = "S\nC 0\n".repeat(40) + &"S\n".repeat(2000);
            fill("N 4096 4096\n", 2000) + "R 1\n" + &step
        }),
        modelled("4,096 keys handed out as often as fits", {
            // Moved to one bucket, all are of the group of any cursor.
            let mut script = fill("N 4096 4096\n", 4096) + "R 1\nS\n";
            let rest = LONGEST - script.len();
            script += &"C 0\n".repeat(rest / 4 - 1);
            script + "C 0" + &"0".repeat(rest % 4) + "\n"
        }),
    ]
}

/// Adds the keys from 0 on, each with a value of one digit.
fn fill(start: &str, keys: u32) -> String {
    let adds = (0..keys).map(|key| format!("A {key} {}\n", key % 10));
    start.to_string() + &adds.collect::<String>()
}

/// Twice an add leaves as many keys as buckets. There is no room for a larger
/// table, and so none grows.
fn filled_to_the_last_entry() -> Case {
    let script = fill("N 4096 4096\n", 4096)
        + "A 4096 1\nA 4095 1\nD 17\nA 4096 1\nA 17 1\nF 4096\nF 17\nC 0\nS\nR 4096\n";
    let answer = "0\n".repeat(4097) + "5\n4\n0\n0\n5\n0 1\n3\n0 2048 2 4096 1 0 0\n8\n6\n";
    by_hand("4,096 keys and one more", script, answer)
}

/// A number written with so many binary digits, and read from right to left.
fn backwards(number: u32, digits: u32) -> u32 {
    let digits = digits as usize;
    let text: String = format!("{number:0digits$b}").chars().rev().collect();
    u32::from_str_radix(&text, 2).expect("binary digits")
}

/// The cursors of a walk in turn are 0, 1, 2 up to 4,095, each written with 12
/// binary digits and read from right to left.
fn walk_of_the_largest_table() -> Case {
    let mut script = fill("N 4096 4096\n", 1000);
    let mut answer = "0\n".repeat(1001);
    for number in 0..4096 {
        let cursor = backwards(number, 12);
        let next = backwards((number + 1) % 4096, 12);
        script += &format!("C {cursor}\n");
        answer += &if cursor < 1000 {
            format!("0 {next} 1 {cursor} {}\n", cursor % 10)
        } else {
            format!("0 {next} 0\n")
        };
    }
    computed("a whole walk of size 4,096", script, answer)
}

#[cfg(test)]
mod tests {
    use super::*;
    use crate::program::replies;
    use crate::walk::Witness;

    #[test]
    fn the_largest_output_comes_from_the_longest_script() {
        let cases = all();
        let last = cases.last().unwrap();
        assert_eq!(last.script.len(), LONGEST);
        assert!(last.script.ends_with(b"\n"));
    }

    /// Their answers are shown elsewhere, so they are to be those worked out here.
    #[test]
    fn the_samples_are_cases() {
        let printed = include_bytes!("../../../samples/printed.txt");
        let tour = include_bytes!("../../../samples/tour.txt");
        let thousand = include_bytes!("../../../samples/long/thousand.txt");
        for (name, sample) in [
            ("the printed script", &printed[..]),
            ("the tour", tour),
            ("1,000 keys by adds alone, with a walk", thousand),
        ] {
            let cases = all();
            let case = cases.iter().find(|case| case.name == name).unwrap();
            assert!(case.script == sample, "{name}");
        }
    }

    /// One walk is under way from three keys to a thousand, through all eight moves.
    #[test]
    fn a_walk_is_carried_through_the_thousand_adds() {
        carried_through_a_thousand("a walk", at_growth, 1);
    }

    #[test]
    fn walks_are_carried_through_the_thousand_adds() {
        carried_through_a_thousand("walks", every_third, 3);
    }

    /// The table grows from 4 buckets to 1,024, and all but the first time in the
    /// add whose step ends the move before. The witness has followed every walk from
    /// cursor 0 to its end: each handed out the keys held at all of its calls, and
    /// no key twice. Each of them went on while a table grew.
    fn carried_through_a_thousand(name: &str, walked: fn(u32) -> bool, count: usize) {
        let case = thousand_keys(name, walked);
        let mut witness = Witness::default();
        for exchange in replies(&case.script) {
            witness.observe(&exchange).unwrap();
        }
        let tally = witness.tally();
        assert_eq!((tally.grown, tally.grown_at_once, tally.cramped), (8, 7, 0));
        assert_eq!((tally.ended, tally.resized), (count, count));
        assert_eq!((tally.shrunk, tally.repeated), (0, 0));

        // The same of the keys held throughout, by the answer alone.
        let text = String::from_utf8(case.script).unwrap();
        let Answer::Computed(answer) = case.answer else {
            panic!("its answer is computed");
        };
        let answer = String::from_utf8(answer).unwrap();
        let mut held = 0;
        let mut walk = None;
        let mut walks = 0;
        for (line, reply) in text.lines().zip(answer.lines()) {
            match line.as_bytes()[0] {
                b'A' => held += 1,
                b'C' => {
                    let numbers: Vec<u32> = reply.split(' ').map(|n| n.parse().unwrap()).collect();
                    let (owed, handed) = walk.get_or_insert_with(|| (held, Vec::new()));
                    handed.extend(numbers[3..].chunks(2).map(|pair| pair[0]));
                    if numbers[1] == 0 {
                        handed.sort_unstable();
                        assert!(handed.windows(2).all(|pair| pair[0] != pair[1]));
                        assert!((0..*owed).all(|key| handed.contains(&key)));
                        walks += 1;
                        walk = None;
                    }
                }
                _ => {}
            }
        }
        assert_eq!(walks, count);
    }

    #[test]
    fn names_are_unlike() {
        let mut names: Vec<String> = all().into_iter().map(|case| case.name).collect();
        let count = names.len();
        names.sort();
        names.dedup();
        assert_eq!(names.len(), count);
    }
}
