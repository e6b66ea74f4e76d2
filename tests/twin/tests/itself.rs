//! The twin as a whole, run against itself and against programs that fail.
#![cfg(unix)]

use std::fs;
use std::os::unix::fs::PermissionsExt;
use std::path::{Path, PathBuf};
use std::process::{Command, Output};

const TWIN: &str = env!("CARGO_BIN_EXE_twin");

/// Makes a program under test of one line of shell.
fn program(name: &str, line: &str) -> PathBuf {
    let path = Path::new(env!("CARGO_TARGET_TMPDIR")).join(name);
    fs::write(&path, format!("#!/bin/sh\n{line}\n")).unwrap();
    fs::set_permissions(&path, fs::Permissions::from_mode(0o755)).unwrap();
    path
}

fn twin(program: &Path, arguments: &[&str]) -> Output {
    // Failed scripts are kept in the directory for temporary files.
    Command::new(TWIN)
        .env("TMPDIR", env!("CARGO_TARGET_TMPDIR"))
        .arg(program)
        .args(arguments)
        .output()
        .unwrap()
}

fn twin_on_arrays(program: &Path) -> Output {
    let path = program.to_str().expect("a path in text");
    twin(Path::new("--fingerprint"), &[path, "7", "25"])
}

fn expect_failure(program: &Path, arguments: &[&str], status: i32, message: &str) {
    failed(&twin(program, arguments), status, message);
}

fn failed(output: &Output, status: i32, message: &str) {
    let errors = String::from_utf8_lossy(&output.stderr);
    assert_eq!(output.status.code(), Some(status), "{errors}");
    assert!(errors.contains(message), "{errors}");
}

fn agreed(output: &Output, message: &str) {
    let text = String::from_utf8_lossy(&output.stdout);
    assert_eq!(output.status.code(), Some(0), "{text}");
    assert!(text.ends_with(message), "{text}");
}

// One test and not several: a program that is still being written by one
// thread cannot be run while another thread starts a process.
#[test]
fn the_twin_tells_good_programs_from_bad() {
    let good = program("good", &format!("exec '{TWIN}' --answer"));
    agreed(&twin(&good, &["7", "25"]), "scripts agree, seed 7\n");

    let silent = program("silent", "exit 0");
    expect_failure(
        &silent,
        &["7", "0"],
        1,
        "seed 7, the printed script: answer 1",
    );
    let deaf = program("deaf", "echo 10");
    expect_failure(&deaf, &[], 1, "answer 1 differs at byte 1");
    // Says of a move that has ended that it goes on.
    let late = program(
        "late",
        &format!("'{TWIN}' --answer | sed 's/^0 3 0$/0 3 1/'"),
    );
    expect_failure(
        &late,
        &["7", "0"],
        1,
        "seed 7, the printed script: answer 7",
    );
    let failing = program("failing", &format!("'{TWIN}' --answer; exit 3"));
    expect_failure(&failing, &[], 1, "exit status: 3");

    let printer = program("printer", &format!("exec '{TWIN}' --fingerprint --answer"));
    agreed(
        &twin_on_arrays(&printer),
        "501 fingerprints agree, seed 7\n",
    );
    failed(
        &twin_on_arrays(&silent),
        1,
        "seed 7: the fingerprint of array 1",
    );
    // With a sign, zeros come to nothing.
    let signed = program(
        "signed",
        &format!("'{TWIN}' --fingerprint --answer | sed 's/^9596644176926630232$/0/'"),
    );
    failed(&twin_on_arrays(&signed), 1, "numbers:  [0, 0, 0, 0, 0, 0]");

    expect_failure(Path::new("no such program"), &[], 2, "no such program");
    expect_failure(&good, &["one"], 2, "usage");
    expect_failure(&good, &["1", "2", "3"], 2, "usage");
}
