//! The built programs `compare` and `fuzz` on files, with the oracle's own listing in the proved program's place, and with programs
//! that are wrong in one way each; and `compare` on threads with enough stack and with too little.

use std::process::{Command, Output};

const LISTING: &str = env!("CARGO_BIN_EXE_oracle_listing");

struct Run {
    succeeded: bool,
    printed: String,
}

fn run(program: &str, words: &[&str]) -> Run {
    let Output { status, stdout, .. } = Command::new(program).args(words).output().unwrap();
    Run {
        succeeded: status.success(),
        printed: String::from_utf8(stdout).unwrap(),
    }
}

fn compare(words: &[&str]) -> Run {
    run(env!("CARGO_BIN_EXE_compare"), words)
}

/// A run over some files with a shell's program, which has to fail by differences and not for want of cases.
fn assert_seen(script: &str) {
    let run = compare(&["files", "1", "20", "--", "sh", "-c", script]);
    assert!(!run.succeeded, "{}", run.printed);
    assert!(run.printed.contains(" differs:"), "{}", run.printed);
}

#[test]
fn the_oracles_listing_agrees_with_itself() {
    let run = compare(&["files", "1", "700", "--", LISTING]);
    assert!(run.succeeded, "{}", run.printed);
    assert!(run.printed.starts_with("files: 7"), "{}", run.printed);
    assert!(run.printed.contains(" passed, 0 failed"), "{}", run.printed);
}

#[test]
fn a_program_that_prints_nothing_is_seen() {
    assert_seen("cat > /dev/null");
}

#[test]
fn a_program_that_refuses_everything_is_seen() {
    assert_seen("cat > /dev/null; echo refused 8");
}

#[test]
fn a_newline_too_many_is_seen() {
    assert_seen(&format!("{LISTING}; echo"));
}

#[test]
fn a_status_that_is_not_zero_is_seen() {
    assert_seen(&format!("{LISTING}; exit 1"));
}

#[test]
fn words_on_standard_error_are_seen() {
    assert_seen(&format!("{LISTING}; echo oh >&2"));
}

#[test]
fn a_program_that_cannot_be_run_is_seen() {
    let run = compare(&["files", "1", "1", "--", "./no-such-program"]);
    assert!(!run.succeeded && run.printed.contains("cannot be run"));
}

#[test]
fn too_few_files_do_not_pass() {
    let run = compare(&["files", "1", "3", "--", LISTING]);
    assert!(!run.succeeded && run.printed.contains("are needed"));
}

#[test]
fn hostile_files_have_every_kind_of_answer() {
    let run = run(env!("CARGO_BIN_EXE_fuzz"), &["files", "3", "2000", LISTING]);
    assert!(run.succeeded, "{}", run.printed);
    for number in [1, 4, 6, 7, 8, 9] {
        assert!(run.printed.contains(&format!("refused {number} ")));
    }
}

#[test]
fn roots_of_another_word_do_not_pass() {
    assert!(!compare(&["roots", "--none"]).succeeded);
}

fn calls_on_stack(name: &str, bytes: &str) -> Run {
    compare(&["stack", "--calls", name, bytes])
}

#[test]
fn calls_on_enough_stack_pass() {
    let run = calls_on_stack("families_closure", "1048576");
    assert!(run.succeeded, "{}", run.printed);
    assert!(run.printed.contains(" passed, 0 failed"), "{}", run.printed);
}

/// On an Arm host the calls are made in another process, on its stack.
#[cfg(target_arch = "x86_64")]
#[test]
fn too_little_stack_is_seen() {
    let run = calls_on_stack("families_list", "65536");
    assert!(!run.succeeded && !run.printed.contains("passed"));
    let program = env!("CARGO_BIN_EXE_compare").as_ref();
    assert!(!compare::stack::passes(program, "families_list", 65_536));
}

#[test]
fn a_function_that_is_not_there_does_not_pass() {
    assert!(!calls_on_stack("families_lists", "1048576").succeeded);
}
