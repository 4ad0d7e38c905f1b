//! What the program `totals` says to a person, where there is no sheet to print: on the standard error, and nothing on its output.

use compare::program::path;
use std::fs::File;
use std::process::{Command, Output, Stdio};

/// The paper's example.
const EXAMPLE: &[u8] = b"\x01\x01\x01\0\x01\0\0\0\0\0\0\0LANE0   \x01\x01\0\0\x07\0\0\0\0\0\0\0\x02\x01\0\0\x07\0\0\0\0\0\0\0";

/// The program, by a shell that gives it this input and output; `$0` is its path.
fn by_shell(script: &str) -> Output {
    let program = path().expect("the program");
    let mut command = Command::new("sh");
    let command = command.args(["-c", script]).arg(program);
    command.output().expect("a shell")
}

/// Fails unless nothing is printed and one line is said, which begins so.
fn expect_said(found: &Output, line: &str) {
    let said = String::from_utf8_lossy(&found.stderr);
    assert_eq!(found.stdout, b"", "{said}");
    assert!(said.starts_with(line), "{said}");
    assert_eq!(said.matches('\n').count(), 1, "{said}");
    assert!(said.ends_with('\n'), "{said}");
}

/// The example as octal escapes of printf.
fn printed_example() -> String {
    EXAMPLE.iter().map(|byte| format!("\\{byte:03o}")).collect()
}

#[test]
fn an_argument() {
    let program = path().expect("the program");
    let mut command = Command::new(program);
    let command = command.arg("shift").stdin(Stdio::null());
    let found = command.output().expect("the program");
    expect_said(&found, "totals: takes no arguments; ");
}

#[test]
fn an_input_that_can_t_be_read() {
    let program = path().expect("the program");
    let folder = File::open(env!("CARGO_MANIFEST_DIR")).expect("a folder");
    let found = Command::new(program).stdin(folder).output();
    expect_said(&found.expect("the program"), "totals: standard input: ");
    expect_said(&by_shell("exec \"$0\" <&-"), "totals: standard input: ");
}

#[test]
fn an_output_that_can_t_be_written() {
    let example = printed_example();
    for output in ["/dev/full", "&-"] {
        let script = format!("printf '{example}' | \"$0\" >{output}");
        expect_said(&by_shell(&script), "totals: standard output: ");
    }
}

#[test]
fn the_example_by_a_shell() {
    let found = by_shell(&format!("printf '{}' | \"$0\"", printed_example()));
    assert_eq!(found.stderr, b"");
    assert_eq!(found.stdout, b"LANE0 1 1 0 0 0 0\nTOTAL 1 1 0 0 0 0\n");
}
