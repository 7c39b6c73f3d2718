//! The stack that solve needs: stack.c takes it to the full depth of its search.

use rubblewaltz_host::c_program::{command_with_stack, compile};
use std::os::unix::process::ExitStatusExt;
use std::path::Path;
use std::process::{ExitStatus, Stdio};

/// Enough, in bytes, for solve on any network and for a small program around it.
const STACK: usize = 400 * 1024;

/// What the system ends a program with that leaves its stack.
const SEGMENTATION_FAULT: i32 = 11;

/// The emulator's words on a program that leaves its stack are kept off the tests' own.
fn end_with_stack(program: &Path, bytes: usize) -> ExitStatus {
    command_with_stack(program, bytes)
        .stderr(Stdio::null())
        .status()
        .expect("stack.c's program starts")
}

#[test]
fn solve_in_the_stated_stack_and_not_in_half_of_it() {
    let program = compile("stack", Path::new(env!("CARGO_TARGET_TMPDIR")));
    let enough = end_with_stack(&program, STACK);
    assert_eq!(enough.code(), Some(0), "{enough}");
    let half = end_with_stack(&program, STACK / 2);
    assert_eq!(half.signal(), Some(SEGMENTATION_FAULT), "{half}");
}
