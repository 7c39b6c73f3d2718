//! The C programs among the tests: compiled with the C header, linked with the archive, and run.

use std::env;
use std::path::{Path, PathBuf};
use std::process::Command;

/// Nothing where the archive is for the tests' own processor.
const EMULATOR: &str = env!("RUBBLEWALTZ_EMULATOR");

/// Compiles tests/NAME.c; the program is written to the folder.
pub fn compile(name: &str, folder: &Path) -> PathBuf {
    let program = folder.join(name);
    let mut compiler = env!("RUBBLEWALTZ_CC").split_whitespace();
    let compiled = Command::new(compiler.next().expect("a compiler"))
        .current_dir(env!("CARGO_MANIFEST_DIR"))
        .args(compiler)
        .args(["-std=c11", "-Wall", "-Wextra", "-Werror", "-I../include"])
        .arg(format!("tests/{name}.c"))
        .args(["../crates/rubblewaltz/out/librubblewaltz.a", "-o"])
        .arg(&program)
        .status()
        .expect("the C compiler starts");
    assert!(compiled.success(), "{name}.c was not compiled");
    program
}

/// The command that runs the program.
pub fn command(program: &Path) -> Command {
    if EMULATOR.is_empty() {
        return Command::new(program);
    }
    let mut command = Command::new(EMULATOR);
    command.arg(program);
    command
}

/// The same with a stack of so many bytes. Nothing but the path is left of the environment, which
/// lies on the stack too.
pub fn command_with_stack(program: &Path, bytes: usize) -> Command {
    let mut command = if EMULATOR.is_empty() {
        limited_by_shell(bytes)
    } else {
        limited_by_emulator(bytes)
    };
    let path = env::var_os("PATH").map(|path| ("PATH", path));
    command.arg(program).env_clear().envs(path);
    command
}

/// The shell counts in units of 1,024 bytes.
fn limited_by_shell(bytes: usize) -> Command {
    let mut command = Command::new("sh");
    command.args(["-c", r#"ulimit -s "$0" && exec "$1""#]);
    command.arg((bytes / 1024).to_string());
    command
}

fn limited_by_emulator(bytes: usize) -> Command {
    let mut command = Command::new(EMULATOR);
    command.arg("-s").arg(bytes.to_string());
    command
}
