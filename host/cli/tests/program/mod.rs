//! How the tests start a program.

use std::{
    env,
    io::Write,
    process::{Command, Output, Stdio},
    thread,
};

/// The command line.
pub const PULINDRAXI: &str = env!("CARGO_BIN_EXE_pulindraxi");

/// Runs a program with an input; the command line through what cargo runs programs of x86-64 with, where that is named.
pub fn run(program: &str, arguments: &[&str], input: &[u8]) -> Output {
    let mut command = Command::new(program);
    if let (PULINDRAXI, Some(runner)) = (program, env::var_os("CARGO_TARGET_X86_64_UNKNOWN_LINUX_GNU_RUNNER")) {
        command = Command::new(runner);
        command.arg(program);
    }
    let mut child = command
        .args(arguments)
        .stdin(Stdio::piped())
        .stdout(Stdio::piped())
        .stderr(Stdio::piped())
        .spawn()
        .unwrap_or_else(|error| panic!("{program}: {error} (host/install.sh installs it)"));
    let mut stdin = child.stdin.take().unwrap();
    thread::scope(|scope| {
        // A program may fill its output before it has read all of its input, and one that refuses its arguments may not read it.
        scope.spawn(move || stdin.write_all(input));
        child.wait_with_output().unwrap()
    })
}
