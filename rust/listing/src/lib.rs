//! Runs the listing program, as a caller would: bytes in, text out.

#![forbid(unsafe_code)]
#![warn(missing_docs)]

use std::io::{ErrorKind, Write};
use std::path::Path;
use std::process::{Child, Command, Stdio};
use std::thread::sleep;
use std::time::Duration;

/// The words that run the program: those of the variable `LISTING_RUN` before
/// the path of `crates/listing/out/listing`. The variable is for machines that run
/// x86-64 programs under an emulator; elsewhere it is not set.
pub fn command() -> Vec<String> {
    let program = Path::new(env!("CARGO_MANIFEST_DIR")).join("../../crates/listing/out/listing");
    let before = std::env::var("LISTING_RUN").unwrap_or_default();
    let mut words: Vec<String> = before.split_whitespace().map(String::from).collect();
    words.push(program.to_string_lossy().into_owned());
    words
}

/// The text that the program prints for this input.
pub fn printed(input: &[u8]) -> String {
    printed_in_parts(&[input])
}

/// The same for an input that comes in parts, with a pause between them, so
/// that the program's reads are short.
pub fn printed_in_parts(parts: &[&[u8]]) -> String {
    let mut child = started();
    let mut pipe = child.stdin.take().expect("a pipe to the program");
    for (i, part) in parts.iter().enumerate() {
        if i > 0 {
            sleep(Duration::from_millis(5));
        }
        match pipe.write_all(part) {
            Ok(()) => (),
            // The program has its 1,024 bytes and has ended.
            Err(error) if error.kind() == ErrorKind::BrokenPipe => break,
            Err(error) => panic!("cannot write to the program: {error}"),
        }
    }
    drop(pipe);
    let output = child.wait_with_output().expect("the program's output");
    assert!(output.status.success(), "it ended with {}", output.status);
    String::from_utf8(output.stdout).expect("the program prints ASCII")
}

fn started() -> Child {
    let words = command();
    Command::new(&words[0])
        .args(&words[1..])
        .stdin(Stdio::piped())
        .stdout(Stdio::piped())
        .spawn()
        .unwrap_or_else(|error| panic!("cannot run {words:?}: {error}; `./list` builds it"))
}
