//! Runs a program on the bytes of standard input, given to it in an odd way: `pieces byte|line|reset PROGRAM`.
//!
//! With `byte` and `line` each read of the program gets one byte, or one line, and after the last the end of input.
//! With `reset` it may read all bytes, and then a read fails: the connection was reset. The program's standard
//! output and standard error are those of `pieces`.

use std::io::{self, Read, Write};
use std::os::fd::OwnedFd;
use std::os::unix::net::{UnixDatagram, UnixStream};
use std::process::{Child, Command, ExitCode, ExitStatus};

const USE: &str = "pieces byte|line|reset PROGRAM";

fn main() -> ExitCode {
    let arguments: Vec<String> = std::env::args().skip(1).collect();
    let [way, program] = arguments.as_slice() else {
        eprintln!("use: {USE}");
        return ExitCode::from(2);
    };
    let ended = match way.as_str() {
        "byte" => all().and_then(|bytes| apart(bytes.chunks(1), program)),
        "line" => all().and_then(|bytes| apart(lines(&bytes), program)),
        "reset" => all().and_then(|bytes| reset(&bytes, program)),
        _ => {
            eprintln!("use: {USE}");
            return ExitCode::from(2);
        }
    };
    match ended {
        Ok(status) if status.success() => ExitCode::SUCCESS,
        Ok(status) => {
            eprintln!("pieces: {program}: {status}");
            ExitCode::FAILURE
        }
        Err(error) => {
            eprintln!("pieces: {error}");
            ExitCode::FAILURE
        }
    }
}

fn all() -> io::Result<Vec<u8>> {
    let mut bytes = Vec::new();
    io::stdin().read_to_end(&mut bytes)?;
    Ok(bytes)
}

/// The lines, each with its byte 10. One that is longer than a read is sure to have room for comes in several pieces.
fn lines(bytes: &[u8]) -> impl Iterator<Item = &[u8]> {
    bytes.split_inclusive(|&byte| byte == b'\n').flat_map(|line| line.chunks(4096))
}

fn start(program: &str, input: impl Into<OwnedFd>) -> io::Result<Child> {
    Command::new(program).stdin(input.into()).spawn()
}

/// A read takes one message of a datagram socket, never two, and an empty message reads as the end of input.
fn apart<'a>(pieces: impl Iterator<Item = &'a [u8]>, program: &str) -> io::Result<ExitStatus> {
    let (ours, theirs) = UnixDatagram::pair()?;
    let mut child = start(program, theirs)?;
    for piece in pieces {
        ours.send(piece)?;
    }
    ours.send(&[])?;
    child.wait()
}

/// A socket that is closed with a byte unread resets the connection; what was sent before can still be read.
fn reset(bytes: &[u8], program: &str) -> io::Result<ExitStatus> {
    let (mut ours, mut theirs) = UnixStream::pair()?;
    theirs.write_all(b"\n")?;
    let mut child = start(program, theirs)?;
    ours.write_all(bytes)?;
    drop(ours);
    child.wait()
}
