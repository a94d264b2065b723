//! The line program: calls on standard input, answers on standard output.

use std::fs::File;
use std::io;
use std::os::fd::AsFd;
use std::process::ExitCode;

use reference_plant::plant::Plant;
use reference_plant::serve::serve;

fn main() -> ExitCode {
    match run() {
        Ok(()) => ExitCode::SUCCESS,
        // The reader of the answers has gone: there is nobody to tell.
        Err(error) if error.kind() == io::ErrorKind::BrokenPipe => ExitCode::FAILURE,
        Err(error) => {
            eprintln!("reference: {error}");
            ExitCode::FAILURE
        }
    }
}

fn run() -> io::Result<()> {
    // As files, because the standard library's own handles add smaller buffers in between.
    let input = File::from(io::stdin().as_fd().try_clone_to_owned()?);
    let output = File::from(io::stdout().as_fd().try_clone_to_owned()?);
    serve(&mut Plant::new(), input, output)
}
