//! Writes a line file to standard output: `generate SEED COUNT [PROFILE]`.

use std::fs::File;
use std::io::{self, BufWriter};
use std::os::fd::AsFd;
use std::process::ExitCode;

use reference_plant::generator::{generate, Profile};

const USE: &str = "generate SEED COUNT [mixed|work|storm|late|hits|sweeps|pulls|away]";

fn main() -> ExitCode {
    let arguments: Vec<String> = std::env::args().skip(1).collect();
    let (Some(seed), Some(count), Some(profile), true) = (
        arguments.first().and_then(|seed| seed.parse().ok()),
        arguments.get(1).and_then(|count| count.parse().ok()),
        Profile::named(arguments.get(2).map_or("mixed", String::as_str)),
        arguments.len() <= 3,
    ) else {
        eprintln!("use: {USE}");
        return ExitCode::from(2);
    };
    match write(seed, count, profile) {
        Ok(()) => ExitCode::SUCCESS,
        Err(error) if error.kind() == io::ErrorKind::BrokenPipe => ExitCode::FAILURE,
        Err(error) => {
            eprintln!("generate: {error}");
            ExitCode::FAILURE
        }
    }
}

fn write(seed: u64, count: u64, profile: Profile) -> io::Result<()> {
    let output = File::from(io::stdout().as_fd().try_clone_to_owned()?);
    generate(BufWriter::with_capacity(64 * 1024, output), seed, count, profile)
}
