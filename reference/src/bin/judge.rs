//! Holds the answers of a line program to the history of demand 3: `judge CALLS ANSWERS`.

use std::process::ExitCode;

use reference_plant::history::judge;

fn main() -> ExitCode {
    let arguments: Vec<String> = std::env::args().skip(1).collect();
    let [calls, answers] = &arguments[..] else {
        eprintln!("use: judge CALLS ANSWERS");
        return ExitCode::from(2);
    };
    let read = |path: &String| {
        std::fs::read(path).map_err(|error| {
            eprintln!("judge: {path}: {error}");
            ExitCode::from(2)
        })
    };
    let (calls, answers) = match (read(calls), read(answers)) {
        (Ok(calls), Ok(answers)) => (calls, answers),
        (Err(code), _) | (_, Err(code)) => return code,
    };
    match judge(&calls, &answers) {
        Ok(held) => {
            println!("{held}");
            ExitCode::SUCCESS
        }
        Err(contradiction) => {
            println!("{contradiction}");
            ExitCode::FAILURE
        }
    }
}
