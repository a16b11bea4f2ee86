//! Random sessions: generates them, runs them, writes them to a directory if
//! one is named, and prints what they reached.

use second::coverage::{Coverage, ResultCoverage, ENOUGH_SESSIONS};
use second::gen::session;
use second::lines::step_program;
use std::fs;
use std::path::Path;
use std::process::ExitCode;

const USAGE: &str = "usage: sessions SEED COUNT [DIRECTORY]";

/// The numbers that the step program tells, and the results of steps.
type Reached = (Coverage, ResultCoverage);

fn main() -> ExitCode {
    let words: Vec<String> = std::env::args().skip(1).collect();
    match sessions(&words) {
        Ok(reached) => judge(&reached),
        Err(message) => {
            eprintln!("{message}");
            ExitCode::from(2)
        }
    }
}

fn sessions(words: &[String]) -> Result<Reached, String> {
    let (seed, count, directory) = match words {
        [seed, count] => (seed, count, None),
        [seed, count, directory] => (seed, count, Some(Path::new(directory))),
        _ => return Err(USAGE.to_string()),
    };
    let seed: u64 = seed.parse().map_err(|_| USAGE)?;
    let count: u64 = count.parse().map_err(|_| USAGE)?;
    if let Some(directory) = directory {
        fs::create_dir_all(directory).map_err(|e| e.to_string())?;
    }
    let mut reached = Reached::default();
    for number in 0..count {
        let input = session(seed, number);
        if let Some(directory) = directory {
            let file = directory.join(format!("{number:04}.session"));
            fs::write(file, &input).map_err(|e| e.to_string())?;
        }
        step_program(&input, &mut reached);
        reached.0.sessions += 1;
    }
    Ok(reached)
}

/// Prints what was reached; enough sessions must reach everything.
fn judge((numbers, results): &Reached) -> ExitCode {
    println!("{numbers}\n{results}");
    let missed = [numbers.missed(), results.missed_by_sessions()].concat();
    if numbers.sessions >= ENOUGH_SESSIONS && !missed.is_empty() {
        println!("not reached: {}", missed.join(", "));
        return ExitCode::FAILURE;
    }
    ExitCode::SUCCESS
}
