//! The second program: a session on standard input, its answers on standard
//! output; or a view of its table, the traces of its runs, or what a run's trace
//! shows.

use second::debugger::{show_program, trace_program};
use second::lines::{step_program, table_of, text_of};
use second::{frames_of, steps_of};
use std::io::{self, Read, Write};
use std::process::ExitCode;

const USAGE: &str = "usage: second < SESSION
       second view kind NUMBER < SESSION
       second view steps NUMBER < SESSION
       second trace < SESSION
       second show RUN FRAMES < SESSION";

fn main() -> ExitCode {
    let words: Vec<String> = std::env::args().skip(1).collect();
    let words: Vec<&str> = words.iter().map(String::as_str).collect();
    let answer = match words[..] {
        [] => read_input().map(|input| step_program(&input, &mut ())),
        ["view", which, number] => read_input().and_then(|input| view(&input, which, number)),
        ["trace"] => read_input().map(|input| trace_program(&input, &mut ())),
        ["show", run, frames] => show(run, frames),
        _ => Err(USAGE.to_string()),
    };
    match answer.and_then(|output| write_output(&output)) {
        Ok(()) => ExitCode::SUCCESS,
        Err(message) => {
            eprintln!("{message}");
            ExitCode::from(2)
        }
    }
}

fn read_input() -> Result<Vec<u8>, String> {
    let mut input = Vec::new();
    io::stdin().read_to_end(&mut input).map_err(|e| e.to_string())?;
    Ok(input)
}

fn write_output(output: &[u8]) -> Result<(), String> {
    io::stdout().write_all(output).map_err(|e| e.to_string())
}

/// The frames of a view of the table lines, a line of 24 digits each.
fn view(input: &[u8], which: &str, number: &str) -> Result<Vec<u8>, String> {
    let number: u32 = number.parse().map_err(|_| USAGE.to_string())?;
    let table = table_of(input).ok_or("a table line is malformed")?;
    let view = match which {
        "kind" => frames_of(&table, number),
        "steps" => steps_of(&table, number),
        _ => return Err(USAGE.to_string()),
    };
    Ok(text_of(view.bytes))
}

/// The store after so many frames of a run, which counts from 1.
fn show(run: &str, frames: &str) -> Result<Vec<u8>, String> {
    let number = |word: &str| word.parse::<u64>().map_err(|_| USAGE.to_string());
    let (run, frames) = (number(run)?, number(frames)?);
    read_input().map(|input| show_program(&input, run, frames))
}
