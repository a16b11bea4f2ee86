//! Compares another program with the second one over random sessions: the step
//! program, the one that traces its runs, or the one that shows a trace.

use second::coverage::{Coverage, TraceCoverage};
use second::debugger::{show_program, trace_program, traced_runs};
use second::gen::rng::Rng;
use second::gen::session;
use second::lines::step_program;
use second::shrink::shrink;
use std::fs::{self, File};
use std::io::{self, Read};
use std::path::{Path, PathBuf};
use std::process::{Child, Command, ExitCode, Stdio};
use std::sync::mpsc;
use std::thread;
use std::time::{Duration, Instant};

const USAGE: &str = "usage: compare SEED COUNT [--trace | --show] [--found FILE] [--seconds NUMBER]
               -- COMMAND [ARGUMENT..]
  --trace           the command is to print what `second trace` prints
  --show            the command gets two arguments more, and is to print what
                    `second show RUN FRAMES` prints
  --found FILE      where a shrunk session that differs goes
                    (target/compare/FOUND.session)
  --seconds NUMBER  how long the command may take for a session (60)";

/// How long a difference is shrunk at most.
const SHRINK_TIME: Duration = Duration::from_secs(120);

fn main() -> ExitCode {
    let words: Vec<String> = std::env::args().skip(1).collect();
    match Plan::read(&words).and_then(|plan| plan.compare()) {
        Ok(true) => ExitCode::SUCCESS,
        Ok(false) => ExitCode::FAILURE,
        Err(message) => {
            eprintln!("{message}");
            ExitCode::from(2)
        }
    }
}

/// Which of the programs the command is.
#[derive(Clone, Copy, PartialEq, Eq)]
enum Program {
    Step,
    Trace,
    Show,
}

struct Plan {
    seed: u64,
    count: u64,
    program: Program,
    found: PathBuf,
    seconds: u64,
    command: Vec<String>,
    /// The session for the command's standard input.
    input: PathBuf,
}

/// What the programs are asked about a session.
#[derive(Clone, Copy)]
enum Question {
    Step,
    Trace,
    Show { run: u64, frames: u64 },
}

/// What the command did with a session.
struct Given {
    output: Vec<u8>,
    /// How it ended, if not by itself.
    fault: Option<String>,
}

/// What the sessions reached.
#[derive(Default)]
struct Reached {
    sessions: Coverage,
    traces: TraceCoverage,
    /// Sessions of which `show` prints something.
    shown: u64,
}

impl Question {
    fn draw(program: Program, seed: u64, number: u64, session: &[u8]) -> Question {
        match program {
            Program::Step => Question::Step,
            Program::Trace => Question::Trace,
            Program::Show => Question::draw_show(&mut Rng::new(!seed, number), session),
        }
    }

    /// Mostly a run that the session has, and frames up to a little past its end.
    fn draw_show(rng: &mut Rng, session: &[u8]) -> Question {
        let runs = traced_runs(session, &mut ());
        let run = if rng.chance(92) && !runs.is_empty() {
            rng.between(1, runs.len())
        } else {
            rng.pick(&[runs.len() + 1, runs.len() + 2, 65_537])
        };
        let last = run.checked_sub(1).and_then(|place| runs.get(place));
        let last = last.map_or(0, |run| run.frames());
        let frames = if rng.chance(10) { 1_000_000 } else { rng.below(last + 4) };
        Question::Show { run: run as u64, frames: frames as u64 }
    }

    /// What the second program answers.
    fn answer(self, session: &[u8], reached: &mut Reached) -> Vec<u8> {
        reached.sessions.sessions += 1;
        match self {
            Question::Step => step_program(session, &mut reached.sessions),
            Question::Trace => trace_program(session, &mut reached.traces),
            Question::Show { run, frames } => {
                let output = show_program(session, run, frames);
                reached.shown += u64::from(!output.is_empty());
                output
            }
        }
    }

    /// What stands after the command.
    fn arguments(self) -> Vec<String> {
        match self {
            Question::Show { run, frames } => vec![run.to_string(), frames.to_string()],
            Question::Step | Question::Trace => Vec::new(),
        }
    }

    /// What is asked besides the session.
    fn told(self) -> String {
        match self {
            Question::Show { run, frames } => format!(" for run {run} and {frames} frames"),
            Question::Step | Question::Trace => String::new(),
        }
    }
}

impl Plan {
    fn read(words: &[String]) -> Result<Plan, String> {
        let parted = words.iter().position(|word| word == "--").ok_or(USAGE)?;
        let (options, command) = (&words[..parted], &words[parted + 1..]);
        let [seed, count, options @ ..] = options else {
            return Err(USAGE.to_string());
        };
        if command.is_empty() {
            return Err(USAGE.to_string());
        }
        let mut plan = Plan {
            seed: number(seed)?,
            count: number(count)?,
            program: Program::Step,
            found: Path::new("target").join("compare").join("FOUND.session"),
            seconds: 60,
            command: command.to_vec(),
            input: std::env::temp_dir().join(format!("compare-{}.session", std::process::id())),
        };
        plan.read_options(options)?;
        Ok(plan)
    }

    fn read_options(&mut self, options: &[String]) -> Result<(), String> {
        let mut options = options.iter();
        while let Some(option) = options.next() {
            match option.as_str() {
                "--trace" => self.program = Program::Trace,
                "--show" => self.program = Program::Show,
                "--found" => self.found = PathBuf::from(options.next().ok_or(USAGE)?),
                "--seconds" => self.seconds = number(options.next().ok_or(USAGE)?)?,
                _ => return Err(USAGE.to_string()),
            }
        }
        Ok(())
    }

    /// True if every session gives the same output.
    fn compare(&self) -> Result<bool, String> {
        let mut reached = Reached::default();
        let mut all_alike = true;
        for number in 0..self.count {
            let input = session(self.seed, number);
            let question = Question::draw(self.program, self.seed, number, &input);
            let expected = question.answer(&input, &mut reached);
            if self.give(question, &input)?.differs_from(&expected) {
                self.report(number, question, &input)?;
                all_alike = false;
                break;
            }
        }
        let _ = fs::remove_file(&self.input);
        match self.program {
            Program::Step => println!("{}", reached.sessions),
            Program::Trace => println!("frames by kind: {:?}", reached.traces.kinds),
            Program::Show => println!("sessions of which something is shown: {}", reached.shown),
        }
        let verdict = if all_alike { "all alike" } else { "the last one differs" };
        let sessions = reached.sessions.sessions;
        println!("compared {sessions} sessions of seed {}: {verdict}", self.seed);
        Ok(all_alike)
    }

    /// Runs the command. Its input is a file and its output is read by a
    /// thread, so that neither side waits for the other.
    fn give(&self, question: Question, session: &[u8]) -> Result<Given, String> {
        let told = |e: io::Error| format!("{}: {e}", self.input.display());
        fs::write(&self.input, session).map_err(told)?;
        let input = File::open(&self.input).map_err(told)?;
        let mut child = Command::new(&self.command[0])
            .args(&self.command[1..])
            .args(question.arguments())
            .stdin(input)
            .stdout(Stdio::piped())
            .spawn()
            .map_err(|e| format!("{}: {e}", self.command[0]))?;
        let output = self.read_output(&mut child);
        if output.is_none() {
            let _ = child.kill();
        }
        let status = child.wait().map_err(|e| e.to_string())?;
        let fault = match output {
            None => Some(format!("no end within {} seconds", self.seconds)),
            Some(_) if status.code().is_none() => Some(format!("ended by {status}")),
            Some(_) => None,
        };
        Ok(Given { output: output.unwrap_or_default(), fault })
    }

    /// All the command prints; `None` if it takes too long.
    fn read_output(&self, child: &mut Child) -> Option<Vec<u8>> {
        let mut stdout = child.stdout.take()?;
        let (sender, receiver) = mpsc::channel();
        thread::spawn(move || {
            let mut output = Vec::new();
            // What was read before an error is compared all the same.
            let _ = stdout.read_to_end(&mut output);
            let _ = sender.send(output);
        });
        receiver.recv_timeout(Duration::from_secs(self.seconds)).ok()
    }

    /// Shrinks a session that differs under the same question, writes it and
    /// prints it with both outputs.
    fn report(&self, number: u64, question: Question, input: &[u8]) -> Result<(), String> {
        println!("session {number} of seed {} differs; shrinking it", self.seed);
        let expected = |session: &[u8]| question.answer(session, &mut Reached::default());
        let differs = |session: &[u8]| {
            let given = self.give(question, session);
            given.is_ok_and(|given| given.differs_from(&expected(session)))
        };
        let small = shrink(input, Instant::now() + SHRINK_TIME, differs);
        if let Some(directory) = self.found.parent() {
            fs::create_dir_all(directory).map_err(|e| e.to_string())?;
        }
        fs::write(&self.found, &small).map_err(|e| e.to_string())?;
        let given = self.give(question, &small)?;
        print_part(&format!("the session, in {}", self.found.display()), &small);
        print_part(&format!("the second program prints{}", question.told()), &expected(&small));
        print_part("the command prints", &given.output);
        if let Some(fault) = given.fault {
            println!("the command: {fault}");
        }
        Ok(())
    }
}

impl Given {
    fn differs_from(&self, expected: &[u8]) -> bool {
        self.fault.is_some() || self.output != expected
    }
}

fn number(word: &String) -> Result<u64, String> {
    word.parse().map_err(|_| USAGE.to_string())
}

fn print_part(title: &str, bytes: &[u8]) {
    println!("--- {title}");
    print!("{}", String::from_utf8_lossy(bytes));
    if !bytes.ends_with(b"\n") {
        println!();
    }
}
