//! Compares the calls of the library, made by a program over pipes, with the
//! second program's, on arbitrary tables and stores.

use second::coverage::CallCoverage;
use second::gen::requests::requests;
use second::host::{reply_watched, Call, Reply, Request, NAMES};
use second::lines::digits;
use second::table::FRAME_BYTES;
use std::io::{self, BufReader, BufWriter, Read, Write};
use std::process::{Child, ChildStdin, ChildStdout, Command, ExitCode, Stdio};
use std::time::Instant;

const USAGE: &str = "usage: calls SEED COUNT -- COMMAND [ARGUMENT..]
  compares at least COUNT calls, to the end of a round";

/// From this many calls on, a number that was not reached is a fault of the
/// generator.
const ENOUGH_CALLS: u64 = 5000;

fn main() -> ExitCode {
    let words: Vec<String> = std::env::args().skip(1).collect();
    match compare(&words) {
        Ok(true) => ExitCode::SUCCESS,
        Ok(false) => ExitCode::FAILURE,
        Err(message) => {
            eprintln!("{message}");
            ExitCode::from(2)
        }
    }
}

/// True if every call answered and left the same, and enough was reached.
fn compare(words: &[String]) -> Result<bool, String> {
    let [seed, count, mark, command @ ..] = words else {
        return Err(USAGE.to_string());
    };
    let number = |word: &String| word.parse::<u64>().map_err(|_| USAGE.to_string());
    let (seed, count) = (number(seed)?, number(count)?);
    if mark != "--" || command.is_empty() {
        return Err(USAGE.to_string());
    }
    let began = Instant::now();
    let mut served = Served::start(command).map_err(|e| format!("{}: {e}", command[0]))?;
    let mut reached = Reached::default();
    let mut round = 0;
    while reached.calls < count {
        if let Some(difference) = compare_round(&mut served, seed, round, &mut reached)? {
            println!("round {round} of seed {seed}: {difference}");
            return Ok(false);
        }
        round += 1;
    }
    served.end()?;
    reached.print();
    let seconds = began.elapsed().as_secs_f64();
    println!("compared {} calls of seed {seed}, {round} rounds, in {seconds:.1} s", reached.calls);
    Ok(reached.is_enough())
}

/// A difference, told, or `None`.
fn compare_round(
    served: &mut Served,
    seed: u64,
    round: u64,
    reached: &mut Reached,
) -> Result<Option<String>, String> {
    let mut found = Ok(None);
    requests(seed, round, &mut |request| {
        let expected = reply_watched(&request, &mut reached.watched);
        if matches!(found, Ok(None)) {
            reached.see(&request.call, &expected);
            found = served.make(&request).map_or_else(
                |e| Err(format!("{e}, in {}", told(&request))),
                |given| Ok(difference(&request, &expected, &given)),
            );
        }
        expected.store
    });
    found
}

/// What differs: an answer, a store, an output buffer, a trace room, or what no
/// call may write to, of a refused call all that it was lent.
fn difference(request: &Request, expected: &Reply, given: &Given) -> Option<String> {
    let refuses = REFUSES.iter().any(|&(call, _)| call == request.call.number());
    let refused = refuses && given.reply.answer >> 16 != 0;
    let wrote = given.reply.store != request.store
        || given.reply.output != request.call.output()
        || given.reply.trace != request.call.trace();
    if given.reply == *expected && given.lent_is_kept && !(refused && wrote) {
        return None;
    }
    Some(format!(
        "a call differs\n{}\nthe second program answers and leaves\n{expected:?}\n\
         the library answers and leaves\n{:?}\nwhat was lent for reading, and what lies around: {}",
        told(request),
        given.reply,
        if given.lent_is_kept { "kept" } else { "changed" }
    ))
}

/// A request in words: the table in lines, the store, the call.
fn told(request: &Request) -> String {
    let frames = request.table.chunks(FRAME_BYTES).map(digits);
    let lines: Vec<String> = frames.map(|line| String::from_utf8_lossy(&line).into()).collect();
    format!("table\n{}\nstore {:?}\ncall {:?}", lines.join("\n"), request.store, request.call)
}

// ---------------------------------------------------------------- the program

/// The program that makes the library's calls (tools/serve.c).
struct Served {
    child: Child,
    input: BufWriter<ChildStdin>,
    output: BufReader<ChildStdout>,
}

struct Given {
    reply: Reply,
    /// Table, values, text and the bytes around all that was lent are as they
    /// were.
    lent_is_kept: bool,
}

/// What of a call goes through the pipe beside its number, table and store.
#[derive(Default)]
struct Sent<'c> {
    number: u64,
    time: u32,
    values: &'c [i32],
    output: &'c [u8],
    /// A trace room, or a text in its place.
    trace: &'c [u8],
}

impl Sent<'_> {
    fn of(call: &Call) -> Sent<'_> {
        let (number, time, values) = match call {
            Call::Advance { to } => (0, *to, &[][..]),
            Call::Arrival { event, birth, values } => (*event, *birth, &values[..]),
            Call::Run { budget, .. } | Call::RunTraced { budget, .. } => (0, *budget, &[][..]),
            Call::FramesOf { kind } => (*kind, 0, &[][..]),
            Call::StepsOf { action } => (*action, 0, &[][..]),
            Call::Show { frames, .. } => (*frames, 0, &[][..]),
            Call::Check | Call::Need | Call::Load => (0, 0, &[][..]),
        };
        let trace = match call {
            Call::Show { text, .. } => text,
            _ => call.trace(),
        };
        Sent { number, time, values, output: call.output(), trace }
    }

    fn value_bytes(&self) -> Vec<u8> {
        self.values.iter().flat_map(|value| value.to_le_bytes()).collect()
    }

    /// The request as tools/serve.c reads it.
    fn bytes(&self, request: &Request) -> Vec<u8> {
        let numbers = [
            request.call.number() as u64,
            request.table.len() as u64,
            request.store.len() as u64,
            self.values.len() as u64,
            self.output.len() as u64,
            self.trace.len() as u64,
            self.number,
            u64::from(self.time),
        ];
        let mut bytes: Vec<u8> = numbers.iter().flat_map(|number| number.to_le_bytes()).collect();
        bytes.extend(&request.table);
        bytes.extend(request.store.iter().flat_map(|word| word.to_le_bytes()));
        bytes.extend(self.value_bytes());
        bytes.extend(self.output);
        bytes.extend(self.trace);
        bytes
    }
}

impl Served {
    fn start(command: &[String]) -> io::Result<Served> {
        let mut child = Command::new(&command[0])
            .args(&command[1..])
            .stdin(Stdio::piped())
            .stdout(Stdio::piped())
            .spawn()?;
        let input = BufWriter::new(child.stdin.take().expect("piped"));
        let output = BufReader::new(child.stdout.take().expect("piped"));
        Ok(Served { child, input, output })
    }

    fn make(&mut self, request: &Request) -> io::Result<Given> {
        let call = Sent::of(&request.call);
        self.input.write_all(&call.bytes(request))?;
        self.input.flush()?;
        let mut numbers = [0; 9];
        for number in &mut numbers {
            *number = u64::from_le_bytes(self.read(8)?.try_into().expect("8 bytes"));
        }
        let [answer, moves, stop, bytes, traced, shown, line, untrue, guarded] = numbers;
        let table = self.read(request.table.len())?;
        let words = self.read(4 * request.store.len())?;
        let values = self.read(4 * call.values.len())?;
        let output = self.read(call.output.len())?;
        let mut trace = self.read(call.trace.len())?;
        let (words, _) = words.as_chunks::<4>();
        let store = words.iter().map(|word| u32::from_le_bytes(*word)).collect();
        let mut lent_is_kept =
            guarded == 1 && table == request.table && values == call.value_bytes();
        if let Call::Show { text, .. } = &request.call {
            // The text is lent for reading.
            lent_is_kept &= std::mem::take(&mut trace) == *text;
        }
        let reply =
            Reply { answer, moves, stop, bytes, traced, shown, line, untrue, store, output, trace };
        Ok(Given { reply, lent_is_kept })
    }

    fn read(&mut self, length: usize) -> io::Result<Vec<u8>> {
        let mut bytes = vec![0; length];
        self.output.read_exact(&mut bytes)?;
        Ok(bytes)
    }

    /// Closes its input; it must end by itself, with nothing more to say.
    fn end(mut self) -> Result<(), String> {
        drop(self.input);
        let mut rest = Vec::new();
        self.output.read_to_end(&mut rest).map_err(|e| e.to_string())?;
        let status = self.child.wait().map_err(|e| e.to_string())?;
        match rest.is_empty() && status.success() {
            true => Ok(()),
            false => Err(format!("the program ended by {status}, with {} bytes more", rest.len())),
        }
    }
}

// ---------------------------------------------------------------- what was reached

#[derive(Default)]
struct Reached {
    calls: u64,
    /// By call and refusal number.
    refusals: [[u64; 12]; NAMES.len()],
    /// By call and stop number.
    stops: [[u64; 5]; NAMES.len()],
    /// Calls of `need` and the views that answered 0, and others.
    lengths: [[u64; 2]; NAMES.len()],
    moves: u64,
    bytes: u64,
    untrue: u64,
    watched: CallCoverage,
}

/// The calls that answer by a refusal number, with the numbers that each gives.
const REFUSES: [(usize, &[usize]); 7] = [
    (0, &[0, 1, 2, 3, 4]),
    (2, &[0, 1, 2, 3, 4, 5]),
    (3, &[0, 1, 2, 3, 4, 5, 6, 7, 8]),
    (4, &[0, 1, 2, 3, 4, 5, 6, 9, 10, 11]),
    (5, &[0, 1, 2, 3, 4, 5, 6]),
    (8, &[0, 1, 2, 3, 4, 5, 6]),
    (9, &[0, 1, 2, 3, 4, 5]),
];
/// The calls that stop by a number, with the numbers that each gives.
const STOPS: [(usize, &[usize]); 2] = [(5, &[1, 2, 3]), (8, &[1, 2, 3, 4])];
/// The calls that answer by a length.
const MEASURES: [usize; 3] = [1, 6, 7];

impl Reached {
    fn see(&mut self, call: &Call, reply: &Reply) {
        self.calls += 1;
        let number = call.number();
        if MEASURES.contains(&number) {
            self.lengths[number][usize::from(reply.answer != 0)] += 1;
            return;
        }
        self.refusals[number][(reply.answer >> 16) as usize] += 1;
        self.stops[number][reply.stop as usize] += 1;
        self.moves += reply.moves;
        self.bytes += reply.bytes;
        self.untrue += reply.untrue;
    }

    fn print(&self) {
        for (call, numbers) in REFUSES {
            print!("{:>10}:", NAMES[call]);
            for &number in numbers {
                print!("  {number}: {}", self.refusals[call][number]);
            }
            println!();
        }
        for call in MEASURES {
            let [empty, other] = self.lengths[call];
            println!("{:>10}:  0: {empty}  more: {other}", NAMES[call]);
        }
        let all = |number: usize| self.refusals.iter().map(|row| row[number]).sum::<u64>();
        let all: Vec<String> =
            (0..12).map(|number| format!("  {number}: {}", all(number))).collect();
        println!("   refusal:{}", all.concat());
        for (call, numbers) in STOPS {
            let stops = numbers.iter().map(|&stop| format!("  {stop}: {}", self.stops[call][stop]));
            println!("{:>10} stopped by:{}", NAMES[call], stops.collect::<String>());
        }
        let (moves, untrue, bytes) = (self.moves, self.untrue, self.bytes);
        println!("     moves:  {moves}, untrue steps: {untrue}, bytes of records: {bytes}");
        println!("{}", self.watched);
    }

    /// Enough calls must reach every number that each call can give.
    fn is_enough(&self) -> bool {
        let mut missed = Vec::new();
        for (call, numbers) in REFUSES {
            let absent = numbers.iter().filter(|&&number| self.refusals[call][number] == 0);
            missed.extend(absent.map(|number| format!("{} {number}", NAMES[call])));
        }
        for call in MEASURES {
            if self.lengths[call].contains(&0) {
                missed.push(format!("{} empty or not", NAMES[call]));
            }
        }
        for (call, numbers) in STOPS {
            let absent = numbers.iter().filter(|&&stop| self.stops[call][stop] == 0);
            missed.extend(absent.map(|stop| format!("{} stopped by {stop}", NAMES[call])));
        }
        missed.extend(self.watched.missed());
        if self.calls >= ENOUGH_CALLS && !missed.is_empty() {
            println!("not reached: {}", missed.join(", "));
            return false;
        }
        true
    }
}
