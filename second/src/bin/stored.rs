//! The sessions that the gate keeps with their answers: prints them as the
//! standard input of the program `stored`, and what they reach on standard
//! error.
//!
//! Of generated sessions, from the shortest to the longest with its answer, each
//! that reaches a number that none before it reached is kept, unless the others
//! reach all that it reaches. After a session stands `=`, after its answer too. A
//! session that begins `%` is run with a store of 38 words, and at `#` the store is
//! spoilt: its live flag becomes 2. These two bring about refusals 5 and 6, which
//! no session can.

use second::coverage::Coverage;
use second::gen::session;
use second::lines::step_program;
use std::collections::BTreeSet;
use std::io::{self, Write};
use std::process::ExitCode;

/// Where the sessions come from.
const SEED: u64 = 1;
const SESSIONS: u64 = 4000;
/// Longer ones are left out, and so are those that a mark stands in.
const MOST_BYTES: usize = 6000;
const MOST_ANSWER_BYTES: usize = 12000;
const MARKS: &[u8] = b"=%#";

/// The worked session of the definition, parted before its calls.
const WORKED: &str = include_str!("../../tests/data/worked.session");

const SHORT: &str = "C00500000000000000000000\n";
/// Load and advance to 0, then the three calls of the worked session.
const SPOILT: &str = "C00000000000000000000000\nC00000000000000000000000\n\
C00600000000000000000000\nC00600000000000000000000\nC00600000000000000000000\n";

fn main() -> ExitCode {
    match io::stdout().write_all(&stored()) {
        Ok(()) => ExitCode::SUCCESS,
        Err(error) => {
            eprintln!("{error}");
            ExitCode::FAILURE
        }
    }
}

fn stored() -> Vec<u8> {
    let mut text = Vec::new();
    let mut coverage = Coverage::default();
    for Session { input, answer, .. } in kept() {
        step_program(&input, &mut coverage);
        coverage.sessions += 1;
        put(&mut text, &input, &answer);
    }
    let (table, calls) = WORKED.split_at(WORKED.find("\n80").map_or(0, |end| end + 1));
    put(&mut text, format!("%{WORKED}").as_bytes(), SHORT.as_bytes());
    put(&mut text, format!("{table}80\n#{calls}").as_bytes(), SPOILT.as_bytes());
    eprintln!("{coverage}\nnot reached: {}", coverage.missed().join(", "));
    text
}

fn put(text: &mut Vec<u8>, input: &[u8], answer: &[u8]) {
    for part in [input, answer] {
        text.extend(part);
        text.extend(b"=\n");
    }
}

/// A session with its answer and the numbers that it reaches.
struct Session {
    input: Vec<u8>,
    answer: Vec<u8>,
    reached: BTreeSet<String>,
}

impl Session {
    fn of(input: Vec<u8>) -> Session {
        let mut alone = Coverage::default();
        let answer = step_program(&input, &mut alone);
        Session { input, answer, reached: alone.reached().into_iter().collect() }
    }

    fn bytes(&self) -> usize {
        self.input.len() + self.answer.len()
    }

    fn may_be_kept(&self) -> bool {
        self.input.len() <= MOST_BYTES
            && self.answer.len() <= MOST_ANSWER_BYTES
            && !self.input.iter().any(|byte| MARKS.contains(byte))
    }
}

/// The worked session, then those that reach more.
fn kept() -> Vec<Session> {
    let sessions = (0..SESSIONS).map(|number| Session::of(session(SEED, number)));
    let mut sessions: Vec<Session> = sessions.filter(Session::may_be_kept).collect();
    sessions.sort_by_key(Session::bytes);
    sessions.insert(0, Session::of(WORKED.as_bytes().to_vec()));
    let mut seen = BTreeSet::new();
    sessions.retain(|session| {
        let new = !session.reached.is_subset(&seen);
        seen.extend(session.reached.iter().cloned());
        new
    });
    leave_out(&mut sessions);
    sessions
}

/// Leaves out those without which as much is reached, the longest first.
fn leave_out(sessions: &mut Vec<Session>) {
    for place in (1..sessions.len()).rev() {
        let mut alone = sessions[place].reached.clone();
        let others = sessions[..place].iter().chain(&sessions[place + 1..]);
        others.for_each(|other| alone.retain(|number| !other.reached.contains(number)));
        if alone.is_empty() {
            sessions.remove(place);
        }
    }
}
