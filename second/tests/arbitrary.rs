//! The calls on any table, store, time, value list and text: they answer, a
//! refused call leaves everything as it came, and an accepted one keeps the
//! store well formed, the words past the need and the rest of the output buffer
//! and the trace room.

use second::coverage::{CallCoverage, StoreCoverage, TraceCoverage};
use second::delays::StartCoverage;
use second::gen::faults::{faulty_line, good_line};
use second::gen::requests::requests;
use second::gen::rng::Rng;
use second::gen::session;
use second::host::{reply, reply_watched, Call, Reply, Request};
use second::lines::{lines_of, table_of};
use second::next_due::NextDueCoverage;
use second::reader::{Ending, Fault};
use second::watch::{Sight, Watch};
use second::{check, store, Checked, Model};
use std::collections::BTreeSet;

/// The refusal number of a call; none of those that only look at the table.
fn refusal(call: &Call, reply: &Reply) -> Option<u64> {
    let looks = matches!(call, Call::Need | Call::FramesOf { .. } | Call::StepsOf { .. });
    (!looks).then_some(reply.answer >> 16)
}

fn judge_refused(request: &Request, reply: &Reply) {
    assert_eq!(request.store, reply.store, "a refused call wrote to the store");
    assert_eq!(request.call.output(), reply.output, "a refused call wrote to the output");
    assert_eq!(request.call.trace(), reply.trace, "a refused call wrote to the trace room");
    assert_eq!((reply.moves, reply.stop, reply.bytes, reply.untrue), (0, 0, 0, 0));
    assert_eq!((reply.traced, reply.shown, reply.line), (0, 0, 0));
}

fn judge_accepted(request: &Request, reply: &Reply) {
    let (written, traced) = (reply.bytes as usize, reply.traced as usize);
    assert_eq!(request.call.output()[written..], reply.output[written..]);
    assert_eq!(request.call.trace()[traced..], reply.trace[traced..]);
    let model = check(&request.table).expect("an accepted call has a table");
    match request.call {
        Call::Check => assert_eq!(request.store, reply.store),
        Call::Show { .. } => judge_shown(&model, request, reply),
        _ => {
            assert!(store::read(&model, &reply.store).is_some(), "not well formed any more");
            let need = store::need(&model);
            assert_eq!(request.store[need..], reply.store[need..]);
            judge_count(request, reply);
        }
    }
}

/// Load zeroes the count of untrue steps, a run raises it by what it tells, up
/// to its end, and no other call changes it or tells of such steps.
fn judge_count(request: &Request, reply: &Reply) {
    let (before, after) = (request.store[store::word::UNTRUE], reply.store[store::word::UNTRUE]);
    assert!(reply.untrue <= reply.moves, "more untrue steps than moves");
    match request.call {
        Call::Load => assert_eq!((after, reply.untrue), (0, 0)),
        Call::Run { .. } | Call::RunTraced { .. } => {
            let sum = u64::from(before) + reply.untrue;
            assert_eq!(u64::from(after), sum.min(u64::from(u32::MAX)));
        }
        _ => assert_eq!((after, reply.untrue), (before, 0)),
    }
}

/// A reading writes chart states and values alone, and a state only to a block
/// that has it.
fn judge_shown(model: &Model, request: &Request, reply: &Reply) {
    let mut store = request.store.clone();
    for id in 0..model.elements.len() {
        let at = store::chart_state_at(model, id);
        if reply.store[at] != store[at] {
            assert_eq!(model.states[reply.store[at] as usize].element, id);
            store[at] = reply.store[at];
        }
    }
    for at in (0..model.variables.len()).map(|id| store::value_at(model, id)) {
        store[at] = reply.store[at];
    }
    assert_eq!(store, reply.store, "a reading wrote to another word");
    let Call::Show { text, frames } = &request.call else {
        return;
    };
    let lines = lines_of(text).len() as u64;
    match reply.line {
        0 => assert_eq!(reply.shown, lines.min(*frames)),
        line => assert!(line == reply.shown + 1 && line <= lines.min(*frames)),
    }
}

#[test]
fn calls_keep_what_they_must() {
    let mut numbers = BTreeSet::new();
    let (mut accepted, mut refused) = (0, 0);
    for round in 0..400 {
        requests(77, round, &mut |request| {
            let reply = reply(&request);
            match refusal(&request.call, &reply) {
                None => assert_eq!(request.store, reply.store),
                Some(0) => {
                    accepted += 1;
                    judge_accepted(&request, &reply);
                }
                Some(number) => {
                    refused += 1;
                    numbers.insert(number);
                    judge_refused(&request, &reply);
                }
            }
            reply.store
        });
    }
    assert!(accepted > 5000 && refused > 2000, "{accepted} accepted, {refused} refused");
    assert_eq!(numbers, (1..=11).collect());
}

#[test]
fn a_seed_gives_the_same_requests_each_time() {
    let drawn = || {
        let mut all = Vec::new();
        for round in 0..20 {
            requests(3, round, &mut |request| {
                let store = reply(&request).store;
                all.push(request);
                store
            });
        }
        all
    };
    assert_eq!(drawn(), drawn());
}

#[test]
fn five_thousand_calls_reach_all_that_can_be_seen() {
    let (mut reached, mut calls, mut round) = (CallCoverage::default(), 0, 0);
    while calls < 5000 {
        requests(5, round, &mut |request| {
            calls += 1;
            reply_watched(&request, &mut reached).store
        });
        round += 1;
    }
    assert_eq!(reached.missed(), Vec::<String>::new());
    // 11 kinds, 4 ways to be held, 6 endings and 24 faults; 5 things that become
    // of the count of a run, traced or not, 4 words and 11 wrong next due times; 6
    // STARTs; what 6 STARTs, 6 STOPs and 6 advances do to the next due time, and 4
    // that calls find and leave.
    assert_eq!(TraceCoverage::default().missed().len(), 11 + 4 + 6 + 24);
    assert_eq!(StoreCoverage::default().missed().len(), 2 * 5 + 4 + 11);
    assert_eq!(StartCoverage::default().missed().len(), 6);
    assert_eq!(NextDueCoverage::default().missed().len(), 6 + 6 + 6 + 4 + 4);
}

// ---------------------------------------------------------------- traces

struct Last(Option<Ending>);

impl Watch for Last {
    fn see(&mut self, sight: Sight) {
        if let Sight::Read(ending) = sight {
            self.0 = Some(ending);
        }
    }
}

/// How the reading of one line ends, over a table and any store.
fn ending_of(checked: &Checked, line: &[u8]) -> Option<Ending> {
    let mut last = Last(None);
    checked.show(&mut vec![0; 2000], &[line, b"\n"].concat(), 2, &mut last);
    last.0
}

#[test]
fn a_faulty_line_has_just_its_fault() {
    let mut made = BTreeSet::new();
    for number in 0..60 {
        let checked = Checked::of(&table_of(&session(8, number)).unwrap_or_default());
        let Some(model) = checked.model() else {
            continue;
        };
        let mut rng = Rng::new(8, number);
        assert_eq!(ending_of(&checked, &good_line(&mut rng, model)), Some(Ending::TextEnded));
        for fault in Fault::ALL {
            if let Some(line) = faulty_line(&mut rng, model, fault) {
                assert_eq!(ending_of(&checked, &line), Some(Ending::Line(fault)));
                made.insert(fault);
            }
        }
    }
    assert_eq!(made, Fault::ALL.into_iter().collect());
}
