//! "Next due time kept": words 9 and 10 after each call, on networks of delays
//! and on generated ones, held to what is found by looking; and what is counted
//! of it.

mod common;

use common::{
    delays, due_flags, for_each_store, loaded, next_due, record, refused, run_all, start_event,
    stop_event, worked_table,
};
use second::coverage::Coverage;
use second::gen::requests::requests;
use second::gen::session;
use second::host::{reply, Call};
use second::lines::{step_program, text_of};
use second::next_due::WrongDue;
use second::store::{lone_fault, need, LoneFault};
use second::{advance, arrival, check, load, run, Answer, Model};

/// A network of delays in the hands of a host.
struct Host {
    number: usize,
    table: Vec<u8>,
    model: Model,
    store: Vec<u32>,
}

impl Host {
    fn of(number: usize) -> Host {
        let table = delays(number);
        let model = check(&table).expect("a sound table");
        let store = loaded(&table, need(&model));
        Host { number, table, model, store }
    }

    /// START with this DT, taken at now.
    fn start(&mut self, delay: usize, dt: i32) -> [u32; 2] {
        self.arrive(start_event(self.number, delay), &[dt])
    }

    /// STOP, taken at now.
    fn stop(&mut self, delay: usize) -> [u32; 2] {
        self.arrive(stop_event(self.number, delay), &[])
    }

    fn arrive(&mut self, event: u32, values: &[i32]) -> [u32; 2] {
        let (before, now) = (self.words(), self.store[0]);
        assert_eq!(arrival(&self.table, &mut self.store, event, now, values), Answer::default());
        // It waits and is not taken yet.
        assert_eq!(self.words(), before);
        assert_eq!(run_all(&self.table, &mut self.store).0.moves, 1);
        self.words()
    }

    fn advance(&mut self, to: u32) -> [u32; 2] {
        assert_eq!(advance(&self.table, &mut self.store, to), Answer::default());
        self.words()
    }

    /// The delays whose outputs the sink records now.
    fn outputs(&mut self) -> Vec<usize> {
        let before = self.words();
        let (sink, now) = (self.number + 1, self.store[0]);
        let (_, bytes) = run_all(&self.table, &mut self.store);
        assert_eq!(self.words(), before);
        let one = |bytes: &[u8]| {
            let input = u16::from_be_bytes([bytes[2], bytes[3]]);
            assert_eq!(bytes, record(sink as u16, input, [now; 3], &[]));
            usize::from(input) - 2 * self.number
        };
        bytes.chunks(16).map(one).collect()
    }

    /// Words 9 and 10, which are what looking finds.
    fn words(&self) -> [u32; 2] {
        let words = [self.store[9], self.store[10]];
        assert_eq!(words, next_due(&self.model, &self.store));
        assert_eq!(self.store[12..16], [0; 4]);
        words
    }
}

const NONE: [u32; 2] = [0, 0];

fn at(time: u32) -> [u32; 2] {
    [1, time]
}

// ---------------------------------------------------------------- through calls

#[test]
fn without_a_delay_the_words_stay_zero() {
    let table = worked_table();
    let mut store = loaded(&table, 39);
    for time in [0, 10, 11, 0x7FFF_FFFF] {
        assert_eq!(store[9..11], NONE);
        assert_eq!(advance(&table, &mut store, time), Answer::default());
        assert_eq!(store[9..11], NONE);
        assert_eq!(arrival(&table, &mut store, 0, time, &[21]), Answer::default());
        assert_eq!(store[9..11], NONE);
        assert_eq!(run_all(&table, &mut store).0.moves, 9);
    }
    assert_eq!(store[9..11], NONE);
}

#[test]
fn one_delay_is_the_next_from_its_start_to_its_output() {
    let mut host = Host::of(1);
    assert_eq!(host.words(), NONE);
    assert_eq!(host.advance(100), NONE);
    assert_eq!(host.stop(0), NONE);
    assert_eq!(host.start(0, 50), at(150));
    assert_eq!(host.advance(100), at(150));
    assert_eq!(host.advance(149), at(150));
    assert_eq!(host.advance(150), NONE);
    assert_eq!(host.outputs(), [0]);
    assert_eq!(host.start(0, 1), at(151));
    assert_eq!(host.stop(0), NONE);
    assert_eq!(host.stop(0), NONE);
    assert_eq!(host.start(0, 3), at(153));
}

#[test]
fn a_start_before_after_or_at_the_next_due_time() {
    let mut host = Host::of(4);
    host.advance(7);
    assert_eq!(host.start(1, 20), at(27));
    assert_eq!(host.start(3, 30), at(27));
    assert_eq!(host.start(0, 20), at(27));
    assert_eq!(host.start(2, 19), at(26));
}

#[test]
fn the_earlier_of_two_is_stopped() {
    for [earlier, later] in [[0, 1], [1, 0]] {
        let mut host = Host::of(2);
        host.start(later, 30);
        assert_eq!(host.start(earlier, 20), at(20));
        assert_eq!(host.stop(earlier), at(30));
        assert_eq!(advance(&host.table, &mut host.store, 31), refused(8));
        assert_eq!(host.advance(30), NONE);
        assert_eq!(host.outputs(), [later]);
    }
}

#[test]
fn the_later_of_two_is_stopped() {
    for [earlier, later] in [[0, 1], [1, 0]] {
        let mut host = Host::of(2);
        host.start(later, 30);
        host.start(earlier, 20);
        assert_eq!(host.stop(later), at(20));
        assert_eq!(host.stop(later), at(20));
        assert_eq!(host.advance(20), NONE);
        assert_eq!(host.outputs(), [earlier]);
        assert_eq!(host.stop(earlier), NONE);
    }
}

#[test]
fn two_due_at_one_time_are_fired_together() {
    let mut host = Host::of(2);
    assert_eq!((host.start(0, 9), host.start(1, 9)), (at(9), at(9)));
    assert_eq!(host.advance(8), at(9));
    assert_eq!(host.advance(9), NONE);
    assert_eq!(host.outputs(), [0, 1]);
}

#[test]
fn one_of_two_due_at_one_time_is_stopped() {
    for stopped in [0, 1] {
        let mut host = Host::of(2);
        host.start(0, 9);
        host.start(1, 9);
        assert_eq!(host.stop(stopped), at(9));
        assert_eq!(host.advance(9), NONE);
        assert_eq!(host.outputs(), [1 - stopped]);
    }
}

#[test]
fn what_is_left_after_some_are_fired() {
    let mut host = Host::of(4);
    for (delay, dt) in [(2, 30), (0, 10), (3, 10), (1, 20)] {
        host.start(delay, dt);
    }
    assert_eq!(host.words(), at(10));
    assert_eq!(host.advance(10), at(20));
    assert_eq!(host.outputs(), [0, 3]);
    assert_eq!(host.advance(20), at(30));
    assert_eq!(host.outputs(), [1]);
    assert_eq!(host.advance(30), NONE);
    assert_eq!(host.outputs(), [2]);
}

#[test]
fn a_delay_due_at_0_is_told_by_word_9_alone() {
    let mut host = Host::of(2);
    assert_eq!(host.start(0, 0), at(0));
    assert_eq!(host.start(1, 5), at(0));
    // The store is well formed, and no advance goes on before it is fired.
    assert_eq!(advance(&host.table, &mut host.store, 1), refused(8));
    assert_eq!(host.words(), at(0));
    assert_eq!(host.advance(0), at(5));
    assert_eq!(host.outputs(), [0]);
    assert_eq!((host.start(0, 0), host.stop(0)), (at(0), at(5)));
}

#[test]
fn a_negative_dt_counts_as_0() {
    let mut host = Host::of(2);
    assert_eq!(host.start(0, -1), at(0));
    assert_eq!(host.advance(0), NONE);
    assert_eq!(host.outputs(), [0]);
    host.advance(40);
    assert_eq!(host.start(1, 3), at(43));
    assert_eq!(host.start(0, i32::MIN), at(40));
    assert_eq!(host.advance(40), at(43));
}

#[test]
fn an_ignored_start_leaves_the_words() {
    let mut host = Host::of(2);
    host.start(0, 20);
    host.start(1, 30);
    for (delay, dt) in [(0, 5), (0, 90), (1, 5), (1, 20), (1, -1), (0, i32::MAX)] {
        assert_eq!(host.start(delay, dt), at(20));
    }
    host.stop(0);
    assert_eq!(host.start(1, 2), at(30));
}

#[test]
fn due_times_above_the_largest_time_are_kept_too() {
    const LARGEST: u32 = 0x7FFF_FFFF;
    let mut host = Host::of(3);
    assert_eq!(host.start(1, i32::MAX), at(LARGEST));
    host.advance(1);
    assert_eq!(host.start(2, i32::MAX), at(LARGEST));
    assert_eq!(host.stop(1), at(LARGEST + 1));
    assert_eq!(host.start(0, 4), at(5));
    assert_eq!(host.advance(5), at(LARGEST + 1));
    assert_eq!(host.outputs(), [0]);
    assert_eq!(host.advance(LARGEST), at(LARGEST + 1));
    assert_eq!(host.start(0, i32::MAX), at(LARGEST + 1));
    assert_eq!(host.stop(2), at(4_294_967_294));
    assert_eq!(host.stop(0), NONE);
}

#[test]
fn load_zeroes_the_words_and_refused_calls_leave_them() {
    let mut host = Host::of(2);
    host.start(0, 20);
    host.start(1, 30);
    let before = host.store.clone();
    assert_eq!(advance(&host.table, &mut host.store, 21), refused(8));
    assert_eq!(arrival(&host.table, &mut host.store, 0, 0, &[]), refused(9));
    assert_eq!(host.store, before);
    // Words that are wrong are not put right.
    for (place, word) in [(9, 0), (9, 2), (10, 19), (10, 30)] {
        let mut wrong = before.clone();
        wrong[place] = word;
        let kept = wrong.clone();
        assert_eq!(advance(&host.table, &mut wrong, 20), refused(6));
        assert_eq!(run(&host.table, &mut wrong, 9, &mut []), refused(6));
        assert_eq!(arrival(&host.table, &mut wrong, 2, 0, &[1]), refused(6));
        assert_eq!(wrong, kept);
        assert_eq!(load(&host.table, &mut wrong), Answer::default());
        assert_eq!(wrong[9..11], NONE);
    }
}

// ---------------------------------------------------------------- generated

/// How many stores were looked at, by the number of their due flags: none, one
/// and more.
#[derive(Default, Debug)]
struct Looked([u64; 3]);

impl Looked {
    fn look(&mut self, model: &Model, store: &[u32]) {
        assert_eq!(store[9..11], next_due(model, store));
        assert_eq!(store[12..16], [0; 4]);
        self.0[due_flags(model, store).min(2)] += 1;
    }

    fn is_enough(&self, least: u64) {
        assert!(self.0.iter().all(|&stores| stores >= least), "{:?} stores", self.0);
    }
}

#[test]
fn calls_of_generated_sessions_leave_what_looking_finds() {
    let mut looked = Looked::default();
    for number in 0..500 {
        for_each_store(&session(21, number), |table, store, _| {
            looked.look(&check(table).expect("its load was accepted"), store);
        });
    }
    looked.is_enough(500);
}

#[test]
fn calls_on_arbitrary_stores_leave_what_looking_finds() {
    let mut looked = Looked::default();
    for round in 0..200 {
        requests(22, round, &mut |request| {
            let reply = reply(&request);
            let writes = matches!(
                request.call,
                Call::Load
                    | Call::Advance { .. }
                    | Call::Arrival { .. }
                    | Call::Run { .. }
                    | Call::RunTraced { .. }
            );
            if writes && reply.answer == 0 {
                let model = check(&request.table).expect("an accepted call has a table");
                looked.look(&model, &reply.store);
            }
            reply.store
        });
    }
    looked.is_enough(500);
}

// ---------------------------------------------------------------- what is counted

/// The delays of the sessions below.
const NUMBER: usize = 3;

/// An arrival, born at 0.
fn start(delay: usize, dt: i32) -> String {
    format!("8101{:04X}\n82000000{dt:08X}\n", start_event(NUMBER, delay))
}

fn stop(delay: usize) -> String {
    format!("8100{:04X}\n", stop_event(NUMBER, delay))
}

fn to(time: u32) -> String {
    format!("8000{time:08X}\n")
}

const RUN: &str = "8300000000FF\n";

/// What sessions of these calls reach, one after the other.
fn reached(sessions: &[&[&str]]) -> String {
    let table = text_of(&delays(NUMBER));
    let mut coverage = Coverage::default();
    for calls in sessions {
        let session = [&table[..], calls.concat().as_bytes()].concat();
        let printed = String::from_utf8(step_program(&session, &mut coverage)).expect("digits");
        assert!(!printed.contains("C0FF"), "{printed}");
    }
    coverage.to_string()
}

/// The numbers that are not 0 of the rows that begin so, without that beginning.
fn rows_of(table: &str, begin: &str) -> Vec<String> {
    let mut counts = Vec::new();
    for row in table.lines().filter_map(|line| line.strip_prefix(begin)) {
        let (name, cells) = row.split_once(":  ").expect("a name and its cells");
        let cells = cells.split("  ").filter(|cell| !cell.ends_with(" 0"));
        counts.extend(cells.map(|cell| format!("{name} {cell}")));
    }
    counts
}

fn counts(calls: &[&str]) -> Vec<String> {
    rows_of(&reached(&[calls]), "next due by ")
}

#[test]
fn starts_are_told_by_the_next_due_time_that_they_find() {
    let end = to(0);
    assert_eq!(
        counts(&[&start(0, 9), RUN, &start(1, 8), RUN, &end]),
        ["START first 1", "START earlier 1"]
    );
    assert_eq!(
        counts(&[&start(0, 9), RUN, &start(1, 9), RUN, &end]),
        ["START first 1", "START the same 1"]
    );
    assert_eq!(
        counts(&[&start(0, 9), RUN, &start(1, 10), RUN, &start(0, 8), RUN, &end]),
        ["START first 1", "START later 1", "START ignored for earlier 1"]
    );
    let above = [&to(1), &start(0, i32::MAX), RUN, &start(1, i32::MAX), RUN, &end];
    assert_eq!(
        counts(&above),
        [
            "START first 1",
            "START the same 1",
            "START above largest 2",
            "advance fires none with none due 1"
        ]
    );
}

#[test]
fn stops_are_told_by_what_they_take_away_and_leave() {
    let starts = |dts: [i32; 2]| [start(0, dts[0]), start(1, dts[1]), RUN.to_string()].concat();
    let of = |calls: &[&str]| {
        let mut counts = counts(&[calls, &[RUN]].concat());
        counts.retain(|count| count.starts_with("STOP"));
        counts
    };
    assert_eq!(of(&[&stop(0), RUN]), ["STOP not due with none due 1"]);
    let (first, second) = (stop(0), stop(1));
    assert_eq!(
        of(&[&starts([5, 6]), &first, RUN, &first, RUN, &second, RUN]),
        ["STOP not due with others due 1", "STOP last 1", "STOP earliest with later left 1"]
    );
    assert_eq!(of(&[&starts([5, 5]), &first, RUN]), ["STOP earliest with same left 1"]);
    assert_eq!(of(&[&starts([5, 6]), &second, RUN]), ["STOP not earliest 1"]);
}

#[test]
fn advances_are_told_by_what_they_fire_and_leave() {
    let of = |dts: &[i32], times: &[u32]| {
        let starts: String = dts.iter().zip(0..).map(|(&dt, delay)| start(delay, dt)).collect();
        let times: String = times.iter().map(|&time| to(time)).collect();
        let mut counts = counts(&[&starts, RUN, &times, RUN]);
        counts.retain(|count| count.starts_with("advance"));
        counts
    };
    assert_eq!(of(&[], &[3, 4]), ["advance fires none with none due 2"]);
    assert_eq!(
        of(&[5], &[4, 5]),
        ["advance fires none while due 1", "advance fires the only one 1"]
    );
    assert_eq!(
        of(&[5, 6], &[5, 6]),
        ["advance fires the only one 1", "advance fires one with later left 1"]
    );
    assert_eq!(of(&[5, 5], &[5]), ["advance fires several 1"]);
    assert_eq!(
        of(&[5, 6, 5], &[5, 6]),
        ["advance fires the only one 1", "advance fires several with later left 1"]
    );
    // A refused one does nothing.
    assert_eq!(of(&[5, 5], &[6]), Vec::<String>::new());
}

#[test]
fn what_a_call_did_counts_when_a_later_call_finds_the_store() {
    assert_eq!(counts(&[&start(0, 9), RUN]), Vec::<String>::new());
    assert_eq!(counts(&[&start(0, 9), RUN, RUN]), ["START first 1"]);
    // Also one that is then refused, but none of the next session.
    assert_eq!(counts(&[&start(0, 9), RUN, &to(10)]), ["START first 1"]);
    let table = reached(&[&[&start(0, 9), RUN], &[RUN, RUN]]);
    assert_eq!(rows_of(&table, "next due by "), Vec::<String>::new());
}

#[test]
fn next_due_times_are_told_as_calls_find_and_leave_them() {
    let calls = [&start(0, 0), RUN, &to(1), &to(0), &to(1), &start(1, i32::MAX), RUN, RUN];
    assert_eq!(
        rows_of(&reached(&[&calls]), "next due "),
        [
            "by START first 2",
            "by START above largest 1",
            "by advance fires none with none due 1",
            "by advance fires the only one 1",
            "found none 5",
            "found 0 2",
            "found above largest 1",
            "left none 4",
            "left 0 1",
            "left above largest 1",
        ]
    );
}

// ---------------------------------------------------------------- what is wrong

#[test]
fn wrong_words_are_told_apart() {
    let none = [None, None, None];
    let one = [None, Some(9), None];
    let two = [Some(20), None, Some(9)];
    let zero = [Some(20), Some(0), None];
    for (flag, time, due, way) in [
        (0, 0, one, WrongDue::Zeros),
        (0, 0, two, WrongDue::Zeros),
        (0, 0, zero, WrongDue::ZerosAtZero),
        (0, 9, two, WrongDue::FlagLeftOff),
        (2, 9, two, WrongDue::FlagAboveOne),
        (2, 0, zero, WrongDue::FlagAboveOne),
        (u32::MAX, 0, none, WrongDue::FlagAboveOneAlone),
        (1, 0, none, WrongDue::FlagAlone),
        (0, 9, none, WrongDue::TimeAlone),
        (1, 9, none, WrongDue::FlagAndTimeAlone),
        (1, 8, two, WrongDue::Early),
        (1, 0, two, WrongDue::Early),
        (1, 20, two, WrongDue::OfAnother),
        (1, 20, zero, WrongDue::OfAnother),
        (1, 20, one, WrongDue::Late),
        (1, 10, two, WrongDue::Late),
        (1, 21, two, WrongDue::Late),
        (0, 8, two, WrongDue::Otherwise),
        (2, 20, two, WrongDue::Otherwise),
        (2, 9, none, WrongDue::Otherwise),
    ] {
        assert_eq!(WrongDue::of(flag, time, &due), way, "{flag} {time} {due:?}");
    }
}

#[test]
fn words_are_alone_at_fault_where_all_others_are_right() {
    let mut host = Host::of(2);
    host.start(0, 20);
    host.start(1, 30);
    let fault = |changes: &[(usize, u32)]| {
        let mut store = host.store.clone();
        changes.iter().for_each(|&(place, word)| store[place] = word);
        assert_eq!(run(&host.table, &mut store, 0, &mut []), refused(6));
        lone_fault(&host.model, &store)
    };
    assert_eq!(fault(&[(10, 30)]), Some(LoneFault::NextDue(WrongDue::OfAnother)));
    assert_eq!(fault(&[(9, 0), (10, 0)]), Some(LoneFault::NextDue(WrongDue::Zeros)));
    assert_eq!(fault(&[(13, 1)]), Some(LoneFault::NotZero(13)));
    // The live flag, word 13 or the first due flag is wrong besides.
    for other in [(5, 2), (13, 1), (17, 2)] {
        assert_eq!(fault(&[(10, 25), other]), None, "{other:?}");
    }
    // One of these alone, and two words that are to be zero.
    assert_eq!(fault(&[(5, 2)]), None);
    assert_eq!(fault(&[(17, 2)]), None);
    assert_eq!(fault(&[(13, 1), (14, 1)]), None);
}
