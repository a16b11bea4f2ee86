//! The generator reaches everything, and the shrinker keeps a difference.

mod common;

use second::coverage::{Coverage, ResultCoverage, ENOUGH_SESSIONS};
use second::gen::session;
use second::lines::{frame_of_line, lines_of, step_program};
use second::renumber::without;
use second::shrink::shrink;
use std::time::{Duration, Instant};

#[test]
fn enough_sessions_reach_every_number() {
    let mut reached = (Coverage::default(), ResultCoverage::default());
    for number in 0..ENOUGH_SESSIONS {
        step_program(&session(1, number), &mut reached);
    }
    assert_eq!(reached.0.missed(), Vec::<String>::new());
    assert_eq!(reached.1.missed_by_sessions(), Vec::<String>::new());
}

#[test]
fn an_empty_coverage_misses_every_number_that_can_be_reached() {
    let missed = Coverage::default().missed();
    // 10 refusals, 3 stops, 5 kinds, 9 operations, 5 guards, 12 + 11 + 5 kinds
    // of refused frames, 6 sights more, 6 STARTs and 3 + 7 + 7 + 2 of the
    // histories of delays, 3 * 6 + 2 * 4 of the next due time.
    let delays = 6 + 3 + 7 + 7 + 2 + 3 * 6 + 2 * 4;
    assert_eq!(missed.len(), 10 + 3 + 5 + 9 + 5 + 12 + 11 + 5 + 6 + delays);
    assert!(!missed.contains(&"refusal 5".to_string()));
    // Clipped to either end, true at either end, divided by zero; five of them
    // seldom.
    assert_eq!(ResultCoverage::default().missed().len(), 3 + 5 + 7 + 9 + 2);
    assert_eq!(ResultCoverage::default().missed_by_sessions().len(), 26 - 5);
}

/// As many sessions as a comparison has at least, of several seeds.
#[test]
fn few_sessions_try_delays_in_every_way() {
    for seed in 1..=8 {
        let mut reached = Coverage::default();
        for number in 0..400 {
            step_program(&session(seed, number), &mut reached);
        }
        assert_eq!(reached.starts.missed(), Vec::<String>::new(), "seed {seed}");
        assert_eq!(reached.delays.missed(), Vec::<String>::new(), "seed {seed}");
    }
}

#[test]
fn a_session_is_the_same_for_a_seed_and_another_for_others() {
    assert_eq!(session(3, 14), session(3, 14));
    assert_ne!(session(3, 14), session(3, 15));
    assert_ne!(session(3, 14), session(4, 14));
}

/// The same bytes on every machine: a change of the generator changes this.
#[test]
fn the_first_sessions_have_a_known_sum() {
    let bytes = (0..100).flat_map(|number| session(1, number));
    let sum = bytes.fold(0xCBF2_9CE4_8422_2325_u64, |sum, byte| {
        (sum ^ u64::from(byte)).wrapping_mul(0x0100_0000_01B3)
    });
    assert_eq!(format!("{sum:016X}"), "2901899A5A2A494E");
}

#[test]
fn shrinking_keeps_a_difference_and_little_else() {
    let input: String = (0..200).map(|k| format!("{k:04}\n")).collect();
    let differs = |session: &[u8]| {
        let text = String::from_utf8_lossy(session);
        text.contains("0017\n") && text.contains("0160\n")
    };
    let deadline = Instant::now() + Duration::from_secs(60);
    assert_eq!(shrink(input.as_bytes(), deadline, differs), b"0017\n0160\n");
}

#[test]
fn shrinking_ends_at_its_deadline_with_a_difference() {
    let input = b"83\n83\n83\n";
    assert_eq!(shrink(input, Instant::now(), |_| true), input);
}

#[test]
fn a_difference_in_the_last_line_end_is_not_lost() {
    let deadline = Instant::now() + Duration::from_secs(60);
    let differs = |session: &[u8]| !session.ends_with(b"\n");
    assert_eq!(shrink(b"01\n83", deadline, differs), b"01\n83");
}

#[test]
fn a_table_without_an_element_and_what_refers_to_it_is_sound() {
    let lines: Vec<String> = common::FULL.iter().map(|line| line.replace(' ', "")).collect();
    let frames: Vec<_> = lines.iter().filter_map(|line| frame_of_line(line.as_bytes())).collect();
    for element in 0..6 {
        let rest = without(&frames, element);
        let bytes: Vec<u8> = rest.iter().flat_map(|frame| frame.to_bytes()).collect();
        assert!(rest.len() < frames.len() - 2);
        assert_eq!(common::refusal(&bytes), (0, 0), "without element {element}");
    }
    // Step 0 goes out of the action's stretch, and step 1 takes its place.
    let rest = without(&frames, 38);
    assert_eq!((rest.len(), rest[36].b(), rest[36].c()), (frames.len() - 1, 0, 1));
}

#[test]
fn an_arrival_without_an_association_has_a_value_less() {
    let session = common::WORKED.as_bytes();
    let frames: Vec<_> = lines_of(session).into_iter().filter_map(frame_of_line).collect();
    // Frame 13 associates the source's event with its variable.
    let rest = without(&frames, 13);
    assert_eq!(rest.len(), frames.len() - 2);
    assert_eq!((rest[25].kind, rest[25].flag), (0x81, 0));
}

#[test]
fn a_sound_session_shrinks_by_whole_elements() {
    // Keep a difference: something is written by a sink.
    let differs = |session: &[u8]| {
        let output = step_program(session, &mut ());
        lines_of(&output).iter().any(|line| !line.starts_with(b"C0"))
    };
    let large = (0..100).map(|number| session(2, number)).find(|s| differs(s)).expect("a record");
    let deadline = Instant::now() + Duration::from_secs(60);
    let small = shrink(&large, deadline, differs);
    assert!(differs(&small));
    let (before, after) = (lines_of(&large).len(), lines_of(&small).len());
    assert!(after * 4 < before, "{before} lines became {after}");
}
