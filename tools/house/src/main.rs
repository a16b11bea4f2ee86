//! What must be believed: the definitions that the public statements of this repository reach, and the files they stand in.
//!
//! A file of `specs/` or `proofs/laws/` is read as a header, its imports and its items. An item is a definition (`abbrev`, `unfoldable`, `record`,
//! `data`) or a law. From the contracts of the public functions, from the ghost fields of the types that they take or answer, from the laws named below and
//! from nothing else the names are followed through the imports until no file is new.

mod page;
mod specs;

use specs::{House, Place};
use std::process::ExitCode;

/// The functions whose contracts are the product's promises: all public ones of these files.
const CONTRACTS: &[&str] =
    &["crates/table_check/src/lib.rt", "crates/table_views/src/lib.rt", "crates/calls/src/lib.rt", "crates/xaluudhiga/src/lib.rt"];

/// The laws whose statements are promises too: demand 3, when a delay is due, and what the step program prints.
const THEOREMS: &[(Place, &str)] = &[
    (Place::fixed("laws_calls", "laws.Demand3"), ""),
    (Place::fixed("laws_calls", "laws.Timers"), "delay_due"),
    (Place::fixed("laws_calls", "laws.NextDue"), "next_due_lem"),
    (Place::fixed("session_dialogue", "laws.Whole"), "runs_print"),
];

/// What stands between code and law in a statement and need not be believed: were it too weak the law could not be proved, were it too strong the code could not.
const BETWEEN: &[&str] = &["Feeds", "Finishes"];

fn main() -> ExitCode {
    let write = match std::env::args().nth(1).as_deref() {
        None => false,
        Some("--write") => true,
        Some(_) => {
            eprintln!("usage: tools/believe [--write]");
            return ExitCode::from(2);
        }
    };
    let house = match House::read() {
        Ok(house) => house,
        Err(why) => {
            eprintln!("believe: {why}");
            return ExitCode::from(2);
        }
    };
    let mut complaints = house.mixed();
    let believed = house.reach(CONTRACTS, THEOREMS, BETWEEN);
    let list = page::list(&house, &believed);
    match page::hold(&list, write) {
        Ok(None) => {}
        Ok(Some(complaint)) => complaints.push(complaint),
        Err(why) => complaints.push(why.to_string()),
    }
    for complaint in &complaints {
        eprintln!("believe: {complaint}");
    }
    ExitCode::from(u8::from(!complaints.is_empty()))
}
