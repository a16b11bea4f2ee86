//! An independent second program for the function-block runtime, written from
//! the build definition alone (called "the document" in all comments).
//!
//! The table is decoded once into structs with owner links and lists
//! ([`model`]), the store into a typed state ([`store`]); the moves work on
//! these ([`machine`]), and the calls translate back ([`calls`]). A trace is
//! what a move does and what it left otherwise than it found it ([`trace`]),
//! and [`reader`] reads it.
//!
//! Where the document leaves a point open, the decision stands in one place,
//! marked "Open point".

pub mod arithmetic;
pub mod calls;
pub mod coverage;
pub mod debugger;
pub mod delays;
pub mod gen;
pub mod host;
pub mod lines;
pub mod machine;
pub mod model;
pub mod next_due;
pub mod reader;
pub mod renumber;
pub mod rules;
pub mod shrink;
pub mod store;
pub mod table;
pub mod trace;
pub mod views;
pub mod watch;

pub use calls::{advance, arrival, load, run, run_traced, Answer, Checked};
pub use model::{check, Model};
pub use reader::{show, Shown};
pub use rules::Refusal;
pub use views::{frames_of, steps_of, View};
