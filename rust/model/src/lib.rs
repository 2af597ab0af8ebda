//! The card's rules a second time.
//!
//! Written from the words of documents 01 and 02 alone, so that a mistake in the proved library's rules
//! and a mistake here are not the same mistake. Every call takes every slice of bytes, answers
//! with the paper's six numbers and leaves the card as the paper says. No call allocates.
#![forbid(unsafe_code)]

mod answer;
mod batch;
pub mod bench;
mod beside;
mod blank;
mod bucket;
pub mod call;
mod head;
mod history;
pub mod journal;
pub mod list;
mod log;
mod panel;
pub mod paper;
mod rank;
mod reading;
mod rewrite;
mod row;
mod run;
mod season;
mod sector;
mod standing;
mod state;
mod survey;
mod turn;
mod walk;
mod writing;

pub use answer::{Answer, Tally};
pub use batch::batch;
pub use history::history;
pub use panel::{digits, Digits};
pub use reading::{look, next};
pub use season::season;
pub use state::{state, State};
pub use writing::{format, post, strike};
