//! Race results on a write-once card.
//!
//! A card is a slice of bytes. Nothing written on it is ever written over: a correction or an
//! erasure is a further entry, and every question can be asked as of any past stamp. The calls are
//! those of the proved library `libcard.a`; this crate lends it slices and turns its numbers into
//! Rust types. No call panics, whatever bytes the card holds. No call allocates, and the crate needs
//! `core` alone. What each byte of a card means is said in `docs/FORMAT.md`. [`journal`] is a second engine, for
//! a controller without room for a card.
//!
//! ```
//! use card::{Record, Shape, Status};
//!
//! let shape = Shape::new(16, 4).td(3).ti(4);
//! let mut bytes = vec![0; shape.bytes().unwrap()];
//! card::format(&mut bytes, shape)?;
//!
//! card::post(&mut bytes, 8, 10, Status::Timed, 61_230)?;
//! card::post(&mut bytes, 3, 20, Status::Timed, 58_900)?;
//! card::strike(&mut bytes, 8, 50)?;
//!
//! // as of stamp 49 the time of bib 8 stands, as of 50 it does not
//! let then = card::look(&bytes, 8, 49)?;
//! assert_eq!(then.record, Some(Record { bib: 8, at: 10, status: Status::Timed, time: Some(61_230) }));
//! assert_eq!(card::look(&bytes, 8, 50)?.record, None);
//!
//! // all that stood as of stamp 49, by rising bib
//! let bibs: Result<Vec<u32>, _> = card::scroll(&bytes, 49).map(|r| r.map(|r| r.bib)).collect();
//! assert_eq!(bibs?, [3, 8]);
//! # Ok::<(), card::Refusal>(())
//! ```

#![no_std]
#![deny(missing_docs)]

mod answers;
mod calls;
mod history;
pub mod journal;
pub mod numbers;
mod panel;
mod record;
mod records;
mod refusal;
mod request;
mod scroll;
mod shape;
mod state;
mod status;

pub use answers::Answers;
pub use calls::{batch, digits, format, history, look, next, post, records, season, state, strike};
pub use history::{Entry, History};
pub use panel::Panel;
pub use record::{Look, Record};
pub use records::Records;
pub use refusal::{NoRefusal, Refusal};
pub use request::Request;
pub use scroll::{scroll, scroll_above, Scroll};
pub use shape::Shape;
pub use state::State;
pub use status::Status;

/// The examples of the two README pages are run with the others.
#[cfg(doctest)]
mod pages {
    #[doc = include_str!("../README.md")]
    struct OfThisPackage;

    #[doc = include_str!("../../README.md")]
    struct OfTheRepository;
}
