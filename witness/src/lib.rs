//! The witness: document 01 with M-100 to M-105, read literally, so that its answers can be held beside those of the
//! duty book.
//!
//! `set`, `book` and `trade` say what the words mean, `request` and `audit` are the rules,
//! `stream` and `count` read and answer cases as text, and `cases` makes them.

#![forbid(unsafe_code)]

pub mod audit;
pub mod book;
pub mod cases;
pub mod count;
pub mod request;
pub mod set;
pub mod stream;
pub mod trade;

/// The answer to a request: the number, then x, y and z, which are 0 where nothing is said.
pub type Answer = (u64, u64, u64, u64);

/// The answer to an accepted request.
pub const ACCEPTED: Answer = (0, 0, 0, 0);

/// What an audit finds: the number, then x and y. M-104 gives the answer to a request a z, and the audit none.
pub type Finding = (u64, u64, u64);

/// The finding of an audit with nothing to find.
pub const SOUND: Finding = (0, 0, 0);
