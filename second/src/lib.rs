//! The independent second program of the field box.
//!
//! Written from documents 01 and 02 alone, with queues, vectors and maps. It is what the proved program's listings,
//! reports and cases are held against. Reading order: `numbers`, `codes`, `engine` are the rules; `log`, `listing`,
//! `play` turn a log into its listing; `account`, `report`, `report_case` turn it into its report; `feed_case` takes it
//! in fragments; `board`, `spoilt`, `convert`, `calls`, `case_text` play calls on a board given field by field; the
//! rest makes logs and cases to try.

pub mod account;
#[cfg(test)]
mod account_slips;
pub mod board;
pub mod calls;
pub mod case_text;
pub mod codes;
pub mod convert;
pub mod digest;
pub mod engine;
pub mod feed_case;
pub mod listing;
pub mod log;
pub mod log_text;
pub mod maker;
pub mod numbers;
pub mod play;
pub mod programs;
#[cfg(test)]
mod reading_slips;
pub mod report;
pub mod report_case;
#[cfg(test)]
mod slipped;
#[cfg(test)]
mod slips;
pub mod spoilt;
#[cfg(test)]
mod watch;
pub mod words;
