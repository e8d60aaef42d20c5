//! Document 01 by subject, with the requests of document 02 that have landed. Nothing here knows the store's byte layout.

pub mod bits;
#[cfg(test)]
pub(crate) mod by_hand;
pub mod callers;
pub mod commit;
pub mod export;
pub mod joining;
pub mod limits;
pub mod menu;
pub mod message;
pub mod numbers;
pub mod packing;
pub mod plain;
pub mod plan;
pub mod queries;
pub mod report_reading;
pub mod reports;
pub mod screen;
pub mod settings;
pub mod tables;
pub mod texts;
pub mod updating;
pub mod values;
pub mod writing;
