//! A twin of the drop copy recorder, written anew from three papers: documents
//! 01 (the rules) and 02 (what was asked for after them) and source document 004
//! (the layouts). It shares nothing with the proved code and exists to be held
//! against it.
//!
//! `reader`, `writer`, `session`, `line`, `plan`, `gateway` and `daysheet` follow
//! the papers line by line and care for nothing but clearness. `plain` is a second
//! decoder and writer, written for speed, only to be measured. `make` makes test
//! input, and `reports` what is measured.

#![forbid(unsafe_code)]

pub mod crc;
pub mod daysheet;
pub mod gateway;
pub mod line;
pub mod make;
pub mod plain;
pub mod plan;
pub mod reader;
pub mod reports;
pub mod session;
pub mod tables;
pub mod wire;
pub mod writer;

#[cfg(test)]
mod tests;
