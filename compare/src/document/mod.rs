//! Document 01 and the landed requests of document 02 in Rust, written from the documents alone.

pub mod book;
pub mod commands;
pub mod image;
pub mod listing;
pub mod pointers;
pub mod reading;
pub mod refusal;
pub mod rooms;
pub mod shortcut;
pub mod steps;
pub mod table;
