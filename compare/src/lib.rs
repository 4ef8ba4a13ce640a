//! Document 01, with the landed requests of document 02, written a second time, independently of the
//! updater, to compare the updater with.

pub mod cases;
pub mod comparison;
pub mod document;
pub mod replay;
pub mod speed;
pub mod stored;
