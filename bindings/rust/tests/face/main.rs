//! The crate as a caller sees it, against docs/SPECIFICATION.md: expected values are worked out by
//! hand from its rules, or are libtiff's.

mod camera;
mod files;
mod inline;
mod limits;
mod mono;
mod patchy;
mod predictors;
mod receiver;
mod strict;
