//! The whole program apart from its command line, so that it can also be
//! called from inside another program.

mod by_joins;
mod by_subsets;
pub mod case_file;
mod following;
pub mod listing;
pub mod plain;
pub mod random;
pub mod rule;
pub mod script;
pub mod selftest;
pub mod stages;
pub mod store;
pub mod writing;
