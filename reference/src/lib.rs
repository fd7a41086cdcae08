//! A second, independent implementation of the role monitor and its roll
//! printer, written from the documentation alone. It is there to compare the
//! proved program with.

// What decides.
pub mod event;
pub mod hierarchy;
pub mod monitor;
pub mod policy;
pub mod roll;
pub mod rules;
pub mod run;
pub mod sets;
pub mod state;
pub mod verdict;

// Inputs to compare by.
pub mod generate;
pub mod random;
