//! Runs of calls, by a script or on a receiver, and what is told of them.
pub mod advice;
pub mod answer;
pub mod beginning;
pub mod boards;
pub mod live;
pub mod pll;
pub mod reach;
pub mod receiver;
pub mod report;
pub mod run;
pub mod schedule;
pub mod script;
pub mod standing;
