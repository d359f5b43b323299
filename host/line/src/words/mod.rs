//! The words of a command line: the tables of commands and options, and what is read by them.
pub mod commands;
pub mod given;
pub mod named;
pub mod numbers;
pub mod options;
mod pages;
