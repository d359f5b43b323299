//! The judge: document 01's calls answered by the original Rust (run.rs), by document 01's own rules where the Rust is
//! not asked or has no answer (page.rs), and both put together for one case (answer.rs); document 02 over them (requests.rs, hops.rs, files.rs, tables.rs, commands.rs).
pub mod answer;
pub mod case;
pub mod cases;
pub mod commands;
pub mod dice;
pub mod evidence;
pub mod files;
pub mod hops;
pub mod judge;
pub mod packets;
pub mod page;
pub mod plain;
pub mod records;
pub mod requests;
pub mod restore;
pub mod run;
pub mod speed;
pub mod standing;
pub mod steps;
pub mod tables;
pub mod tally;
