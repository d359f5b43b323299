//! What is printed, and how: it knows nothing of commands, words or files.
pub mod clock;
pub mod json;
pub mod names;
pub mod out;
pub mod registers;
pub mod rows;
