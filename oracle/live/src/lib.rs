//! The port beside the original: the library's C functions (crate pasetone-sys) called on a case (port.rs), what must come back
//! (document.rs), where the original itself does otherwise (rules.rs, raw.rs), and the drawing of cases (draw.rs).
pub mod chain;
pub mod cover;
pub mod document;
pub mod draw;
pub mod edges;
pub mod given;
pub mod port;
pub mod raw;
pub mod rows;
pub mod rules;
pub mod sabotage;

pub use pasetone_sys as ffi;

/// The program's words as numbers, the second by default from the clock: `[FIRST [SEED]]`. Other words: a line of use, and exit status 2.
pub fn numbers(words: &[String], first: u64, usage: &str) -> (u64, u64) {
    let clock = || std::time::SystemTime::now().duration_since(std::time::UNIX_EPOCH).map_or(1, |since| since.as_nanos() as u64);
    let parsed: Result<Vec<u64>, _> = words.iter().map(|word| word.parse()).collect();
    match parsed.as_deref() {
        Ok([]) => (first, clock()),
        Ok([count]) => (*count, clock()),
        Ok([count, seed]) => (*count, *seed),
        _ => {
            eprintln!("use: {usage}");
            std::process::exit(2)
        }
    }
}
