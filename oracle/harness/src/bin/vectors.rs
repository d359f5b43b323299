//! Writes the stored list (docs/VECTORS.md) to the path given: calls, FIR, section reader.
use harness::case::{Answer, By, Case, list};
use harness::{cases, requests::answer};

fn answered(name: &str, cases: Vec<Case>) -> Vec<u8> {
    let all: Vec<(Case, Answer)> = cases.into_iter().map(|case| (case.clone(), answer(&case))).collect();
    let by = |who: By| all.iter().filter(|(_, answer)| answer.by == who).count();
    let entries: usize = all.iter().filter(|(_, answer)| answer.section.is_some()).map(|(_, answer)| answer.count).sum();
    let refusals: Vec<String> = (0..=20)
        .map(|number| (number, all.iter().filter(|(_, answer)| answer.refusal == number).count()))
        .filter(|&(_, count)| count > 0)
        .map(|(number, count)| format!("{number}:{count}"))
        .collect();
    let bytes = list(&all);
    println!(
        "{name}: {} cases, {entries} entries, {} bytes; by the Rust {}, by it but for the shadow {}, by the documents before it {}, over it {}; refusals {}",
        all.len(),
        bytes.len(),
        by(By::Rust),
        by(By::RustButShadow),
        by(By::Page),
        by(By::PageOverRust),
        refusals.join(" ")
    );
    bytes
}

fn main() {
    let Some(path) = std::env::args().nth(1) else {
        eprintln!("use: vectors PATH");
        std::process::exit(2)
    };
    let all = [answered("calls", cases::calls()), answered("FIR", cases::fir()), answered("sections", cases::sections())].concat();
    if let Err(error) = std::fs::write(&path, &all) {
        eprintln!("vectors: {path}: {error}");
        std::process::exit(1)
    }
    println!("vectors: {} bytes", all.len());
}
