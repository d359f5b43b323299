//! Forty functions with a constant each, beside the library, in a program with lto = "fat": there the library's text and the program's own stand in one
//! module of LLVM, and a local label of the one must not be taken for a label of the other. Built and run by host/rust/run, which also spoils the labels.
use pasetone::{Script, Tuner, TunerKind};
use std::hint::black_box;

macro_rules! products {
    ($($name:ident $k:literal)*) => {
        $(#[inline(never)]
        fn $name(a: f64) -> u64 {
            (a * (1234.56789 + $k as f64 * 0.1)).to_bits()
        })*
        fn made() -> Vec<u64> {
            vec![$($name(black_box(1.0))),*]
        }
        fn wanted() -> Vec<u64> {
            vec![$((1234.56789f64 + $k as f64 * 0.1).to_bits()),*]
        }
    };
}
products! {
    f0 0 f1 1 f2 2 f3 3 f4 4 f5 5 f6 6 f7 7 f8 8 f9 9 f10 10 f11 11 f12 12 f13 13 f14 14 f15 15 f16 16 f17 17 f18 18 f19 19 f20 20 f21 21 f22 22 f23 23
    f24 24 f25 25 f26 26 f27 27 f28 28 f29 29 f30 30 f31 31 f32 32 f33 33 f34 34 f35 35 f36 36 f37 37 f38 38 f39 39
}

fn main() {
    let mut tuner = Tuner::new(TunerKind::R828d, 0x74, 28_800_000).expect("a record");
    let entries = tuner.initialize(&Script::all_done()).transcript.len();
    let wrong = made().iter().zip(wanted()).filter(|(made, wanted)| *made != wanted).count();
    println!("{entries} entries, {wrong} of {} products wrong", made().len());
}
