//! The Rust's packer on every pair of 12-bit values in each of the four places, and on every 8-bit value in each of the
//! eight; document 01's packer and unpacker beside it.
use harness::page;
use harness::tally::Tally;
use original::demod::packer::pack_with;

fn one(values: [i32; 16], tally: &mut Tally) {
    let packed = pack_with(values);
    tally.that(packed == page::fir_pack(&values) && page::fir_unpack(&packed) == values, || format!("{values:?}: {packed:02x?}"));
}

fn main() {
    let mut tally = Tally::default();
    for byte in -128..128 {
        (0..8).for_each(|at| one(std::array::from_fn(|i| if i == at { byte } else { 0 }), &mut tally));
        one(std::array::from_fn(|i| if i < 8 { byte } else { -1 }), &mut tally);
    }
    for first in -2048..2048 {
        for second in -2048..2048 {
            // The same pair in all places: places do not share bytes, and the next loop takes them apart.
            one(
                std::array::from_fn(|i| {
                    if i < 8 {
                        0
                    } else if i % 2 == 0 {
                        first
                    } else {
                        second
                    }
                }),
                &mut tally,
            );
        }
        for at in 8..16 {
            one(std::array::from_fn(|i| if i == at { first } else { 0 }), &mut tally);
        }
    }
    tally.end("fir", "; every pair of 12-bit values, every 8-bit value".into())
}
