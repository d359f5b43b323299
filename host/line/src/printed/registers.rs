//! The tuner's registers in words: what they are for, as far as the comments and names of the Rust say it (src/tuners/r82xx.rs); where they say nothing, nothing is said;
//! and several of them as runs.

pub fn purpose(register: u8) -> &'static str {
    match register {
        0x05 => "LNA gain; cable 1, air in",
        0x06 => "cable 2",
        0x07 => "mixer gain",
        0x0a => "IF filter, its bandwidth",
        0x0b => "IF filter",
        0x0c => "VGA gain",
        0x10 => "PLL: divider; crystal's capacitor",
        0x12 => "PLL: the sum's power (pw_sdm)",
        0x14 => "PLL: N",
        0x15 => "PLL: S, low byte",
        0x16 => "PLL: S, high byte",
        0x17 => "open_d, off in a notch",
        0x1a => "RF mux; bit 3 set behind a lock",
        0x1b => "tf_c, by frequency",
        0x08 | 0x09 | 0x1c..=0x1e => "mux",
        _ => "",
    }
}

/// Registers as runs: `0x05 to 0x08, 0x0a`.
pub fn runs(registers: &[u8]) -> String {
    let mut runs: Vec<(u8, u8)> = Vec::new();
    for register in registers {
        match runs.last_mut() {
            Some((_, last)) if *last + 1 == *register => *last = *register,
            _ => runs.push((*register, *register)),
        }
    }
    let told = |(first, last): &(u8, u8)| if first == last { format!("0x{first:02x}") } else { format!("0x{first:02x} to 0x{last:02x}") };
    runs.iter().map(told).collect::<Vec<_>>().join(", ")
}

#[cfg(test)]
mod tests {
    use super::*;

    #[test]
    fn runs_of_registers() {
        assert_eq!(runs(&[5, 6, 7, 9, 0x1e, 0x1f]), "0x05 to 0x07, 0x09, 0x1e to 0x1f");
        assert_eq!(runs(&[]), "");
    }
}
