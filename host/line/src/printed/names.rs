//! Kinds, boards, paths, gains and counts: as they are printed, and as a word on the command line names them.
use crate::printed::json;
use pasetone::{Board, InputPath, Script, Tuner, TunerKind};

pub fn kind(kind: TunerKind) -> &'static str {
    match kind {
        TunerKind::R820t => "R820T",
        TunerKind::R828d => "R828D",
    }
}

pub fn kind_of(word: &str) -> Option<TunerKind> {
    match word {
        "r828d" => Some(TunerKind::R828d),
        "r820t" => Some(TunerKind::R820t),
        _ => None,
    }
}

/// The address on I2C that a chip of this kind has.
pub fn own_address(kind: TunerKind) -> u8 {
    if kind == TunerKind::R820t { 0x34 } else { 0x74 }
}

pub fn board(board: Board) -> &'static str {
    match board {
        Board::Generic => "generic",
        Board::V4 => "V4",
    }
}

pub fn board_of(word: &str) -> Option<Board> {
    match word {
        "v4" => Some(Board::V4),
        "generic" => Some(Board::Generic),
        _ => None,
    }
}

pub fn path(path: InputPath) -> &'static str {
    match path {
        InputPath::Hf => "HF",
        InputPath::Vhf => "VHF",
        InputPath::Uhf => "UHF",
    }
}

/// So many of something, in words.
pub fn counted(count: usize, what: &str) -> String {
    format!("{count} {what}{}", if count == 1 { "" } else { "s" })
}

/// A gain as it is asked for: in tenths of a dB, or by the index of its step, as settings have it.
#[derive(Clone, Copy, PartialEq, Eq, Debug)]
pub enum Gain {
    Tenths(i32),
    Index(u8),
}

/// A gain in tenths of a dB: the one division is by binary32's own rule.
pub fn decibels(tenths: i32) -> f32 {
    tenths as f32 / 10.0
}

/// A gain as a word of --gain: the step's own dB where it is an index.
pub fn tenths_of(gain: Gain) -> String {
    match gain {
        Gain::Tenths(tenths) => json::tenths(tenths),
        Gain::Index(_) => json::tenths(gain_step(gain).1),
    }
}

/// The index of a gain's step, and its tenths of a dB, by the library: tried on a record that nothing else is done with. Both kinds have one table of steps.
pub fn gain_step(gain: Gain) -> (usize, i32) {
    let Ok(mut tuner) = Tuner::new(TunerKind::R828d, 0x74, 28_800_000) else { return (0, 0) };
    let steps = tuner.gain_table();
    let index = match gain {
        Gain::Index(index) => usize::from(index).min(steps.len() - 1),
        Gain::Tenths(tenths) => {
            let set = tuner.set_gain(decibels(tenths), &Script::all_done()).result;
            steps.iter().position(|step| set == Ok(decibels(*step))).unwrap_or(0)
        }
    };
    (index, steps[index])
}

#[cfg(test)]
mod tests {
    use super::*;

    /// Document 01: 29.7 dB is a step of its own, 3.2 dB lies nearer to 2.7 than to 3.7, -3 dB is the lowest and 100 dB the highest step.
    #[test]
    fn gains_by_step() {
        for (tenths, step) in [(297, 297), (32, 27), (-30, 0), (1000, 496), (0, 0)] {
            assert_eq!(gain_step(Gain::Tenths(tenths)).1, step);
        }
        let steps = Tuner::new(TunerKind::R820t, 0x34, 28_800_000).unwrap().gain_table();
        for (index, step) in steps.iter().enumerate() {
            assert_eq!(gain_step(Gain::Tenths(*step)), (index, *step));
            assert_eq!(gain_step(Gain::Index(index as u8)), (index, *step));
        }
    }
}
