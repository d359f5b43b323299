//! What a run has reached, call by call, and what it must have reached to count.
use crate::draw;
use crate::rules::{PANICS, RULES};
use harness::case::Case;
use harness::records::{Driver, Tuner};
use harness::tally::Tally;
use harness::{cases, judge, page, requests};
use rusb::rec::Entry;
use std::collections::BTreeMap;

/// By number; 10, 12 and 17 have none any more.
#[rustfmt::skip]
pub const NAMES: [&str; 42] = [
    "tuner_new", "initialize", "set_frequency", "set_gain", "set_gain_by_index", "set_bandwidth", "set_if_freq", "set_input_path", "reload", "",
    "apply_notch", "", "get_gain", "get_if_freq", "get_gain_table", "driver_new", "", "corrected_xtal_hz", "set_sample_rate",
    "apply_input_path", "init_baseband", "power_on", "set_tuner_low_if", "set_tuner_zero_if", "reset_demod", "write_reg_direct", "set_if_freq_xtal",
    "set_sample_rate_xtal", "start_streaming", "stop_streaming", "set_gpio_output", "set_gpio_bit", "plan_tuning", "if_freq_regs", "resample_regs",
    "pack_fir", "unpack_fir", "read_section", "plan_pll", "plan_pll_by_worksheet", "set_ppm", "tune_board",
];

/// How a case's answer stands to the original.
#[derive(Debug, Clone, Copy, PartialEq, Eq)]
pub enum Class {
    /// The original was asked, and its answer is the port's. A row may name the case all the same: the other build differs.
    Same(Option<u8>),
    /// The original has nothing to compare with (bytes of records, lent memory, our additions): document 01 alone.
    Ours,
    /// A row of docs/DIFFERENCES.md: the original answers otherwise.
    Excused(u8),
}

#[derive(Default)]
struct Row {
    cases: u64,
    same: u64,
    ours: u64,
    excused: BTreeMap<u8, u64>,
    refusals: BTreeMap<u8, u64>,
    /// How often each entry was the failing step, and how many closings failed.
    failing: BTreeMap<usize, u64>,
    closings: u64,
}

pub struct Cover {
    rows: [Row; 42],
    /// By row of docs/DIFFERENCES.md: cases excused, cases named on which the original agrees in this build.
    rules: BTreeMap<u8, (u64, u64)>,
    /// Calls that made entries, by their record's kind of tuner and by its board.
    kinds: [u64; 2],
    boards: [u64; 2],
    /// Corrections refused for one reference alone: the tuner's, the driver's.
    alone: [u64; 2],
    pub entries: u64,
}

impl Default for Cover {
    fn default() -> Self {
        Self {
            rows: std::array::from_fn(|_| Row::default()),
            rules: BTreeMap::new(),
            kinds: [0; 2],
            boards: [0; 2],
            alone: [0; 2],
            entries: 0,
        }
    }
}

fn list<K: std::fmt::Display>(of: &BTreeMap<K, u64>) -> String {
    of.iter().map(|(key, count)| format!("{key}: {count}")).collect::<Vec<_>>().join(", ")
}

impl Cover {
    pub fn note(&mut self, case: &Case, class: Class, refusal: u8, index: usize, made: &[Entry]) {
        let row = &mut self.rows[case.call as usize - 1];
        row.cases += 1;
        *row.refusals.entry(refusal).or_default() += 1;
        if refusal == 11 {
            *row.failing.entry(index).or_default() += 1;
        }
        row.closings += made.iter().filter(|entry| page::closes(entry) && entry[1] == 1).count() as u64;
        self.entries += made.len() as u64;
        if let (false, Some(&kind @ 0..=1)) = (made.is_empty(), case.tuner.first()) {
            self.kinds[kind as usize] += 1;
        }
        if let (false, Some(&board @ 0..=1)) = (made.is_empty(), case.driver.first()) {
            self.boards[board as usize] += 1;
        }
        if let (41, 4, Some(tuner), Some(driver)) = (case.call, refusal, Tuner::read(&case.tuner), Driver::read(&case.driver)) {
            let out = [tuner.nominal, driver.nominal].map(|nominal| page::corrected(nominal, case.d as i32).is_none());
            if out[0] != out[1] {
                self.alone[out[1] as usize] += 1;
            }
        }
        match class {
            Class::Same(named) => {
                row.same += 1;
                if let Some(number) = named {
                    self.rules.entry(number).or_default().1 += 1;
                }
            }
            Class::Ours => row.ours += 1,
            Class::Excused(number) => {
                *row.excused.entry(number).or_default() += 1;
                self.rules.entry(number).or_default().0 += 1;
            }
        }
    }

    pub fn print(&self) {
        println!(
            "| no. | call | cases | same as the Rust | document 01 alone | excused (row: cases) | refusals (number: cases) | failing steps | failed closings |"
        );
        println!("|---|---|---|---|---|---|---|---|---|");
        for at in draw::calls().map(|call| call as usize - 1) {
            let row = &self.rows[at];
            let (excused, refusals) = (list(&row.excused), list(&row.refusals));
            let (call, name, failing) = (at + 1, NAMES[at], row.failing.len());
            println!(
                "| {call} | {name} | {} | {} | {} | {excused} | {refusals} | {failing} | {} |",
                row.cases, row.same, row.ours, row.closings
            );
        }
        println!();
        println!("| row | excused | named, and the same in this build | inputs |");
        println!("|---|---|---|---|");
        for rule in &RULES {
            let (excused, same) = self.rules.get(&rule.row).copied().unwrap_or_default();
            println!("| {} | {excused} | {same} | {} |", rule.row, rule.inputs);
        }
        println!();
        let ([r820t, r828d], [generic, v4]) = (self.kinds, self.boards);
        println!("calls that made entries: R820T {r820t}, R828D {r828d}; generic board {generic}, V4 {v4}");
    }

    /// A run that left a row, a call, a step or a refusal out shows nothing of it: that is a fault. The rarest of them is told,
    /// since a shorter run may miss it.
    pub fn demand(&self, tally: &mut Tally) {
        let reached = self.reached();
        for (what, count) in &reached {
            tally.that(*count > 0, || format!("never reached: {what}"));
        }
        let (what, count) = reached.iter().min_by_key(|(_, count)| count).expect("something is asked for");
        println!("the rarest of {} things that a run must reach: {what}, {count} times", reached.len());
    }

    fn reached(&self) -> Vec<(String, u64)> {
        let mut all = Vec::new();
        for rule in &RULES {
            let (excused, same) = self.rules.get(&rule.row).copied().unwrap_or_default();
            let panics_only = matches!(rule.row, 3 | 11) && !PANICS;
            all.push((format!("row {}", rule.row), if panics_only { same } else { excused }));
        }
        all.extend((0..2).map(|kind| (format!("tuner {kind}"), self.kinds[kind])));
        all.extend((0..2).map(|board| (format!("board {board}"), self.boards[board])));
        all.push(("set_ppm: the tuner's reference alone out of range".into(), self.alone[0]));
        all.push(("set_ppm: the driver's reference alone out of range".into(), self.alone[1]));
        for call in draw::calls() {
            let (row, name) = (&self.rows[call as usize - 1], NAMES[call as usize - 1]);
            let failed = |step: usize| row.failing.get(&step).copied().unwrap_or_default();
            let refused = |number: u8| row.refusals.get(&number).copied().unwrap_or_default();
            all.extend(can_fail(call).into_iter().map(|step| (format!("{name}: step {step} failing"), failed(step))));
            all.extend(refusals(call).into_iter().map(|number| (format!("{name}: answer {number}"), refused(number))));
        }
        all
    }
}

/// The entries of a call, all done on its longest way, that are neither closings nor waits.
fn can_fail(call: u8) -> Vec<usize> {
    if requests::most(call).is_none() {
        return vec![];
    }
    let made = judge::entries(&requests::answer(&cases::plain(call)));
    (0..made.len()).filter(|&at| made[at][0] != 9 && !page::closes(&made[at])).collect()
}

/// The answers that each call has: 0 is done.
fn refusals(call: u8) -> Vec<u8> {
    let mut all = vec![0];
    all.extend(match call {
        1 => &[1, 8][..],
        3 => &[1, 2],
        41 => &[1, 4],
        2 | 4..=9 | 11 | 13..=15 | 18 | 20 => &[1],
        16 => &[1, 4, 8],
        19 => &[1, 3, 13, 19],
        27 | 34 => &[4],
        28 => &[3, 4, 13],
        35 => &[3, 4],
        31 | 32 => &[6],
        33 => &[1],
        36 | 37 => &[7],
        38 => &[12],
        39 | 40 => &[1, 2, 4],
        42 => &[1, 2, 19],
        _ => &[],
    });
    match requests::most(call) {
        Some((_, 0)) => all.extend([8, 9, 11]),
        Some(_) => all.extend([8, 9, 10, 11]),
        None if requests::answered(call).is_some() => all.push(8),
        None => {}
    }
    all
}
