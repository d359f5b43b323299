//! `worksheet`: the PLL's numbers for an oscillator, row by row as the technicians' printed sheet has them, beside both of the library's engines.
use crate::printed::out::{End, Out};
use crate::printed::{json, names};
use crate::runs::answer;
use crate::runs::pll::{corrected, numbered, pll_json};
use crate::runs::receiver::Receiver;
use crate::words::given::Given;
use crate::words::numbers;
use crate::words::options::Key;
use pasetone::{Error, TunerKind};

/// Document 02, #111: six ranges of lo, each with its divider.
const RANGES: [(u64, u64, u64); 6] = [
    (885_000_000, 1_799_999_999, 2),
    (442_500_000, 884_999_999, 4),
    (221_250_000, 442_499_999, 8),
    (110_625_000, 221_249_999, 16),
    (55_312_500, 110_624_999, 32),
    (27_656_250, 55_312_499, 64),
];

/// A line of the sum: line k divides 2K by 2^k and has the weight 2^(16 - k).
struct Line {
    number: u32,
    share: u64,
    before: u64,
    weight: u64,
    taken: bool,
}

/// The sheet as far as it can be filled in.
struct Sheet {
    kind: TunerKind,
    lo: u64,
    reference: u32,
    divider: Option<u64>,
    lines: Vec<Line>,
}

impl Sheet {
    fn of(kind: TunerKind, lo: u64, reference: u32) -> Sheet {
        let divider = RANGES.iter().find(|(first, last, _)| (*first..=*last).contains(&lo)).map(|(_, _, m)| *m);
        let mut sheet = Sheet { kind, lo, reference, divider, lines: Vec::new() };
        sheet.lines = sheet.summed();
        sheet
    }

    /// The oscillator times the divider, and twice the reference.
    fn parts(&self) -> (u64, u64) {
        (self.lo * self.divider.unwrap_or(0), 2 * u64::from(self.reference))
    }

    fn n(&self) -> u64 {
        let (vco, twice) = self.parts();
        vco / twice
    }

    /// F, and 2K: thousands of Hz.
    fn fraction(&self) -> (u64, u64) {
        let (vco, twice) = self.parts();
        (vco % twice / 1000, 2 * (u64::from(self.reference) / 1000))
    }

    /// The most that N may be.
    fn most(&self) -> u64 {
        if self.kind == TunerKind::R820t { 63 } else { 127 }
    }

    /// Where more than 1 and more than its share is left of F, a line's share goes off F and its weight onto S. At the last two lines the sum ends there.
    fn summed(&self) -> Vec<Line> {
        let (mut left, twice) = self.fraction();
        let mut ended = false;
        let mut lines = Vec::new();
        for number in 1..=16 {
            let share = twice >> number;
            let taken = !ended && left > 1 && left > share;
            lines.push(Line { number, share, before: left, weight: 1 << (16 - number), taken });
            if taken {
                left -= share;
                ended = number >= 15;
            }
        }
        lines
    }

    fn sum(&self) -> u64 {
        self.lines.iter().filter(|line| line.taken).map(|line| line.weight).sum()
    }

    fn rest(&self) -> u64 {
        let taken: u64 = self.lines.iter().filter(|line| line.taken).map(|line| line.share).sum();
        self.fraction().0 - taken
    }

    /// N - 13 by fours: the fours in the low six bits, what is left in the top two.
    fn setting(&self) -> u64 {
        let n = self.n() - 13;
        n % 4 * 64 + n / 4
    }

    /// The sheet's own answer.
    fn answer(&self) -> Result<[u64; 5], Error> {
        match self.divider {
            Some(m) if (13..=self.most()).contains(&self.n()) => Ok([m, self.n(), self.setting(), self.sum(), self.rest()]),
            _ => Err(Error::Frequency),
        }
    }

    /// Why it has none, and what to do.
    fn refused(&self) -> (String, String) {
        let (n, most, kind) = (self.n(), self.most(), names::kind(self.kind));
        let (why, to_do) = match self.divider {
            None => (String::from("lo stands in no range"), "ask for 27656250 to 1799999999 Hz"),
            Some(_) if n < 13 => (format!("N is {n}, below 13"), "give a lower --reference or another lo"),
            Some(_) => (format!("N is {n}, and an {kind} takes {most} at most"), "give a higher --reference or another lo"),
        };
        (format!("2 frequency: {why}"), String::from(to_do))
    }
}

pub fn run(given: &Given, out: &mut Out) {
    let lo = numbers::one_hertz("worksheet", &given.operands, out);
    let receiver = Receiver::of_words(given, lo, out);
    let Some(lo) = lo.filter(|_| !out.is_mistaken()) else { return };
    let Some(reference) = corrected(given, &receiver, out) else { return };
    let kind = receiver.kind();
    let sheet = Sheet::of(kind, lo, reference);
    let engines =
        [kind.plan_pll_by_worksheet(lo, reference), kind.plan_pll(lo, reference)].map(|engine| engine.map(|plan| numbered(&plan)));
    let agree = engines.iter().all(|engine| *engine == sheet.answer());
    if given.has(Key::Json) {
        json(&sheet, &engines, agree, out);
    } else if !given.has(Key::Quiet) {
        table(&sheet, &engines, agree, out);
    }
    if !agree {
        out.tell(End::Refused, "the engines DIFFER: this program or the library is at fault");
    } else if sheet.answer().is_err() {
        let (answer, to_do) = sheet.refused();
        answer::last_lines(given, &answer, &to_do, out);
    }
}

fn table(sheet: &Sheet, engines: &[Result<[u64; 5], Error>; 2], agree: bool, out: &mut Out) {
    let Sheet { kind, lo, reference, divider, .. } = sheet;
    out.line(&format!("worksheet: lo {lo} Hz on an {}, reference R {reference} Hz", names::kind(*kind)));
    out.line("");
    out.line("1. the divider m, by the range of lo");
    for (first, last, m) in RANGES {
        let mark = if *divider == Some(m) { '>' } else { ' ' };
        out.line(&format!("   {mark} {first:>9} to {last:>10}   m = {m}"));
    }
    if let Some(m) = divider {
        n_rows(sheet, *m, out);
    }
    if sheet.answer().is_ok() {
        sum_rows(sheet, out);
    }
    out.line("");
    answers(sheet, engines, agree, out);
}

fn n_rows(sheet: &Sheet, m: u64, out: &mut Out) {
    let ((vco, twice), n, most) = (sheet.parts(), sheet.n(), sheet.most());
    out.line("2. N, how often 2R goes into lo * m");
    out.line(&format!("     lo * m = {} * {m} = {vco}", sheet.lo));
    out.line(&format!("     N = {vco} / {twice} = {n}, and {} Hz are left", vco % twice));
    if sheet.answer().is_err() {
        out.line(&format!("     N must be 13 to {most}"));
        return;
    }
    let (fours, ones, byte) = ((n - 13) / 4, (n - 13) % 4, sheet.setting());
    out.line("3. register 0x14, by N - 13");
    out.line(&format!("     {n} - 13 = 4 * {fours} + {ones}, so 0x14 gets {ones} * 64 + {fours} = 0x{byte:02x}"));
}

fn sum_rows(sheet: &Sheet, out: &mut Out) {
    let (f, twice) = sheet.fraction();
    out.line("4. the sum S, by F and 2K in thousands of Hz");
    out.line(&format!("     F = {f}, 2K = {twice}; where F is more than 1 and than the share 2K / n, the share goes off F"));
    out.line("     line       n   share 2K/n           F        S gets");
    for line in &sheet.lines {
        let gets = if line.taken { line.weight.to_string() } else { String::from("-") };
        out.line(&format!("     {:>4}   {:>5}   {:>10}  {:>10}   {gets:>11}", line.number, 1u64 << line.number, line.share, line.before));
    }
    let (sum, rest) = (sheet.sum(), sheet.rest());
    out.line(&format!("     S = {sum}, so 0x16 gets 0x{:02x} and 0x15 gets 0x{:02x}; the rest of F is {rest}", sum >> 8, sum & 255));
}

const ROWS: [&str; 5] = ["divider m", "N", "register 0x14", "sum S", "rest"];

fn answers(sheet: &Sheet, engines: &[Result<[u64; 5], Error>; 2], agree: bool, out: &mut Out) {
    out.line("                     these rows   the worksheet's engine   the tuning's engine");
    let own = sheet.answer();
    let cell = |answer: &Result<[u64; 5], Error>, at: usize| match answer {
        Ok(numbers) if at == 2 => format!("0x{:02x}", numbers[at]),
        Ok(numbers) => numbers[at].to_string(),
        Err(_) => String::from("-"),
    };
    for (at, name) in ROWS.iter().enumerate() {
        let [second, first] = [&engines[0], &engines[1]].map(|engine| cell(engine, at));
        out.line(&format!("   {name:<14} {:>13}   {second:>22}   {first:>19}", cell(&own, at)));
    }
    let refusal = |answer: &Result<[u64; 5], Error>| answer.map_or_else(|error| error.number(), |_| 0);
    let [second, first] = [&engines[0], &engines[1]].map(refusal);
    out.line(&format!("   {:<14} {:>13}   {second:>22}   {first:>19}", "refusal", refusal(&own)));
    out.line(if agree { "all three agree" } else { "they DIFFER" });
}

fn json(sheet: &Sheet, engines: &[Result<[u64; 5], Error>; 2], agree: bool, out: &mut Out) {
    let told = |answer: &Result<[u64; 5], Error>| json::maybe(answer.as_ref().ok().map(pll_json));
    let line = |line: &Line| {
        json::object(&[
            ("line", line.number.to_string()),
            ("share", line.share.to_string()),
            ("f", line.before.to_string()),
            ("gets", if line.taken { line.weight } else { 0 }.to_string()),
        ])
    };
    let refusal = match sheet.answer() {
        Ok(_) => answer::done_json(),
        Err(error) => ("refusal", error.number().to_string()),
    };
    out.line(&json::document(&[
        refusal,
        ("lo", sheet.lo.to_string()),
        ("kind", json::string(names::kind(sheet.kind))),
        ("reference", sheet.reference.to_string()),
        ("rows", told(&sheet.answer())),
        ("worksheet", told(&engines[0])),
        ("tuning", told(&engines[1])),
        ("agree", agree.to_string()),
        ("lines", if sheet.answer().is_ok() { json::lines(sheet.lines.iter().map(line)) } else { String::from("[]") }),
    ]));
}

#[cfg(test)]
mod tests {
    use super::*;

    /// The rows are the engines', at the borders of every range, at references on both sides of the bounds on N, and at drawn ones.
    #[test]
    fn rows_are_the_engines() {
        let mut seed = 7u64;
        let mut below = |n: u64| {
            seed = seed.wrapping_mul(6_364_136_223_846_793_005).wrapping_add(1_442_695_040_888_963_407);
            (seed >> 16) % n
        };
        let borders = RANGES.iter().flat_map(|(first, last, _)| [first - 1, *first, *last, last + 1]);
        let mut cases: Vec<(u64, u32)> =
            borders.flat_map(|lo| [1, 999, 1000, 14_400_000, 28_800_000, 68_076_924, u32::MAX].map(|reference| (lo, reference))).collect();
        cases.extend((0..20_000).map(|_| (below(1_850_000_000), 1 + below(140_000_000) as u32)));
        for (lo, reference) in cases {
            for kind in [TunerKind::R820t, TunerKind::R828d] {
                let own = Sheet::of(kind, lo, reference).answer();
                assert_eq!(own, kind.plan_pll(lo, reference).map(|plan| numbered(&plan)), "{lo} {reference}");
                assert_eq!(own, kind.plan_pll_by_worksheet(lo, reference).map(|plan| numbered(&plan)), "{lo} {reference}");
            }
        }
    }
}
