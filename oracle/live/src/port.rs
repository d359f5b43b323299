//! One call of the archive on a case, with all memory that it was lent as the call left it.
use crate::ffi::*;
use crate::given::{Given, Lent, driver_in_place, in_place};
use harness::case::{Answer, Case};
use harness::records::{DRIVER, TUNER};

/// The answer, and every byte that the call was given or lent, as the call left it.
#[derive(Debug, Clone)]
pub struct Found {
    pub reply: Reply,
    /// Of a tune, the board's too: its tries, and whether it locked.
    pub seen: (u32, u32),
    /// The room, or the slice lent for answered bytes.
    pub room: Lent,
    pub next_tuner: Lent,
    pub next_driver: Lent,
    /// What was given; a record lies here where it is changed in place.
    pub tuner: Lent,
    pub driver: Lent,
    pub outcomes: Lent,
    pub replies: Lent,
    pub input: Lent,
}

pub fn call(given: &Given) -> Found {
    let (case, fill) = (&given.case, given.fill);
    let mut found = Found {
        reply: Reply::default(),
        seen: (0, 0),
        room: Lent::new(case.room, fill),
        next_tuner: Lent::new(given.next_tuner, fill ^ 0x3c),
        next_driver: Lent::new(given.next_driver, fill ^ 0xc3),
        tuner: Lent::holding(&case.tuner, fill ^ 0x55),
        driver: Lent::holding(&case.driver, fill ^ 0x66),
        outcomes: Lent::holding(&case.outcomes, fill ^ 0x77),
        replies: Lent::holding(&case.replies, fill ^ 0x88),
        input: Lent::holding(&case.input, fill ^ 0x99),
    };
    found.reply = match case.call {
        1 | 11 | 13..=18 | 41 => without_steps(case, &mut found),
        2..=9 | 19 | 20 | 42 => on_record(case, &mut found),
        21..=32 => on_interface(case, &mut found),
        _ => leaf(case, &mut found),
    };
    found
}

// Safe, here and below: every pointer comes with the length of memory that is alive and not shared for the call.

fn without_steps(c: &Case, f: &mut Found) -> Reply {
    let ((t, tn), (d, dn)) = (f.tuner.slice(), f.driver.slice());
    let ((m, mn), (n, nn), (q, qn)) = (f.room.slice(), f.next_tuner.slice(), f.next_driver.slice());
    unsafe {
        match c.call {
            1 => pasetone_tuner_new(c.a, c.c as u8, c.b, n, nn),
            11 => pasetone_apply_notch(t, tn, c.a as u8),
            13 => pasetone_get_gain(t, tn),
            14 => pasetone_get_if_freq(t, tn),
            15 => pasetone_get_gain_table(t, tn, m, mn),
            16 => pasetone_driver_new(c.c, c.a, c.d as i32, c.b, c.e, q, qn),
            41 => pasetone_set_ppm(t, tn, d, dn, c.d as i32),
            _ => pasetone_corrected_xtal_hz(d, dn),
        }
    }
}

fn on_record(c: &Case, f: &mut Found) -> Reply {
    let ((t, tn), (d, dn)) = (f.tuner.slice(), f.driver.slice());
    let ((o, on), (r, rn), (b, bn)) = (f.outcomes.slice(), f.replies.slice(), f.input.slice());
    let ((m, mn), (n, nn), (q, qn)) = (f.room.slice(), f.next_tuner.slice(), f.next_driver.slice());
    unsafe {
        match c.call {
            2 => pasetone_initialize(t, tn, o, on, m, mn, n, nn),
            3 => {
                let TuneReply { value, index, refusal, count, tries, locked } =
                    pasetone_set_frequency(t, tn, c.a, o, on, r, rn, m, mn, n, nn);
                f.seen = (tries, locked);
                Reply { value, index, refusal, count }
            }
            4 => pasetone_set_gain(t, tn, f32::from_bits(c.a as u32), o, on, m, mn, n, nn),
            5 => pasetone_set_gain_by_index(t, tn, c.a, o, on, m, mn, n, nn),
            6 => pasetone_set_bandwidth(t, tn, c.a as u32, o, on, m, mn, n, nn),
            7 => pasetone_set_if_freq(t, tn, c.a, o, on, m, mn, n, nn),
            8 => pasetone_set_input_path(t, tn, c.a, o, on, m, mn, n, nn),
            9 => pasetone_reload(t, tn, o, on, m, mn, n, nn),
            19 => pasetone_set_sample_rate(d, dn, t, tn, b, bn, c.a as u32, o, on, m, mn, q, qn, n, nn),
            42 => {
                let TuneReply { value, index, refusal, count, tries, locked } =
                    pasetone_tune_board(d, dn, t, tn, b, bn, c.a, o, on, r, rn, m, mn, q, qn, n, nn);
                f.seen = (tries, locked);
                Reply { value, index, refusal, count }
            }
            _ => pasetone_apply_input_path(t, tn, c.a, o, on, r, rn, m, mn, n, nn),
        }
    }
}

fn on_interface(c: &Case, f: &mut Found) -> Reply {
    let ((o, on), (r, rn), (m, mn)) = (f.outcomes.slice(), f.replies.slice(), f.room.slice());
    unsafe {
        match c.call {
            21 => pasetone_init_baseband(o, on, m, mn),
            22 => pasetone_power_on(o, on, m, mn),
            23 => pasetone_set_tuner_low_if(o, on, m, mn),
            24 => pasetone_set_tuner_zero_if(o, on, m, mn),
            25 => pasetone_reset_demod(o, on, m, mn),
            26 => pasetone_write_reg_direct(c.a as u8, c.b as u16, c.c as u8, o, on, m, mn),
            27 => pasetone_set_if_freq_xtal(c.a as u32, c.b as u32, o, on, m, mn),
            28 => pasetone_set_sample_rate_xtal(c.a as u32, c.b as u32, o, on, m, mn),
            29 => pasetone_start_streaming(o, on, m, mn),
            30 => pasetone_stop_streaming(o, on, m, mn),
            31 => pasetone_set_gpio_output(c.a as u8, o, on, r, rn, m, mn),
            _ => pasetone_set_gpio_bit(c.a as u8, c.b as u8, o, on, r, rn, m, mn),
        }
    }
}

fn leaf(c: &Case, f: &mut Found) -> Reply {
    let ((i, n), (m, mn)) = (f.input.slice(), f.room.slice());
    unsafe {
        match c.call {
            33 => pasetone_plan_tuning(c.c, c.a, m, mn),
            34 => pasetone_if_freq_regs(c.a as u32, c.b as u32, m, mn),
            35 => pasetone_resample_regs(c.a as u32, c.b as u32, m, mn),
            36 => pasetone_pack_fir(i, n, m, mn),
            37 => pasetone_unpack_fir(i, n, m, mn),
            39 => pasetone_plan_pll(c.c, c.a, c.b as u32, m, mn),
            40 => pasetone_plan_pll_by_worksheet(c.c, c.a, c.b as u32, m, mn),
            _ => {
                // The reader's answer in the harness's form: value is where the entries start.
                let Section { start, count, refusal, zero } = pasetone_read_section(i, n);
                let count = u32::try_from(count).unwrap_or(u32::MAX);
                Reply { value: start, index: zero as u64, refusal, count }
            }
        }
    }
}

impl Found {
    /// The section that stands at the start of the room, if the call says that it made one.
    pub fn section(&self) -> Option<&[u8]> {
        self.room.lent().get(..16 * self.reply.count as usize + 8)
    }
    /// The record handed back, if the call has written one.
    pub fn tuner_after(&self, given: &Given) -> Option<&[u8]> {
        let here = if in_place(given.case.call) { self.tuner.lent() } else { self.next_tuner.lent().get(..TUNER)? };
        self.written(given).then_some(here)
    }
    pub fn driver_after(&self, given: &Given) -> Option<&[u8]> {
        let here = if driver_in_place(given.case.call) { self.driver.lent() } else { self.next_driver.lent().get(..DRIVER)? };
        self.written(given).then_some(here)
    }
    /// Done, or stopped after steps: records are handed back then, and only then.
    fn written(&self, given: &Given) -> bool {
        self.reply.refusal == 0 || self.reply.refusal == 11 || (matches!(given.case.call, 3 | 42) && self.reply.count > 0)
    }

    /// What the port answered and left, against what must come back: None if all is the same, else the first difference.
    pub fn against(&self, given: &Given, wanted: &Answer) -> Option<String> {
        let reply = Reply { value: wanted.value, index: wanted.index as u64, refusal: wanted.refusal as u32, count: wanted.count as u32 };
        if self.reply != reply {
            return Some(format!("answered {:?}, must be {reply:?}", self.reply));
        }
        let seen = (wanted.tries as u32, wanted.locked as u32);
        if self.seen != seen {
            return Some(format!("told {:?} of the tries and the lock, must be {seen:?}", self.seen));
        }
        let case = &given.case;
        let room = wanted.section.as_ref().unwrap_or(&wanted.answered);
        let (record, changed) = (wanted.tuner.as_deref(), in_place(case.call));
        let (driver, set) = (wanted.driver.as_deref(), driver_in_place(case.call));
        let parts = [
            ("room", &self.room, &room[..]),
            ("next tuner record", &self.next_tuner, record.filter(|_| !changed).unwrap_or(&[])),
            ("next driver record", &self.next_driver, driver.filter(|_| !set).unwrap_or(&[])),
            ("given tuner record", &self.tuner, record.filter(|_| changed).unwrap_or(&case.tuner)),
            ("given driver record", &self.driver, driver.filter(|_| set).unwrap_or(&case.driver)),
            ("given outcomes", &self.outcomes, &case.outcomes),
            ("given replies", &self.replies, &case.replies),
            ("given input", &self.input, &case.input),
        ];
        let (name, lent, bytes, place) =
            parts.into_iter().find_map(|(name, lent, bytes)| Some((name, lent, bytes, lent.differs(bytes)?)))?;
        Some(format!("{name}, byte {place}: holds {:02x?}, must be {bytes:02x?} and else as it was", lent.lent()))
    }
}
