//! Document 01's worked numbers, and what a call leaves where it is refused.
use pasetone::{
    Answer, Band, Board, Command, Driver, EntryKind, Error, InputPath, Lock, Need, Outcome, PllPlan, Script, Stream, Table, Transcript,
    Tuner, TunerKind, Whose, demod, gpio, if_freq_regs, pack_fir, parting, resample_regs, unpack_fir,
};

fn r828d() -> Tuner {
    Tuner::new(TunerKind::R828d, 0x74, 28_800_000).unwrap()
}

fn done() -> Script {
    Script::all_done()
}

const FIR_DEFAULT: [i32; 16] = [-54, -36, -41, -40, -32, -14, 14, 53, 101, 156, 215, 273, 327, 372, 404, 421];
const FIR_BYTES: [u8; 20] =
    [0xca, 0xdc, 0xd7, 0xd8, 0xe0, 0xf2, 0x0e, 0x35, 0x06, 0x50, 0x9c, 0x0d, 0x71, 0x11, 0x14, 0x71, 0x74, 0x19, 0x41, 0xa5];

#[test]
fn fresh_tuner() {
    let tuner = r828d();
    assert_eq!((tuner.kind(), tuner.address(), tuner.nominal(), tuner.corrected()), (TunerKind::R828d, 0x74, 28_800_000, 28_800_000));
    assert_eq!((tuner.has_lock(), tuner.gain(), tuner.if_freq(), tuner.notch()), (false, 0.0, 2_300_000, false));
    assert_eq!(tuner.doubtful().collect::<Vec<_>>(), (0x05..=0x1f).collect::<Vec<_>>());
    assert_eq!((tuner.shadow(0x05), tuner.shadow(0x1f), tuner.shadow(0x04), tuner.shadow(0x20)), (Some(0x83), Some(0xc0), None, None));
    assert_eq!(Tuner::new(TunerKind::R820t, 0x34, 0), Err(Error::Setup));
}

#[test]
fn records_as_bytes() {
    let tuner = r828d();
    assert_eq!(Tuner::from_bytes(tuner.as_bytes()), Ok(tuner.clone()));
    assert_eq!(Tuner::from_bytes(&tuner.as_bytes()[1..]), Err(Error::Setup));
    assert_eq!((Tuner::SIZE, Tuner::from_bytes(&[&tuner.as_bytes()[..], &[0; 27]].concat())), (78, Err(Error::Setup)));
    let mut damaged = *tuner.as_bytes();
    damaged[37] = 2;
    assert_eq!(Tuner::from_bytes(&damaged), Err(Error::Setup));
    let driver = Driver::new(Board::V4, 28_800_000, -1, 7, 9).unwrap();
    assert_eq!(Driver::from_bytes(driver.as_bytes()), Ok(driver.clone()));
    assert_eq!((driver.board(), driver.frequency(), driver.rate()), (Board::V4, 7, 9));
    assert_eq!(Driver::from_bytes(&[0; 21]), Err(Error::Setup));
}

/// Document 01's whole section: bandwidth 2,048,000, a fresh R828D at 0x74, all done.
#[test]
fn bandwidth_section() {
    let mut tuner = r828d();
    let answer = tuner.set_bandwidth(2_048_000, &done());
    assert_eq!(answer.result, Ok(()));
    let mut section = vec![0; 56];
    for (at, byte) in [(0, 1), (3, 1), (8, 1), (16, 2), (18, 0x74), (19, 2), (24, 0x0a), (25, 0xd8), (32, 1), (35, 1), (48, 3), (52, 0x30)]
    {
        section[at] = byte;
    }
    assert_eq!(answer.transcript.bytes(), section);
    let kinds: Vec<_> = answer.transcript.iter().map(|entry| (entry.kind, entry.failed, entry.target, entry.bytes.to_vec())).collect();
    assert_eq!(kinds[0], (EntryKind::Repeater, false, 0, vec![1]));
    assert_eq!(kinds[1], (EntryKind::I2cWrite, false, 0x74, vec![0x0a, 0xd8]));
    assert_eq!(kinds[2], (EntryKind::Repeater, false, 0, vec![0]));
    section.insert(0, 0xff);
    assert_eq!(Transcript::read(&section), Ok((&[0xff][..], answer.transcript)));
    assert!(!tuner.doubtful().any(|register| register == 0x0a));
    assert_eq!(tuner.doubtful().count(), 26);
}

/// The PLL's registers for an LO of 102,300,000: 0x14 = 0xca, S = 0xd556.
#[test]
fn tuning() {
    let mut tuner = r828d();
    let answer = tuner.set_frequency(100_000_000, &done());
    assert_eq!(answer.result, Ok(100_000_000));
    assert_eq!(answer.transcript.len(), 53);
    let writes: Vec<_> = (13..16).map(|k| answer.transcript.get(k).unwrap().bytes.to_vec()).collect();
    assert_eq!(writes, [[0x14, 0xca], [0x16, 0xd5], [0x15, 0x56]]);
    let wait = answer.transcript.get(17).unwrap();
    assert_eq!((wait.kind, wait.address, wait.bytes), (EntryKind::Wait, 2, &[][..]));
    assert!(answer.transcript.get(53).is_none());
    assert!(!tuner.has_lock());
    assert_eq!(answer.lock, Lock { tries: 10, locked: false });
    let locked = tuner.set_frequency(100_000_000, &done().replying(4, 0x08).unwrap().replying(7, 0x02).unwrap());
    assert_eq!(locked.result, Ok(100_000_000));
    assert_eq!(locked.lock, Lock { tries: 1, locked: true });
    assert!(tuner.has_lock());
}

/// #101: tries and lock by the entries, wherever the tuning is cut. The third try reads the bit; entries 22, 26, 29 are the reads, 30 the write behind the lock.
#[test]
fn tries() {
    let locking = done().replying(13, 0x02).unwrap();
    let mut before = r828d();
    before.set_frequency(100_000_000, &locking).result.unwrap();
    assert!(before.has_lock());
    for failing in 0..32 {
        let mut tuner = before.clone();
        let answer = tuner.set_frequency(100_000_000, &locking.clone().failing(failing).unwrap());
        let read = |e: &pasetone::Entry| e.kind == EntryKind::I2cRead && e.bytes.len() == 3 && !e.failed;
        let tries = answer.transcript.iter().filter(read).count() as u32;
        let locked = answer.transcript.iter().any(|e| read(&e) && e.bytes[2] & 0x02 != 0);
        assert_eq!(answer.lock, Lock { tries, locked }, "step {failing}");
        let wait = [17, 24, 27].contains(&failing);
        assert_eq!(locked, failing > 29 || wait, "step {failing}");
        assert!(tuner.has_lock());
    }
    assert_eq!(before.set_frequency(1, &done()).lock, Lock::default());
    assert_eq!(before.set_frequency(0, &done()).lock, Lock::default());
}

/// Steps that were taken stand: the record changes although the call is refused.
#[test]
fn refused_by_a_step() {
    let mut tuner = r828d();
    tuner.initialize(&done()).result.unwrap();
    assert_eq!(tuner.doubtful().count(), 0);
    let answer = tuner.set_gain(29.7, &done().failing(3).unwrap());
    assert_eq!(answer.result, Err(Error::Step { index: 3 }));
    assert_eq!(answer.transcript.len(), 5);
    assert!(answer.transcript.get(3).unwrap().failed);
    assert_eq!(tuner.doubtful().collect::<Vec<_>>(), [0x05]);
    assert_eq!(tuner.gain(), 0.0);
    tuner.reload(&done()).result.unwrap();
    assert_eq!(tuner.doubtful().count(), 0);
}

/// A PLL refusal comes after the mux: 13 entries, and the mux's shadow.
#[test]
fn refused_by_the_pll() {
    let mut tuner = r828d();
    let before = tuner.clone();
    let answer = tuner.set_frequency(27_656_250 - 2_300_000 - 1, &done());
    assert_eq!(answer.result, Err(Error::Frequency));
    assert_eq!(answer.transcript.len(), 13);
    assert_ne!(tuner, before);
    let answer = tuner.set_frequency(27_656_250 - 2_300_000, &done());
    assert_eq!(answer.result, Ok(25_356_250));
}

/// Refused before any step: no transcript, and the record is as it was.
#[test]
fn refused_before_steps() {
    let mut tuner = r828d();
    let before = tuner.clone();
    for (script, error) in [(Script::new([0; 52], [0; 35]), Error::Outcomes), (Script::new([0; 53], [0; 34]), Error::Replies)] {
        let answer = tuner.set_frequency(100_000_000, &script);
        assert_eq!((answer.result, answer.transcript), (Err(error), Transcript::default()));
    }
    assert_eq!(tuner.set_frequency(0, &done()).result, Err(Error::Frequency));
    let mut driver = Driver::new(Board::V4, 28_800_000, 7, 0, 0).unwrap();
    assert_eq!(driver.set_ppm(&mut tuner, -1_000_000), Err(Error::Correction));
    assert_eq!((tuner, driver.ppm()), (before, 7));
}

#[test]
fn gain() {
    let mut tuner = r828d();
    assert_eq!(tuner.set_gain(3.2, &done()).result, Ok(2.7));
    assert_eq!(tuner.gain(), 2.7);
    // Whole tenths first: 0.46 is 4, nearer to 0 than to 9; 3.25 is 32, in the middle of 27 and 37.
    assert_eq!(tuner.set_gain(0.46, &done()).result, Ok(0.0));
    assert_eq!(tuner.set_gain(3.25, &done()).result, Ok(2.7));
    assert_eq!(tuner.set_gain(f32::NAN, &done()).result, Ok(0.0));
    assert_eq!(tuner.set_gain(-214_748_352.0, &done()).result, Ok(0.0));
    assert_eq!(tuner.set_gain_by_index(usize::MAX, &done()).result, Ok(49.6));
    let table = tuner.gain_table();
    assert_eq!((table[0], table[3], table[28]), (0, 27, 496));
}

#[test]
fn other_calls_of_the_tuner() {
    let mut tuner = r828d();
    assert_eq!(tuner.set_if_freq(3_570_000, &done()).transcript.len(), 4);
    assert_eq!(tuner.if_freq(), 3_570_000);
    assert_eq!(tuner.set_input_path(InputPath::Uhf, &done()).transcript.len(), 4);
    assert_eq!(tuner.apply_input_path(InputPath::Hf, &done()).transcript.len(), 10);
    tuner.apply_notch(true);
    assert!(tuner.notch());
    let mut small = Tuner::new(TunerKind::R820t, 0x34, 16_000_000).unwrap();
    let answer = small.set_input_path(InputPath::Hf, &Script::new([], []));
    assert_eq!((answer.result, answer.transcript), (Ok(()), Transcript::default()));
    assert_eq!(small.apply_input_path(InputPath::Hf, &done()).transcript.len(), 6);
}

/// Document 02, #106: what was sent is in the shadow, whether it was done or not, and nothing else is.
#[test]
fn the_shadow_follows_every_write() {
    let mut tuner = r828d();
    tuner.set_frequency(100_000_000, &done()).result.unwrap();
    tuner.set_gain_by_index(28, &done()).result.unwrap();
    let bytes = |tuner: &Tuner| [0x05, 0x0c, 0x14, 0x15, 0x16, 0x1a].map(|register| tuner.shadow(register).unwrap());
    assert_eq!(bytes(&tuner), [0x9f, 0xff, 0xca, 0x56, 0xd5, 0x22]);
    let reload = tuner.clone().reload(&done());
    assert_eq!(reload.transcript.get(1).unwrap().bytes[..2], [0x05, 0x9f]);
    assert_eq!(reload.transcript.get(3).unwrap().bytes[2], 0xca);
    // The opening fails: nothing was tried. The first chunk fails: it was, and the ones behind it were not.
    let (mut closed, mut cut) = (tuner.clone(), tuner.clone());
    assert_eq!(closed.initialize(&done().failing(0).unwrap()).result, Err(Error::Step { index: 0 }));
    assert_eq!(closed, tuner);
    assert_eq!(cut.initialize(&done().failing(1).unwrap()).result, Err(Error::Step { index: 1 }));
    assert_eq!(bytes(&cut), [0x83, 0xff, 0xca, 0x56, 0xd5, 0x22]);
    // A second initialise stands on its own bytes: 0x1a has 0x60 there, and 0x22 from the tuning.
    let again = tuner.initialize(&done());
    assert_eq!(again.transcript.get(10).unwrap().bytes, [0x1a, 0x60]);
    assert_eq!(bytes(&tuner), [0x83, 0xf0, 0x0f, 0x00, 0xc0, 0x60]);
}

#[test]
fn driver() {
    let mut tuner = r828d();
    let mut driver = Driver::new(Board::V4, 28_800_000, 0, 102_300_000, 2_048_000).unwrap();
    let v4 = Board::V4.table();
    assert_eq!(driver.set_sample_rate(&mut tuner, &v4, 3_200_000, &done()).transcript.len(), 17);
    assert_eq!((tuner.if_freq(), driver.rate(), driver.true_rate()), (3_570_000, 3_200_000, 3_200_000));
    let answer = driver.set_sample_rate(&mut tuner, &v4, 2_048_000, &done().failing(0).unwrap());
    assert_eq!(answer.result, Err(Error::Step { index: 0 }));
    assert_eq!((tuner.if_freq(), driver.rate()), (2_300_000, 3_200_000));
    assert_eq!(driver.set_sample_rate(&mut tuner, &v4, 0, &done()).result, Err(Error::Rate));
    let before = (tuner.clone(), driver.clone());
    assert_eq!(driver.set_sample_rate(&mut tuner, &v4, 900_000, &done()).result, Err(Error::Ratio));
    assert_eq!((tuner.as_bytes(), driver.as_bytes()), (before.0.as_bytes(), before.1.as_bytes()));
    for (rate, actual) in [(5_497_288, 5_497_288), (5_497_289, 5_497_290), (u32::MAX, 4_295_120_011)] {
        driver.set_sample_rate(&mut tuner, &v4, rate, &done()).result.unwrap();
        assert_eq!((driver.rate(), driver.true_rate()), (rate, actual));
    }
    driver.set_sample_rate(&mut tuner, &v4, 2_048_000, &done().failing(16).unwrap()).result.unwrap_err();
    assert_eq!((driver.rate(), driver.true_rate()), (u32::MAX, 4_295_120_011));
    assert_eq!(Driver::new(Board::Generic, 28_800_000, -1_000_000, 0, 0), Err(Error::Correction));
}

/// Document 02, #109: one call corrects both records, each by its own nominal, or neither.
#[test]
fn correction_of_both() {
    let mut tuner = r828d();
    let mut driver = Driver::new(Board::V4, 16_000_000, 0, 102_300_000, 2_048_000).unwrap();
    driver.set_sample_rate(&mut tuner, &Board::V4.table(), 3_200_000, &done()).result.unwrap();
    let fields = |tuner: &Tuner, driver: &Driver| (tuner.corrected(), driver.ppm(), driver.corrected_xtal_hz());
    assert_eq!(driver.set_ppm(&mut tuner, -1), Ok(()));
    assert_eq!(fields(&tuner, &driver), (28_799_972, -1, 15_999_984));
    assert_eq!((tuner.nominal(), driver.nominal(), driver.rate(), driver.frequency()), (28_800_000, 16_000_000, 3_200_000, 102_300_000));
    // From the nominals, not from what was set before.
    assert_eq!(driver.set_ppm(&mut tuner, 148_130_808), Ok(()));
    assert_eq!(fields(&tuner, &driver), (4_294_967_270, 148_130_808, 2_386_092_928));
    // The tuner's reference alone is out of its range, then the driver's alone, then both.
    let (before, kept) = (tuner.clone(), driver.clone());
    for ppm in [148_130_809, -1_000_000, i32::MIN, i32::MAX] {
        assert_eq!(driver.set_ppm(&mut tuner, ppm), Err(Error::Correction));
        assert_eq!((&tuner, &driver), (&before, &kept));
    }
    let mut small = Tuner::new(TunerKind::R820t, 0x34, 1).unwrap();
    let mut large = Driver::new(Board::Generic, 4_294_967_295, -5, 0, 0).unwrap();
    assert_eq!(large.set_ppm(&mut small, 1), Err(Error::Correction));
    assert_eq!((small.corrected(), large.ppm()), (1, -5));
    assert_eq!(large.set_ppm(&mut small, -999_999), Ok(()));
    assert_eq!(fields(&small, &large), (1, -999_999, 4_295));
    // The two references of a hop are the same where the nominals are.
    let mut driver = Driver::new(Board::V4, 28_800_000, 0, 0, 0).unwrap();
    driver.set_ppm(&mut tuner, 37).unwrap();
    assert_eq!(tuner.corrected(), driver.corrected_xtal_hz());
}

/// The byte of the last entry, where it is the write that turns the spectrum.
fn spectrum(transcript: &Transcript) -> u8 {
    let last = transcript.iter().last().unwrap();
    assert_eq!((last.target, last.address, last.bytes.len()), (1, 0x15, 1));
    last.bytes[0]
}

#[test]
fn spectrum_by_a_table() {
    let band = |first, last, inverted| Band { first, last, shift: 0, inverted, path: None, notch: false };
    let table = Table::new(&[band(10, 20, false), band(30, 40, true), Band { shift: i64::MIN, ..band(50, 60, true) }]).unwrap();
    // A gap, both bands, shifted out: the board of the record plans nothing.
    for (hz, byte) in [(9, 1), (15, 1), (25, 1), (30, 5), (40, 5), (41, 1), (55, 1)] {
        for board in [Board::Generic, Board::V4] {
            let mut driver = Driver::new(board, 28_800_000, 0, hz, 0).unwrap();
            let answer = driver.set_sample_rate(&mut r828d(), &table, 2_048_000, &done());
            assert_eq!(spectrum(&answer.transcript), byte);
        }
    }
}

#[test]
fn board_tunes() {
    let (mut tuner, v4) = (r828d(), Board::V4.table());
    let mut driver = Driver::new(Board::Generic, 28_800_000, 0, 0, 2_048_000).unwrap();
    let kept = (tuner.clone(), driver.clone());
    // The longest run: 10 entries of the board's input, 53 of the tuning, the byte; the notch stays, and so does the rate.
    let answer = driver.tune_board(&mut tuner, &v4, 2_200_000, &done());
    assert_eq!((answer.result, answer.transcript.len()), (Ok(2_200_000), Need::TUNE_BOARD.outcomes));
    assert_eq!(answer.lock, Lock { tries: 10, locked: false });
    assert_eq!(spectrum(&answer.transcript), 0x05);
    assert_eq!((driver.frequency(), driver.rate(), tuner.notch()), (2_200_000, 2_048_000, true));
    // The parts are those of the calls.
    let mut parts = kept.0.clone();
    let path = parts.apply_input_path(InputPath::Hf, &done());
    parts.apply_notch(true);
    let tuned = parts.set_frequency(31_000_000, &done());
    let entries = [path.transcript, tuned.transcript].map(|part| part.bytes()[..16 * part.len()].to_vec()).concat();
    assert_eq!(answer.transcript.bytes()[..16 * 63], entries);
    assert_eq!(tuner.as_bytes(), parts.as_bytes());
    // An R820T takes no board input, and its replies begin with the tuning's.
    let mut r820t = Tuner::new(TunerKind::R820t, 0x34, 28_800_000).unwrap();
    let lock = done().replying(7, 0x02).unwrap();
    let answer = driver.tune_board(&mut r820t, &v4, 100_000_000, &lock);
    assert_eq!((answer.lock, spectrum(&answer.transcript)), (Lock { tries: 1, locked: true }, 0x01));
    // Cut, and refused in the PLL: the notch is stored, the frequency is not.
    let (mut tuner, mut driver) = kept.clone();
    let cut = driver.tune_board(&mut tuner, &v4, 100_000_000, &done().failing(0).unwrap());
    assert_eq!((cut.result, cut.transcript.len(), tuner.notch()), (Err(Error::Step { index: 0 }), 1, true));
    assert_eq!(driver, kept.1);
    let late = driver.tune_board(&mut tuner, &v4, 1_900_000_000, &done());
    assert_eq!((late.result, late.transcript.len(), tuner.notch()), (Err(Error::Frequency), 23, false));
    assert_eq!(driver, kept.1);
    // A closing that fails does not keep it from being done.
    let closing = driver.tune_board(&mut tuner, &v4, 7_000_000, &done().failing(62).unwrap());
    assert_eq!((closing.result, driver.frequency()), (Ok(7_000_000), 7_000_000));
    // Refused before any step.
    let (mut tuner, mut driver) = kept.clone();
    let none = Table::new(&[]).unwrap();
    let down = Table::new(&[Band { first: 5, last: 9, shift: -5, inverted: false, path: None, notch: true }]).unwrap();
    for (table, hz) in [(&none, 100_000_000), (&down, 5), (&down, 10)] {
        let answer = driver.tune_board(&mut tuner, table, hz, &Script::new([], []));
        assert_eq!((answer.result, answer.transcript.len()), (Err(Error::Frequency), 0));
    }
    assert_eq!((tuner.as_bytes(), driver.as_bytes()), (kept.0.as_bytes(), kept.1.as_bytes()));
}

#[test]
fn plans() {
    let below = Board::V4.plan_tuning(28_799_999);
    assert_eq!((below.hz, below.inverted, below.path), (57_599_999, true, Some(InputPath::Hf)));
    let above = Board::V4.plan_tuning(28_800_000);
    assert_eq!((above.hz, above.inverted, above.path), (28_800_000, false, Some(InputPath::Vhf)));
    let notches = [84_999_999, 85_000_000, 112_000_000, 112_000_001].map(|hz| Board::V4.plan_tuning(hz).notch);
    assert_eq!(notches, [false, true, true, false]);
    assert_eq!(Board::Generic.plan_tuning(1).path, None);
}

/// The built-in boards by their tables, and bands at the ends of what 64 bits hold.
#[test]
fn tables() {
    let band = |first, last, shift| Band { first, last, shift, inverted: false, path: None, notch: false };
    for (board, bands) in [(Board::Generic, 1), (Board::V4, 8)] {
        let table = board.table();
        assert_eq!(table.as_bytes().len(), Table::BAND * bands);
        for edge in [0, 2_200_000, 28_799_999, 84_999_999, 112_000_000, 171_999_999, 242_000_000, 249_999_999, u64::MAX - 1] {
            for hz in [edge, edge + 1] {
                assert_eq!(table.plan_tuning(hz), Ok(board.plan_tuning(hz)));
            }
        }
    }
    assert_eq!(Table::new(&[band(0, u64::MAX, 0)]).unwrap(), Board::Generic.table());
    let table = Table::new(&[band(0, 9, -5), band(10, 10, i64::MIN), band(11, u64::MAX, i64::MAX)]).unwrap();
    let found = [4, 5, 9, 10, 11, 1 << 63, (1 << 63) + 1].map(|hz| table.plan_tuning(hz).map(|plan| plan.hz));
    let last = Err(Error::Frequency);
    assert_eq!(found, [last, Ok(0), Ok(4), last, Ok((1 << 63) + 10), Ok(u64::MAX), last]);
    for bands in [vec![band(1, 0, 0)], vec![band(0, 5, 0), band(5, 6, 0)], (0..17).map(|hz| band(hz, hz, 0)).collect()] {
        assert_eq!(Table::new(&bands), Err(Error::Table));
    }
    assert_eq!(Table::new(&[]).unwrap().plan_tuning(0), Err(Error::Frequency));
    let bytes = Board::V4.table().as_bytes().to_vec();
    for (at, byte) in [(24, 2), (25, 4), (26, 2), (27, 0xc0)] {
        let mut bad = bytes.clone();
        bad[at] = byte;
        assert_eq!(Table::from_bytes(&bad), Err(Error::Table), "byte {at}");
    }
    assert_eq!(Table::from_bytes(&bytes[..215]), Err(Error::Table));
    assert_eq!(Error::Table.number(), 19);
}

/// Both engines, at document 01's worked numbers and at the least N.
#[test]
fn pll_plans() {
    for engine in [TunerKind::plan_pll, TunerKind::plan_pll_by_worksheet] {
        let broadcast = PllPlan { divider: 32, n: 56, setting: 0xca, sum: 0xd556, rest: 1 };
        assert_eq!(engine(TunerKind::R828d, 102_300_000, 28_800_000), Ok(broadcast));
        assert_eq!(engine(TunerKind::R820t, 885_000_000, 68_076_923).map(|plan| (plan.divider, plan.n, plan.setting)), Ok((2, 13, 0)));
        for (lo, reference) in
            [(885_000_000, 68_076_924), (885_000_000, 100_000_000), (27_656_249, 28_800_000), (1_800_000_000, 28_800_000)]
        {
            assert_eq!(engine(TunerKind::R828d, lo, reference), Err(Error::Frequency));
        }
        assert_eq!(engine(TunerKind::R820t, 1_024_000_000, 16_000_000), Err(Error::Frequency));
        assert_eq!(engine(TunerKind::R828d, 1_024_000_000, 16_000_000).map(|plan| plan.n), Ok(64));
        assert_eq!(engine(TunerKind::R828d, 0, 0), Err(Error::Correction));
    }
}

/// Document 02's worked packet, and what packets do not tell: waits, outcomes, read data and that a demod write was the repeater.
#[test]
fn setup_packets() {
    let written = demod::write_reg_direct(1, 0x15, 0x05, &done()).transcript;
    let packets = written.packets().unwrap();
    assert_eq!(packets, [0x40, 0, 0x20, 0x15, 0x11, 0, 1, 0, 0x05, 0xc0, 0, 0x20, 0x01, 0x0a, 0, 1, 0]);
    assert_eq!(Transcript::of_packets(&packets), Ok(written));
    let failed = demod::write_reg_direct(1, 0x15, 0x05, &done().failing(0).unwrap()).transcript;
    assert_eq!(failed.packets().unwrap(), packets[..9]);
    assert!(!Transcript::of_packets(&packets[..9]).unwrap().get(0).unwrap().failed);
    for (page, address) in [(16, 0x15), (1, 0x100)] {
        assert_eq!(demod::write_reg_direct(page, address, 0, &done()).transcript.packets(), Err(Error::Expansion));
    }
    assert_eq!(Transcript::of_packets(&packets[9..]), Err(Error::Expansion));
    assert_eq!(Transcript::of_packets(&packets[..8]), Err(Error::Expansion));
    assert_eq!(Transcript::of_packets(&[]).map(|none| none.len()), Ok(0));
    assert_eq!(Transcript::default().packets(), Ok(vec![]));
    let tuned = r828d().set_bandwidth(2_048_000, &done()).transcript;
    let back = Transcript::of_packets(&tuned.packets().unwrap()).unwrap();
    let words: Vec<String> = back.iter().map(|entry| entry.words()).collect();
    assert_eq!(words, ["demod write, page 1: 0x0001 <- 18", "I2C write 0x74: 0x0a <- d8", "demod write, page 1: 0x0001 <- 10"]);
}

/// A day ends where its list says: initialise, a call whose write fails, and each chip's own writes.
#[test]
fn restore_lists() {
    let words = |list: &Transcript| list.iter().map(|entry| entry.words()).collect::<Vec<String>>();
    let mut tuner = r828d();
    let mut day = tuner.initialize(&done()).transcript.bytes().to_vec();
    let list = Transcript::restore(&day, 0x74).unwrap();
    let firsts: Vec<_> = list.iter().map(|entry| entry.bytes[0]).collect();
    assert_eq!((list.len(), firsts), (4, vec![0x05, 0x0c, 0x13, 0x1a]));
    assert_eq!(Transcript::restore(list.bytes(), 0x74).as_ref(), Ok(&list));
    day.extend_from_slice(tuner.set_bandwidth(2_048_000, &done().failing(1).unwrap()).transcript.bytes());
    let after = Transcript::restore(&day, 0x74).unwrap();
    let firsts: Vec<_> = after.iter().map(|entry| entry.bytes[0]).collect();
    assert_eq!(firsts, [0x05, 0x0b, 0x12, 0x19]);
    assert_eq!(words(&Transcript::restore(&day, 0x34).unwrap()), Vec::<String>::new());
    assert_eq!(Transcript::restore(&[], 0x74).map(|none| none.len()), Ok(0));
    assert_eq!(Transcript::restore(&day[1..], 0x74), Err(Error::Section));
    assert_eq!(Transcript::restore(&day[..day.len() - 1], 0x74), Err(Error::Section));
}

#[test]
fn demodulator_and_gpio() {
    let counts = [
        demod::init_baseband(&done()),
        demod::power_on(&done()),
        demod::reset_demod(&done()),
        demod::set_tuner_low_if(&done()),
        demod::set_tuner_zero_if(&done()),
        demod::start_streaming(&done()),
        demod::stop_streaming(&done()),
        demod::write_reg_direct(1, 0x1234, 0x56, &done()),
        gpio::set_output(5, &done()),
        gpio::set_bit(5, true, &done()),
    ]
    .map(|answer| answer.transcript.len());
    assert_eq!(counts, [45, 45, 2, 2, 2, 2, 2, 1, 4, 2]);
    let sent: Vec<_> = demod::set_if_freq_xtal(3_570_000, 28_800_000, &done()).transcript.iter().map(|e| e.bytes.to_vec()).collect();
    assert_eq!(sent, [[0x38], [0x11], [0x12]]);
    let rate = demod::set_sample_rate_xtal(2_048_000, 28_800_000, &done());
    assert_eq!((rate.transcript.get(0).unwrap().bytes, rate.transcript.get(1).unwrap().bytes), (&[0x03, 0x84][..], &[0, 0][..]));
    assert_eq!(demod::set_sample_rate_xtal(0, 0, &done()).result, Err(Error::Rate));
    let answer = demod::set_sample_rate_xtal(225_000, 28_800_000, &done());
    assert_eq!((answer.result, answer.transcript.len()), (Err(Error::Ratio), 0));
    let rates =
        [225_001, 300_000, 300_001, 900_000, 900_001].map(|rate| demod::set_sample_rate_xtal(rate, 28_800_000, &done()).result.is_ok());
    assert_eq!(rates, [true, true, false, false, true]);
    assert_eq!(demod::set_if_freq_xtal(1, 0, &done()).result, Err(Error::Correction));
    assert_eq!(gpio::set_bit(8, true, &done()).result, Err(Error::Pin));
    assert_eq!(gpio::set_output(8, &done()).result, Err(Error::Pin));
}

#[test]
fn register_values_and_fir() {
    assert_eq!(if_freq_regs(3_570_000, 28_800_000), Ok([0x07, 0xee, 0xee]));
    assert_eq!(if_freq_regs(1, 0), Err(Error::Correction));
    assert_eq!(resample_regs(2_048_000, 28_800_000), Ok([0x03, 0x84, 0x00, 0x00]));
    assert_eq!(resample_regs(0, 0), Err(Error::Rate));
    assert_eq!(pack_fir(&FIR_DEFAULT), Ok(FIR_BYTES));
    assert_eq!(unpack_fir(&FIR_BYTES), FIR_DEFAULT);
    let mut wide = FIR_DEFAULT;
    wide[7] = 128;
    assert_eq!(pack_fir(&wide), Err(Error::Coefficient));
}

#[test]
fn errors_have_numbers_and_words() {
    assert_eq!((Error::Step { index: 7 }.number(), Error::Step { index: 7 }.word()), (11, "step"));
    assert_eq!((Error::Coefficient.number(), Error::Coefficient.word()), (7, "coefficient"));
    assert_eq!((Error::Ratio.number(), Error::Ratio.word()), (13, "ratio"));
    assert_eq!(Transcript::read(&[]).map(|_| ()).unwrap_err().number(), 12);
    let (major, minor, patch) = pasetone::version();
    assert_eq!(format!("{major}.{minor}.{patch}"), env!("CARGO_PKG_VERSION"));
    assert_eq!((Error::Command.number(), Error::Command.word()), (14, "command"));
    assert_eq!((Error::Expansion.number(), Error::Expansion.word()), (15, "expansion"));
}

/// #105: "one operation byte and eight argument bytes, low byte first"; "unused high bytes are zero".
#[test]
fn commands_as_bytes() {
    let bytes = |command: Command| command.bytes();
    assert_eq!(bytes(Command::Frequency(0x0102_0304_0506_0708)), [1, 8, 7, 6, 5, 4, 3, 2, 1]);
    assert_eq!(bytes(Command::Rate(2_048_000)), [2, 0x00, 0x40, 0x1f, 0, 0, 0, 0, 0]);
    assert_eq!(bytes(Command::Gain(-1.0)), [3, 0, 0, 0x80, 0xbf, 0, 0, 0, 0]);
    assert_eq!(bytes(Command::GainIndex(255)), [4, 255, 0, 0, 0, 0, 0, 0, 0]);
    assert_eq!(bytes(Command::Bandwidth(u32::MAX)), [5, 255, 255, 255, 255, 0, 0, 0, 0]);
    assert_eq!(bytes(Command::Correction(-1)), [6, 255, 255, 255, 255, 0, 0, 0, 0]);
    assert_eq!(bytes(Command::Reload), [7, 0, 0, 0, 0, 0, 0, 0, 0]);
}

type Told = (Result<u64, Error>, Transcript, Lock);

/// What the calls by themselves answer to the stream below, and the records that they leave.
fn called(scripts: &[Script]) -> (Vec<Told>, Driver, Tuner) {
    let (mut tuner, mut driver) = (r828d(), Driver::new(Board::V4, 28_800_000, 0, 7_000_000, 0).unwrap());
    let bits = |answer: Answer<f32>| (answer.result.map(|db| db.to_bits().into()), answer.transcript, Lock::default());
    let none = |answer: Answer<()>| (answer.result.map(|()| 0), answer.transcript, Lock::default());
    let mut all = vec![none(driver.set_sample_rate(&mut tuner, &Board::V4.table(), 2_048_000, &scripts[0]))];
    all.push((Err(Error::Command), Transcript::default(), Lock::default()));
    all.push(bits(tuner.set_gain(29.7, &scripts[2])));
    all.push(bits(tuner.set_gain_by_index(255, &scripts[3])));
    all.push((driver.set_ppm(&mut tuner, -50).map(|()| 0), Transcript::default(), Lock::default()));
    let tuned = tuner.set_frequency(102_300_000, &scripts[5]);
    all.push((tuned.result, tuned.transcript, tuned.lock));
    all.push(none(tuner.set_bandwidth(6_500_000, &scripts[6])));
    all.push(none(tuner.reload(&scripts[7])));
    (all, driver, tuner)
}

/// "Feeding the stream in any cuts gives the same transcripts, answers and end record as feeding it whole"; "A refused or cut command is answered and the next
/// one runs"; "An incomplete command at the end is reported with its length, 1 to 8, and does nothing". One command is cut by a step, one has too few outcomes.
#[test]
fn commands_fed_in_any_cuts() {
    let mut sent =
        [Command::Rate(2_048_000).bytes(), [8, 0, 0, 0, 0, 0, 0, 0, 0], Command::Gain(29.7).bytes(), Command::GainIndex(255).bytes()]
            .concat();
    let last = [Command::Correction(-50), Command::Frequency(102_300_000), Command::Bandwidth(6_500_000), Command::Reload];
    sent.extend(last.map(Command::bytes).concat());
    sent.extend(&Command::Reload.bytes()[..5]);
    let mut scripts = vec![done(); 8];
    scripts[2] = done().failing(3).unwrap();
    scripts[3] = Script::new([0; 6], []);
    scripts[5] = done().replying(7, 0x02).unwrap();
    let (wanted, driver, tuner) = called(&scripts);
    let results: Vec<_> = wanted.iter().map(|fed| fed.0).collect();
    let step = Err(Error::Step { index: 3 });
    assert_eq!(results, [Ok(0), Err(Error::Command), step, Err(Error::Outcomes), Ok(0), Ok(102_300_000), Ok(0), Ok(0)]);
    for length in 1..=sent.len() {
        let (mut stream, mut found) = (Stream::new(), Vec::new());
        let (mut next, mut next_driver) = (r828d(), Driver::new(Board::V4, 28_800_000, 0, 7_000_000, 0).unwrap());
        let mut lent = scripts.iter().cloned();
        for chunk in sent.chunks(length) {
            found.extend(stream.feed(&mut next_driver, &mut next, &Board::V4.table(), chunk, |_| lent.next().unwrap()));
        }
        assert!(found.iter().map(|fed| &fed.command[..]).eq(sent.chunks_exact(9)));
        let found: Vec<_> = found.into_iter().map(|fed| (fed.result, fed.transcript, fed.lock)).collect();
        assert_eq!((&found, &next_driver, &next, stream.pending()), (&wanted, &driver, &tuner, 5), "in chunks of {length}");
    }
}

#[test]
fn stream_bytes() {
    assert_eq!(Stream::new().as_bytes(), &[0; 9]);
    let (mut stream, mut tuner, mut driver) = (Stream::new(), r828d(), Driver::new(Board::V4, 28_800_000, 0, 0, 0).unwrap());
    for k in 1..=8u8 {
        let fed = stream.feed(&mut driver, &mut tuner, &Board::V4.table(), &[k], |_| unreachable!("no command is whole"));
        assert_eq!((fed.len(), stream.pending(), stream.as_bytes()[0]), (0, usize::from(k), k));
        assert_eq!(Stream::from_bytes(stream.as_bytes()), Ok(stream.clone()));
    }
    assert_eq!((format!("{stream:?}").as_str(), &tuner), ("Stream([1, 2, 3, 4, 5, 6, 7, 8])", &r828d()));
    // Another length, more than eight pending, a byte behind the pending ones.
    for none in [&[0; 8][..], &[0; 10], &[9, 1, 1, 1, 1, 1, 1, 1, 1], &[2, 1, 1, 1, 0, 0, 0, 0, 0], &[]] {
        assert_eq!(Stream::from_bytes(none), Err(Error::Setup), "{none:?}");
    }
}

/// A receiver whose seventh step fails: the command is cut there and closes the repeater, and the one behind it runs on what it left.
#[test]
fn commands_driven_on_a_receiver() {
    let (mut stream, mut tuner, mut driver) = (Stream::new(), r828d(), Driver::new(Board::V4, 28_800_000, 0, 0, 0).unwrap());
    let sent = [Command::Reload.bytes(), Command::Bandwidth(6_500_000).bytes()].concat();
    let mut steps = 0;
    let fed = stream.drive(&mut driver, &mut tuner, &Board::V4.table(), &sent, |_| {
        steps += 1;
        if steps == 7 { Outcome::Failed(None) } else { Outcome::Done }
    });
    let mut at_once = r828d();
    let wanted = [at_once.reload(&done().failing(6).unwrap()), at_once.set_bandwidth(6_500_000, &done())];
    assert_eq!(fed.iter().map(|fed| fed.result).collect::<Vec<_>>(), [Err(Error::Step { index: 6 }), Ok(0)]);
    assert!(fed.iter().map(|fed| &fed.transcript).eq(wanted.iter().map(|answer| &answer.transcript)));
    assert_eq!((tuner, steps), (at_once, 8 + 3));
}

/// Where two nights part: a write's data count, outcomes and read data do not, and the longer one goes on.
#[test]
fn two_nights() {
    let night = |hz, script: &Script| r828d().set_frequency(hz, script).transcript.bytes().to_vec();
    let (one, two) = (night(100_000_000, &done()), night(101_000_000, &done()));
    let part = parting(&one, &two).unwrap();
    let at = part.index;
    assert_eq!((part.whose, part.len()), (Whose::Second, 53 - at));
    assert_eq!(part.bytes, &two[16 * at..16 * 53]);
    assert!(part.bytes.as_ptr_range().end <= two.as_ptr_range().end && part.bytes.as_ptr() >= two.as_ptr());
    assert_eq!(parting(&two, &one).unwrap().bytes, &one[16 * at..16 * 53]);
    // A lock at once leaves out the tries: the first goes on where the second has ended, or the other way about.
    let locked = night(100_000_000, &done().replying(4, 0x08).unwrap().replying(7, 0x02).unwrap());
    assert_eq!(parting(&one, &locked).map(|part| (part.whose, part.is_empty())), Ok((Whose::Second, false)));
    let cut = r828d().set_frequency(100_000_000, &done().failing(12).unwrap()).transcript;
    assert!(parting(&one, cut.bytes()).unwrap().index >= 12);
    let empty = [7, 0, 0, 0, 0, 0, 0, 0, 0];
    assert_eq!(parting(&one, &empty).map(|part| (part.whose, part.index, part.len())), Ok((Whose::First, 0, 53)));
    assert_eq!(parting(&empty, &one).map(|part| (part.whose, part.index, part.len())), Ok((Whose::Second, 0, 53)));
    assert_eq!(parting(&one, &one).map(|part| (part.whose, part.index, part.len())), Ok((Whose::Second, 53, 0)));
    assert_eq!(parting(&one[1..], &one).map(|part| part.len()), Err(Error::Section));
    assert_eq!(parting(&one, &[]).map(|part| part.len()), Err(Error::Section));
}

/// Both bands of a V4 lead to one oscillator. A hop that is cut at its last step leaves the driver's frequency, by whose band the centre is told: held against the frequency asked for it is beside it.
#[test]
fn the_centre_goes_by_the_drivers_band() {
    let (table, steady) = (Board::V4.table(), Script::all_done().replying(7, 0x08).unwrap());
    let mut tuner = Tuner::new(TunerKind::R828d, 0x74, 28_800_000).unwrap();
    let mut driver = Driver::new(Board::V4, 28_800_000, 0, 0, 0).unwrap();
    assert_eq!((tuner.oscillator(), driver.centre(&tuner, &table)), (Err(Error::Doubtful), Err(Error::Doubtful)));
    let done = driver.tune_board(&mut tuner, &table, 35_800_000, &steady);
    assert_eq!((done.result, tuner.oscillator(), driver.centre(&tuner, &table)), (Ok(35_800_000), Ok(38_100_009), Ok(35_800_009)));
    let last = done.transcript.len() - 1;
    let cut = driver.tune_board(&mut tuner, &table, 7_000_000, &steady.clone().failing(last).unwrap());
    assert_eq!(cut.result, Err(Error::Step { index: last }));
    assert_eq!((driver.frequency(), tuner.oscillator(), driver.centre(&tuner, &table)), (35_800_000, Ok(38_100_009), Ok(35_800_009)));
    assert_eq!(driver.tune_board(&mut tuner, &table, 7_000_000, &steady).result, Ok(7_000_000));
    assert_eq!((tuner.oscillator(), driver.centre(&tuner, &table)), (Ok(38_100_009), Ok(7_000_009)));
    assert_eq!(driver.centre(&tuner, &Table::new(&[]).unwrap()), Err(Error::Frequency));
    // The correction moves the oscillator that the bytes stand for.
    driver.set_ppm(&mut tuner, -1).unwrap();
    assert_eq!(tuner.oscillator(), Ok(38_099_972));
}
