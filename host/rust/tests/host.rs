//! What this crate adds to the archive: texts, scripts, records as values. On good, bad and empty input.
use pasetone::{
    Answer, Band, Board, Command, Driver, Entry, EntryKind, Error, InputPath, Need, Outcome, Packet, Receiver, Script, Stream, Table,
    Transcript, Tuner, TunerKind, demod, drive, gpio,
};

fn r828d() -> Tuner {
    Tuner::new(TunerKind::R828d, 0x74, 28_800_000).unwrap()
}

fn done() -> Script {
    Script::all_done()
}

#[test]
fn script_with_a_failing_step() {
    let script = done().failing(63).unwrap();
    assert_eq!((script.outcomes()[62], script.outcomes()[63], script.outcomes().len()), (0, 1, Script::OUTCOMES));
    assert_eq!(done().failing(64), Err(Error::Outcomes));
    assert_eq!(done().failing(usize::MAX), Err(Error::Outcomes));
    assert_eq!(Script::new([], []).failing(0), Err(Error::Outcomes));
    assert_eq!(Script::new([0; 9], []).failing(8).unwrap().outcomes(), [0, 0, 0, 0, 0, 0, 0, 0, 1]);
    // An entry that the script has and the call does not reach: the transcript tells it.
    let answer = r828d().set_bandwidth(2_048_000, &done().failing(3).unwrap());
    assert_eq!((answer.result, answer.transcript.get(3)), (Ok(()), None));
}

#[test]
fn script_with_a_reply() {
    let script = done().replying(37, 0x5a).unwrap();
    assert_eq!((script.replies()[37], script.replies().len()), (0x5a, Script::REPLIES));
    assert_eq!(done().replying(38, 0), Err(Error::Replies));
    assert_eq!(Script::new([], []).replying(0, 0), Err(Error::Replies));
    let answer = gpio::set_bit(0, true, &done().replying(0, 0x80).unwrap());
    assert_eq!(answer.transcript.get(1).unwrap().bytes, [0x81]);
}

/// A call with just what it may need is not refused for want of it; with a byte less it is.
fn needs<T>(need: Need, call: impl Fn(&Script) -> Answer<T>) {
    let script = |outcomes, replies| Script::new(vec![0; outcomes], vec![0; replies]);
    let refused = |script: Script| call(&script).result.err();
    assert_eq!(refused(script(need.outcomes, need.replies)), None);
    assert_eq!(refused(script(need.outcomes - 1, need.replies)), Some(Error::Outcomes));
    if let Some(fewer) = need.replies.checked_sub(1) {
        assert_eq!(refused(script(need.outcomes, fewer)), Some(Error::Replies));
    }
}

#[test]
fn needs_are_the_librarys() {
    needs(Need::INITIALIZE, |script| r828d().initialize(script));
    needs(Need::TUNE, |script| r828d().set_frequency(100_000_000, script).into());
    needs(Need::GAIN, |script| r828d().set_gain(29.7, script));
    needs(Need::GAIN, |script| r828d().set_gain_by_index(3, script));
    needs(Need::BANDWIDTH, |script| r828d().set_bandwidth(2_048_000, script));
    needs(Need::IF_FREQ, |script| r828d().set_if_freq(2_300_000, script));
    needs(Need::INPUT_PATH, |script| r828d().set_input_path(InputPath::Uhf, script));
    needs(Need::BOARD_PATH, |script| r828d().apply_input_path(InputPath::Uhf, script));
    needs(Need::RELOAD, |script| r828d().reload(script));
    let driver = || Driver::new(Board::V4, 28_800_000, 0, 0, 0).unwrap();
    needs(Need::SAMPLE_RATE, |script| driver().set_sample_rate(&mut r828d(), &Board::V4.table(), 2_048_000, script));
    needs(Need::TUNE_BOARD, |script| driver().tune_board(&mut r828d(), &Board::V4.table(), 7_000_000, script).into());
    needs(Need::BASEBAND, demod::init_baseband);
    needs(Need::BASEBAND, demod::power_on);
    for call in [demod::reset_demod, demod::set_tuner_low_if, demod::set_tuner_zero_if, demod::start_streaming, demod::stop_streaming] {
        needs(Need::DEMOD_PAIR, call);
    }
    needs(Need::DIRECT, |script| demod::write_reg_direct(1, 0x15, 1, script));
    needs(Need::IF_XTAL, |script| demod::set_if_freq_xtal(2_300_000, 28_800_000, script));
    needs(Need::RATE_XTAL, |script| demod::set_sample_rate_xtal(2_048_000, 28_800_000, script));
    needs(Need::GPIO_OUTPUT, |script| gpio::set_output(5, script));
    needs(Need::GPIO_BIT, |script| gpio::set_bit(5, true, script));
}

#[test]
fn registers_are_told_one_by_one() {
    let mut tuner = r828d();
    tuner.initialize(&done()).result.unwrap();
    let _ = tuner.set_bandwidth(0, &done().failing(1).unwrap());
    let all: Vec<u8> = Tuner::registers().collect();
    assert_eq!((all.len(), all[0], all[26]), (27, 0x05, 0x1f));
    assert!(all.iter().all(|register| tuner.is_doubtful(*register) == (*register == 0x0a) && tuner.shadow(*register).is_some()));
    assert!(!tuner.is_doubtful(0x04) && !tuner.is_doubtful(0x20) && tuner.shadow(0x20).is_none());
}

#[test]
fn sections_end_to_end_are_walked_from_the_end() {
    let answer = r828d().set_bandwidth(2_048_000, &done());
    let two = [answer.transcript.bytes(), answer.transcript.bytes()].concat();
    assert_eq!((Transcript::start(&two), Transcript::start(&two[..56])), (Ok(56), Ok(0)));
    assert_eq!(Transcript::start(&two[..111]), Err(Error::Section));
    assert_eq!(Transcript::read(&two).unwrap().1, answer.transcript);
    assert_eq!(answer.transcript.get(1).unwrap().words(), "I2C write 0x74: 0x0a <- d8");
}

#[test]
fn errors_say_what_to_do() {
    let all = [
        Error::Setup,
        Error::Frequency,
        Error::Rate,
        Error::Correction,
        Error::Pin,
        Error::Coefficient,
        Error::Room,
        Error::Outcomes,
        Error::Replies,
        Error::Step { index: 60 },
        Error::Section,
    ];
    // 5 is not used.
    for (number, error) in (1..).filter(|&number| number != 5).zip(all).chain([(14, Error::Command)]) {
        assert_eq!(error.number(), number);
        let text = error.to_string();
        assert!(text.starts_with(&format!("refusal {number} ({})", error.word())), "{text}");
        let (_, advice) = text.split_once(": ").unwrap();
        let (wrong, what_to_do) = advice.split_once(": ").unwrap();
        assert!(!wrong.is_empty() && !what_to_do.is_empty() && text.lines().count() == 1, "{text}");
    }
    assert!(Error::Step { index: 60 }.to_string().starts_with("refusal 11 (step) at entry 60: a step failed"));
    let boxed: Box<dyn std::error::Error + Send + Sync> = Error::Rate.into();
    assert_eq!(boxed.to_string(), "refusal 3 (rate): the rate is 0: give one from 1");
}

#[test]
fn records_from_slices() {
    let tuner = r828d();
    assert_eq!(Tuner::try_from(&tuner.as_bytes()[..]), Ok(tuner.clone()));
    assert_eq!(Tuner::try_from(&[][..]), Err(Error::Setup));
    assert_eq!(Tuner::try_from(&[0; Tuner::SIZE][..]), Err(Error::Setup));
    assert_eq!(Tuner::try_from(&[tuner.as_bytes(), &[0][..]].concat()[..]), Err(Error::Setup));
    let driver = Driver::new(Board::Generic, 28_800_000, 5, 0, 0).unwrap();
    assert_eq!(Driver::try_from(&driver.as_bytes()[..]), Ok(driver.clone()));
    assert_eq!(Driver::try_from(&[][..]), Err(Error::Setup));
    assert_eq!(Driver::try_from(&driver.as_bytes()[..20]), Err(Error::Setup));
    // The 1 of document 01's "else 1" is the refusal, and it stands before 4.
    assert_eq!(Driver::new(Board::Generic, 0, 0, 0, 0), Err(Error::Setup));
    assert_eq!(Driver::new(Board::Generic, 0, -1_000_000, 0, 0), Err(Error::Setup));
}

#[test]
fn driver_tells_its_fields() {
    let mut driver = Driver::new(Board::V4, 4_294_967_295, -1, 7_100_000, 2_048_000).unwrap();
    assert_eq!((driver.nominal(), driver.ppm(), driver.frequency(), driver.rate()), (4_294_967_295, -1, 7_100_000, 2_048_000));
    let mut tuner = r828d();
    assert_eq!(driver.set_ppm(&mut tuner, 1), Err(Error::Correction));
    assert_eq!((driver.ppm(), tuner.corrected()), (-1, 28_800_000));
    driver.set_ppm(&mut tuner, -999_999).unwrap();
    assert_eq!((driver.ppm(), driver.nominal(), driver.corrected_xtal_hz()), (-999_999, 4_294_967_295, 4_295));
    assert_eq!(
        format!("{driver:?}"),
        "Driver { board: V4, nominal: 4294967295, ppm: -999999, frequency: 7100000, rate: 2048000, true_rate: 0 }"
    );
}

#[test]
fn tuner_prints_its_fields() {
    let mut tuner = r828d();
    let text = format!("{tuner:?}");
    let begin = "Tuner { kind: R828d, address: 0x74, nominal: 28800000, corrected: 28800000, lock: false, gain: 0.0, if_freq: 2300000, \
                 notch: false, shadow: 83 30 75 c0 40 d6 6c f5 ";
    assert!(text.starts_with(begin), "{text}");
    assert!(text.contains(", doubtful: [0x05, 0x06, ") && text.ends_with(", 0x1f] }"), "{text}");
    tuner.initialize(&done()).result.unwrap();
    assert!(format!("{tuner:?}").ends_with(", doubtful: [] }"));
    let _ = tuner.set_bandwidth(0, &done().failing(1).unwrap());
    assert!(format!("{tuner:?}").ends_with(", doubtful: [0x0a] }"));
    // Records that differ print otherwise, also where a shadow byte is all.
    let mut other = *tuner.as_bytes();
    other[2 + 26] ^= 1;
    assert_ne!(format!("{:?}", Tuner::from_bytes(&other).unwrap()), format!("{tuner:?}"));
}

/// A run of the command line, step for step: what `Display` gives is what it prints behind a call's name.
fn as_printed(stored: &str, failing: Option<usize>) {
    // A step's row has its index in five columns, then two spaces.
    let is_row = |line: &&str| {
        line.get(..7).is_some_and(|head| head.starts_with(' ') && head.ends_with("  ") && head.trim().parse::<usize>().is_ok())
    };
    let rows: Vec<&str> = stored.lines().filter(is_row).collect();
    let (mut at, mut stopped) = (0, false);
    let mut tuner = r828d();
    let mut driver = Driver::new(Board::V4, 28_800_000, 0, 102_300_000, 2_048_000).unwrap();
    for call in 0..4 {
        let mut script = Script::new([0; Script::OUTCOMES], [0x0a; Script::REPLIES]);
        if let Some(own) = failing.and_then(|step| step.checked_sub(at)).filter(|own| *own < Script::OUTCOMES) {
            script = script.failing(own).unwrap();
        }
        let (failed, transcript) = match call {
            0 => told(tuner.initialize(&script)),
            1 => told(driver.set_sample_rate(&mut tuner, &Board::V4.table(), 2_048_000, &script)),
            2 => told(tuner.set_gain(29.7, &script)),
            _ => told(driver.tune_board(&mut tuner, &Board::V4.table(), 102_300_000, &script).into()),
        };
        for entry in &transcript {
            assert_eq!(&rows[at][21..], entry.to_string());
            at += 1;
        }
        stopped = failed;
        if failed {
            break;
        }
    }
    assert_eq!((at, stopped), (rows.len(), failing.is_some()));
}

fn told<T>(answer: pasetone::Answer<T>) -> (bool, Transcript) {
    (answer.result.is_err(), answer.transcript)
}

#[test]
fn entries_print_as_the_command_line_does() {
    as_printed(include_str!("../../line/tests/expected/default"), None);
    as_printed(include_str!("../../line/tests/expected/fail-write"), Some(60));
    as_printed(include_str!("../../line/tests/expected/fail-open"), Some(0));
}

#[test]
fn entries_of_every_kind_print() {
    let line = |kind, failed, target, address, bytes: &[u8]| Entry { kind, failed, target, address, bytes }.to_string();
    let printed = [
        line(EntryKind::BlockWrite8, false, 2, 0x3004, &[0x10]),
        line(EntryKind::BlockWrite16, true, 1, 0x2158, &[0x00, 0x02]),
        line(EntryKind::BlockRead, false, 2, 0x3001, &[0x20]),
        line(EntryKind::BlockRead, true, 2, 0x3001, &[0]),
        line(EntryKind::I2cRead, true, 0x74, 0, &[0; 5]),
        line(EntryKind::I2cWrite, false, 0x74, 0, &[0]),
        line(EntryKind::DemodWrite16, false, 1, 0x9f, &[0x03, 0x84]),
        line(EntryKind::Wait, false, 0, 65_535, &[]),
        // Entries that no call makes: nothing to show, and no panic.
        line(EntryKind::I2cWrite, false, 0x74, 0, &[]),
        line(EntryKind::Repeater, false, 0, 0, &[]),
    ];
    let wanted = [
        "block write, block 2: 0x3004 <- 10                 done",
        "block write, block 1: 0x2158 <- 00 02              FAILED",
        "block read, block 2: 0x3001 -> 20                  done",
        "block read, block 2: 0x3001                        FAILED",
        "I2C read  0x74: 5 bytes                            FAILED",
        "I2C write 0x74: 0x00 (read from there)             done",
        "demod write, page 1: 0x009f <- 03 84               done",
        "wait 65535 ms                                      done",
        "I2C write 0x74: 0x00 (read from there)             done",
        "repeater closes                                    done",
    ];
    assert_eq!(printed, wanted);
}

#[test]
fn transcripts_print_in_words() {
    let answer = r828d().set_bandwidth(2_048_000, &done().failing(1).unwrap());
    assert_eq!(format!("{:?}", answer.transcript), "Transcript [repeater opens, I2C write 0x74: 0x0a <- d8 FAILED, repeater closes]");
    assert_eq!(format!("{:?}", Transcript::default()), "Transcript []");
}

/// `examples/rounds.rs` drives every call; here is what a host may do wrong, and what it is not asked.
#[test]
fn a_driven_call_takes_what_the_host_says() {
    let mut tuner = r828d();
    let answer = tuner.drive(|tuner, script| tuner.set_frequency(0, script), |_| panic!("a step of a call that takes none"));
    assert_eq!((answer.result, answer.transcript.len(), &tuner), (Err(Error::Frequency), 0, &r828d()));
    // The read of a byte: none, two, or bytes that are not said to be read are no answer.
    for wrong in [Outcome::Read(vec![]), Outcome::Read(vec![1, 2]), Outcome::Done, Outcome::Failed(None)] {
        let answer = drive(|script| gpio::set_bit(0, true, script), |_| wrong.clone());
        assert_eq!((answer.result, answer.transcript.len()), (Err(Error::Step { index: 0 }), 1), "{wrong:?}");
    }
    // The bytes that a write is said to have read are not looked at: the read behind it has its own. Bit 1 is set in the first byte, cleared in the second.
    let mut given = [vec![0x20], vec![0xff; 9], vec![0x0a], vec![]].into_iter();
    let answer = drive(|script| gpio::set_output(1, script), |_| Outcome::Read(given.next().unwrap()));
    assert_eq!(answer.result, Ok(()));
    let bytes: Vec<_> = answer.transcript.iter().flat_map(|entry| entry.bytes).copied().collect();
    assert_eq!(bytes, [0x20, 0x22, 0x0a, 0x08]);
}

#[test]
fn results_are_outcomes() {
    assert!(matches!(Outcome::from(Ok::<_, Error>(())), Outcome::Done));
    assert!(matches!(Outcome::from(Ok::<_, Error>(vec![7])), Outcome::Read(read) if read == [7]));
    let told = |outcome| match outcome {
        Outcome::Failed(Some(cause)) => cause.to_string(),
        other => panic!("{other:?}"),
    };
    assert_eq!(told(Outcome::from(Err::<(), _>(Error::Rate))), Error::Rate.to_string());
    assert_eq!(told(Outcome::from(Err::<Vec<u8>, _>("no bytes"))), "no bytes");
}

/// A step that fails is in the record as the call itself would leave it, and a driver's records go together.
#[test]
fn driven_records_are_updated_together() {
    let (mut tuner, mut driver) = (r828d(), Driver::new(Board::V4, 28_800_000, 0, 0, 0).unwrap());
    let (mut at_once, mut its_driver, table) = (tuner.clone(), driver.clone(), Board::V4.table());
    let wanted = its_driver.tune_board(&mut at_once, &table, 7_000_000, &done().failing(12).unwrap());
    let mut steps = 0;
    let found = driver.drive(
        &mut tuner,
        |driver, tuner, script| driver.tune_board(tuner, &table, 7_000_000, script),
        |step| {
            steps += 1;
            match step.kind {
                _ if steps == 13 => Outcome::failed("no answer"),
                EntryKind::BlockRead => Outcome::Read(vec![0]),
                _ => Outcome::Done,
            }
        },
    );
    assert_eq!(found.result, Err(Error::Step { index: 12 }));
    assert_eq!(found.cause.unwrap().to_string(), "no answer");
    assert_eq!((found.answer, tuner, driver), (wanted, at_once, its_driver));
}

/// What a [`Receiver`] does is what its parts do, with their words and its own.
#[test]
fn a_receiver_is_its_parts() {
    let (mut tuner, mut driver, table) = (r828d(), Driver::new(Board::V4, 28_800_000, 0, 0, 0).unwrap(), Board::V4.table());
    let mut receiver = Receiver::new(TunerKind::R828d, 0x74, Board::V4, 28_800_000).unwrap();
    assert_eq!(receiver.clone().parts(), (tuner.clone(), driver.clone(), table.clone()));
    assert_eq!(Receiver::new(TunerKind::R828d, 0x74, Board::V4, 0), Err(Error::Setup));

    assert_eq!((receiver.set_ppm(7), driver.set_ppm(&mut tuner, 7)), (Ok(()), Ok(())));
    assert_eq!(receiver.set_ppm(-1_000_000), Err(Error::Correction));
    assert_eq!(receiver.tuner_mut().initialize(&done()), tuner.initialize(&done()));
    let failing = done().failing(5).unwrap();
    assert_eq!(receiver.set_sample_rate(3_200_000, &failing), driver.set_sample_rate(&mut tuner, &table, 3_200_000, &failing));
    assert_eq!(receiver.tune(7_000_000, &failing), driver.tune_board(&mut tuner, &table, 7_000_000, &failing));
    let (mut one, mut other, sent) = (Stream::new(), Stream::new(), Command::Gain(8.7).bytes());
    assert_eq!(receiver.feed(&mut one, &sent[..5], |_| done()), other.feed(&mut driver, &mut tuner, &table, &sent[..5], |_| done()));
    assert_eq!((receiver.tuner(), receiver.driver(), receiver.table(), &one), (&tuner, &driver, &table, &other));
    let taken = receiver.drive_stream(&mut one, &sent[5..], |_| Outcome::Done);
    let fed = other.feed(&mut driver, &mut tuner, &table, &sent[5..], |_| done());
    assert_eq!(taken.into_iter().map(|driven| driven.answer).collect::<Vec<_>>(), fed);
    let answer = receiver.drive(|receiver, script| receiver.tune(102_300_000, script), |_| Outcome::Failed(None)).answer;
    assert_eq!(answer, driver.tune_board(&mut tuner, &table, 102_300_000, &done().failing(0).unwrap()));
    assert_eq!(receiver.parts(), (tuner, driver, table));
}

/// Kinds print as the command line names them.
#[test]
fn kinds_have_words() {
    let words = [TunerKind::R820t.to_string(), Board::Generic.to_string(), Board::V4.to_string(), InputPath::Uhf.to_string()];
    assert_eq!(words, ["R820T", "generic", "V4", "UHF"]);
    assert_eq!(EntryKind::DemodWrite16.to_string(), "demod write of 16 bits");
}

/// A write of three bytes from register 0xfe on, by its entry: the third names nothing.
#[test]
fn registers_past_the_last_do_not_wrap() {
    let mut section = vec![2, 0, 0x74, 4, 0, 0, 0, 0, 0xfe, 1, 2, 3, 0, 0, 0, 0];
    section.extend([1, 0, 0, 0, 16, 0, 0, 0]);
    let (_, transcript) = Transcript::read(&section).unwrap();
    let entry = transcript.get(0).unwrap();
    assert_eq!(entry.registers().collect::<Vec<_>>(), [(0xfe, 1), (0xff, 2)]);
    let closing = r828d().set_bandwidth(2_048_000, &done()).transcript;
    let named: Vec<Vec<(u8, u8)>> = closing.iter().map(|entry| entry.registers().collect()).collect();
    assert_eq!(named, [vec![], vec![(0x0a, 0xd8)], vec![]]);
}

/// Packets end to end are walked one by one, put together they are the bytes, and a cut ends the walk before the packet that it is in.
#[test]
fn packets_are_walked() {
    let packets = r828d().initialize(&done()).transcript.packets().unwrap();
    let all: Vec<Packet> = Packet::all(&packets).collect();
    assert_eq!(all.iter().flat_map(|packet| [&packet.setup()[..], packet.data].concat()).collect::<Vec<u8>>(), packets);
    assert!(all.iter().all(|packet| packet.is_read() == (packet.request_type == 0xc0) && packet.request == 0));
    for length in 0..packets.len() {
        let cut: Vec<Packet> = Packet::all(&packets[..length]).collect();
        let whole: usize = cut.iter().map(|packet| packet.setup().len() + packet.data.len()).sum();
        assert_eq!(cut[..], all[..cut.len()]);
        let next = &all[cut.len()];
        assert!(whole <= length && length < whole + next.setup().len() + next.data.len(), "{length}");
    }
}

/// The bands of a table are those that it was made of, to the last Hz, and its bytes are a table again.
#[test]
fn bands_come_back() {
    let wide = Band { first: 0, last: 7, shift: i64::MIN, inverted: true, path: None, notch: true };
    let far = Band { first: 8, last: u64::MAX, shift: i64::MAX, inverted: false, path: Some(InputPath::Hf), notch: false };
    let table = Table::new(&[wide, far]).unwrap();
    assert_eq!(table.bands().collect::<Vec<_>>(), [wide, far]);
    assert_eq!(Table::try_from(table.as_bytes()), Ok(table));
    assert_eq!(Table::try_from(&[0; 28][..]), Err(Error::Table));
    assert_eq!(Table::new(&[]).unwrap().bands().len(), 0);
}
