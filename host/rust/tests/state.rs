//! A receiver on file: what is written is read, whatever a host that died has left, and nothing else is taken for a state.
#![cfg(feature = "std")]
use pasetone::{
    Board, Call, Entry, EntryKind, Error, Found, InputPath, Outcome, Receiver, Script, State, StateError, Table, Tuner, TunerKind,
};
use std::fs;
use std::path::PathBuf;

const KEY: &[u8] = b"this boot, this plug";
const LEAVES: [usize; 2] = [16, 846];
const LEAF: usize = 830;
const SIZE: usize = 16 + 2 * LEAF;

/// A file of this test's own, gone when it ends.
struct Place(PathBuf);

impl Place {
    fn new(name: &str) -> Place {
        let memory = PathBuf::from("/dev/shm");
        let folder = if memory.is_dir() { memory } else { std::env::temp_dir() };
        let place = Place(folder.join(format!("pasetone-test-{}-{name}", std::process::id())));
        let _ = fs::remove_file(&place.0);
        place
    }

    fn open(&self) -> Result<(State, Found), StateError> {
        State::open(&self.0, KEY, fresh())
    }

    fn bytes(&self) -> Vec<u8> {
        fs::read(&self.0).unwrap()
    }
}

impl Drop for Place {
    fn drop(&mut self) {
        let _ = fs::remove_file(&self.0);
    }
}

fn fresh() -> Receiver {
    Receiver::new(TunerKind::R828d, 0x74, Board::V4, 28_800_000).unwrap()
}

fn done(step: &Entry) -> Outcome {
    match step.kind {
        EntryKind::I2cRead | EntryKind::BlockRead => Outcome::Read([0x69, 0, 2, 0, 0x08][..step.bytes.len()].to_vec()),
        _ => Outcome::Done,
    }
}

const CALLS: [Call; 23] = [
    Call::Initialize,
    Call::SetFrequency(102_300_000),
    Call::SetGain(29.7),
    Call::SetGainByIndex(u64::MAX),
    Call::SetBandwidth(u32::MAX),
    Call::SetIfFreq(u64::MAX),
    Call::SetInputPath(InputPath::Hf),
    Call::ApplyInputPath(InputPath::Uhf),
    Call::Reload,
    Call::SetSampleRate(2_048_000),
    Call::TuneBoard(7_000_000),
    Call::InitBaseband,
    Call::PowerOn,
    Call::ResetDemod,
    Call::SetTunerLowIf,
    Call::SetTunerZeroIf,
    Call::StartStreaming,
    Call::StopStreaming,
    Call::WriteRegDirect { page: 1, address: 0x1234, value: 0xfe },
    Call::SetIfFreqXtal { hz: 2_300_000, xtal: 28_800_000 },
    Call::SetSampleRateXtal { rate: 2_048_000, xtal: 28_800_000 },
    Call::SetGpioOutput(7),
    Call::SetGpioBit(5, true),
];

#[test]
fn calls_there_and_back() {
    for (at, call) in CALLS.into_iter().enumerate() {
        let bytes = call.bytes();
        assert_eq!(usize::from(bytes[0]), at + 1);
        assert_eq!(Call::from_bytes(&bytes), Some(call));
    }
    for bytes in
        [[0; 9], [24, 0, 0, 0, 0, 0, 0, 0, 0], [7, 3, 0, 0, 0, 0, 0, 0, 0], [9, 1, 0, 0, 0, 0, 0, 0, 0], [22, 0, 1, 0, 0, 0, 0, 0, 0]]
    {
        assert_eq!(Call::from_bytes(&bytes), None, "{bytes:?}");
    }
    let answer = Call::SetGpioOutput(8).make(&mut fresh(), &Script::all_done());
    assert_eq!(answer.result, Err(Error::Pin));
}

#[test]
fn a_state_is_kept_whole() {
    let place = Place::new("whole");
    let table = Table::from_bytes(Board::Generic.table().as_bytes()).unwrap();
    {
        let (mut state, found) = place.open().unwrap();
        assert_eq!(found, Found::New);
        state.receiver_mut().set_ppm(-3).unwrap();
        let (tuner, driver, _) = state.receiver().clone().parts();
        *state.receiver_mut() = Receiver::of(tuner, driver, table.clone());
        state.set_note(b"a note", 77).unwrap();
        assert!(state.set_note(&[0; 65], 0).is_err());
        assert_eq!(state.drive(Call::TuneBoard(102_300_000), done).unwrap().result, Ok(102_300_000));
    }
    assert_eq!(place.bytes().len(), SIZE);
    let (state, found) = place.open().unwrap();
    assert_eq!((found, state.note(), state.night()), (Found::Kept, &b"a note"[..], 77));
    let receiver = state.receiver();
    assert_eq!((receiver.driver().frequency(), receiver.driver().ppm(), receiver.table()), (102_300_000, -3, &table));
    let kept = receiver.clone();
    drop(state);
    // Another connection: what the receiver holds is not known.
    let (state, found) = State::open(&place.0, b"another boot", fresh()).unwrap();
    assert_eq!((found, state.receiver()), (Found::Other(Box::new(kept)), &fresh()));
    assert!(State::open(&place.0, &[0; 65], fresh()).is_err());
}

/// While a step is taken, the file has the call by which the records are found that hold of the chip, whether the step was done, failed or in part; and behind it those that
/// the call has left. Every call, every step.
#[test]
fn every_step_of_every_call() {
    let place = Place::new("steps");
    let died = Place::new("steps-died");
    let mut recovered = 0;
    for call in CALLS {
        let _ = fs::remove_file(&place.0);
        let (mut state, _) = place.open().unwrap();
        let mut chip = [0xa5u8; 256];
        state.drive(Call::Initialize, |step| acted(&mut chip, step)).unwrap().answer.result.unwrap();
        let before = state.receiver().clone();
        let driven = state.drive(call, |step| {
            fs::copy(&place.0, &died.0).unwrap();
            let (state, found) = died.open().unwrap();
            let Found::Cut(cut) = found else { panic!("{found:?}") };
            assert_eq!((cut.call, &cut.before), (call, &before));
            holds(&chip, state.receiver().tuner(), call);
            let outcome = acted(&mut chip, step);
            holds(&chip, state.receiver().tuner(), call);
            recovered += 1;
            outcome
        });
        let answer = driven.unwrap().answer;
        holds(&chip, state.receiver().tuner(), call);
        let mut at_once = before.clone();
        let replies: Vec<u8> = answer
            .transcript
            .iter()
            .filter(|entry| matches!(entry.kind, EntryKind::I2cRead | EntryKind::BlockRead))
            .flat_map(|entry| entry.bytes)
            .copied()
            .chain([0; Script::REPLIES])
            .collect();
        assert_eq!(call.make(&mut at_once, &Script::new(vec![0; Script::OUTCOMES], replies)), answer);
        assert_eq!(state.receiver(), &at_once);
        drop(state);
        let (state, found) = place.open().unwrap();
        assert_eq!((found, state.receiver()), (Found::Kept, &at_once));
    }
    assert!(recovered > 250, "{recovered}");
}

fn acted(chip: &mut [u8; 256], step: &Entry) -> Outcome {
    step.registers().for_each(|(register, byte)| chip[usize::from(register)] = byte);
    done(step)
}

fn holds(chip: &[u8; 256], tuner: &Tuner, call: Call) {
    for at in Tuner::registers().filter(|at| !tuner.is_doubtful(*at)) {
        assert_eq!(tuner.shadow(at), Some(chip[usize::from(at)]), "{call:?} {at}");
    }
}

/// A host that dies while it writes a leaf has written the script whole before the rest, and of either a beginning: the file has what it had, until the last byte is there.
#[test]
fn a_leaf_that_was_torn() {
    let place = Place::new("torn");
    let (mut state, _) = place.open().unwrap();
    state.set_note(b"first", 1).unwrap();
    let mut earlier = Vec::new();
    for (round, note) in [b"one", b"two", b"six"].into_iter().enumerate() {
        state.keep().unwrap();
        let was = state.note().to_vec();
        earlier = place.bytes();
        state.set_note(note, 2).unwrap();
        state.drive(Call::Reload, done).unwrap().answer.result.unwrap();
        let (_, found) = {
            let torn = Place::new("torn-copy");
            // The leaf of the call's beginning has since been left for that of its end: the earlier file's other leaf is written anew, byte by byte.
            let mut bytes = earlier.clone();
            bytes.resize(SIZE, 0);
            let newest = |bytes: &[u8]| {
                LEAVES.into_iter().max_by_key(|at| u64::from_le_bytes(std::array::from_fn(|k| bytes[at + 102 + k]))).unwrap()
            };
            let kept = newest(&bytes);
            let other = LEAVES.into_iter().find(|at| *at != kept).unwrap();
            let after = place.bytes();
            for length in (0..LEAF).filter(|length| round == 0 || length % 7 == 0) {
                let mut torn_bytes = bytes.clone();
                torn_bytes[other..other + length].copy_from_slice(&after[other..other + length]);
                fs::write(&torn.0, &torn_bytes).unwrap();
                let (state, found) = torn.open().unwrap();
                assert_eq!((found, state.note()), (Found::Kept, &was[..]), "{length}");
            }
            torn.open().unwrap()
        };
        assert_eq!(found, Found::Kept);
    }
    assert!(earlier.len() >= 16 + LEAF);
}

#[test]
fn what_is_no_state_is_refused() {
    let place = Place::new("other");
    for bytes in [&b"a record of another kind"[..], b"pasetone\x02\0\0\0\0\0\0\0", &[0; SIZE], &[b'x'; 135]] {
        fs::write(&place.0, bytes).unwrap();
        assert!(matches!(place.open(), Err(StateError::Form)), "{bytes:?}");
        assert_eq!(place.bytes(), bytes);
    }
    // A file that its first host died in has no leaf yet, and no transfer was made.
    fs::remove_file(&place.0).unwrap();
    let (mut state, _) = place.open().unwrap();
    state.keep().unwrap();
    drop(state);
    let whole = place.bytes();
    for length in 0..16 + LEAF {
        fs::write(&place.0, &whole[..length]).unwrap();
        assert_eq!(place.open().unwrap().1, Found::New, "{length}");
    }
    // A byte that is not what was written, in the only leaf: no state of it is told.
    for at in 102..LEAF {
        let mut bytes = whole.clone();
        bytes[16 + at] ^= 0x10;
        fs::write(&place.0, &bytes).unwrap();
        assert_eq!(place.open().unwrap().1, Found::New, "{at}");
    }
}

/// Who comes second waits for the first, and finds what it has left.
#[test]
fn a_state_is_locked() {
    let place = Place::new("locked");
    let (mut state, _) = place.open().unwrap();
    std::thread::scope(|scope| {
        let second = scope.spawn(|| {
            let mut waited = false;
            let (state, found) = State::open_telling(&place.0, KEY, fresh(), || waited = true).unwrap();
            (waited, found, state.note().to_vec())
        });
        std::thread::sleep(std::time::Duration::from_millis(100));
        state.set_note(b"by the first", 0).unwrap();
        state.keep().unwrap();
        drop(state);
        assert_eq!(second.join().unwrap(), (true, Found::Kept, b"by the first".to_vec()));
    });
}

/// The key of a file is told without its lock, while a call is under way too; what is no state is told as that.
#[test]
fn the_key_of_a_file() {
    let path = std::env::temp_dir().join(format!("pasetone-key-{}", std::process::id()));
    let _ = std::fs::remove_file(&path);
    assert!(matches!(State::key(&path), Err(StateError::Io(_))));
    let fresh = Receiver::new(TunerKind::R828d, 0x74, Board::V4, 28_800_000).unwrap();
    let (mut state, _) = State::open(&path, b"a connection", fresh.clone()).unwrap();
    assert_eq!(State::key(&path).unwrap(), None);
    state.keep().unwrap();
    assert_eq!(State::key(&path).unwrap().as_deref(), Some(&b"a connection"[..]));
    let mut told = None;
    let _ = state.drive(Call::Reload, |_| {
        told = State::key(&path).unwrap();
        Outcome::Done
    });
    assert_eq!(told.as_deref(), Some(&b"a connection"[..]));
    drop(state);
    std::fs::write(&path, b"no state").unwrap();
    assert!(matches!(State::key(&path), Err(StateError::Form)));
    std::fs::remove_file(&path).unwrap();
}
