//! What the port's speed is measured on: the rows of harness::speed through the byte boundary, from the same state and with
//! the same scripts, and what the boundary alone costs. The record handed back is given to the next call, as the original's
//! chip lives on.
use crate::ffi::*;
use harness::cases::{built_in, replies_for};
use harness::plain;
use harness::records::{Driver, Tuner};
use harness::requests;
use harness::speed::Work;
use std::hint::black_box;

/// The memory of one receiver; two buffers for the record, which change places after each call.
struct Memory {
    tuner: Vec<u8>,
    next: Vec<u8>,
    driver: Vec<u8>,
    table: Vec<u8>,
    next_driver: Vec<u8>,
    outcomes: Vec<u8>,
    replies: Vec<u8>,
    room: Vec<u8>,
}

impl Memory {
    fn new(call: u8, replies: Vec<u8>) -> Self {
        let (entries, _) = requests::most(call).unwrap_or((0, 0));
        let driver = Driver { board: 1, nominal: 28_800_000, ppm: 0, frequency: 7_000_000, rate: 0, actual: 0 }.bytes();
        let tuner = Tuner::fresh(1, 28_800_000, 0x74).bytes();
        Self {
            next: tuner.clone(),
            tuner,
            next_driver: driver.clone(),
            driver,
            table: built_in(1),
            outcomes: vec![0; entries],
            replies,
            room: vec![0; 16 * entries + 8],
        }
    }
    fn turn(&mut self) {
        std::mem::swap(&mut self.tuner, &mut self.next);
        std::mem::swap(&mut self.driver, &mut self.next_driver);
    }
}

/// What a reply says of its entries.
trait Counted {
    fn count(&self) -> u32;
}
impl Counted for Reply {
    fn count(&self) -> u32 {
        self.count
    }
}
impl Counted for TuneReply {
    fn count(&self) -> u32 {
        self.count
    }
}

/// A call on the memory, as work that can be repeated; its count of entries is what it says that it made.
fn work<R: Counted + 'static>(call: u8, replies: Vec<u8>, entries: u32, one: unsafe fn(&mut Memory) -> R) -> Work {
    let mut memory = Memory::new(call, replies);
    // Safe, here and below: the pointers and lengths are those of the memory's own buffers.
    let made = unsafe { one(&mut memory) };
    assert_eq!(made.count(), entries, "call {call}");
    Box::new(move || {
        black_box(unsafe { one(black_box(&mut memory)) });
        memory.turn();
    })
}

unsafe fn tune(m: &mut Memory, hz: u64) -> TuneReply {
    let ((t, tn), (o, on), (r, rn)) = (part(&m.tuner), part(&m.outcomes), part(&m.replies));
    unsafe {
        pasetone_set_frequency(t, tn, black_box(hz), o, on, r, rn, m.room.as_mut_ptr(), m.room.len(), m.next.as_mut_ptr(), m.next.len())
    }
}
unsafe fn tune_inside(m: &mut Memory) -> TuneReply {
    unsafe { tune(m, 100_000_000) }
}
unsafe fn tune_outside(m: &mut Memory) -> TuneReply {
    unsafe { tune(m, 1_900_000_000) }
}
unsafe fn gain(m: &mut Memory) -> Reply {
    let ((t, tn), (o, on)) = (part(&m.tuner), part(&m.outcomes));
    unsafe { pasetone_set_gain(t, tn, black_box(32.8), o, on, m.room.as_mut_ptr(), m.room.len(), m.next.as_mut_ptr(), m.next.len()) }
}
unsafe fn rate(m: &mut Memory) -> Reply {
    let ((d, dn), (t, tn), (b, bn), (o, on)) = (part(&m.driver), part(&m.tuner), part(&m.table), part(&m.outcomes));
    let ((q, qn), (n, nn)) = ((m.next_driver.as_mut_ptr(), m.next_driver.len()), (m.next.as_mut_ptr(), m.next.len()));
    unsafe { pasetone_set_sample_rate(d, dn, t, tn, b, bn, black_box(2_048_000), o, on, m.room.as_mut_ptr(), m.room.len(), q, qn, n, nn) }
}
unsafe fn board(m: &mut Memory) -> TuneReply {
    let ((d, dn), (t, tn), (b, bn)) = (part(&m.driver), part(&m.tuner), part(&m.table));
    let ((o, on), (r, rn), (z, zn)) = (part(&m.outcomes), part(&m.replies), (m.room.as_mut_ptr(), m.room.len()));
    let ((q, qn), (n, nn)) = ((m.next_driver.as_mut_ptr(), m.next_driver.len()), (m.next.as_mut_ptr(), m.next.len()));
    unsafe { pasetone_tune_board(d, dn, t, tn, b, bn, black_box(7_000_000), o, on, r, rn, z, zn, q, qn, n, nn) }
}
unsafe fn initialise(m: &mut Memory) -> Reply {
    let ((t, tn), (o, on)) = (part(&m.tuner), part(&m.outcomes));
    unsafe { pasetone_initialize(t, tn, o, on, m.room.as_mut_ptr(), m.room.len(), m.next.as_mut_ptr(), m.next.len()) }
}
unsafe fn baseband(m: &mut Memory) -> Reply {
    let (o, on) = part(&m.outcomes);
    unsafe { pasetone_init_baseband(o, on, m.room.as_mut_ptr(), m.room.len()) }
}
unsafe fn plan(m: &mut Memory) -> Reply {
    unsafe { pasetone_plan_pll(black_box(1), black_box(102_300_000), black_box(28_800_000), m.room.as_mut_ptr(), m.room.len()) }
}
unsafe fn plan_by_worksheet(m: &mut Memory) -> Reply {
    unsafe {
        pasetone_plan_pll_by_worksheet(black_box(1), black_box(102_300_000), black_box(28_800_000), m.room.as_mut_ptr(), m.room.len())
    }
}
unsafe fn read(m: &mut Memory) -> Reply {
    let (t, tn) = part(&m.tuner);
    unsafe { pasetone_get_if_freq(t, tn) }
}
/// R820T's input path: no step, the record is read and written.
unsafe fn read_and_write(m: &mut Memory) -> Reply {
    m.tuner[0] = 0;
    let ((t, tn), (o, on)) = (part(&m.tuner), part(&m.outcomes));
    unsafe { pasetone_set_input_path(t, tn, black_box(1), o, on, m.room.as_mut_ptr(), m.room.len(), m.next.as_mut_ptr(), m.next.len()) }
}

fn part(bytes: &[u8]) -> (*const u8, usize) {
    (bytes.as_ptr(), bytes.len())
}

/// A section as packets, or packets as a section; what comes back is what the plain writing gives.
fn packets(call: unsafe extern "C" fn(*const u8, usize, *mut u8, usize) -> Reply, input: Vec<u8>, most: usize) -> Work {
    let mut out = vec![0; most];
    Box::new(move || {
        let (i, n) = part(black_box(&input));
        let reply = black_box(unsafe { call(i, n, out.as_mut_ptr(), out.len()) });
        assert_eq!(reply.refusal, 0);
    })
}

fn expanded() -> Vec<u8> {
    let mut bytes = vec![0; 18 * 4096];
    let size = plain::expand(&plain::section(4096), &mut bytes).expect("it expands");
    bytes.truncate(size);
    bytes
}

/// Name, entries, work. The names are those of harness::speed::rows; the last two have no twin there.
pub fn rows() -> Vec<(&'static str, usize, Work)> {
    let (no_lock, at_once) = (replies_for(0, None, 0), replies_for(0, Some(0), 0));
    let on_board = [vec![0; 3], no_lock.clone()].concat();
    vec![
        ("tune-no-lock", 53, work(3, no_lock.clone(), 53, tune_inside)),
        ("tune-lock-at-once", 25, work(3, at_once, 25, tune_inside)),
        ("tune-refused", 13, work(3, no_lock, 13, tune_outside)),
        ("gain", 7, work(4, vec![], 7, gain)),
        ("sample-rate", 17, work(19, vec![], 17, rate)),
        ("initialise", 19, work(2, vec![], 19, initialise)),
        ("baseband", 45, work(21, vec![], 45, baseband)),
        ("board-tune", 64, work(42, on_board, 64, board)),
        ("plan-pll", 0, work(39, vec![], 0, plan)),
        ("plan-pll-by-worksheet", 0, work(40, vec![], 0, plan_by_worksheet)),
        ("packets-expand", 0, packets(pasetone_expand, plain::section(4096), 18 * 4096)),
        ("packets-read", 0, packets(pasetone_read_packets, expanded(), 16 * 4096 + 8)),
        ("read-record", 0, work(14, vec![], 0, read)),
        ("read-and-write-record", 0, work(8, vec![], 0, read_and_write)),
    ]
}
