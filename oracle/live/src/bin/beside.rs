//! Speed of the port beside the original, in one process. `beside time` prints nanoseconds per call, the minimum over rounds
//! in which both take their turn; `beside run rust|port NAME N` makes N calls of one kind (bench-port.sh counts their
//! instructions); `beside names` lists the rows; `beside threads` compares one thread with two.
use harness::speed::{self, Work};
use live::rows;
use std::sync::Barrier;
use std::thread;
use std::time::Instant;

const ROUNDS: usize = 2_000;
const CALLS: usize = 1_000;

fn round(work: &mut Work) -> f64 {
    let start = Instant::now();
    for _ in 0..CALLS {
        work();
    }
    start.elapsed().as_nanos() as f64 / CALLS as f64
}

fn time() {
    println!("| call | entries | Rust, ns | port, ns | port / Rust |");
    println!("|---|---|---|---|---|");
    let mut others = speed::rows().into_iter();
    for (name, entries, mut port) in rows::rows() {
        let mut rust = others.next();
        assert!(rust.as_ref().is_none_or(|row| row.0 == name), "the rows are the same ones");
        // A whole section of 4,096 entries: its instructions are counted, its time is not taken.
        if name.starts_with("packets-") {
            continue;
        }
        let (mut least_rust, mut least_port) = (f64::MAX, f64::MAX);
        for _ in 0..ROUNDS {
            if let Some((_, _, rust)) = &mut rust {
                least_rust = least_rust.min(round(rust));
            }
            least_port = least_port.min(round(&mut port));
        }
        match rust {
            Some(_) => println!("| {name} | {entries} | {least_rust:.0} | {least_port:.0} | {:.2} |", least_port / least_rust),
            None => println!("| {name} | {entries} | | {least_port:.0} | |"),
        }
    }
}

/// A loop that shares nothing with anybody: what two threads gain on this machine, as loaded as it is.
fn control() -> Work {
    Box::new(|| {
        let mut word = std::hint::black_box(1u64);
        for _ in 0..300 {
            word = word.wrapping_mul(0x9e37_79b9_7f4a_7c15) ^ (word >> 29);
        }
        std::hint::black_box(word);
    })
}

#[repr(C)]
#[derive(Default)]
struct Timespec {
    seconds: i64,
    nanoseconds: i64,
}
unsafe extern "C" {
    fn clock_gettime(clock: i32, time: *mut Timespec) -> i32;
}

/// Processor time of the calling thread, in nanoseconds: other programs on the machine do not count in it.
fn processor() -> f64 {
    const CLOCK_THREAD_CPUTIME_ID: i32 = 3; // Linux
    let mut time = Timespec::default();
    // Safe: the pointer is to a timespec of ours.
    let failed = unsafe { clock_gettime(CLOCK_THREAD_CPUTIME_ID, &mut time) };
    assert_eq!(failed, 0, "the thread's clock");
    time.seconds as f64 * 1e9 + time.nanoseconds as f64
}

/// Calls per second of this many threads, each with work of its own, and processor nanoseconds per call.
fn measured(threads: usize, make: fn() -> Work) -> (f64, f64) {
    const TIMES: usize = 100_000;
    let barrier = Barrier::new(threads);
    let one = || {
        let mut work = make();
        barrier.wait();
        let (start, used) = (Instant::now(), processor());
        (0..TIMES).for_each(|_| work());
        (start.elapsed().as_secs_f64(), (processor() - used) / TIMES as f64)
    };
    let times: Vec<(f64, f64)> = thread::scope(|scope| {
        let running: Vec<_> = (0..threads).map(|_| scope.spawn(one)).collect();
        running.into_iter().map(|thread| thread.join().expect("a thread")).collect()
    });
    let longest = times.iter().map(|time| time.0).fold(0.0, f64::max);
    ((threads * TIMES) as f64 / longest, times.iter().map(|time| time.1).sum::<f64>() / threads as f64)
}

/// Two threads over two receivers against one, the best of several turns of each; the control beside it.
fn threads() {
    let tune = || rows::rows().swap_remove(0).2;
    let works = [("tune without lock", tune as fn() -> Work), ("control, a loop of arithmetic", control)];
    println!("| work | per second, 1 thread | 2 threads | times | processor ns per call, 1 thread | 2 threads |");
    println!("|---|---|---|---|---|---|");
    for (name, make) in works {
        let mut best = [(0.0f64, f64::MAX); 2];
        for turn in 0..60 {
            let threads = turn % 2;
            let (rate, used) = measured(threads + 1, make);
            best[threads] = (best[threads].0.max(rate), best[threads].1.min(used));
        }
        let [(one, alone), (two, beside)] = best;
        println!("| {name} | {one:.0} | {two:.0} | {:.2} | {alone:.0} | {beside:.0} |", two / one);
    }
}

fn main() {
    let words: Vec<String> = std::env::args().skip(1).collect();
    match words.iter().map(String::as_str).collect::<Vec<_>>()[..] {
        ["time"] => time(),
        ["threads"] => threads(),
        ["names"] => rows::rows().iter().for_each(|row| println!("{} {}", row.0, row.1)),
        ["run", which, name, count] => {
            let all = if which == "rust" { speed::rows() } else { rows::rows() };
            let mut work = all.into_iter().find(|row| row.0 == name).expect("a row of `beside names`").2;
            let count: usize = count.parse().expect("a count");
            (0..count).for_each(|_| work());
        }
        _ => {
            eprintln!("use: beside time | beside threads | beside names | beside run rust|port NAME N");
            std::process::exit(2)
        }
    }
}
