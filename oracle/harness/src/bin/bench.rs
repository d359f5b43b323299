//! Speed of the original over the recorder. `bench time` prints nanoseconds per call, the minimum of many rounds;
//! `bench run NAME N` makes N calls of one kind (bench.sh counts the instructions of two runs and takes the difference).
use harness::run;
use harness::speed::{alone, least, rows};

fn time() {
    println!("| call | entries | ns per call | recorder alone, ns |");
    println!("|---|---|---|---|");
    for (name, entries, mut work) in rows() {
        work();
        let made = run::entries().len();
        assert_eq!(made, entries, "{name}");
        println!("| {name} | {entries} | {:.0} | {:.0} |", least(&mut work), least(&mut alone(entries)));
    }
}

fn main() {
    let words: Vec<String> = std::env::args().skip(1).collect();
    match words.iter().map(String::as_str).collect::<Vec<_>>()[..] {
        ["time"] => time(),
        ["names"] => rows().iter().for_each(|row| println!("{} {}", row.0, row.1)),
        ["run", name, count] => {
            let count: usize = count.parse().expect("a count");
            let entries = name.strip_prefix("recorder-").and_then(|n| n.parse().ok());
            let mut work = match entries {
                Some(n) => alone(n),
                None => rows().into_iter().find(|row| row.0 == name).expect("a row of `bench names`").2,
            };
            (0..count).for_each(|_| work());
        }
        _ => {
            eprintln!("use: bench time | bench names | bench run NAME N");
            std::process::exit(2)
        }
    }
}
