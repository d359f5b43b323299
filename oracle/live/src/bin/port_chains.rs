//! Chains of the port's calls on simulated chips (live/src/chain.rs): `port_chains [CHAINS [SEED]]`. Without a seed one is
//! drawn from the clock. `port_chains self-test` puts in one fault at a time: each must be found.
use harness::dice::Dice;
use harness::tally::Tally;
use live::chain::{Done, chain};
use live::sabotage::{ALL, Wrong};

fn run(chains: u64, seed: u64, wrong: Wrong, tally: &mut Tally) -> Done {
    let (mut dice, mut done) = (Dice(seed), Done::default());
    for _ in 0..chains {
        let length = dice.within(1, 80);
        chain(length, wrong, &mut dice, tally, &mut done);
    }
    done
}

fn self_test() -> ! {
    let mut tally = Tally::default();
    for wrong in ALL {
        let mut faults = Tally { silent: true, ..Tally::default() };
        run(40, 0x77_726f_6e67, wrong, &mut faults);
        println!("    {wrong:?}: {} faults found in {} checks", faults.faults, faults.checks);
        tally.that(faults.faults > 0, || format!("{wrong:?} was put in, and nothing was found"));
    }
    tally.end("sabotage", String::new())
}

fn main() {
    let words: Vec<String> = std::env::args().skip(1).collect();
    if words.first().is_some_and(|word| word == "self-test") {
        self_test()
    }
    let (chains, seed) = live::numbers(&words, 3_000, "port_chains [CHAINS [SEED]] | port_chains self-test");
    let mut tally = Tally::default();
    let done = run(chains, seed, Wrong::Nothing, &mut tally);
    let Done { calls, entries, cut, reloads, between } = done;
    tally.that(cut > 0 && reloads > 0 && between > 0, || {
        format!("{cut} calls were cut, {reloads} reloads all done, {between} calls between")
    });
    let detail = format!(
        "; {chains} chains, {calls} calls, {entries} entries, {cut} cut by a failing step, {reloads} reloads all done, {between} with steps between, \
         seed {seed}"
    );
    tally.end("chains", detail)
}
