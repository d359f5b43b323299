//! Counting checks: a fault is printed (the first twenty) and makes the program's exit status 1.

#[derive(Default)]
pub struct Tally {
    pub checks: u64,
    pub faults: u64,
    /// Faults are looked for (a check of the checks) and not printed.
    pub silent: bool,
}

impl Tally {
    pub fn that(&mut self, holds: bool, what: impl FnOnce() -> String) {
        self.checks += 1;
        if !holds {
            self.faults += 1;
            if self.faults <= 20 && !self.silent {
                println!("FAULT {:.400}", what());
            }
        }
    }
    pub fn same<T: PartialEq + std::fmt::Debug>(&mut self, found: T, wanted: T, what: impl FnOnce() -> String) {
        let holds = found == wanted;
        self.that(holds, || format!("{}: found {found:?}, document 01 has {wanted:?}", what()));
    }
    /// The program's last line and its exit.
    pub fn end(self, name: &str, detail: String) -> ! {
        println!("{name}: {} checks, {} faults{detail}", self.checks, self.faults);
        std::process::exit((self.faults != 0) as i32)
    }
}
