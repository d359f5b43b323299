//! `--device`: a receiver that is plugged in, found by its number, serial or port, and opened for this program alone (crate pasetone-usb).
use crate::printed::names::counted;
use crate::printed::out::Out;
use crate::words::given::Given;
use crate::words::named::shown;
use crate::words::options::{Key, option};
use pasetone::{Bus, Entry, Outcome};
use pasetone_usb::{Found, Kernel, OpenError, Usb};
use std::ffi::OsStr;
use std::thread;
use std::time::Duration;

type Wire = Bus<Usb, fn(Duration)>;

/// An open receiver.
pub struct Link {
    bus: Wire,
    key: [u8; 64],
}

impl Link {
    /// The receiver of `--device`. `None` where there is no such word, or something is wrong, which has then been told.
    pub fn open(given: &Given, out: &mut Out) -> Option<Link> {
        let word = given.word(Key::Device)?;
        if out.is_mistaken() {
            return None;
        }
        Link::of(word, given.has(Key::Detach)).map_err(|why| out.mistake(&format!("--device {}: {why}", shown(word)))).ok()
    }

    /// The receiver that a word names.
    pub fn of(word: &OsStr, detach: bool) -> Result<Link, String> {
        let all = Found::all().map_err(|error| format!("sysfs cannot be read ({error})"))?;
        let found = named(&all, &shown(word))?;
        let usb = Usb::open(found, if detach { Kernel::Detach } else { Kernel::Refuse }).map_err(|error| unopened(found, &error))?;
        let key = found.connection().map_err(|error| format!("what tells this connection from another is not to be had ({error})"))?;
        Ok(Link { bus: Bus::new(usb, thread::sleep), key })
    }

    /// What tells this connection from any other.
    pub fn key(&self) -> &[u8] {
        &self.key
    }

    /// Takes a step: done exactly where every byte went.
    pub fn take(&mut self, step: &Entry) -> Outcome {
        self.bus.take(step)
    }

    /// What a host that died had sent may still land: so long is waited before anything is sent.
    pub fn settle() {
        thread::sleep(Wire::PAUSE);
    }
}

/// The words that stand in for a receiver, and the record's own, are none beside `--device`; and it is by a state that a receiver is kept.
pub fn together(given: &Given, out: &mut Out) {
    if !given.has(Key::Device) {
        if given.has(Key::Detach) {
            out.mistake("--detach goes with --device: there is no driver to be detached without one");
        }
        return;
    }
    for key in [Key::Fail, Key::Outcomes, Key::Replies].into_iter().filter(|key| given.has(*key)) {
        out.mistake(&format!("{} stands in for a receiver, and --device is one: give one of the two", option(key).name));
    }
    if !given.has(Key::State) {
        out.mistake("--device goes with --state: give a file for the receiver, which is made where it is not there");
    }
}

/// Whether a state with this key is of a receiver that is plugged in now, as it was.
pub fn is_there(key: &[u8]) -> bool {
    Found::all().is_ok_and(|all| all.iter().any(|found| found.connection().is_ok_and(|is| is == key)))
}

/// The receiver of a word: its serial, its port, or its number in the list.
fn named<'a>(all: &'a [Found], word: &str) -> Result<&'a Found, String> {
    if all.is_empty() {
        return Err(String::from("no receiver is plugged in (0bda:2838 or 0bda:2832)"));
    }
    let numbered = |number: usize| word == number.to_string();
    let fits: Vec<usize> = (0..all.len()).filter(|at| all[*at].serial == word || all[*at].port == word || numbered(*at)).collect();
    match fits.as_slice() {
        [one] => Ok(&all[*one]),
        [] => Err(format!("no receiver has this number, serial or port: `devices` lists {}", counted(all.len(), "receiver"))),
        several => {
            let ports: Vec<&str> = several.iter().map(|at| all[*at].port.as_str()).collect();
            Err(format!("{} go by this name: name one by its port, {}", counted(several.len(), "receiver"), ports.join(" or ")))
        }
    }
}

/// Why a receiver was not opened, and what would be right.
fn unopened(found: &Found, error: &OpenError) -> String {
    match error {
        OpenError::Driver(_) => format!("{error}: detach it for good by --detach, or keep it away as docs/RECEIVER.md says"),
        OpenError::Taken => format!("{error}: end that one, or wait for its end"),
        OpenError::Node(why) => format!("{}: {why}: docs/RECEIVER.md says who may open it", found.node().display()),
    }
}

#[cfg(test)]
mod tests {
    use super::*;

    fn receiver(port: &str, serial: &str) -> Found {
        let said = || String::from("said");
        Found { bus: 1, number: 2, product_id: 0x2838, port: port.into(), serial: serial.into(), manufacturer: said(), product: said() }
    }

    #[test]
    fn by_number_serial_and_port() {
        let all = [receiver("1-1", "00000001"), receiver("1-2", "00000001"), receiver("1-4.2", "0")];
        let port = |word: &str| named(&all, word).map(|found| found.port.as_str());
        assert_eq!((port("1"), port("2"), port("1-4.2")), (Ok("1-2"), Ok("1-4.2"), Ok("1-4.2")));
        assert_eq!(port("00000001"), Err(String::from("2 receivers go by this name: name one by its port, 1-1 or 1-2")));
        // The first one's number is the last one's serial.
        assert_eq!(port("0"), Err(String::from("2 receivers go by this name: name one by its port, 1-1 or 1-4.2")));
        assert!(port("01").unwrap_err().starts_with("no receiver has this number, serial or port: "));
        assert!(named(&[], "0").unwrap_err().starts_with("no receiver is plugged in"));
    }
}
