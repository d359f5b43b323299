//! `devices`: the receivers that are plugged in, as sysfs tells of them, and who has each.
use crate::printed::json;
use crate::printed::out::{End, Out};
use crate::words::given::Given;
use crate::words::options::Key;
use pasetone_usb::{Found, Holder};

pub fn run(given: &Given, out: &mut Out) {
    if !given.operands.is_empty() {
        out.mistake("devices wants no words but its options");
    }
    if out.is_mistaken() {
        return;
    }
    let found = match Found::all() {
        Ok(found) => found,
        Err(error) => return out.mistake(&format!("sysfs cannot be read ({error})")),
    };
    if given.has(Key::Json) {
        out.line(&json::lines(found.iter().enumerate().map(|(number, found)| object(number, found))));
    } else if !given.has(Key::Quiet) && !found.is_empty() {
        out.line("number  bus/device  id         port      serial        held by          what");
        for (number, found) in found.iter().enumerate() {
            out.line(row(number, found).trim_end());
        }
    }
    if found.is_empty() {
        out.tell(End::Refused, "no receiver is plugged in (0bda:2838 or 0bda:2832)");
    }
}

/// Who has it, in words; what cannot be known is told as that.
fn held(found: &Found) -> Result<Holder, String> {
    found.holder().map_err(|error| format!("not known ({error})"))
}

fn row(number: usize, found: &Found) -> String {
    let Found { bus, number: device, product_id, port, serial, .. } = found;
    let held = match held(found) {
        Ok(Holder::Nobody) => String::from("nobody"),
        Ok(Holder::Program) => String::from("a program"),
        Ok(Holder::Driver(name)) => format!("driver {name}"),
        Err(why) => why,
    };
    let (place, id) = (format!("{bus:03}/{device:03}"), format!("0bda:{product_id:04x}"));
    format!("{number:>6}  {place:<11} {id:<10} {port:<9} {:<13} {held:<16} {}", plain(serial), plain(&said(found)))
}

/// Maker and product, as the receiver says it.
fn said(found: &Found) -> String {
    format!("{} {}", found.manufacturer, found.product)
}

/// What a device says of itself may be anything: what would move a terminal's cursor is `?`.
fn plain(text: &str) -> String {
    text.chars().map(|c| if c.is_control() { '?' } else { c }).collect()
}

fn object(number: usize, found: &Found) -> String {
    let held = held(found);
    let driver = if let Ok(Holder::Driver(name)) = &held { Some(json::string(name)) } else { None };
    json::object(&[
        ("number", number.to_string()),
        ("bus", found.bus.to_string()),
        ("device", found.number.to_string()),
        ("id", json::string(&format!("0bda:{:04x}", found.product_id))),
        ("port", json::string(&found.port)),
        ("serial", json::string(&found.serial)),
        ("manufacturer", json::string(&found.manufacturer)),
        ("product", json::string(&found.product)),
        ("v4", found.is_v4().to_string()),
        ("driver", json::maybe(driver)),
        ("taken", json::maybe(held.as_ref().ok().map(|holder| *holder == Holder::Program))),
    ])
}
