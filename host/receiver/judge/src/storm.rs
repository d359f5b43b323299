//! A long run on one receiver, with transfers failing by chance: calls at random, and after a failure the way back that the documents name.
use crate::calls::{BRING_UP, CALLS, Call, If};
use crate::held::{Tally, Told};
use crate::host::{Lie, fault, fresh};
use crate::sweep::{RELOAD, Start};
use pasetone::{Answer, Driven, Fault, TunerKind};
use pasetone_usb::{Found, Kernel, Usb};

/// Ways 1 to 8: the host is not killed here.
const WAYS: u64 = 0x1fe;

pub struct Random(pub u64);

impl Random {
    pub fn below(&mut self, n: usize) -> usize {
        self.0 = self.0.wrapping_mul(6_364_136_223_846_793_005).wrapping_add(1_442_695_040_888_963_407);
        (self.0 >> 33) as usize % n
    }
}

/// A call: half of them one that a station needs.
pub fn drawn(random: &mut Random) -> usize {
    loop {
        let number = random.below(CALLS.len());
        let call = &CALLS[number];
        if random.below(4) == 0 || call.station.is_some() || call.moves == If::Set {
            return number;
        }
    }
}

/// A receiver of its own kind by the seed: its crystal, which the host knows, what a reset leaves, how late a transfer lands, whether its VCO asks for another divider.
fn own(start: &mut Start, kind: TunerKind, seed: u64) {
    start.chip.set("resets", seed % 3);
    start.chip.set("afterwards", 1 + seed * 7 % 39);
    start.chip.set("repair", if seed % 5 == 4 { (u64::from(u32::MAX) * (seed / 5 % 2)) | 1 } else { 0 });
    start.host.receiver = fresh(kind);
    start.host.receiver.set_ppm((seed % 101) as i32 - 50).expect("a correction");
    start.chip.set("reference", start.host.receiver.tuner().corrected().into());
}

/// It is plugged in again: a fresh record and a whole bring-up, with nothing failing.
fn again(start: &mut Start, kind: TunerKind, seed: u64, odds: u64) -> Told {
    start.chip.set("gone", 0);
    start.chip.set("odds", 0);
    own(start, kind, seed);
    assert!(start.host.bring_up(), "a receiver that was plugged in again is brought up");
    start.chip.set("odds", odds);
    let mut told = Told::default();
    told.in_step();
    told
}

/// A call until it is done, three times at most, with a reload between.
fn insist(start: &mut Start, call: &Call, told: &mut Told, tally: &mut Tally) -> Driven<Answer<u64>> {
    let mut driven = start.make(call, told, tally);
    for _ in 0..2 {
        if driven.cause.is_none() || fault(&driven) == Some(Fault::Unplugged) {
            break;
        }
        let _ = start.make(&CALLS[RELOAD], told, tally);
        driven = start.make(call, told, tally);
    }
    driven
}

pub fn run(found: &Found, kind: TunerKind, seed: u64, lie: Lie, calls: usize) -> Tally {
    let (mut tally, mut random) = (Tally::default(), Random(seed));
    let mut start = Start::new(found, kind, 1 + seed % 4, lie);
    let odds = 400 + 65_536 * (seed % 5) / 200;
    start.chip.set("seed", seed | 1);
    start.chip.set("ways", WAYS);
    let mut told = again(&mut start, kind, seed, odds);
    for _ in 0..calls {
        let call = &CALLS[drawn(&mut random)];
        let driven = insist(&mut start, call, &mut told, &mut tally);
        if fault(&driven) == Some(Fault::Unplugged) || start.chip.get("gone") != 0 {
            told = again(&mut start, kind, seed, odds);
        } else if start.chip.get("on") == 0 {
            // It was switched off by a call, or a write in part: power on, which sets the demodulator up.
            let _ = start.host.make(BRING_UP[0]);
            told = Told::default();
        }
    }
    tally
}

/// An open receiver is nobody else's, and a driver of the kernel is refused, and detached where that is asked for.
pub fn opened(found: &Found, tally: &mut Tally) {
    let listed = found.serial == "00000001" && found.port == "1-1" && (found.bus, found.number, found.product_id) == (1, 2, 0x2838);
    tally.that(listed && found.is_v4(), "a receiver is listed as another", "open");
    let chip = crate::file::Simulated::open(found.number);
    chip.put("driver", b"dvb_usb_rtl28xxu\0");
    let refused = Usb::open(found, Kernel::Refuse).map(drop).map_err(|error| error.to_string());
    tally.that(refused == Err("the kernel's driver dvb_usb_rtl28xxu holds the receiver".into()), "a bound driver is not refused", "open");
    let mine = Usb::open(found, Kernel::Detach);
    tally.that(mine.is_ok() && chip.bytes("driver")[0] == 0, "a bound driver is not detached", "open");
    tally.that(
        mine.as_ref().is_ok_and(|usb| usb.holder().is_ok_and(|name| name.as_deref() == Some("usbfs"))),
        "an open receiver is not held",
        "open",
    );
    let other = Usb::open(found, Kernel::Detach).map(drop).map_err(|error| error.to_string());
    tally.that(other == Err("another program holds the receiver".into()), "a receiver is opened twice", "open");
    drop(mine);
    tally.that(Usb::open(found, Kernel::Refuse).is_ok(), "a closed receiver is not opened again", "open");
    chip.set("gone", 1);
    let gone = Usb::open(found, Kernel::Refuse).map(drop).map_err(|error| error.to_string());
    tally.that(gone.is_err_and(|text| text.contains("No such device")), "a receiver that is gone is opened", "open");
    chip.set("gone", 0);
}
