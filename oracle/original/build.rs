//! Lays the published files out for compiling. Their text is taken as it stands, but for:
//! - one statement at the head of each of the 8 leaves of device.rs that make an entry (they are USB, outside document 01),
//! - one `include!` line at the end of 4 files: what docs/src lacks, and access to private parts,
//! - `pack_fir` once more under a head that takes any sixteen values.
//!
//! Every edit names text that must stand exactly once; anything else stops the build.
use std::path::{Path, PathBuf};
use std::{env, fs};

/// Heads of the leaves of `impl HardwareInterface for Device<T>`, and the statement that follows each. The trait's own
/// lines end in `;` and MockHardware's parameters are `_`, so each head stands once.
const LEAVES: [(&str, &str); 8] = [
    ("fn write_reg(&self, blk: u16, addr: u16, val: u8) -> Result<()> {", "step(6, blk, 1, addr, &[val])"),
    ("fn write_reg16(&self, blk: u16, addr: u16, val: u16) -> Result<()> {", "step(7, blk, 2, addr, &val.to_be_bytes())"),
    ("fn read_reg(&self, blk: u16, addr: u16) -> Result<u8> {", "step(8, blk, 1, addr, &[])"),
    ("fn demod_write_reg(&self, page: u8, addr: u16, val: u8) -> Result<()> {", "step(4, page as u16, 1, addr, &[val])"),
    ("fn demod_write_reg16(&self, page: u8, addr: u16, val: u16) -> Result<()> {", "step(5, page as u16, 2, addr, &val.to_be_bytes())"),
    ("fn set_i2c_repeater(&self, on: bool) -> Result<()> {", "step(1, 0, 1, 0, &[on as u8])"),
    ("fn i2c_write_raw(&self, addr: u8, data: &[u8]) -> Result<()> {", "step(2, addr as u16, data.len(), 0, data)"),
    ("fn i2c_read_raw(&self, addr: u8, len: usize) -> Result<Vec<u8>> {", "step(3, addr as u16, len, 0, &[])"),
];

const FILES: [&str; 7] = ["lib.rs", "demod.rs", "device.rs", "error.rs", "registers.rs", "tuner.rs", "tuners/r82xx.rs"];
/// Published file, and the file of ours that is included at its end.
const APPENDED: [(&str, &str); 4] =
    [("tuner.rs", "tuner_rest.rs"), ("tuners/r82xx.rs", "see_r82xx.rs"), ("demod.rs", "see_demod.rs"), ("lib.rs", "see_lib.rs")];
/// Modules that lib.rs names and docs/src lacks.
const SUPPLIED: [&str; 9] =
    ["config.rs", "converter.rs", "daemon.rs", "dsp.rs", "rtl_tcp.rs", "server.rs", "stream.rs", "tuners.rs", "websdr.rs"];

fn stop(why: String) -> ! {
    println!("cargo::error={why}");
    std::process::exit(1)
}

fn once(text: &str, old: &str, new: &str, file: &str) -> String {
    let found = text.matches(old).count();
    if found != 1 {
        stop(format!("{file}: expected 1 place with {old:?}, found {found}"));
    }
    text.replace(old, new)
}

/// `pack_fir`'s own body, with the sixteen values as its parameter instead of the constant of that name.
fn packer(demod: &str) -> String {
    let head = "fn pack_fir() -> [u8; 20] {";
    let Some((_, rest)) = demod.split_once(head) else { stop(format!("demod.rs: no {head:?}")) };
    let Some((body, _)) = rest.split_once("\n}\n") else { stop("demod.rs: pack_fir has no end".into()) };
    let used = body.matches("FIR_DEFAULT").count();
    if used != 3 {
        stop(format!("demod.rs: pack_fir names FIR_DEFAULT {used} times, expected 3"));
    }
    // In a module of its own, where the constant of that name is not in scope.
    format!("\npub mod packer {{\npub fn pack_with(FIR_DEFAULT: [i32; 16]) -> [u8; 20] {{{body}\n}}\n}}\n")
}

fn main() {
    let here = PathBuf::from(env::var("CARGO_MANIFEST_DIR").unwrap());
    let out = PathBuf::from(env::var("OUT_DIR").unwrap());
    println!("cargo::rerun-if-env-changed=PASETONE_DOCS_SRC");
    println!("cargo::rerun-if-changed=build.rs");
    println!("cargo::rerun-if-changed=supplied");
    let docs = env::var_os("PASETONE_DOCS_SRC").map(PathBuf::from).unwrap_or_else(|| here.join("../../../shared/docs/src"));
    fs::create_dir_all(out.join("tuners")).unwrap();
    for file in FILES {
        let path = docs.join("src").join(file);
        println!("cargo::rerun-if-changed={}", path.display());
        let text = fs::read_to_string(&path).unwrap_or_else(|e| stop(format!("{}: {e}", path.display())));
        fs::write(out.join(file), edited(file, text, &here)).unwrap();
    }
    for file in SUPPLIED {
        fs::copy(here.join("supplied").join(file), out.join(file)).unwrap();
    }
}

fn edited(file: &str, mut text: String, here: &Path) -> String {
    if file == "device.rs" {
        for (head, statement) in LEAVES {
            text = once(&text, head, &format!("{head} let _step = rusb::rec::{statement};"), file);
        }
    }
    if file == "demod.rs" {
        text += &packer(&text);
    }
    for (_, ours) in APPENDED.iter().filter(|(of, _)| *of == file) {
        text += &format!("\ninclude!({:?});\n", here.join("supplied").join(ours));
    }
    text
}
