//! The C boundary of Pasetone, as `include/pasetone.h` of its tree declares it, and the library itself: crate `pasetone` has safe types over it.
//!
//! Pasetone is written in Rattle, and every function of it is proved. `pasetone-x86_64.s` and `pasetone-aarch64.s` are the module that was proved, as
//! assembly, and the one for the target is assembled into this crate: no C compiler, no build script, nothing from a registry, and no `std`.
//!
//! A slice is a pointer and a length. What makes a call sound: every pointer is not null and valid for its length, also where that is 0 (a Rust slice's is);
//! slices that are written overlap no other; and the library keeps nothing when a call has ended. The header, module `manual` of these pages, says what each function
//! takes and answers.
//!
//! ```
//! // SAFETY: it takes nothing.
//! let version = unsafe { pasetone_sys::pasetone_version() };
//! assert_eq!(format!("{}.{}.{}", version >> 16, version >> 8 & 255, version & 255), env!("CARGO_PKG_VERSION"));
//! ```
//!
//! For tests of another library than the proved one: feature `named` takes the text from the file that `PASETONE_ASSEMBLY` names.

#![no_std]
#![deny(unsafe_op_in_unsafe_fn)]

#[cfg(not(all(
    target_os = "linux",
    target_pointer_width = "64",
    target_endian = "little",
    any(target_arch = "x86_64", target_arch = "aarch64")
)))]
compile_error!("pasetone-sys has assembly for Linux on x86-64 and AArch64, and for no other target");

/// The library's text, and that it is of this crate's version.
#[cfg(all(target_os = "linux", target_pointer_width = "64", any(target_arch = "x86_64", target_arch = "aarch64")))]
mod linked {
    /// `raw`: braces in the text are lists of registers, and not places for operands.
    macro_rules! library {
        ($text:expr $(, $syntax:ident)?) => {
            core::arch::global_asm!(include_str!($text), options($($syntax,)? raw));
            const TEXT: &str = include_str!($text);
        };
    }
    #[cfg(all(target_arch = "x86_64", not(feature = "named")))]
    library!("../pasetone-x86_64.s", att_syntax);
    #[cfg(all(target_arch = "aarch64", not(feature = "named")))]
    library!("../pasetone-aarch64.s");
    #[cfg(all(target_arch = "x86_64", feature = "named"))]
    library!(env!("PASETONE_ASSEMBLY"), att_syntax);
    #[cfg(all(target_arch = "aarch64", feature = "named"))]
    library!(env!("PASETONE_ASSEMBLY"));

    const fn starts(text: &[u8], with: &[u8]) -> bool {
        let mut i = 0;
        while i < with.len() && i < text.len() && text[i] == with[i] {
            i += 1;
        }
        i == with.len()
    }
    const HEAD: &str = concat!("/* Pasetone ", env!("CARGO_PKG_VERSION"), " for Linux on ");
    const _: () = assert!(starts(TEXT.as_bytes(), HEAD.as_bytes()), "the library's text is of another version than this crate");

    /// Two versions of this crate in one program would share the library of one of them, in silence. By this the linker takes both, and refuses.
    #[used]
    static ONCE: unsafe extern "C" fn() -> u32 = super::pasetone_version;
}

/// `pasetone.h`: above each function stands what it takes, answers and refuses.
#[doc = concat!("```c\n", include_str!("../pasetone.h"), "\n```")]
#[cfg(doc)]
pub mod manual {}

/// Where a slice begins that is read.
pub type Bytes = *const u8;
/// Where a slice begins that is written.
pub type BytesMut = *mut u8;

/// `pasetone_reply`.
#[repr(C)]
#[derive(Clone, Copy, Debug, Default, PartialEq, Eq)]
pub struct Reply {
    pub value: u64,
    pub index: u64,
    pub refusal: u32,
    pub count: u32,
}

/// `pasetone_tune_reply`: tries and the lock beside them.
#[repr(C)]
#[derive(Clone, Copy, Debug, Default, PartialEq, Eq)]
pub struct TuneReply {
    pub value: u64,
    pub index: u64,
    pub refusal: u32,
    pub count: u32,
    pub tries: u32,
    pub locked: u32,
}

impl TuneReply {
    /// What every call tells.
    pub fn reply(self) -> Reply {
        Reply { value: self.value, index: self.index, refusal: self.refusal, count: self.count }
    }
}

/// `pasetone_feed_reply`: a call's answer, and what was taken of the chunk.
#[repr(C)]
#[derive(Clone, Copy, Debug, Default, PartialEq, Eq)]
pub struct FeedReply {
    pub value: u64,
    pub index: u64,
    pub used: u64,
    pub refusal: u32,
    pub count: u32,
    pub tries: u32,
    pub locked: u32,
    pub completed: u32,
    pub pending: u32,
}

impl FeedReply {
    /// What every call tells.
    pub fn reply(self) -> Reply {
        Reply { value: self.value, index: self.index, refusal: self.refusal, count: self.count }
    }
}

/// `pasetone_section`.
#[repr(C)]
#[derive(Clone, Copy, Debug, Default, PartialEq, Eq)]
pub struct Section {
    pub start: u64,
    pub count: u64,
    pub refusal: u32,
    pub zero: u32,
}

/// `pasetone_part`.
#[repr(C)]
#[derive(Clone, Copy, Debug, Default, PartialEq, Eq)]
pub struct Part {
    pub start: u64,
    pub count: u64,
    pub index: u64,
    pub whose: u32,
    pub refusal: u32,
}

/// `pasetone_settings_1`.
#[repr(C)]
#[derive(Clone, Copy, Debug, Default, PartialEq, Eq)]
pub struct Settings1 {
    pub frequency: u64,
    pub kind: u64,
    pub board: u64,
    pub gain: u64,
    pub rate: u32,
    pub correction: i32,
    pub refusal: u32,
    pub zero: u32,
}

/// `pasetone_settings_2`.
#[repr(C)]
#[derive(Clone, Copy, Debug, Default, PartialEq, Eq)]
pub struct Settings2 {
    pub frequency: u64,
    pub kind: u64,
    pub board: u64,
    pub gain: u64,
    pub rate: u32,
    pub correction: i32,
    pub intermediate: u32,
    pub refusal: u32,
}

/// A call that takes outcomes and room alone.
pub type Plain = unsafe extern "C" fn(Bytes, usize, BytesMut, usize) -> Reply;

// SAFETY: these are the declarations of pasetone.h; host/c/signatures holds both texts against crate pasetone, which the library is made of.
unsafe extern "C" {
    pub fn pasetone_version() -> u32;
    pub fn pasetone_tuner_new(kind: u64, address: u8, nominal: u64, next: BytesMut, n: usize) -> Reply;
    pub fn pasetone_driver_new(board: u64, nominal: u64, ppm: i32, frequency: u64, rate: u32, next: BytesMut, n: usize) -> Reply;
    pub fn pasetone_initialize(
        tuner: Bytes,
        t: usize,
        outcomes: Bytes,
        o: usize,
        room: BytesMut,
        r: usize,
        next: BytesMut,
        n: usize,
    ) -> Reply;
    pub fn pasetone_set_frequency(
        tuner: Bytes,
        t: usize,
        hz: u64,
        outcomes: Bytes,
        o: usize,
        replies: Bytes,
        p: usize,
        room: BytesMut,
        r: usize,
        next: BytesMut,
        n: usize,
    ) -> TuneReply;
    pub fn pasetone_set_gain(
        tuner: Bytes,
        t: usize,
        db: f32,
        outcomes: Bytes,
        o: usize,
        room: BytesMut,
        r: usize,
        next: BytesMut,
        n: usize,
    ) -> Reply;
    pub fn pasetone_set_gain_by_index(
        tuner: Bytes,
        t: usize,
        index: u64,
        outcomes: Bytes,
        o: usize,
        room: BytesMut,
        r: usize,
        next: BytesMut,
        n: usize,
    ) -> Reply;
    pub fn pasetone_set_bandwidth(
        tuner: Bytes,
        t: usize,
        hz: u32,
        outcomes: Bytes,
        o: usize,
        room: BytesMut,
        r: usize,
        next: BytesMut,
        n: usize,
    ) -> Reply;
    pub fn pasetone_set_if_freq(
        tuner: Bytes,
        t: usize,
        hz: u64,
        outcomes: Bytes,
        o: usize,
        room: BytesMut,
        r: usize,
        next: BytesMut,
        n: usize,
    ) -> Reply;
    pub fn pasetone_set_input_path(
        tuner: Bytes,
        t: usize,
        path: u64,
        outcomes: Bytes,
        o: usize,
        room: BytesMut,
        r: usize,
        next: BytesMut,
        n: usize,
    ) -> Reply;
    pub fn pasetone_reload(tuner: Bytes, t: usize, outcomes: Bytes, o: usize, room: BytesMut, r: usize, next: BytesMut, n: usize) -> Reply;
    pub fn pasetone_get_gain(tuner: Bytes, t: usize) -> Reply;
    pub fn pasetone_get_if_freq(tuner: Bytes, t: usize) -> Reply;
    pub fn pasetone_oscillator(tuner: Bytes, t: usize) -> Reply;
    pub fn pasetone_get_gain_table(tuner: Bytes, t: usize, out: BytesMut, n: usize) -> Reply;
    pub fn pasetone_apply_notch(tuner: BytesMut, t: usize, on: u8) -> Reply;
    pub fn pasetone_corrected_xtal_hz(driver: Bytes, d: usize) -> Reply;
    pub fn pasetone_centre(driver: Bytes, d: usize, tuner: Bytes, t: usize, table: Bytes, b: usize) -> Reply;
    pub fn pasetone_set_ppm(tuner: BytesMut, t: usize, driver: BytesMut, d: usize, ppm: i32) -> Reply;
    pub fn pasetone_set_sample_rate(
        driver: Bytes,
        d: usize,
        tuner: Bytes,
        t: usize,
        table: Bytes,
        b: usize,
        rate: u32,
        outcomes: Bytes,
        o: usize,
        room: BytesMut,
        r: usize,
        next_driver: BytesMut,
        nd: usize,
        next_tuner: BytesMut,
        nt: usize,
    ) -> Reply;
    pub fn pasetone_tune_board(
        driver: Bytes,
        d: usize,
        tuner: Bytes,
        t: usize,
        table: Bytes,
        b: usize,
        hz: u64,
        outcomes: Bytes,
        o: usize,
        replies: Bytes,
        p: usize,
        room: BytesMut,
        r: usize,
        next_driver: BytesMut,
        nd: usize,
        next_tuner: BytesMut,
        nt: usize,
    ) -> TuneReply;
    pub fn pasetone_apply_input_path(
        tuner: Bytes,
        t: usize,
        path: u64,
        outcomes: Bytes,
        o: usize,
        replies: Bytes,
        p: usize,
        room: BytesMut,
        r: usize,
        next: BytesMut,
        n: usize,
    ) -> Reply;
    pub fn pasetone_init_baseband(outcomes: Bytes, o: usize, room: BytesMut, r: usize) -> Reply;
    pub fn pasetone_power_on(outcomes: Bytes, o: usize, room: BytesMut, r: usize) -> Reply;
    pub fn pasetone_reset_demod(outcomes: Bytes, o: usize, room: BytesMut, r: usize) -> Reply;
    pub fn pasetone_set_tuner_low_if(outcomes: Bytes, o: usize, room: BytesMut, r: usize) -> Reply;
    pub fn pasetone_set_tuner_zero_if(outcomes: Bytes, o: usize, room: BytesMut, r: usize) -> Reply;
    pub fn pasetone_start_streaming(outcomes: Bytes, o: usize, room: BytesMut, r: usize) -> Reply;
    pub fn pasetone_stop_streaming(outcomes: Bytes, o: usize, room: BytesMut, r: usize) -> Reply;
    pub fn pasetone_write_reg_direct(page: u8, address: u16, value: u8, outcomes: Bytes, o: usize, room: BytesMut, r: usize) -> Reply;
    pub fn pasetone_set_if_freq_xtal(hz: u32, xtal: u32, outcomes: Bytes, o: usize, room: BytesMut, r: usize) -> Reply;
    pub fn pasetone_set_sample_rate_xtal(rate: u32, xtal: u32, outcomes: Bytes, o: usize, room: BytesMut, r: usize) -> Reply;
    pub fn pasetone_set_gpio_output(gpio: u8, outcomes: Bytes, o: usize, replies: Bytes, p: usize, room: BytesMut, r: usize) -> Reply;
    pub fn pasetone_set_gpio_bit(
        gpio: u8,
        value: u8,
        outcomes: Bytes,
        o: usize,
        replies: Bytes,
        p: usize,
        room: BytesMut,
        r: usize,
    ) -> Reply;
    pub fn pasetone_plan_tuning(board: u64, hz: u64, out: BytesMut, n: usize) -> Reply;
    pub fn pasetone_board_table(board: u64, out: BytesMut, n: usize) -> Reply;
    pub fn pasetone_plan_by_table(table: Bytes, t: usize, hz: u64, out: BytesMut, n: usize) -> Reply;
    pub fn pasetone_if_freq_regs(hz: u32, xtal: u32, out: BytesMut, n: usize) -> Reply;
    pub fn pasetone_resample_regs(rate: u32, xtal: u32, out: BytesMut, n: usize) -> Reply;
    pub fn pasetone_pack_fir(values: Bytes, v: usize, out: BytesMut, n: usize) -> Reply;
    pub fn pasetone_unpack_fir(bytes: Bytes, b: usize, out: BytesMut, n: usize) -> Reply;
    pub fn pasetone_plan_pll(kind: u64, lo: u64, reference: u32, out: BytesMut, n: usize) -> Reply;
    pub fn pasetone_plan_pll_by_worksheet(kind: u64, lo: u64, reference: u32, out: BytesMut, n: usize) -> Reply;
    pub fn pasetone_read_section(bytes: Bytes, b: usize) -> Section;
    pub fn pasetone_parting(first: Bytes, f: usize, second: Bytes, s: usize) -> Part;
    pub fn pasetone_read_settings_2(bytes: Bytes, b: usize) -> Settings2;
    pub fn pasetone_write_settings_2(
        kind: u64,
        board: u64,
        correction: i32,
        rate: u32,
        frequency: u64,
        gain: u64,
        intermediate: u32,
        out: BytesMut,
        n: usize,
    ) -> Reply;
    pub fn pasetone_move_settings_1_to_2(bytes: Bytes, b: usize, out: BytesMut, n: usize) -> Reply;
    pub fn pasetone_move_settings_2_to_1(bytes: Bytes, b: usize, out: BytesMut, n: usize) -> Reply;
    pub fn pasetone_read_settings_1(bytes: Bytes, b: usize) -> Settings1;
    pub fn pasetone_write_settings_1(
        kind: u64,
        board: u64,
        correction: i32,
        rate: u32,
        frequency: u64,
        gain: u64,
        out: BytesMut,
        n: usize,
    ) -> Reply;
    pub fn pasetone_expand(section: Bytes, s: usize, out: BytesMut, n: usize) -> Reply;
    pub fn pasetone_read_packets(packets: Bytes, p: usize, out: BytesMut, n: usize) -> Reply;
    pub fn pasetone_restore(sections: Bytes, s: usize, address: u8, out: BytesMut, n: usize) -> Reply;
    pub fn pasetone_evidence(sections: Bytes, s: usize, address: u8, tuner: u32, driver: u32, out: BytesMut, n: usize) -> Reply;
    pub fn pasetone_feed(
        stream: BytesMut,
        s: usize,
        driver: BytesMut,
        d: usize,
        tuner: BytesMut,
        t: usize,
        table: Bytes,
        b: usize,
        chunk: Bytes,
        c: usize,
        outcomes: Bytes,
        o: usize,
        replies: Bytes,
        p: usize,
        room: BytesMut,
        r: usize,
    ) -> FeedReply;
    pub fn pasetone_stream_pending(stream: Bytes, s: usize) -> Reply;
}
