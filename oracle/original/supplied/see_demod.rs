// Access to the private packer of the default coefficients.
pub fn see_pack_fir() -> [u8; 20] {
    pack_fir()
}
pub const SEEN_FIR: [i32; 16] = FIR_DEFAULT;
