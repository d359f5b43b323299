// The module list of tuners/, and the kinds that document 01 leaves out: they are made and never called.
pub mod r82xx;

macro_rules! absent {
    ($module:ident, $name:ident, ($($field:ident: $kind:ty),*)) => {
        pub mod $module {
            use crate::device::HardwareInterface;
            use crate::error::{Error, Result};
            use crate::tuner::{FilterRange, InputPath, Tuner, TunerType};
            use std::sync::Arc;
            pub struct $name;
            impl $name {
                pub fn new(_device: Arc<dyn HardwareInterface>, $($field: $kind),*) -> Self {
                    Self
                }
            }
            fn none<T>() -> Result<T> {
                Err(Error::NotInitialized)
            }
            impl Tuner for $name {
                fn initialize(&self) -> Result<()> { none() }
                fn set_frequency(&self, _: u64) -> Result<u64> { none() }
                fn set_gain(&self, _: f32) -> Result<f32> { none() }
                fn get_gain(&self) -> Result<f32> { none() }
                fn get_filters(&self) -> Vec<FilterRange> { Vec::new() }
                fn set_if_freq(&self, _: u64) -> Result<()> { none() }
                fn get_if_freq(&self) -> u64 { 0 }
                fn set_bandwidth(&self, _: u32) -> Result<()> { none() }
                fn set_ppm(&self, _: i32) -> Result<()> { none() }
                fn apply_notch(&self, _: bool) -> Result<()> { none() }
                fn set_gain_by_index(&self, _: usize) -> Result<f32> { none() }
                fn get_gain_table(&self) -> Vec<i32> { Vec::new() }
                fn set_input_path(&self, _: InputPath) -> Result<()> { none() }
            }
        }
    };
}
absent!(e4k, E4k, (_xtal: u64));
absent!(fc001x, Fc001x, (_kind: TunerType, _addr: u8, _xtal: u64));
