//! Stands in for `rusb`: one device 0bda:2838 whose control transfers go to the recorder.
pub mod clock;
pub mod rec;

use std::time::Duration;

#[derive(Debug, Clone, Copy, PartialEq, Eq)]
pub enum Error {
    Io,
}
pub type Result<T> = std::result::Result<T, Error>;

pub trait UsbContext: Clone + Send + Sync + 'static {}

#[derive(Clone)]
pub struct Context;
impl UsbContext for Context {}
impl Context {
    pub fn new() -> Result<Self> {
        Ok(Self)
    }
    pub fn devices(&self) -> Result<[Device; 1]> {
        Ok([Device])
    }
}

pub struct Device;
impl Device {
    pub fn device_descriptor(&self) -> Result<Descriptor> {
        Ok(Descriptor)
    }
    pub fn open(&self) -> Result<DeviceHandle<Context>> {
        Ok(DeviceHandle(std::marker::PhantomData))
    }
}

pub struct Descriptor;
impl Descriptor {
    pub fn vendor_id(&self) -> u16 {
        0x0bda
    }
    pub fn product_id(&self) -> u16 {
        0x2838
    }
}

pub struct DeviceHandle<T>(std::marker::PhantomData<fn(T) -> T>);
impl<T: UsbContext> DeviceHandle<T> {
    pub fn device(&self) -> Device {
        Device
    }
    pub fn set_auto_detach_kernel_driver(&self, _on: bool) -> Result<()> {
        Ok(())
    }
    pub fn claim_interface(&self, _number: u8) -> Result<()> {
        Ok(())
    }
    pub fn read_manufacturer_string_ascii(&self, _of: &Descriptor) -> Result<String> {
        Ok("Pasetone".into())
    }
    pub fn read_product_string_ascii(&self, _of: &Descriptor) -> Result<String> {
        Ok("recorder".into())
    }
    pub fn write_control(&self, kind: u8, request: u8, value: u16, index: u16, data: &[u8], _limit: Duration) -> Result<usize> {
        rec::write(kind, request, value, index, data)
    }
    pub fn read_control(&self, kind: u8, request: u8, value: u16, index: u16, data: &mut [u8], _limit: Duration) -> Result<usize> {
        rec::read(kind, request, value, index, data)
    }
    pub fn read_bulk(&self, _endpoint: u8, _data: &mut [u8], _limit: Duration) -> Result<usize> {
        Err(Error::Io)
    }
}
