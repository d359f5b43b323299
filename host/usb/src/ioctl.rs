//! The calls of Linux's usbfs that a receiver needs, and all `unsafe` of this crate.
//!
//! Each is `ioctl(2)` on an open node of /dev/bus/usb with a struct of linux/usbdevice_fs.h. The numbers are those of that header on machines whose `_IOC` is the
//! kernel's common one and whose pointers have 64 bits; host/receiver/run holds them, and the structs' sizes, against the header of the machine that it runs on.
use std::ffi::{c_int, c_uint, c_ulong, c_void};
use std::fs::File;
use std::io;
use std::os::fd::AsRawFd;

#[cfg(not(all(target_os = "linux", target_pointer_width = "64", any(target_arch = "x86_64", target_arch = "aarch64"))))]
compile_error!("usbfs is Linux's, and its numbers here are those of x86-64 and AArch64");

/// The kernel's names and numbers, with the sizes of what they point at.
pub const NUMBERS: [(&str, u32, usize); 5] = [
    ("USBDEVFS_CONTROL", CONTROL, size_of::<Control>()),
    ("USBDEVFS_GETDRIVER", GETDRIVER, size_of::<GetDriver>()),
    ("USBDEVFS_CLAIMINTERFACE", CLAIM, size_of::<c_uint>()),
    ("USBDEVFS_IOCTL", IOCTL, size_of::<Command>()),
    ("USBDEVFS_DISCONNECT", DISCONNECT, 0),
];

const CONTROL: u32 = 0xc018_5500;
const GETDRIVER: u32 = 0x4104_5508;
const CLAIM: u32 = 0x8004_550f;
const IOCTL: u32 = 0xc010_5512;
const DISCONNECT: u32 = 0x5516;

/// struct usbdevfs_ctrltransfer.
#[repr(C)]
struct Control {
    request_type: u8,
    request: u8,
    value: u16,
    index: u16,
    length: u16,
    timeout: u32,
    data: *mut c_void,
}

/// struct usbdevfs_getdriver.
#[repr(C)]
struct GetDriver {
    interface: c_uint,
    driver: [u8; 256],
}

/// struct usbdevfs_ioctl.
#[repr(C)]
struct Command {
    interface: c_int,
    code: c_int,
    data: *mut c_void,
}

unsafe extern "C" {
    fn ioctl(file: c_int, request: c_ulong, ...) -> c_int;
}

/// # Safety
///
/// `argument` is what this request takes: the kernel reads and writes that struct, and what it points at, while the call runs and not after it.
unsafe fn call<T>(node: &File, request: u32, argument: &mut T) -> io::Result<c_int> {
    // SAFETY: the file is open as long as `node` is borrowed; of the argument the caller answers.
    let answer = unsafe { ioctl(node.as_raw_fd(), request.into(), std::ptr::from_mut(argument)) };
    if answer < 0 { Err(io::Error::last_os_error()) } else { Ok(answer) }
}

/// A control transfer by the fields of its setup packet, of `data`'s length: how many bytes went.
pub fn control(node: &File, (request_type, request, value, index): (u8, u8, u16, u16), data: &mut [u8], timeout: u32) -> io::Result<usize> {
    let length = u16::try_from(data.len()).map_err(io::Error::other)?;
    let mut transfer = Control { request_type, request, value, index, length, timeout, data: data.as_mut_ptr().cast() };
    // SAFETY: CONTROL takes this struct, and reads or writes at most `length` bytes at `data`, which is lent to this call alone.
    let count = unsafe { call(node, CONTROL, &mut transfer) }?;
    usize::try_from(count).map_err(io::Error::other)
}

/// The kernel's driver that is bound to the interface, if there is one.
pub fn driver(node: &File, interface: u32) -> io::Result<Option<String>> {
    let mut asked = GetDriver { interface, driver: [0; 256] };
    // SAFETY: GETDRIVER takes this struct and writes a name of at most 256 bytes into it.
    match unsafe { call(node, GETDRIVER, &mut asked) } {
        Ok(_) => Ok(Some(asked.driver.iter().take_while(|&&byte| byte != 0).map(|&byte| char::from(byte)).collect())),
        Err(error) if error.raw_os_error() == Some(ENODATA) => Ok(None),
        Err(error) => Err(error),
    }
}

const ENODATA: i32 = 61;

/// Claims an interface for this node, until it is closed.
pub fn claim(node: &File, interface: u32) -> io::Result<()> {
    let mut number: c_uint = interface;
    // SAFETY: CLAIMINTERFACE reads one unsigned int.
    unsafe { call(node, CLAIM, &mut number) }.map(drop)
}

/// Takes the interface from the kernel's driver.
pub fn disconnect(node: &File, interface: u32) -> io::Result<()> {
    let interface = c_int::try_from(interface).map_err(io::Error::other)?;
    let mut command = Command { interface, code: DISCONNECT as c_int, data: std::ptr::null_mut() };
    // SAFETY: IOCTL takes this struct; DISCONNECT has no data.
    unsafe { call(node, IOCTL, &mut command) }.map(drop)
}
