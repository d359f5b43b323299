use std::fs;
use std::io;
use std::os::unix::fs::MetadataExt;
use std::path::{Path, PathBuf};
use std::time::UNIX_EPOCH;

const DEVICES: &str = "/sys/bus/usb/devices";
const NODES: &str = "/dev/bus/usb";
const BOOT: &str = "/proc/sys/kernel/random/boot_id";
/// The bytes of a boot's identity as text.
const IDENTITY: usize = 36;

/// The receivers that `src/device.rs` of the Rust looks for.
const VENDOR: u16 = 0x0bda;
const PRODUCTS: [u16; 2] = [0x2838, 0x2832];

/// A receiver that is plugged in, as sysfs tells of it.
#[derive(Clone, Debug, PartialEq, Eq, Hash)]
pub struct Found {
    /// The bus and the device's number on it: another one each time that it is plugged in.
    pub bus: u16,
    /// The same.
    pub number: u16,
    /// 0x2838 or 0x2832.
    pub product_id: u16,
    /// Where it is plugged in, by the kernel's name: `1-4.2`.
    pub port: String,
    /// What it says of itself; empty where it says nothing.
    pub serial: String,
    /// The same.
    pub manufacturer: String,
    /// The same.
    pub product: String,
}

impl Found {
    /// All receivers that are plugged in, by bus and number.
    ///
    /// # Errors
    ///
    /// Where sysfs is there and cannot be read. Without one there is no receiver.
    pub fn all() -> io::Result<Vec<Found>> {
        let folder = match fs::read_dir(DEVICES) {
            Err(error) if error.kind() == io::ErrorKind::NotFound => return Ok(Vec::new()),
            other => other?,
        };
        let mut found = Vec::new();
        for entry in folder {
            found.extend(Found::read(&entry?.path()));
        }
        found.sort_by_key(|device| (device.bus, device.number));
        Ok(found)
    }

    /// The receiver of this folder, if it is one.
    fn read(folder: &Path) -> Option<Found> {
        let text = |name: &str| fs::read(folder.join(name)).ok().map(|bytes| String::from_utf8_lossy(&bytes).trim().to_string());
        let hexadecimal = |name: &str| u16::from_str_radix(&text(name)?, 16).ok();
        let number = |name: &str| text(name)?.parse().ok();
        let product_id = hexadecimal("idProduct").filter(|id| PRODUCTS.contains(id))?;
        let said = |name: &str| text(name).unwrap_or_default();
        (hexadecimal("idVendor")? == VENDOR).then_some(Found {
            bus: number("busnum")?,
            number: number("devnum")?,
            product_id,
            port: folder.file_name()?.to_string_lossy().into_owned(),
            serial: said("serial"),
            manufacturer: said("manufacturer"),
            product: said("product"),
        })
    }

    /// Its node for control transfers.
    pub fn node(&self) -> PathBuf {
        PathBuf::from(format!("{NODES}/{:03}/{:03}", self.bus, self.number))
    }

    /// What tells this connection from any other, in 64 bytes: the boot's identity, the bus and the number, the inode and the time of birth of the node, the inode of its
    /// folder in sysfs. A receiver that was plugged in again, or whose machine was started anew, has lost its registers, and has another.
    ///
    /// A node's times of change are not in it: the kernel moves them with the transfers.
    ///
    /// # Errors
    ///
    /// Where it is gone, or the boot has no identity.
    pub fn connection(&self) -> io::Result<[u8; 64]> {
        let (node, folder) = (fs::metadata(self.node())?, fs::metadata(Path::new(DEVICES).join(&self.port))?);
        let identity = fs::read(BOOT)?;
        // Of a system that knows no birth the inodes tell.
        let born = node.created().ok().and_then(|time| time.duration_since(UNIX_EPOCH).ok()).map_or(0, |since| since.as_nanos() as u64);
        let mut key = [0; 64];
        key[..IDENTITY].copy_from_slice(identity.get(..IDENTITY).ok_or(io::ErrorKind::InvalidData)?);
        key[36..38].copy_from_slice(&self.bus.to_le_bytes());
        key[38..40].copy_from_slice(&self.number.to_le_bytes());
        for (at, number) in [(40, node.ino()), (48, born), (56, folder.ino())] {
            key[at..at + 8].copy_from_slice(&number.to_le_bytes());
        }
        Ok(key)
    }

    /// The driver that sysfs has for interface 0: `usbfs` where a program holds it.
    pub(crate) fn bound(&self) -> Option<String> {
        let link = fs::read_link(format!("{DEVICES}/{}:1.0/driver", self.port)).ok()?;
        Some(link.file_name()?.to_string_lossy().into_owned())
    }

    /// Whether it says that it is an RTL-SDR Blog V4, as `DeviceInfo::probe` of the Rust finds it.
    pub fn is_v4(&self) -> bool {
        self.manufacturer.contains("RTLSDRBlog") && self.product.contains("V4")
    }
}
