//! A simulated receiver's file, by the places that `simulate layout` prints: what the chips hold, whatever a host says.
use std::collections::HashMap;
use std::fs::{File, OpenOptions};
use std::os::unix::fs::FileExt;

/// One transfer as it came, and how it ended: how many bytes, or an errno below 0.
pub struct Came {
    pub setup: [u8; 8],
    pub data: [u8; 8],
    pub count: i32,
}

impl Came {
    pub fn length(&self) -> usize {
        usize::from(u16::from_le_bytes([self.setup[6], self.setup[7]]))
    }

    pub fn is_read(&self) -> bool {
        self.setup[0] & 0x80 != 0
    }

    /// The setup packet, and the data of a write.
    pub fn packet(&self) -> Vec<u8> {
        let data = if self.is_read() { 0 } else { self.length().min(8) };
        [&self.setup[..], &self.data[..data]].concat()
    }
}

pub struct Simulated {
    file: File,
    places: HashMap<String, (u64, usize)>,
}

fn env(name: &str) -> String {
    std::env::var(name).unwrap_or_else(|_| panic!("{name} is not set"))
}

impl Simulated {
    /// The receiver with this number on bus 1.
    pub fn open(number: u16) -> Simulated {
        let path = format!("{}/dev/bus/usb/001/{number:03}", env("RECEIVER_FOLDER"));
        let text = std::fs::read_to_string(env("RECEIVER_LAYOUT")).expect("the layout");
        let places = text.lines().map(|line| {
            let words: Vec<&str> = line.split(' ').collect();
            (words[0].to_string(), (words[1].parse().expect("an offset"), words[2].parse().expect("a size")))
        });
        Simulated { file: OpenOptions::new().read(true).write(true).open(path).expect("a receiver's file"), places: places.collect() }
    }

    fn place(&self, name: &str) -> (u64, usize) {
        *self.places.get(name).unwrap_or_else(|| panic!("no field {name}"))
    }

    /// Where a field begins.
    pub fn place_of(&self, name: &str) -> usize {
        self.place(name).0 as usize
    }

    pub fn bytes(&self, name: &str) -> Vec<u8> {
        let (at, size) = self.place(name);
        let mut bytes = vec![0; size];
        self.file.read_exact_at(&mut bytes, at).expect("a receiver's file");
        bytes
    }

    pub fn put(&self, name: &str, bytes: &[u8]) {
        let (at, size) = self.place(name);
        assert!(bytes.len() <= size, "{name} has {size} bytes");
        self.file.write_all_at(bytes, at).expect("a receiver's file");
    }

    /// A number of 4 or 8 bytes.
    pub fn get(&self, name: &str) -> i64 {
        let bytes = self.bytes(name);
        match bytes.len() {
            4 => u32::from_le_bytes(bytes.try_into().expect("four bytes")).into(),
            _ => i64::from_le_bytes(bytes.try_into().expect("eight bytes")),
        }
    }

    pub fn set(&self, name: &str, number: u64) {
        let size = self.place(name).1;
        self.put(name, &number.to_le_bytes()[..size]);
    }

    pub fn whole(&self) -> Vec<u8> {
        self.bytes("whole")
    }

    pub fn back(&self, whole: &[u8]) {
        self.put("whole", whole);
    }

    /// The transfers from this number on.
    pub fn came(&self, from: i64) -> Vec<Came> {
        let (log, size) = (self.bytes("log"), self.place("transfer").1);
        let rows = log.len() / size;
        let sent = self.get("sent");
        assert!(sent - from <= rows as i64, "more transfers than are kept");
        (from..sent)
            .map(|number| {
                let row = &log[size * (number as usize % rows)..][..size];
                let part = |at: usize| <[u8; 8]>::try_from(&row[at..at + 8]).expect("eight bytes");
                Came { setup: part(0), data: part(8), count: i32::from_le_bytes(row[16..20].try_into().expect("four bytes")) }
            })
            .collect()
    }
}
