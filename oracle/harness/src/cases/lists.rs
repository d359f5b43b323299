//! The two short lists: FIR, and the section reader.
use super::plain;
use crate::case::Case;
use crate::dice::Dice;
use crate::page;

/// List 2: FIR, packed and unpacked.
pub fn fir() -> Vec<Case> {
    let mut dice = Dice(0x46_4952);
    let pack = |values: [i32; 16], room: usize| Case { input: values.iter().flat_map(|v| v.to_le_bytes()).collect(), room, ..plain(36) };
    let unpack = |bytes: Vec<u8>, room: usize| Case { input: bytes, room, ..plain(37) };
    let inside = |dice: &mut Dice| -> [i32; 16] {
        std::array::from_fn(|i| if i < 8 { dice.below(256) as i32 - 128 } else { dice.below(4096) as i32 - 2048 })
    };
    let ends = |low: bool| -> [i32; 16] {
        std::array::from_fn(|i| {
            if i < 8 {
                if low { -128 } else { 127 }
            } else if low {
                -2048
            } else {
                2047
            }
        })
    };
    let default = [-54, -36, -41, -40, -32, -14, 14, 53, 101, 156, 215, 273, 327, 372, 404, 421];
    let mut all = vec![
        pack(default, 20),
        pack(default, 32),
        pack(default, 19),
        pack(default, 0),
        pack(ends(true), 20),
        pack(ends(false), 20),
        pack([0; 16], 20),
    ];
    for i in 0..16 {
        // One past the width, above and below by turns, and far past it; what stands beside it is in range.
        let width = if i < 8 { 128 } else { 2048 };
        let mut values = inside(&mut dice);
        values[i] = if i % 2 == 0 { width } else { -width - 1 };
        all.push(pack(values, 20));
        if i % 5 == 0 {
            values[i] = if i % 2 == 0 { i32::MIN } else { i32::MAX };
            all.push(pack(values, 0));
        }
    }
    all.extend((0..8).map(|_| pack(inside(&mut dice), 20 + dice.below(4) as usize)));
    let packed = |values: &[i32; 16]| page::fir_pack(values).to_vec();
    all.extend([unpack(packed(&default), 64), unpack(packed(&default), 70), unpack(packed(&default), 63), unpack(packed(&default), 0)]);
    all.extend([unpack(vec![0; 20], 64), unpack(vec![255; 20], 64), unpack(vec![0x80; 20], 64), unpack(vec![0x7f; 20], 64)]);
    all.extend((0..8).map(|_| unpack(dice.bytes(20), 64)));
    all
}

/// List 3: the section reader.
pub fn sections() -> Vec<Case> {
    let read = |input: Vec<u8>| Case { input, ..plain(38) };
    let trailer = |count: u32, distance: u32| [count.to_le_bytes(), distance.to_le_bytes()].concat();
    let example = crate::answer::answer(&plain(6)).section.unwrap();
    let mut all = vec![
        read(example.clone()),
        read([vec![0xa5; 5], example.clone()].concat()),
        read([example.clone(), example.clone()].concat()),
        read([example.clone(), vec![0]].concat()),
        read(example[1..].to_vec()),
        read(example[16..].to_vec()),
        read(trailer(0, 0)),
        read([vec![7; 40], trailer(0, 0)].concat()),
        read(vec![]),
        read(vec![0; 7]),
        read(trailer(0, 16)),
        read(trailer(1, 16)),
        read([example[..48].to_vec(), trailer(3, 32)].concat()),
        read([example[..48].to_vec(), trailer(2, 32)].concat()),
        read([example[..48].to_vec(), trailer(2, 48)].concat()),
        read([example[..48].to_vec(), trailer(3, 49)].concat()),
        read([example[..48].to_vec(), trailer(4097, 65_552)].concat()),
        read([example[..48].to_vec(), trailer(0x1000_0003, 48)].concat()),
        read([example[..48].to_vec(), trailer(u32::MAX, u32::MAX - 15)].concat()),
    ];
    // One entry of each kind as it should be, then that entry with one byte changed.
    let good: [[u8; 16]; 9] = [
        [1, 1, 0, 1, 0, 0, 0, 0, 0, 0, 0, 0, 0, 0, 0, 0],
        [2, 0, 0x74, 8, 0, 0, 0, 0, 1, 2, 3, 4, 5, 6, 7, 8],
        [3, 0, 0x34, 5, 0, 0, 0, 0, 1, 2, 3, 4, 5, 0, 0, 0],
        [4, 0, 1, 1, 0x19, 0, 0, 0, 0x38, 0, 0, 0, 0, 0, 0, 0],
        [5, 1, 255, 2, 0xff, 0xff, 0, 0, 3, 0x84, 0, 0, 0, 0, 0, 0],
        [6, 0, 1, 1, 0, 0x20, 0, 0, 9, 0, 0, 0, 0, 0, 0, 0],
        [7, 0, 1, 2, 0x48, 0x21, 0, 0, 0x10, 2, 0, 0, 0, 0, 0, 0],
        [8, 0, 2, 1, 1, 0x30, 0, 0, 0x5a, 0, 0, 0, 0, 0, 0, 0],
        [9, 0, 0, 0, 100, 0, 0, 0, 0, 0, 0, 0, 0, 0, 0, 0],
    ];
    let one = |entry: [u8; 16]| read(page::section(&[entry]));
    let changed = |kind: usize, at: usize, byte: u8| {
        let mut entry = good[kind - 1];
        entry[at] = byte;
        one(entry)
    };
    all.push(read(page::section(&good)));
    all.extend(good.map(one));
    #[rustfmt::skip]
    let changes = [
        (1, 0, 0), (1, 0, 10), (1, 0, 255), (1, 1, 2), (1, 2, 1), (1, 3, 0), (1, 3, 2), (1, 4, 1), (1, 5, 1), (1, 6, 1), (1, 7, 1), (1, 8, 2), (1, 8, 1), (1, 9, 1), (1, 15, 1),
        (2, 2, 0), (2, 3, 0), (2, 3, 9), (2, 3, 7), (2, 4, 1), (2, 1, 1),
        (3, 3, 0), (3, 3, 6), (3, 3, 4), (3, 1, 1), (3, 5, 1), (3, 13, 1),
        (4, 3, 2), (4, 3, 0), (4, 9, 1), (4, 2, 255), (5, 3, 1), (5, 10, 1), (6, 3, 2), (6, 9, 1), (7, 3, 1), (7, 10, 1),
        (8, 3, 0), (8, 3, 2), (8, 1, 1), (8, 9, 1), (8, 15, 1), (9, 1, 1), (9, 2, 1), (9, 3, 1), (9, 8, 1), (9, 5, 255), (9, 6, 1),
    ];
    all.extend(changes.map(|(kind, at, byte)| changed(kind, at, byte)));
    let failed_reads = [(3, 5), (8, 1)].map(|(kind, n)| {
        let mut entry = [0; 16];
        (entry[0], entry[1], entry[3]) = (kind, 1, n);
        one(entry)
    });
    all.extend(failed_reads);
    // Damage in an entry between two good ones.
    let mut middle = [good[0], good[3], good[8]];
    middle[1][6] = 1;
    all.push(read(page::section(&middle)));
    all
}
