//! Document 02's #105, written from its text: a stream of commands that arrives chopped anywhere. What a command then does is its call's.

/// "one operation byte and eight argument bytes"
pub const WHOLE: usize = 9;

/// "1 frequency (u64), 2 rate (u32), 3 gain in dB (binary32 bits), 4 gain index (u8), 5 bandwidth (u32), 6 the tuner's correction (i32), 7 reload (0)"
#[derive(Debug, Clone, Copy, PartialEq)]
pub enum Command {
    Frequency(u64),
    Rate(u32),
    Gain(u32),
    GainIndex(u8),
    Bandwidth(u32),
    Correction(i32),
    Reload,
}

/// "low byte first"; "unused high bytes are zero". None: "14 command, for an unknown operation or nonzero unused bytes".
pub fn decoded(bytes: &[u8; WHOLE]) -> Option<Command> {
    let [operation, argument @ ..] = bytes;
    let word = u64::from_le_bytes(*argument);
    Some(match operation {
        1 => Command::Frequency(word),
        2 => Command::Rate(word.try_into().ok()?),
        3 => Command::Gain(word.try_into().ok()?),
        4 => Command::GainIndex(word.try_into().ok()?),
        5 => Command::Bandwidth(word.try_into().ok()?),
        6 => Command::Correction(u32::try_from(word).ok()?.cast_signed()),
        7 if word == 0 => Command::Reload,
        _ => return None,
    })
}

/// What a host keeps of a stream: "a count and eight bytes, zeros after the pending ones". The pending ones, or None for bytes that are none.
pub fn pending(stream: &[u8]) -> Option<&[u8]> {
    let (&count, rest) = stream.split_first()?;
    let (pending, zeros) = rest.split_at_checked(count as usize)?;
    (rest.len() == WHOLE - 1 && zeros.iter().all(|&byte| byte == 0)).then_some(pending)
}

/// One feeding: the chunk up to one completed command, which goes to `made`. How many bytes were used, and what `made` gave; None for bytes that are no stream's.
pub fn feed<R>(stream: &mut [u8], chunk: &[u8], made: impl FnOnce(&[u8; WHOLE]) -> R) -> Option<(usize, Option<R>)> {
    let held = pending(stream)?.len();
    let Some(last) = chunk.get(..WHOLE - held) else {
        stream[1 + held..][..chunk.len()].copy_from_slice(chunk);
        stream[0] += chunk.len() as u8;
        return Some((chunk.len(), None));
    };
    let mut command = [0; WHOLE];
    command[..held].copy_from_slice(&stream[1..][..held]);
    command[held..].copy_from_slice(last);
    stream.fill(0);
    Some((last.len(), Some(made(&command))))
}
