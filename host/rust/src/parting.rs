use crate::{Entries, Error, raw};

/// Whose entries a [`Part`] holds.
#[derive(Clone, Copy, Debug, PartialEq, Eq, Hash)]
pub enum Whose {
    /// The first section goes on where the second has ended.
    First,
    /// The second section, from its first entry that differs, or that the first lacks; or neither goes on.
    Second,
}

/// Where two sections part: the entries from there on, borrowed from the slice that they stand in.
#[derive(Clone, Copy, Debug, PartialEq, Eq, Hash)]
pub struct Part<'a> {
    /// Whose entries these are.
    pub whose: Whose,
    /// How many entries before them are the same steps in both sections: the index of the first of these.
    pub index: usize,
    /// Their bytes, 16 each, without a trailer; none where the sections are equal.
    pub bytes: &'a [u8],
}

impl<'a> Part<'a> {
    /// The entries in order.
    pub fn iter(&self) -> Entries<'a> {
        Entries::of(self.bytes)
    }

    /// How many there are.
    pub fn len(&self) -> usize {
        self.iter().len()
    }

    /// Whether there is none: the sections have the same steps.
    pub fn is_empty(&self) -> bool {
        self.bytes.is_empty()
    }
}

impl<'a> IntoIterator for &Part<'a> {
    type Item = crate::Entry<'a>;
    type IntoIter = Entries<'a>;

    fn into_iter(self) -> Entries<'a> {
        self.iter()
    }
}

/// Where the sections in which two slices end part: the second's entries from the first that differs from the first section's, or that the first
/// lacks; where the second ends first, the rest of the first. Outcomes and what reads gave are not compared. What stands before either section is
/// not looked at.
///
/// ```
/// use pasetone::{Script, Tuner, TunerKind, Whose, parting};
///
/// let mut tuner = Tuner::new(TunerKind::R828d, 0x74, 28_800_000)?;
/// let last_night = tuner.set_bandwidth(2_048_000, &Script::all_done()).transcript;
/// let tonight = tuner.set_bandwidth(6_500_000, &Script::all_done()).transcript;
/// let part = parting(last_night.bytes(), tonight.bytes())?;
/// assert_eq!((part.whose, part.index, part.len()), (Whose::Second, 1, 2));
/// assert_eq!(part.iter().next().unwrap().words(), "I2C write 0x74: 0x0a <- d6");
/// # Ok::<(), pasetone::Error>(())
/// ```
///
/// # Errors
///
/// - [`Error::Section`] (12): one of the slices ends in no section.
pub fn parting<'a>(first: &'a [u8], second: &'a [u8]) -> Result<Part<'a>, Error> {
    // SAFETY: see raw.rs; both slices are only read, so it does not matter if they overlap.
    let place = unsafe { raw::pasetone_parting(first.as_ptr(), first.len(), second.as_ptr(), second.len()) };
    if let Some(error) = Error::of(place.refusal, 0) {
        return Err(error);
    }
    let (whose, from) = if place.whose == 1 { (Whose::First, first) } else { (Whose::Second, second) };
    let start = place.start as usize;
    Ok(Part { whose, index: place.index as usize, bytes: &from[start..start + 16 * place.count as usize] })
}
