//! What sections say: of a chip, of a night, of two nights.
pub mod align;
pub mod begins;
pub mod day;
pub mod hops;
pub mod nights;
pub mod page;
pub mod places;
pub mod sides;
pub mod told;
pub mod verdict;
