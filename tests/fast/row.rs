// What a plan's version fixes: the width of a row, and what follows from it.

use std::ops::{BitAnd, BitOr, Shl, Shr};

/// The most values that a variable has in any version.
pub const WIDEST: usize = 32;
/// The values of a list cell.
pub const HALF: usize = 16;
/// The first values of a variable, as many as a list cell holds.
pub const LOW_HALF: u32 = (1 << HALF) - 1;

/// A row of supports as it is kept, one bit for each value of a variable.
pub trait Row:
    Copy
    + Default
    + Into<u32>
    + BitAnd<Output = Self>
    + BitOr<Output = Self>
    + Shl<usize, Output = Self>
    + Shr<usize, Output = Self>
{
    /// The version byte.
    const VERSION: u8;
    /// The most values of a variable.
    const VALUES: usize;
    /// Bytes of a table's row.
    const BYTES: usize = Self::VALUES / 8;
    /// List cells of a variable.
    const CELLS: usize = Self::VALUES / HALF;
    /// The highest kind of a constraint.
    const HIGHEST_KIND: u8;

    fn cut(row: u32) -> Self;
}

impl Row for u16 {
    const VERSION: u8 = 1;
    const VALUES: usize = 16;
    const HIGHEST_KIND: u8 = 1;

    #[inline(always)]
    fn cut(row: u32) -> u16 {
        row as u16
    }
}

impl Row for u32 {
    const VERSION: u8 = 2;
    const VALUES: usize = WIDEST;
    const HIGHEST_KIND: u8 = 2;

    #[inline(always)]
    fn cut(row: u32) -> u32 {
        row
    }
}
