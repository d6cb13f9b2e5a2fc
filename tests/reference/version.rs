// What a plan's version fixes.

/// The most labels of a plan, in either version.
pub const MOST_LABELS: usize = 512;

/// What the version byte fixes.
#[derive(Clone, Copy, Debug, PartialEq, Eq)]
pub struct Version {
    pub byte: u8,
    /// The most values of a variable, and so the bits of a table's row.
    pub values: usize,
    /// Bytes of a table's row.
    pub row_bytes: usize,
    /// List cells of a variable.
    pub cells: usize,
    /// The highest kind of a constraint.
    pub highest_kind: u8,
}

pub const ONE: Version = Version { byte: 1, values: 16, row_bytes: 2, cells: 1, highest_kind: 1 };
pub const TWO: Version = Version { byte: 2, values: 32, row_bytes: 4, cells: 2, highest_kind: 2 };
pub const VERSIONS: [Version; 2] = [ONE, TWO];

impl Version {
    /// The version that this byte names, if there is one.
    pub fn of_byte(byte: u8) -> Option<Version> {
        VERSIONS.into_iter().find(|version| version.byte == byte)
    }
}
