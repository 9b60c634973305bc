//! Hard limits that have a name, those of the crate `arguments`: a test compares them with what the
//! proved program strokes answers.

use std::ffi::OsStr;

/// Left, bottom, right, top.
pub type Limits = [i64; 4];

/// Without limits.
pub const DEFAULT: Limits = [-10000, -7000, 10000, 7000];

/// The rinks of the project by their names.
pub const SHEETS: [(&str, Limits); 2] =
    [("hockey", [-30000, -15000, 30000, 15000]), ("curling", [-22860, -2500, 22860, 2500])];

/// The hard limits of a sheet.
pub fn named(name: &OsStr) -> Option<Limits> {
    SHEETS.iter().find(|(sheet, _)| name == *sheet).map(|&(_, limits)| limits)
}

/// All names, for people.
pub fn names() -> String {
    SHEETS.map(|(name, _)| name).join(", ")
}
