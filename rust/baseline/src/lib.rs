//! An HP-GL machine for painting rink lines.
//!
//! This crate is a plain Rust implementation of document 01, the specification of the
//! project, with change requests 1 (arcs), 2 (the fifth decimal), 3 (half and three-quarter turns),
//! 4 (line types), 5 (replies) and 6 (strokes back into HP-GL) of document 02, written from these
//! texts alone. It serves two ends: a partner that another implementation is compared with byte by
//! byte, and a baseline of speed.
//!
//! Four layers stand one above another:
//!
//! * [`reader`]: bytes become names, numbers and ends of instructions; it knows no paper.
//! * [`geometry`]: rounding, scaling, the turns, the clip and the manual's line types.
//! * [`Machine`]: settings, position, pen, polygon, waiting segments.
//! * [`Machine::feed`] and [`drive`]: bytes in, strokes out; strokes to moves of the drive.
//!
//! The way back, [`write`](write()), needs none of them: strokes in, bytes out.
//!
//! Beside them, [`exact`] is a slow model in exact arithmetic that checks the painted
//! strokes against the exact lines (condition 3). It shares nothing with the machine but
//! the table of sines and the record types.
//!
//! ```
//! use baseline::{Machine, Stroke};
//! let (mut machine, number) = Machine::fresh(-10000, -7000, 10000, 7000);
//! assert_eq!(number, 0);
//! let mut list = [Stroke::default(); 8];
//! let fed = machine.feed(b"SP1;PD100,50;", &mut list);
//! assert_eq!((fed.taken, fed.stored, fed.number), (13, 1, 0));
//! assert_eq!(list[0], Stroke { pen: 1, x0: 0, y0: 0, x1: 100, y1: 50 });
//! ```

#![forbid(unsafe_code)]

mod drive;
pub mod exact;
mod feed;
pub mod geometry;
mod machine;
pub mod reader;
mod reply;
pub mod sines;
mod wide;
mod write;

pub use drive::{drive, Move, Moves, Place};
pub use feed::Fed;
pub use machine::{Drawn, Look, Machine, Stroke};
pub use reply::LONGEST_REPLY;
pub use write::{write, Record};

/// The numbers of document 01, "Causes and numbers".
pub mod number {
    /// Nothing was refused.
    pub const NONE: u8 = 0;
    /// Unknown byte or name, number with no instruction, not known in polygon mode.
    pub const UNKNOWN: u8 = 1;
    /// Count of numbers.
    pub const COUNT: u8 = 2;
    /// Number or setting out of range.
    pub const RANGE: u8 = 3;
    /// Location out of range.
    pub const LOCATION: u8 = 6;
    /// Polygon bytes.
    pub const POLYGON: u8 = 7;
    /// Bad hard limits.
    pub const LIMITS: u8 = 10;
    /// Pitch code.
    pub const PITCH: u8 = 11;
    /// Stroke end out of the drive's range.
    pub const DRIVE: u8 = 12;
    /// Take while a segment or a reply waits.
    pub const WAITS: u8 = 20;
    /// Feed: the list is full.
    pub const FULL: u8 = 21;
    /// Fetch: the buffer is shorter than the reply.
    pub const SHORT: u8 = 31;
    /// Write: a stroke with another pen than 1 to 8, or an end of more than 16 bits.
    pub const STROKE: u8 = 32;
    /// Write: the output is shorter than the text.
    pub const OUTPUT: u8 = 33;
}
