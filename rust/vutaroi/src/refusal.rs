//! Why a byte or a call was refused.

use std::error::Error;
use std::fmt;
use std::num::NonZeroU8;

/// Why a byte or a call was refused: a number of document 01 or 02, or 40 or 41 of the library.
///
/// ```
/// use vutaroi::{Machine, Refusal};
///
/// let mut machine = Machine::fresh(-10000, -7000, 10000, 7000)?;
/// let refusal = machine.take(b'?').unwrap_err();
/// assert_eq!(refusal, Refusal::UNKNOWN);
/// assert_eq!(refusal.number(), 1);
/// assert_eq!(refusal.to_string(), "refused with 1");
/// # Ok::<(), Refusal>(())
/// ```
#[derive(Clone, Copy, Debug, PartialEq, Eq, PartialOrd, Ord, Hash)]
pub struct Refusal(NonZeroU8);

/// A number that is not 0.
const fn numbered(number: u8) -> Refusal {
    match Refusal::of(number) {
        Some(refusal) => refusal,
        None => panic!("0 is no refusal"),
    }
}

impl Refusal {
    /// Unknown byte or name, number with no instruction, not known in polygon mode.
    pub const UNKNOWN: Refusal = numbered(1);
    /// Count of numbers.
    pub const COUNT: Refusal = numbered(2);
    /// Number or setting out of range.
    pub const RANGE: Refusal = numbered(3);
    /// Location out of range.
    pub const LOCATION: Refusal = numbered(6);
    /// Too many polygon bytes.
    pub const POLYGON: Refusal = numbered(7);
    /// Bad hard limits.
    pub const LIMITS: Refusal = numbered(10);
    /// Take while a segment or a reply waits; feed and plot: a reply waits.
    pub const BUSY: Refusal = numbered(20);
    /// No record was free.
    pub const FULL: Refusal = numbered(21);
    /// Buffer shorter than the reply, which still waits.
    pub const BUFFER: Refusal = numbered(31);
    /// A stroke to be written has a pen other than 1 to 8, or an end outside -32768 to 32767.
    pub const UNWRITABLE: Refusal = numbered(32);
    /// Output too short for the text.
    pub const OUTPUT: Refusal = numbered(33);
    /// What was handed to the library is no machine: it was changed where it was kept, or it has
    /// another form.
    pub const NO_MACHINE: Refusal = numbered(40);

    /// The refusal with this number; none of 0.
    pub(crate) const fn of(number: u8) -> Option<Refusal> {
        match NonZeroU8::new(number) {
            Some(number) => Some(Refusal(number)),
            None => None,
        }
    }

    /// Its number.
    #[must_use]
    pub const fn number(self) -> u8 {
        self.0.get()
    }
}

impl fmt::Display for Refusal {
    fn fmt(&self, f: &mut fmt::Formatter<'_>) -> fmt::Result {
        write!(f, "refused with {}", self.number())
    }
}

impl Error for Refusal {}

/// A refused byte.
#[derive(Clone, Copy, Debug, PartialEq, Eq, Hash)]
pub struct Refused {
    /// Why.
    pub refusal: Refusal,
    /// The place of the byte among those of the call, counted from 1.
    pub byte: usize,
}

impl fmt::Display for Refused {
    fn fmt(&self, f: &mut fmt::Formatter<'_>) -> fmt::Result {
        write!(f, "byte {} {}", self.byte, self.refusal)
    }
}

impl Error for Refused {}
