//! Drive moves: strokes in millimetres.

use crate::machine::Stroke;
use crate::number;

/// A place of the drive, in millimetres.
#[derive(Clone, Copy, PartialEq, Debug)]
#[allow(missing_docs)]
pub struct Place {
    pub x: f32,
    pub y: f32,
}

/// One move of the drive.
#[derive(Clone, Copy, PartialEq, Debug)]
pub enum Move {
    /// To the start of a stroke, not painting.
    Travel(Place),
    /// To the end of a stroke, painting.
    Paint(Place),
    /// Paint on one place.
    Dot(Place),
}

/// The moves of one stroke.
#[derive(Clone, Copy, PartialEq, Debug)]
pub enum Moves {
    /// A dot.
    One(Move),
    /// A travel, then a paint move.
    Two(Move, Move),
}

/// Millimetres a unit, by pitch code.
const PITCHES: [f32; 4] = [0.125, 0.25, 0.5, 1.0];

/// The moves of a stroke at a pitch code of 0 to 3, or 11 or 12.
///
/// A whole number of 16 bits times a power of two is exact in f32, and a whole 0 gives
/// plus zero.
pub fn drive(stroke: Stroke, pitch: i64) -> Result<Moves, u8> {
    let pitch =
        usize::try_from(pitch).ok().and_then(|code| PITCHES.get(code)).ok_or(number::PITCH)?;
    let place = |x: i64, y: i64| -> Result<Place, u8> {
        let x = i16::try_from(x).map_err(|_| number::DRIVE)?;
        let y = i16::try_from(y).map_err(|_| number::DRIVE)?;
        Ok(Place { x: f32::from(x) * pitch, y: f32::from(y) * pitch })
    };
    let start = place(stroke.x0, stroke.y0)?;
    let end = place(stroke.x1, stroke.y1)?;
    if start == end {
        Ok(Moves::One(Move::Dot(start)))
    } else {
        Ok(Moves::Two(Move::Travel(start), Move::Paint(end)))
    }
}
