//! Feed: bytes in, strokes out into a lent list.

use crate::machine::{Drawn, Machine, Stroke};
use crate::number;

/// The answer of [`Machine::feed`].
#[derive(Clone, Copy, PartialEq, Eq, Debug, Default)]
pub struct Fed {
    /// Bytes taken, a refused one included, but not one that meets a waiting reply (20).
    pub taken: usize,
    /// Strokes stored, from the first record on.
    pub stored: usize,
    /// 0, the number of the refused byte, or 21.
    pub number: u8,
}

impl Machine {
    /// Takes bytes and draws until the bytes are used up, a byte is refused, or a segment
    /// waits and the list has no free record (21). Records after those stored keep their
    /// content.
    pub fn feed(&mut self, bytes: &[u8], out: &mut [Stroke]) -> Fed {
        let mut fed = Fed::default();
        loop {
            while self.waits() {
                let Some(record) = out.get_mut(fed.stored) else {
                    fed.number = number::FULL;
                    return fed;
                };
                if let Drawn::Stroke(stroke) = self.draw() {
                    *record = stroke;
                    fed.stored += 1;
                }
            }
            let Some(&byte) = bytes.get(fed.taken) else {
                return fed;
            };
            match self.take(byte) {
                number::NONE => fed.taken += 1,
                refused => {
                    // No segment waits here, so 20 is a reply's.
                    fed.taken += usize::from(refused != number::WAITS);
                    fed.number = refused;
                    return fed;
                }
            }
        }
    }
}
