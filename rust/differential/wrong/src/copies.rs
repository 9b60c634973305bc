//! A copy in the library's place.

use differential::hunt::{hunt, Finding};
use differential::partner::Partner;
use differential::streams::Family;

/// The finding in streams of this family, its input at most `most` bytes long.
pub fn found<P: Partner>(family: Family, most: usize) -> Finding {
    let Err(finding) = hunt::<P>(family, 1, 200_000) else {
        panic!("the fault was not found");
    };
    println!("{finding}");
    assert!(finding.input.len() <= most, "not shrunk: {finding}");
    *finding
}

/// A wrong copy as a partner, and the test that it is found in streams of a family.
macro_rules! fault {
    ($family:ident, $name:ident, $most:expr) => {
        impl Partner for wrong::$name::machine::Machine {
            fn fresh([left, bottom, right, top]: [i64; 4]) -> (Self, u8) {
                Self::fresh(left, bottom, right, top)
            }
            fn take(&mut self, byte: u8) -> u8 {
                self.take(byte)
            }
            fn draw(&mut self) -> Drawn {
                use wrong::$name::machine::{Drawn as Answer, Stroke as Wrong};
                match self.draw() {
                    Answer::Idle => Drawn::Idle,
                    Answer::Hidden => Drawn::Hidden,
                    Answer::Stroke(Wrong { pen, x0, y0, x1, y1 }) => {
                        Drawn::Stroke(Stroke { pen, x0, y0, x1, y1 })
                    }
                }
            }
            fn look(&self) -> Look {
                let wrong::$name::machine::Look { x, y, pen, down, bytes } = self.look();
                Look { x, y, pen, down, bytes }
            }
            fn fetch(&mut self, buffer: &mut [u8]) -> (usize, u8) {
                self.fetch(buffer)
            }
            fn feed(&mut self, bytes: &[u8], records: &mut [Record]) -> Fed {
                let mut list = vec![Default::default(); records.len()];
                let wrong::$name::feed::Fed { taken, stored, number } = self.feed(bytes, &mut list);
                for (kept, s) in records.iter_mut().zip(&list[..stored]) {
                    *kept = [i64::from(s.pen), s.x0, s.y0, s.x1, s.y1];
                }
                Fed { taken, stored, number }
            }
            fn plot(&mut self, bytes: &[u8], records: &mut [Record]) -> Fed {
                differential::due::plot(self, Self::waits, bytes, records)
            }
        }

        #[test]
        fn $name() {
            crate::copies::found::<wrong::$name::machine::Machine>(Family::$family, $most);
        }
    };
}
