//! Lines as the program strokes prints them.

use crate::form::Form;
use crate::text::Text;
use vutaroi::Stroke;

/// A line for each stroke and each refused byte, and the replies.
pub struct Lines;

impl Form for Lines {
    fn stroke(&mut self, text: &mut Text, &Stroke { pen, x0, y0, x1, y1 }: &Stroke) {
        text.push_numbers(&[pen, x0, y0, x1, y1], b' ', b"\n");
    }

    fn refused(&mut self, text: &mut Text, number: u8, byte: usize) {
        text.push(b"E ");
        text.push_numbers(&[number.into(), byte as i64], b' ', b"\n");
    }

    fn reply(&mut self, text: &mut Text, reply: &[u8]) -> bool {
        text.push(reply);
        true
    }
}
