//! A table with commas (RFC 4180, but for the ends of its lines, which are those of this system).

use crate::form::Form;
use crate::sheets::Limits;
use crate::streams::Name;
use crate::text::Text;
use vutaroi::Stroke;

/// A row for each stroke and each refused byte.
#[derive(Default)]
pub struct Csv {
    /// The file's name, as it stands in each of its rows.
    file: Vec<u8>,
}

impl Form for Csv {
    fn begin(&mut self, text: &mut Text) {
        text.push(b"file,kind,pen,x0,y0,x1,y1,number,byte\n");
    }

    fn open(&mut self, _: &mut Text, name: &Name, _: &Limits) {
        self.file = quoted(&name.given()).into_bytes();
    }

    fn stroke(&mut self, text: &mut Text, &Stroke { pen, x0, y0, x1, y1 }: &Stroke) {
        text.push(&self.file);
        text.push(b",stroke,");
        text.push_numbers(&[pen, x0, y0, x1, y1], b',', b",,\n");
    }

    fn refused(&mut self, text: &mut Text, number: u8, byte: usize) {
        text.push(&self.file);
        text.push(b",refusal,,,,,,");
        text.push_numbers(&[number.into(), byte as i64], b',', b"\n");
    }
}

/// A word as a field: in quotation marks, and its own doubled, where it has a byte that ends a field.
fn quoted(word: &str) -> String {
    if !word.contains(['"', ',', '\r', '\n']) {
        return word.into();
    }
    format!("\"{}\"", word.replace('"', "\"\""))
}
