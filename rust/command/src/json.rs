//! JSON: a list with an object for each file, a mark a line.

use crate::form::Form;
use crate::sheets::Limits;
use crate::streams::Name;
use crate::text::Text;
use vutaroi::Stroke;

/// Strokes and refused bytes as objects.
#[derive(Default)]
pub struct Json {
    /// Whether a file, and a mark of this file, stand before, so that a comma is due.
    has_files: bool,
    has_marks: bool,
}

impl Form for Json {
    fn begin(&mut self, text: &mut Text) {
        text.push(b"[");
    }

    fn open(&mut self, text: &mut Text, name: &Name, limits: &Limits) {
        separate(text, &mut self.has_files);
        self.has_marks = false;
        text.push(b"{\"file\":");
        string(text, &name.given());
        text.push(b",\"limits\":[");
        text.push_numbers(limits, b',', b"");
        text.push(b"],\"marks\":[");
    }

    fn stroke(&mut self, text: &mut Text, &Stroke { pen, x0, y0, x1, y1 }: &Stroke) {
        separate(text, &mut self.has_marks);
        object(text, &[("pen", pen), ("x0", x0), ("y0", y0), ("x1", x1), ("y1", y1)]);
    }

    fn refused(&mut self, text: &mut Text, number: u8, byte: usize) {
        separate(text, &mut self.has_marks);
        object(text, &[("number", number.into()), ("byte", byte as i64)]);
    }

    fn close(&mut self, text: &mut Text, bytes: usize) {
        text.push(b"],\"bytes\":");
        text.push_number(bytes as i64);
        text.push(b"}");
    }

    fn end(&mut self, text: &mut Text) {
        text.push(b"]\n");
    }
}

/// A new line, after a comma if something stands before.
fn separate(text: &mut Text, has_some: &mut bool) {
    if std::mem::replace(has_some, true) {
        text.push(b",");
    }
    text.push(b"\n");
}

/// Numbers by names that need no escape.
fn object(text: &mut Text, members: &[(&str, i64)]) {
    for (place, &(name, number)) in members.iter().enumerate() {
        text.push(if place == 0 { b"{\"" } else { b",\"" });
        text.push(name.as_bytes());
        text.push(b"\":");
        text.push_number(number);
    }
    text.push(b"}");
}

/// A string: quotation marks, backslashes and control characters are escaped.
fn string(text: &mut Text, word: &str) {
    text.push(b"\"");
    for byte in word.bytes() {
        match byte {
            b'"' | b'\\' => text.push(&[b'\\', byte]),
            0..0x20 => text.push(format!("\\u{byte:04x}").as_bytes()),
            _ => text.push(&[byte]),
        }
    }
    text.push(b"\"");
}
