//! A wrong answer, and the calls that led to it.

use std::ops::Range;

/// A call, its bytes by their places in the stream.
#[derive(Clone, PartialEq, Eq, Debug)]
pub(crate) enum Call {
    Take(u8),
    Draw,
    Look,
    Fetch(usize),
    Feed(Range<usize>, usize),
    Plot(Range<usize>, usize),
}

/// An answer that is not the one that is due.
#[derive(Clone, Debug)]
pub struct Difference {
    pub(crate) calls: Vec<Call>,
    pub(crate) answer: String,
    pub(crate) due: String,
}

impl Difference {
    /// Writes the calls, as a program that makes them, and the two answers to the last. A look
    /// changes nothing and is left out before the last call.
    pub fn explain(&self, limits: [i64; 4], stream: &[u8]) -> String {
        let [left, bottom, right, top] = limits;
        let mut text = format!(
            "let (mut machine, number) = Machine::fresh({left}, {bottom}, {right}, {top});\n"
        );
        let last = self.calls.len().saturating_sub(1);
        let mut calls = self.calls[..last].to_vec();
        calls.retain(|call| *call != Call::Look);
        calls.extend(self.calls.last().cloned());
        let mut rest = &calls[..];
        while let Some(call) = rest.first() {
            let (line, told) = match call {
                Call::Take(_) => takes(rest),
                call => (single(call, stream), 1),
            };
            text += &line;
            rest = &rest[told..];
        }
        format!("{text}// answered {}\n// due      {}\n", self.answer, self.due)
    }
}

/// The draws before another call.
fn draws(calls: &[Call]) -> usize {
    calls.iter().take_while(|call| **call == Call::Draw).count()
}

/// Takes that are each followed by the same number of draws, as one loop; how many calls it is.
fn takes(calls: &[Call]) -> (String, usize) {
    let each = draws(&calls[1..]);
    let mut bytes = Vec::new();
    let mut rest = calls;
    while let [Call::Take(byte), after @ ..] = rest {
        if draws(after) != each {
            break;
        }
        bytes.push(*byte);
        rest = &after[each..];
    }
    let draws = match each {
        0..=2 => "machine.draw(); ".repeat(each),
        _ => format!("for _ in 0..{each} {{ machine.draw(); }} "),
    };
    let told = bytes.len() * (1 + each);
    let bytes = bytes.escape_ascii();
    (format!("for byte in *b\"{bytes}\" {{ machine.take(byte); {draws}}}\n"), told)
}

fn single(call: &Call, stream: &[u8]) -> String {
    let block = |call: &str, record: &str, bytes: &Range<usize>, room: usize| {
        let bytes = stream[bytes.clone()].escape_ascii();
        format!("machine.{call}(b\"{bytes}\", &mut [{record}::default(); {room}]);\n")
    };
    match call {
        Call::Take(byte) => format!("machine.take({byte});\n"),
        Call::Draw => "machine.draw();\n".to_string(),
        Call::Look => "machine.look();\n".to_string(),
        Call::Fetch(room) => format!("machine.fetch(&mut [0; {room}]);\n"),
        Call::Feed(bytes, room) => block("feed", "Stroke", bytes, *room),
        Call::Plot(bytes, room) => block("plot", "Mark", bytes, *room),
    }
}
