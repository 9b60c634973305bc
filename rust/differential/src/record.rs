//! Every answer of a library on fixed streams, as a line for each stream, so that two versions of
//! it can be compared though no program can link both.
//!
//! The streams are without what a change is about ([`Without`]): whether a library knows arcs, rounds
//! the fifth decimal, turns by more than a quarter, or makes replies, makes no difference to them. A
//! change that is to change no answer has all streams.

use crate::dice::Dice;
use crate::partner::{Partner, Record};
use crate::streams::Family;
use baseline::{number, Drawn, Fed, Look};

/// What the streams of a record are without.
#[derive(Clone, Copy, PartialEq, Eq, Debug)]
pub enum Without {
    /// AA and AR are made names that are not known, and there are none of the families from arcs on.
    Arcs,
    /// No number has more than four decimals, and there are none of the families from turns on.
    FifthDecimals,
    /// No RO has a number that rounds to 180 or 270, and there are none of the families from line
    /// types on.
    FurtherTurns,
    /// OA, OP, OW, OH and OE are made names that are not known, and there are none of the last family.
    Replies,
    /// Every family, its streams as they are.
    Nothing,
}

impl Without {
    /// The families of which streams are recorded.
    pub fn families(self) -> &'static [Family] {
        match self {
            Without::Arcs => &Family::ALL[..6],
            Without::FifthDecimals => &Family::ALL[..8],
            Without::FurtherTurns => &Family::ALL[..9],
            Without::Replies => &Family::ALL[..10],
            Without::Nothing => &Family::ALL,
        }
    }

    /// The stream without that.
    pub fn leave_out(self, stream: Vec<u8>) -> Vec<u8> {
        match self {
            Without::Arcs => without_arcs(stream),
            Without::FifthDecimals => four_decimals(stream),
            Without::FurtherTurns => quarter_turns(stream),
            Without::Replies => without_replies(stream),
            Without::Nothing => stream,
        }
    }
}

/// The bytes of each family.
pub const BYTES: usize = 400_000;

/// The stream with each of these names, of either case, made one that is not known.
fn without_names(mut stream: Vec<u8>, names: &[&[u8; 2]]) -> Vec<u8> {
    for at in 1..stream.len() {
        let name = [stream[at - 1], stream[at]].map(|byte| byte.to_ascii_uppercase());
        if names.contains(&&name) {
            stream[at] = b'Z';
        }
    }
    stream
}

/// The stream without AA and AR.
pub fn without_arcs(stream: Vec<u8>) -> Vec<u8> {
    without_names(stream, &[b"AA", b"AR"])
}

/// The stream without OA, OP, OW, OH and OE.
pub fn without_replies(stream: Vec<u8>) -> Vec<u8> {
    without_names(stream, &[b"OA", b"OP", b"OW", b"OH", b"OE"])
}

/// The stream with at most four digits after each point.
pub fn four_decimals(mut stream: Vec<u8>) -> Vec<u8> {
    // Digits since the last point, while nothing else has come.
    let mut decimals = None;
    stream.retain(|byte| {
        decimals = match (byte, decimals) {
            (b'.', _) => Some(0),
            (b'0'..=b'9', Some(before)) => Some(before + 1),
            _ => None,
        };
        decimals.is_none_or(|count| count <= 4)
    });
    stream
}

/// The stream with each RO whose number is near 180 or 270 made a name that is not known. Near is what
/// rounds to it, and a little beside: numbers of any length are read as floats.
pub fn quarter_turns(mut stream: Vec<u8>) -> Vec<u8> {
    for at in 1..stream.len() {
        let name = [stream[at - 1], stream[at]].map(|byte| byte.to_ascii_uppercase());
        if name == *b"RO" && is_further_turn(&stream[at + 1..]) {
            stream[at] = b'Z';
        }
    }
    stream
}

/// Whether the first number after a name is near 180 or 270.
fn is_further_turn(after: &[u8]) -> bool {
    let blanks = after.iter().take_while(|byte| b"\t\n\r ,".contains(byte)).count();
    let in_number = |byte: &&u8| byte.is_ascii_digit() || b"+-.".contains(byte);
    let number: Vec<u8> = after[blanks..].iter().take_while(in_number).copied().collect();
    let value = String::from_utf8_lossy(&number).parse::<f64>();
    value.is_ok_and(|value| [180.0, 270.0].iter().any(|turn| (value - turn).abs() < 0.51))
}

/// A sum over all answers in order.
#[derive(Clone, Debug)]
struct Sum(u64);

impl Sum {
    fn add(&mut self, values: &[i64]) {
        for &value in values {
            self.0 = (self.0 ^ value as u64).wrapping_mul(0x0100_0000_01b3).rotate_left(23);
        }
    }

    fn look(&mut self, Look { x, y, pen, down, bytes }: Look) {
        self.add(&[x, y, i64::from(pen), i64::from(down), bytes as i64]);
    }

    fn draw(&mut self, drawn: Drawn) {
        match drawn {
            Drawn::Idle => self.add(&[-1]),
            Drawn::Hidden => self.add(&[-2]),
            Drawn::Stroke(s) => self.add(&[i64::from(s.pen), s.x0, s.y0, s.x1, s.y1]),
        }
    }

    /// A fetch, every byte of the lent buffer included.
    fn fetch<P: Partner>(&mut self, machine: &mut P) {
        let mut buffer = [7; 40];
        let (length, number) = machine.fetch(&mut buffer);
        self.add(&[length as i64, i64::from(number)]);
        self.add(&buffer.map(i64::from));
    }

    fn fed(&mut self, fed: Fed, records: &[Record]) {
        self.add(&[fed.taken as i64, fed.stored as i64, i64::from(fed.number)]);
        records.iter().for_each(|record| self.add(record));
    }
}

/// The sum of take, look and draw: a byte that is refused with 20 is sent again after a draw and a
/// fetch.
fn by_calls<P: Partner>(limits: [i64; 4], stream: &[u8]) -> u64 {
    let (mut machine, number) = P::fresh(limits);
    let mut sum = Sum(u64::from(number));
    let mut rest = stream;
    while let [byte, after @ ..] = rest {
        let number = machine.take(*byte);
        sum.add(&[i64::from(number)]);
        sum.look(machine.look());
        if number == number::WAITS {
            sum.draw(machine.draw());
            sum.fetch(&mut machine);
        } else {
            rest = after;
        }
    }
    sum.draw(machine.draw());
    sum.0
}

/// The bytes of a call of feed or plot.
const BLOCK: usize = 97;

/// The records that a call of feed or plot is lent.
const ROOM: usize = 5;

/// The sum of feed or plot in blocks, every record of the lent list included.
fn by_blocks<P: Partner>(
    limits: [i64; 4],
    stream: &[u8],
    call: fn(&mut P, &[u8], &mut [Record]) -> Fed,
) -> u64 {
    let mut machine = P::fresh(limits).0;
    let (mut sum, mut at) = (Sum(0), 0);
    loop {
        let mut records = [[-7; 5]; ROOM];
        let end = (at + BLOCK).min(stream.len());
        let fed = call(&mut machine, &stream[at..end], &mut records);
        sum.fed(fed, &records);
        sum.look(machine.look());
        if fed.number == number::WAITS {
            sum.fetch(&mut machine);
        }
        at += fed.taken;
        if at == stream.len() && fed.number == number::NONE {
            return sum.0;
        }
    }
}

/// A line: where the stream comes from, its length, and the sums of the answers.
fn line<P: Partner>(origin: &str, limits: [i64; 4], stream: &[u8]) -> String {
    let sums = [
        by_calls::<P>(limits, stream),
        by_blocks::<P>(limits, stream, P::feed),
        by_blocks::<P>(limits, stream, P::plot),
    ];
    let [calls, feed, plot] = sums;
    format!("{origin} {} bytes {calls:016x} {feed:016x} {plot:016x}", stream.len())
}

/// The streams of a family until `bytes` bytes are generated, each with its hard limits.
pub fn recorded(without: Without, family: Family, bytes: usize) -> Vec<([i64; 4], Vec<u8>)> {
    let mut dice = Dice::new(family as u64);
    let (mut streams, mut generated) = (Vec::new(), 0);
    while generated < bytes {
        let stream = without.leave_out(family.stream(&mut dice));
        generated += stream.len();
        streams.push((family.limits(&mut dice), stream));
    }
    streams
}

/// The lines of a family.
pub fn lines<P: Partner>(without: Without, family: Family, bytes: usize) -> Vec<String> {
    let numbered = recorded(without, family, bytes).into_iter().enumerate();
    numbered
        .map(|(at, (limits, stream))| line::<P>(&format!("{family:?} {at}"), limits, &stream))
        .collect()
}
