//! The reader of bytes. It knows names, numbers and counts, and nothing of paper.
//!
//! One byte leads to at most one [`Event`]: a byte that ends the second number of a pair
//! cannot also find a wrong count, and the other instructions act only at their end.

use crate::number;

/// The instructions: the sixteen of document 01, the arcs of change request 1 and the replies of 5.
#[derive(Clone, Copy, PartialEq, Eq, Debug)]
#[allow(missing_docs)]
pub enum Op {
    In,
    Df,
    Ep,
    Ip,
    Sc,
    Iw,
    Ro,
    Sp,
    Pm,
    Ci,
    Ea,
    Er,
    Pu,
    Pd,
    Pa,
    Pr,
    Aa,
    Ar,
    Oa,
    Op,
    Ow,
    Oh,
    Oe,
}

impl Op {
    /// PU, PD, PA and PR: their pairs are carried out one by one.
    #[inline]
    pub const fn is_move(self) -> bool {
        matches!(self, Op::Pu | Op::Pd | Op::Pa | Op::Pr)
    }
}

/// A line of the table of instructions: `least`, `least + step`, .. up to `most` numbers.
#[derive(Clone, Copy, Debug)]
pub struct Instruction {
    /// The two letters.
    pub name: [u8; 2],
    /// What it is.
    pub op: Op,
    /// The least count of numbers.
    pub least: u8,
    /// The most, or [`ANY`].
    pub most: u8,
    /// The step between allowed counts.
    pub step: u8,
}

/// No upper limit to the count of numbers.
pub const ANY: u8 = u8::MAX;

const fn line(name: &[u8; 2], op: Op, least: u8, most: u8, step: u8) -> Instruction {
    Instruction { name: *name, op, least, most, step }
}

/// The table of instructions, in the order of [`Op`].
pub const INSTRUCTIONS: [Instruction; 23] = [
    line(b"IN", Op::In, 0, 0, 1),
    line(b"DF", Op::Df, 0, 0, 1),
    line(b"EP", Op::Ep, 0, 0, 1),
    line(b"IP", Op::Ip, 0, 4, 2),
    line(b"SC", Op::Sc, 0, 4, 4),
    line(b"IW", Op::Iw, 0, 4, 4),
    line(b"RO", Op::Ro, 0, 1, 1),
    line(b"SP", Op::Sp, 0, 1, 1),
    line(b"PM", Op::Pm, 0, 1, 1),
    line(b"CI", Op::Ci, 1, 2, 1),
    line(b"EA", Op::Ea, 2, 2, 1),
    line(b"ER", Op::Er, 2, 2, 1),
    line(b"PU", Op::Pu, 0, ANY, 2),
    line(b"PD", Op::Pd, 0, ANY, 2),
    line(b"PA", Op::Pa, 0, ANY, 2),
    line(b"PR", Op::Pr, 0, ANY, 2),
    line(b"AA", Op::Aa, 3, 4, 1),
    line(b"AR", Op::Ar, 3, 4, 1),
    line(b"OA", Op::Oa, 0, 0, 1),
    line(b"OP", Op::Op, 0, 0, 1),
    line(b"OW", Op::Ow, 0, 0, 1),
    line(b"OH", Op::Oh, 0, 0, 1),
    line(b"OE", Op::Oe, 0, 0, 1),
];

/// Place of two letters, of either case, in [`NAMES`].
const fn slot(first: u8, second: u8) -> usize {
    ((first & 31) as usize) << 5 | (second & 31) as usize
}

const NO_NAME: u8 = 0xff;
const LABEL: u8 = 0xfe;

/// Index into [`INSTRUCTIONS`] for each two letters.
const NAMES: [u8; 1024] = {
    let mut names = [NO_NAME; 1024];
    let mut i = 0;
    while i < INSTRUCTIONS.len() {
        names[slot(INSTRUCTIONS[i].name[0], INSTRUCTIONS[i].name[1])] = i as u8;
        i += 1;
    }
    names[slot(b'L', b'B')] = LABEL;
    names
};

#[derive(Clone, Copy, PartialEq, Eq)]
enum Class {
    Blank,
    Semicolon,
    Letter,
    Digit,
    Sign,
    Point,
    Other,
}

const CLASSES: [Class; 256] = {
    let mut classes = [Class::Other; 256];
    let mut b = 0;
    while b < 256 {
        classes[b] = match b as u8 {
            9 | 10 | 13 | b' ' | b',' => Class::Blank,
            b';' => Class::Semicolon,
            b'A'..=b'Z' | b'a'..=b'z' => Class::Letter,
            b'0'..=b'9' => Class::Digit,
            b'+' | b'-' => Class::Sign,
            b'.' => Class::Point,
            _ => Class::Other,
        };
        b += 1;
    }
    classes
};

/// What a byte led to.
#[derive(Clone, Copy, PartialEq, Eq, Debug)]
pub enum Event {
    /// Nothing to do for the layer above.
    Quiet,
    /// The byte is refused with this number.
    Refused(u8),
    /// The second letter of a name: see [`Reader::op`].
    Name,
    /// The second number of a pair has ended: see [`Reader::numbers`].
    Pair,
    /// The instruction has ended, its count is right: see [`Reader::given`].
    Perform,
}

#[derive(Clone, Copy, PartialEq, Eq, Debug)]
enum State {
    /// Between instructions.
    Idle,
    /// After a first letter.
    First,
    /// In an instruction, no number open.
    Gap,
    /// In an instruction, a number open.
    Number,
    /// After a refusal, up to a semicolon or letter.
    Pass,
    /// In the text of LB, up to byte 3.
    Label,
}

/// Beyond any number in range; the whole part stays here however many digits follow.
const WHOLE_CAP: i32 = 40_000;

/// The least number, in ten-thousandths.
pub const LEAST: i64 = -327_680_000;
/// The most, in ten-thousandths.
pub const MOST: i64 = 327_679_999;

/// Reads bytes one at a time.
#[derive(Clone, Debug)]
pub struct Reader {
    state: State,
    /// The first letter of a name.
    first: u8,
    op: Op,
    /// Numbers stored; for a move instruction, those of the open pair.
    count: u8,
    negative: bool,
    point: bool,
    digit: bool,
    /// Decimals kept, at most five.
    places: u8,
    whole: i32,
    decimals: i32,
    /// A decimal after the kept ones is not 0.
    beyond: bool,
    numbers: [i64; 4],
}

impl Default for Reader {
    fn default() -> Self {
        Self::new()
    }
}

impl Reader {
    /// A reader between instructions.
    pub const fn new() -> Self {
        Reader {
            state: State::Idle,
            first: 0,
            op: Op::In,
            count: 0,
            negative: false,
            point: false,
            digit: false,
            places: 0,
            whole: 0,
            decimals: 0,
            beyond: false,
            numbers: [0; 4],
        }
    }

    /// The instruction named last.
    #[inline]
    pub fn op(&self) -> Op {
        self.op
    }

    /// The numbers, in ten-thousandths; a pair stands in the first two.
    #[inline]
    pub fn numbers(&self) -> &[i64; 4] {
        &self.numbers
    }

    /// The numbers given to the instruction that has ended.
    #[inline]
    pub fn given(&self) -> &[i64] {
        &self.numbers[..usize::from(self.count)]
    }

    /// The layer above refused the event of this byte: the rest is passed over, unless
    /// the byte ended the instruction.
    #[inline]
    pub fn refuse(&mut self) {
        if self.state == State::Gap {
            self.state = State::Pass;
        }
    }

    /// Reads a digit of an open number; answers false, and does nothing, for anything else.
    #[inline]
    pub fn step_digit(&mut self, byte: u8) -> bool {
        let more = self.state == State::Number && byte.is_ascii_digit();
        if more {
            self.add_digit(byte);
        }
        more
    }

    /// Reads one byte.
    #[inline]
    pub fn step(&mut self, byte: u8) -> Event {
        let class = CLASSES[usize::from(byte)];
        match self.state {
            State::Number => match class {
                Class::Digit => {
                    self.add_digit(byte);
                    Event::Quiet
                }
                Class::Point if !self.point => {
                    self.point = true;
                    Event::Quiet
                }
                Class::Sign | Class::Point => self.pass(number::RANGE),
                Class::Other => self.pass(number::UNKNOWN),
                Class::Blank | Class::Semicolon | Class::Letter => self.close(byte, class),
            },
            State::Gap => match class {
                Class::Blank => Event::Quiet,
                Class::Digit | Class::Sign | Class::Point => {
                    self.open(byte, class);
                    Event::Quiet
                }
                Class::Semicolon | Class::Letter => {
                    self.leave(byte, class);
                    self.end()
                }
                Class::Other => self.pass(number::UNKNOWN),
            },
            State::First => match class {
                Class::Letter => self.name(byte),
                Class::Semicolon => {
                    self.state = State::Idle;
                    Event::Refused(number::UNKNOWN)
                }
                _ => self.pass(number::UNKNOWN),
            },
            State::Idle => match class {
                Class::Blank | Class::Semicolon => Event::Quiet,
                Class::Letter => {
                    self.leave(byte, class);
                    Event::Quiet
                }
                _ => self.pass(number::UNKNOWN),
            },
            State::Pass => {
                self.leave(byte, class);
                Event::Quiet
            }
            State::Label => {
                if byte == 3 {
                    self.state = State::Idle;
                }
                Event::Quiet
            }
        }
    }

    /// Refuses the byte and passes over the rest.
    #[inline]
    fn pass(&mut self, number: u8) -> Event {
        self.state = State::Pass;
        Event::Refused(number)
    }

    /// A semicolon or letter plays its usual part; other bytes change nothing.
    #[inline]
    fn leave(&mut self, byte: u8, class: Class) {
        match class {
            Class::Semicolon => self.state = State::Idle,
            Class::Letter => {
                self.first = byte;
                self.state = State::First;
            }
            _ => {}
        }
    }

    #[inline]
    fn name(&mut self, second: u8) -> Event {
        match NAMES[slot(self.first, second)] {
            NO_NAME => self.pass(number::UNKNOWN),
            LABEL => {
                self.state = State::Label;
                Event::Refused(number::UNKNOWN)
            }
            index => {
                self.op = INSTRUCTIONS[usize::from(index)].op;
                self.count = 0;
                self.state = State::Gap;
                Event::Name
            }
        }
    }

    /// Opens a number with its first byte: a digit, sign or point. Signs and digits come in
    /// no order a processor could foresee, so there is no branch on them.
    #[inline]
    fn open(&mut self, byte: u8, class: Class) {
        self.state = State::Number;
        self.negative = byte == b'-';
        self.point = class == Class::Point;
        self.digit = class == Class::Digit;
        self.places = 0;
        self.whole = i32::from(byte & 15) * i32::from(self.digit);
        self.decimals = 0;
        self.beyond = false;
    }

    #[inline]
    fn add_digit(&mut self, byte: u8) {
        let digit = i32::from(byte - b'0');
        self.digit = true;
        if !self.point {
            self.whole = (self.whole * 10 + digit).min(WHOLE_CAP);
        } else if self.places < 5 {
            self.decimals = self.decimals * 10 + digit;
            self.places += 1;
        } else {
            self.beyond |= digit != 0;
        }
    }

    /// With the sign of the open number.
    #[inline]
    fn signed(&self, size: i64) -> i64 {
        if self.negative {
            -size
        } else {
            size
        }
    }

    /// The nearest ten-thousandth to a number of five decimals or more, a half going to the larger
    /// number. It is reckoned in millionths, one of which stands for all that follows the fifth
    /// decimal: anything but zeros there moves the number off a half, and never as far as the next.
    #[inline]
    fn nearest(&self) -> i64 {
        let size = i64::from(self.whole) * 1_000_000
            + i64::from(self.decimals) * 10
            + i64::from(self.beyond);
        (self.signed(size) + 50).div_euclid(100)
    }

    /// The open number in ten-thousandths, if it has a digit and they are in range.
    #[inline]
    fn value(&self) -> Option<i64> {
        const TENS: [i64; 5] = [10_000, 1_000, 100, 10, 1];
        let value = match TENS.get(usize::from(self.places)) {
            Some(tens) => {
                self.signed(i64::from(self.whole) * 10_000 + i64::from(self.decimals) * tens)
            }
            None => self.nearest(),
        };
        (self.digit && (LEAST..=MOST).contains(&value)).then_some(value)
    }

    /// Ends the open number at a blank, semicolon or letter.
    #[inline]
    fn close(&mut self, byte: u8, class: Class) -> Event {
        self.state = State::Gap;
        self.leave(byte, class);
        let ended = class != Class::Blank;
        let Some(value) = self.value() else {
            self.refuse();
            return Event::Refused(number::RANGE);
        };
        if self.op.is_move() {
            if self.count == 1 {
                self.numbers[1] = value;
                self.count = 0;
                return Event::Pair;
            }
            self.numbers[0] = value;
            self.count = 1;
            return if ended { Event::Refused(number::COUNT) } else { Event::Quiet };
        }
        if self.count == INSTRUCTIONS[self.op as usize].most {
            self.refuse();
            return Event::Refused(number::COUNT);
        }
        self.numbers[usize::from(self.count)] = value;
        self.count += 1;
        if ended {
            self.end()
        } else {
            Event::Quiet
        }
    }

    /// Ends the instruction.
    #[inline]
    fn end(&self) -> Event {
        let line = &INSTRUCTIONS[self.op as usize];
        if self.count < line.least || !(self.count - line.least).is_multiple_of(line.step) {
            Event::Refused(number::COUNT)
        } else if self.op.is_move() {
            Event::Quiet
        } else {
            Event::Perform
        }
    }
}
