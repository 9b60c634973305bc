//! A checker of condition 3 in exact whole-number arithmetic.
//!
//! [`Exact`] is a second machine beside the program's: it is fed with the calls alone and
//! keeps what the specification speaks of. Positions are fractions, a polygon is a list of
//! lists of exact points, waiting segments are a queue, each with its exact page line, its
//! pen and whether it is owed paint. It reads the bytes by itself, so it also tells the
//! number of each take ([`Exact::take`]) and the look ([`Exact::look`]). It is written to be
//! read, not to be fast, and shares with the machine only the record types and the sines.
//!
//! # What is checked of a draw
//!
//! [`Exact::draw`] removes the first segment of the queue and judges the machine's answer.
//!
//! * Idle exactly when nothing waits.
//! * A stroke has the segment's pen, lies within the limits in force, and every point of it
//!   is within one unit, in x and in y, of a point of the exact line.
//! * If the segment is owed paint, every point of its exact line that is at least one unit
//!   inside the limits is within one unit of a point of the stroke; if the answer is hidden,
//!   there is no such point.
//! * A segment that is not owed paint (a polygon edge reached pen up) is answered hidden.
//!
//! Change request 4 is judged apart, since it asks for more near the edges. [`Exact::line_type`]
//! tells the type of the segment that waits first, by its ends before clipping, which are its
//! locations turned to the page; [`Exact::judge_type`], before the draw, judges the answer by it.
//!
//! * A stroke keeps an end that lies within the limits in force, edges included, and has a point
//!   on an edge for one that does not.
//! * Hidden, though paint is owed, is only a segment with both ends outside.
//!
//! # Why a few parameters decide about all points
//!
//! Distance is the larger of the differences in x and y. Both the stroke and the line are
//! segments, so convex sets, and the distance of a point to a convex set is a convex function
//! of the point. Along a segment it is therefore a convex (here: piecewise linear) function of
//! the parameter, and its largest value over an interval is taken at an end of the interval.
//!
//! * *Stroke near line.* The parameters 0 and 1 of the stroke decide.
//! * *Line near stroke.* The line at a parameter t is at least one unit inside the limits
//!   exactly when four inequalities, linear in t, hold; with 0 and 1 they cut out one closed
//!   interval of t. If it is empty nothing is claimed; otherwise its two ends decide.
//! * *A point near a segment.* A point is within one unit of a point of a segment exactly when
//!   some parameter from 0 to 1 satisfies two pairs of linear inequalities, that is, when the
//!   intersection of closed intervals is not empty: the largest low end is at most the smallest
//!   high end.
//!
//! All data are fractions, so all ends of intervals are fractions too. The points of the
//! specification (at k of n equal parts) are those with a parameter that is a fraction; an
//! interval that is not empty holds one, and the ends 0, 1 and those computed are such points.
//! So nothing is lost by looking at fractions only, and no rounding takes place: every
//! comparison is multiplied out, in numbers of up to 384 bits.

use crate::machine::{Drawn, Look, Stroke};
use crate::sines::SINES;
use crate::wide::Wide;
use std::cmp::Ordering;
use std::collections::VecDeque;
use std::fmt;

/// A fraction in lowest terms, its divisor above 0.
#[derive(Clone, Copy, PartialEq, Eq, Debug)]
struct Fraction {
    over: i128,
    under: i128,
}

impl Fraction {
    fn new(over: i128, under: i128) -> Self {
        assert_ne!(under, 0);
        let (mut a, mut b) = (over.unsigned_abs(), under.unsigned_abs());
        while b != 0 {
            (a, b) = (b, a % b);
        }
        let common = a as i128 * under.signum();
        Fraction { over: over / common, under: under / common }
    }

    fn whole(value: i128) -> Self {
        Fraction { over: value, under: 1 }
    }

    fn plus(self, other: Fraction) -> Self {
        Fraction::new(self.over * other.under + other.over * self.under, self.under * other.under)
    }

    fn times(self, factor: i128) -> Self {
        Fraction::new(self.over * factor, self.under)
    }

    /// The nearest whole; a half goes to the larger number.
    fn round(self) -> i128 {
        let (n, d) = (2 * self.over + self.under, 2 * self.under);
        let down = n / d;
        if n % d < 0 {
            down - 1
        } else {
            down
        }
    }
}

/// An exact point: x and y.
type Spot = [Fraction; 2];
/// A whole point: x and y.
type Whole = [i128; 2];

fn location(spot: &Spot) -> Whole {
    [spot[0].round(), spot[1].round()]
}

fn spot(whole: &Whole) -> Spot {
    [Fraction::whole(whole[0]), Fraction::whole(whole[1])]
}

fn reachable(spot: &Spot) -> bool {
    location(spot).iter().all(|v| (-1_000_000..=1_000_000).contains(v))
}

/// Rows of the two by two table of a turn.
type Table = [[i128; 2]; 2];
const STRAIGHT: Table = [[1, 0], [0, 1]];
const QUARTER: Table = [[0, -1], [1, 0]];
const HALF: Table = [[-1, 0], [0, -1]];
const THREE_QUARTERS: Table = [[0, 1], [-1, 0]];

fn turned(table: &Table, p: &Spot) -> Spot {
    [0, 1].map(|row| p[0].times(table[row][0]).plus(p[1].times(table[row][1])))
}

fn transposed(t: &Table) -> Table {
    [[t[0][0], t[1][0]], [t[0][1], t[1][1]]]
}

/// A closed box, low and high corner.
#[derive(Clone, Copy, Debug)]
struct Area {
    low: Whole,
    high: Whole,
}

impl Area {
    fn spanned(a: Whole, b: Whole) -> Area {
        Area { low: [a[0].min(b[0]), a[1].min(b[1])], high: [a[0].max(b[0]), a[1].max(b[1])] }
    }

    fn holds(&self, point: &Whole) -> bool {
        (0..2).all(|axis| (self.low[axis]..=self.high[axis]).contains(&point[axis]))
    }

    fn has_on_edge(&self, point: &Whole) -> bool {
        (0..2).any(|axis| [self.low[axis], self.high[axis]].contains(&point[axis]))
    }
}

/// A waiting segment.
#[derive(Clone, Debug)]
struct Segment {
    /// The exact line on the page.
    line: [Spot; 2],
    /// The locations of its ends, turned to the page.
    ends: [Whole; 2],
    pen: u8,
    owed: bool,
}

/// A stored polygon point.
#[derive(Clone, Debug)]
struct Stored {
    spot: Spot,
    down: bool,
}

#[derive(Clone, Debug)]
struct Saved {
    spot: Spot,
    relative: bool,
    down: bool,
}

/// Where the reading of bytes stands.
#[derive(Clone, Debug)]
enum Reading {
    Between,
    FirstLetter(u8),
    Within { name: [u8; 2], numbers: Vec<i128>, open: Option<Vec<u8>> },
    PassedOver,
    LabelText,
}

/// How a draw's answer breaks condition 3, or change request 4.
#[derive(Clone, Copy, PartialEq, Eq, Debug)]
pub enum Violation {
    /// An answer other than idle, but nothing waits.
    NothingWaits,
    /// Idle, but a segment waits.
    Waits,
    /// Hidden, but paint one unit inside the limits is owed.
    PaintMissing,
    /// A stroke for a segment that is not owed paint.
    NotOwed,
    /// A stroke with another pen.
    Pen,
    /// A stroke that leaves the limits in force.
    Limits,
    /// A point of the stroke is farther than one unit from the exact line.
    Astray,
    /// Owed paint one unit inside the limits is farther than one unit from the stroke.
    TooShort,
    /// Hidden, but paint is owed and an end lies within the limits.
    EndHidden,
    /// A stroke that does not keep an end within the limits.
    EndMoved,
    /// A stroke with a point for an end outside the limits that is on no edge.
    OffEdge,
}

impl Violation {
    /// The claim that is broken.
    pub fn claim(self) -> &'static str {
        match self {
            Violation::EndHidden | Violation::EndMoved | Violation::OffEdge => "change request 4",
            _ => "condition 3",
        }
    }
}

impl fmt::Display for Violation {
    fn fmt(&self, f: &mut fmt::Formatter<'_>) -> fmt::Result {
        f.write_str(match self {
            Violation::NothingWaits => "drawn although nothing waits",
            Violation::Waits => "idle although a segment waits",
            Violation::PaintMissing => "hidden although owed paint shows",
            Violation::NotOwed => "stroke for a segment that is not owed paint",
            Violation::Pen => "wrong pen",
            Violation::Limits => "stroke leaves the limits",
            Violation::Astray => "stroke leaves the exact line",
            Violation::TooShort => "owed paint is not covered by the stroke",
            Violation::EndHidden => "hidden with an end within the limits",
            Violation::EndMoved => "stroke does not keep an end within the limits",
            Violation::OffEdge => "stroke has a point off every edge for an end outside",
        })
    }
}

impl std::error::Error for Violation {}

/// The exact model.
#[derive(Clone, Debug)]
pub struct Exact {
    reading: Reading,
    hard: Area,
    position: Spot,
    pen: u8,
    down: bool,
    relative: bool,
    p1: Whole,
    p2: Whole,
    /// xmin, xmax, ymin, ymax in ten-thousandths.
    scaling: Option<[i128; 4]>,
    turn: Table,
    /// Not turned.
    window: Option<Area>,
    polygon: Vec<Vec<Stored>>,
    bytes: usize,
    saved: Option<Saved>,
    /// The pen was changed by the PU or PD that is being read, and no pair of it is stored.
    pen_change_open: bool,
    queue: VecDeque<Segment>,
    /// The reply that waits.
    reply: Option<String>,
    /// The latest refusal since fresh, IN or OE, or 0.
    latest: u8,
}

fn is_blank(byte: u8) -> bool {
    matches!(byte, 9 | 10 | 13 | 32 | b',')
}

fn is_mover(name: &[u8; 2]) -> bool {
    matches!(name, b"PU" | b"PD" | b"PA" | b"PR")
}

/// Whether an instruction asks for a reply.
fn asked(name: &[u8; 2]) -> bool {
    matches!(name, b"OA" | b"OP" | b"OW" | b"OH" | b"OE")
}

/// The counts of numbers an instruction allows; none for an unknown name.
fn counts(name: &[u8; 2]) -> Option<&'static [usize]> {
    Some(match name {
        b"IN" | b"DF" | b"EP" => &[0],
        name if asked(name) => &[0],
        b"IP" => &[0, 2, 4],
        b"SC" | b"IW" => &[0, 4],
        b"RO" | b"SP" | b"PM" => &[0, 1],
        b"CI" => &[1, 2],
        b"EA" | b"ER" => &[2],
        b"AA" | b"AR" => &[3, 4],
        b"PU" | b"PD" | b"PA" | b"PR" => &[0],
        _ => return None,
    })
}

/// Whether the size of a number grows by a ten-thousandth when it becomes the nearest one: the
/// decimals after the fourth, without zeros at their end, stand before, at or after 5 as words do
/// in a dictionary. At 5 alone, a half, the larger number is further from zero only above it.
fn rounds_away(tail: &[u8], negative: bool) -> bool {
    let last = tail.iter().rposition(|&b| b != b'0').map_or(0, |at| at + 1);
    match tail[..last].cmp(b"5") {
        Ordering::Less => false,
        Ordering::Equal => !negative,
        Ordering::Greater => true,
    }
}

/// The nearest ten-thousandth to a number's text, if it has a digit and that is in range.
fn value(text: &[u8]) -> Option<i128> {
    let negative = text.first() == Some(&b'-');
    let unsigned: Vec<u8> = text.iter().copied().filter(|b| !matches!(b, b'+' | b'-')).collect();
    if !unsigned.iter().any(u8::is_ascii_digit) {
        return None;
    }
    let mut halves = unsigned.splitn(2, |&b| b == b'.');
    let whole = halves.next().unwrap_or_default();
    let decimals = halves.next().unwrap_or_default();
    let whole: Vec<u8> = whole.iter().copied().skip_while(|&b| b == b'0').collect();
    if whole.len() > 5 {
        return None;
    }
    let (kept, tail) = decimals.split_at(decimals.len().min(4));
    let kept = kept.iter().copied().chain(std::iter::repeat(b'0')).take(4);
    let down = whole.into_iter().chain(kept).fold(0, |sum, b| sum * 10 + i128::from(b - b'0'));
    let size = down + i128::from(rounds_away(tail, negative));
    let value = if negative { -size } else { size };
    (-327_680_000..=327_679_999).contains(&value).then_some(value)
}

/// A number in ten-thousandths, rounded.
fn rounded(number: i128) -> i128 {
    Fraction::new(number, 10_000).round()
}

/// An angle in ten-thousandths of a degree as tenths of one, rounded.
fn tenths(number: i128) -> i128 {
    Fraction::new(number, 1_000).round()
}

/// The sine of any whole number of tenths from 0 on, scaled by 100,000.
fn sine(tenths: i128) -> i128 {
    let tenths = tenths % 3_600;
    if tenths >= 1_800 {
        -sine(tenths - 1_800)
    } else if tenths > 900 {
        i128::from(SINES[(1_800 - tenths) as usize])
    } else {
        i128::from(SINES[tenths as usize])
    }
}

impl Exact {
    /// The model of a fresh machine, and 0 or 10.
    pub fn fresh(left: i64, bottom: i64, right: i64, top: i64) -> (Exact, u8) {
        let all = [left, bottom, right, top];
        let good =
            all.iter().all(|v| (-32_768..=32_767).contains(v)) && left < right && bottom < top;
        let [left, bottom, right, top] = if good { all.map(i128::from) } else { [0, 0, 1, 1] };
        let hard = Area { low: [left, bottom], high: [right, top] };
        let model = Exact {
            reading: Reading::Between,
            hard,
            position: spot(&[0, 0]),
            pen: 0,
            down: false,
            relative: false,
            p1: hard.low,
            p2: hard.high,
            scaling: None,
            turn: STRAIGHT,
            window: None,
            polygon: Vec::new(),
            bytes: 0,
            saved: None,
            pen_change_open: false,
            queue: VecDeque::new(),
            reply: None,
            latest: 0,
        };
        (model, if good { 0 } else { 10 })
    }

    /// A take of this byte; the number it is due to answer.
    pub fn take(&mut self, byte: u8) -> u8 {
        if !self.queue.is_empty() || self.reply.is_some() {
            return 20;
        }
        let answer = self.read(byte).err().unwrap_or(0);
        if answer != 0 {
            self.latest = answer;
        }
        answer
    }

    /// A fetch with a buffer of this content: the content, length and number that are due.
    pub fn fetch(&mut self, buffer: &[u8]) -> (Vec<u8>, usize, u8) {
        match self.reply.take() {
            None => (buffer.to_vec(), 0, 0),
            Some(reply) if buffer.len() < reply.len() => {
                self.reply = Some(reply);
                (buffer.to_vec(), 0, 31)
            }
            Some(reply) => {
                let kept = &buffer[reply.len()..];
                ([reply.as_bytes(), kept].concat(), reply.len(), 0)
            }
        }
    }

    /// What a look is due to answer.
    pub fn look(&self) -> Look {
        let [x, y] = location(&self.position).map(|v| v as i64);
        Look { x, y, pen: self.pen, down: self.down, bytes: self.bytes }
    }

    /// How many segments wait.
    pub fn waiting(&self) -> usize {
        self.queue.len()
    }

    // ----- reading -----

    /// What a byte is to the rest of a refused instruction.
    fn usual_part(byte: u8) -> Reading {
        match byte {
            b';' => Reading::Between,
            b if b.is_ascii_alphabetic() => Reading::FirstLetter(b.to_ascii_uppercase()),
            _ => Reading::PassedOver,
        }
    }

    fn read(&mut self, byte: u8) -> Result<(), u8> {
        let ends = byte == b';' || byte.is_ascii_alphabetic();
        match std::mem::replace(&mut self.reading, Reading::PassedOver) {
            Reading::LabelText => {
                self.reading = if byte == 3 { Reading::Between } else { Reading::LabelText };
                Ok(())
            }
            Reading::PassedOver => {
                self.reading = Self::usual_part(byte);
                Ok(())
            }
            Reading::Between if is_blank(byte) => {
                self.reading = Reading::Between;
                Ok(())
            }
            Reading::Between => {
                self.reading = Self::usual_part(byte);
                if ends {
                    Ok(())
                } else {
                    Err(1)
                }
            }
            Reading::FirstLetter(first) if byte.is_ascii_alphabetic() => {
                let name = [first, byte.to_ascii_uppercase()];
                if name == *b"LB" {
                    self.reading = Reading::LabelText;
                    return Err(1);
                }
                self.name(&name)?;
                self.reading = Reading::Within { name, numbers: Vec::new(), open: None };
                Ok(())
            }
            Reading::FirstLetter(_) => {
                self.reading = Self::usual_part(byte);
                Err(1)
            }
            Reading::Within { name, mut numbers, open } if ends || is_blank(byte) => {
                // Where the reading goes if something is refused.
                self.reading = Self::usual_part(byte);
                if let Some(text) = open {
                    numbers.push(value(&text).ok_or(3)?);
                    if is_mover(&name) {
                        if numbers.len() == 2 {
                            let pair = [numbers[0], numbers[1]];
                            numbers.clear();
                            self.pair(pair)?;
                        }
                    } else if counts(&name).is_some_and(|c| numbers.len() > c[c.len() - 1]) {
                        return Err(2);
                    }
                }
                if !ends {
                    self.reading = Reading::Within { name, numbers, open: None };
                    return Ok(());
                }
                if counts(&name).is_some_and(|c| c.contains(&numbers.len())) {
                    self.perform(&name, &numbers)
                } else {
                    Err(2)
                }
            }
            Reading::Within { name, numbers, open } => {
                let text = match (byte, open) {
                    (b'0'..=b'9' | b'+' | b'-' | b'.', None) => vec![byte],
                    (b'0'..=b'9', Some(mut text)) => {
                        text.push(byte);
                        text
                    }
                    (b'.', Some(mut text)) if !text.contains(&b'.') => {
                        text.push(byte);
                        text
                    }
                    (b'+' | b'-' | b'.', Some(_)) => return Err(3),
                    _ => return Err(1),
                };
                self.reading = Reading::Within { name, numbers, open: Some(text) };
                Ok(())
            }
        }
    }

    // ----- carrying out -----

    fn name(&mut self, name: &[u8; 2]) -> Result<(), u8> {
        let known = match self.saved {
            None => counts(name).is_some(),
            Some(_) => is_mover(name) || asked(name) || matches!(name, b"PM" | b"IN"),
        };
        if !known {
            return Err(1);
        }
        let before = self.down;
        match name {
            b"PU" => self.down = false,
            b"PD" => self.down = true,
            b"PA" => self.relative = false,
            b"PR" => self.relative = true,
            _ => {}
        }
        self.pen_change_open = before != self.down;
        Ok(())
    }

    /// D over W on an axis.
    fn unit(&self, axis: usize) -> Fraction {
        match self.scaling {
            None => Fraction::new(1, 10_000),
            Some(sc) => {
                Fraction::new(self.p2[axis] - self.p1[axis], sc[2 * axis + 1] - sc[2 * axis])
            }
        }
    }

    fn absolute(&self, numbers: [i128; 2]) -> Spot {
        [0, 1].map(|axis| {
            let (base, min) = match self.scaling {
                None => (0, 0),
                Some(sc) => (self.p1[axis], sc[2 * axis]),
            };
            self.unit(axis).times(numbers[axis] - min).plus(Fraction::whole(base))
        })
    }

    fn relative(&self, numbers: [i128; 2]) -> Spot {
        [0, 1].map(|axis| self.position[axis].plus(self.unit(axis).times(numbers[axis])))
    }

    fn pair(&mut self, numbers: [i128; 2]) -> Result<(), u8> {
        let to = if self.relative { self.relative(numbers) } else { self.absolute(numbers) };
        if !reachable(&to) {
            return Err(6);
        }
        if self.saved.is_some() {
            self.spend(if self.pen_change_open { 11 } else { 9 })?;
            self.pen_change_open = false;
            let down = self.down;
            self.subpolygon().push(Stored { spot: to, down });
        } else if self.down {
            self.queue_line(self.position, to, true);
        }
        self.position = to;
        Ok(())
    }

    fn spend(&mut self, bytes: usize) -> Result<(), u8> {
        if self.bytes + bytes > 1024 {
            return Err(7);
        }
        self.bytes += bytes;
        Ok(())
    }

    /// The open subpolygon.
    fn subpolygon(&mut self) -> &mut Vec<Stored> {
        if self.polygon.is_empty() {
            self.polygon.push(Vec::new());
        }
        let last = self.polygon.len() - 1;
        &mut self.polygon[last]
    }

    /// Queues the line between two unturned spots; pen 0 queues nothing.
    fn queue_line(&mut self, from: Spot, to: Spot, owed: bool) {
        if self.pen != 0 {
            let line = [turned(&self.turn, &from), turned(&self.turn, &to)];
            let ends = [from, to].map(|end| self.on_page(&location(&end)));
            self.queue.push_back(Segment { line, ends, pen: self.pen, owed });
        }
    }

    fn perform(&mut self, name: &[u8; 2], numbers: &[i128]) -> Result<(), u8> {
        let first = numbers.first().copied().unwrap_or(0);
        match name {
            b"IN" => {
                let page = turned(&self.turn, &spot(&location(&self.position)));
                let (pen, hard) = (self.pen, self.hard);
                let reading = self.reading.clone();
                let l = [hard.low[0], hard.low[1], hard.high[0], hard.high[1]].map(|v| v as i64);
                *self = Exact::fresh(l[0], l[1], l[2], l[3]).0;
                self.position = page;
                self.pen = pen;
                self.reading = reading;
            }
            b"DF" => {
                self.scaling = None;
                self.window = None;
                self.relative = false;
                self.rebase();
            }
            b"IP" => {
                let n: Vec<i128> = numbers.iter().map(|&n| rounded(n)).collect();
                let (p1, p2) = match n[..] {
                    [a, b] => {
                        let [dx, dy] = [0, 1].map(|axis| self.p2[axis] - self.p1[axis]);
                        ([a, b], [a + dx, b + dy])
                    }
                    [a, b, c, d] => ([a, b], [c, d]),
                    _ => (self.hard.low, self.hard.high),
                };
                let fits = |p: &Whole| p.iter().all(|v| (-32_768..=32_767).contains(v));
                if !fits(&p1) || !fits(&p2) || p1[0] == p2[0] || p1[1] == p2[1] {
                    return Err(3);
                }
                self.p1 = p1;
                self.p2 = p2;
                self.rebase();
            }
            b"SC" => {
                self.scaling = match *numbers {
                    [a, b, c, d] if a != b && c != d => Some([a, b, c, d]),
                    [] => None,
                    _ => return Err(3),
                };
                self.rebase();
            }
            b"RO" => {
                let table = match rounded(first) {
                    0 => STRAIGHT,
                    90 => QUARTER,
                    180 => HALF,
                    270 => THREE_QUARTERS,
                    _ => return Err(3),
                };
                let page = turned(&self.turn, &spot(&location(&self.position)));
                self.turn = table;
                self.position = turned(&transposed(&table), &page);
            }
            b"IW" => {
                self.window = match *numbers {
                    [a, b, c, d] => {
                        let (p, q) = (self.absolute([a, b]), self.absolute([c, d]));
                        if !reachable(&p) || !reachable(&q) {
                            return Err(3);
                        }
                        Some(Area::spanned(location(&p), location(&q)))
                    }
                    _ => None,
                };
            }
            b"SP" => {
                self.pen = u8::try_from(rounded(first)).ok().filter(|&p| p <= 8).ok_or(3)?;
            }
            b"PM" => return self.polygon_mode(rounded(first)),
            b"EP" => self.edges(),
            b"EA" => return self.rectangle(self.absolute([numbers[0], numbers[1]])),
            b"ER" => return self.rectangle(self.relative([numbers[0], numbers[1]])),
            b"CI" => return self.circle(first, numbers.get(1).copied()),
            b"AA" => return self.arc(self.absolute([numbers[0], numbers[1]]), &numbers[2..]),
            b"AR" => return self.arc(self.relative([numbers[0], numbers[1]]), &numbers[2..]),
            name if asked(name) => self.make_reply(name),
            _ => {}
        }
        Ok(())
    }

    /// OA and OP tell points, OW and OH an area, its low corner first.
    fn make_reply(&mut self, name: &[u8; 2]) {
        let numbers: Vec<i128> = match name {
            b"OA" => {
                let [x, y] = location(&self.position);
                vec![x, y, i128::from(self.down)]
            }
            b"OP" => [self.p1, self.p2].concat(),
            b"OW" => {
                let back = |corner| location(&turned(&transposed(&self.turn), &spot(corner)));
                let hard = Area::spanned(back(&self.hard.low), back(&self.hard.high));
                let window = self.window.unwrap_or(hard);
                [window.low, window.high].concat()
            }
            b"OH" => [self.hard.low, self.hard.high].concat(),
            _ => vec![i128::from(std::mem::replace(&mut self.latest, 0))],
        };
        let words: Vec<String> = numbers.iter().map(i128::to_string).collect();
        self.reply = Some(words.join(",") + "\r\n");
    }

    fn rebase(&mut self) {
        self.position = spot(&location(&self.position));
    }

    fn polygon_mode(&mut self, part: i128) -> Result<(), u8> {
        match (part, self.saved.take()) {
            (0, None) => {
                self.saved =
                    Some(Saved { spot: self.position, relative: self.relative, down: self.down });
                self.polygon = vec![vec![Stored { spot: self.position, down: self.down }]];
                self.bytes = 11;
                Ok(())
            }
            (1, Some(saved)) => {
                self.saved = Some(saved);
                self.close(2)?;
                self.down = false;
                self.polygon.push(Vec::new());
                Ok(())
            }
            (2, Some(saved)) => {
                let answer = self.close(0);
                self.position = saved.spot;
                self.relative = saved.relative;
                self.down = saved.down;
                answer
            }
            (_, saved) => {
                self.saved = saved;
                Err(3)
            }
        }
    }

    /// Adds the first point of the open subpolygon if the last differs in location.
    fn close(&mut self, mark: usize) -> Result<(), u8> {
        let down = self.down;
        let missing = match &self.subpolygon()[..] {
            [first, .., last] if location(&first.spot) != location(&last.spot) => Some(first.spot),
            _ => None,
        };
        self.spend(mark + if missing.is_some() { 9 } else { 0 })?;
        if let Some(spot) = missing {
            self.subpolygon().push(Stored { spot, down });
            self.position = spot;
        }
        Ok(())
    }

    fn edges(&mut self) {
        for sub in self.polygon.clone() {
            for two in sub.windows(2) {
                self.queue_line(two[0].spot, two[1].spot, two[1].down);
            }
        }
    }

    fn rectangle(&mut self, corner: Spot) -> Result<(), u8> {
        if !reachable(&corner) {
            return Err(6);
        }
        let [x, y] = self.position;
        let [cx, cy] = corner;
        let spots = [[x, y], [cx, y], [cx, cy], [x, cy], [x, y]];
        self.polygon = vec![spots.iter().map(|&spot| Stored { spot, down: true }).collect()];
        self.bytes = 49;
        self.edges();
        Ok(())
    }

    fn circle(&mut self, radius: i128, angle: Option<i128>) -> Result<(), u8> {
        let angle = angle.map_or(50, tenths);
        if !(5..=1_200).contains(&angle) {
            return Err(3);
        }
        for (x, y) in [(radius, 0), (0, radius), (-radius, 0), (0, -radius)] {
            if !reachable(&self.relative([x, y])) {
                return Err(6);
            }
        }
        let chords = (3_600 + angle - 1) / angle;
        let vertex = |k: i128| -> Spot {
            let tenths = k % chords * angle;
            let swing = [sine(tenths + 900), sine(tenths)];
            [0, 1].map(|axis| {
                let unit = self.unit(axis);
                let grown = Fraction::new(radius * swing[axis] * unit.over, 100_000 * unit.under);
                self.position[axis].plus(grown)
            })
        };
        let vertices: Vec<Spot> = (0..=chords).map(vertex).collect();
        for two in vertices.windows(2) {
            self.queue_line(two[0], two[1], true);
        }
        Ok(())
    }

    /// An arc around this exact centre; the swept angle and perhaps the chord angle follow.
    fn arc(&mut self, centre: Spot, angles: &[i128]) -> Result<(), u8> {
        let sweep = tenths(angles[0]);
        let angle = angles.get(1).map_or(50, |&angle| tenths(angle));
        if sweep == 0 || sweep.abs() > 3_600 || !(5..=1_200).contains(&angle) {
            return Err(3);
        }
        let way = self.way_from(&centre);
        if way.iter().any(|part| part.abs() > 327_680_000) {
            return Err(3);
        }
        // Whole chord angles while they are short of the swept angle, and then that itself.
        let whole = (1..).map(|k| k * angle).take_while(|&turn| turn < sweep.abs());
        let turns = whole.chain([sweep.abs()]).map(|turn| turn * sweep.signum());
        let mut vertices = vec![self.position];
        vertices.extend(turns.map(|turn| self.way_turned(&centre, &way, turn)));
        if !vertices.iter().all(reachable) {
            return Err(6);
        }
        if self.down {
            for two in vertices.windows(2) {
                self.queue_line(two[0], two[1], true);
            }
        }
        self.position = spot(&location(&vertices[vertices.len() - 1]));
        Ok(())
    }

    /// The way from a centre to the exact position, in ten-thousandths of current units, rounded.
    fn way_from(&self, centre: &Spot) -> Whole {
        [0, 1].map(|axis| {
            let apart = self.position[axis].plus(centre[axis].times(-1));
            let unit = self.unit(axis);
            Fraction::new(apart.over * unit.under, apart.under * unit.over).round()
        })
    }

    /// The exact point a way from the centre, turned by tenths of a degree.
    fn way_turned(&self, centre: &Spot, way: &Whole, turn: i128) -> Spot {
        let turn = turn.rem_euclid(3_600);
        let (cos, sin) = (sine(turn + 900), sine(turn));
        let turned = [way[0] * cos - way[1] * sin, way[0] * sin + way[1] * cos];
        [0, 1].map(|axis| {
            let unit = self.unit(axis);
            centre[axis].plus(Fraction::new(turned[axis] * unit.over, 100_000 * unit.under))
        })
    }

    // ----- judging -----

    /// A draw with this answer: removes the first segment and judges.
    pub fn draw(&mut self, answer: Drawn) -> Result<(), Violation> {
        match (self.queue.pop_front(), answer) {
            (None, Drawn::Idle) => Ok(()),
            (None, _) => Err(Violation::NothingWaits),
            (Some(_), Drawn::Idle) => Err(Violation::Waits),
            (Some(segment), Drawn::Hidden) => {
                let line = Line::of(&segment.line);
                if segment.owed && line.within(&self.limits(), 1).is_some() {
                    return Err(Violation::PaintMissing);
                }
                Ok(())
            }
            (Some(segment), Drawn::Stroke(stroke)) => self.judge(&segment, &stroke),
        }
    }

    /// The type, 1 to 4, of the segment that waits first, if one does.
    pub fn line_type(&self) -> Option<u8> {
        self.queue.front().map(|segment| self.type_of(segment))
    }

    fn type_of(&self, segment: &Segment) -> u8 {
        match segment.ends.map(|end| self.holds(&end)) {
            [true, true] => 1,
            [true, false] => 2,
            [false, true] => 3,
            [false, false] => 4,
        }
    }

    /// Whether a point lies within all limits in force, edges included.
    fn holds(&self, point: &Whole) -> bool {
        self.limits().iter().all(|area| area.holds(point))
    }

    /// Whether a point stands on an edge of what all limits in force hold: within them all, an edge
    /// of one of them is an edge of that.
    fn on_edge(&self, point: &Whole) -> bool {
        self.holds(point) && self.limits().iter().any(|area| area.has_on_edge(point))
    }

    /// A whole point, turned to the page.
    fn on_page(&self, point: &Whole) -> Whole {
        location(&turned(&self.turn, &spot(point)))
    }

    /// The limits in force, one area after another.
    fn limits(&self) -> Vec<Area> {
        let mut limits = vec![self.hard];
        if let Some(window) = &self.window {
            limits.push(Area::spanned(self.on_page(&window.low), self.on_page(&window.high)));
        }
        limits
    }

    fn judge(&self, segment: &Segment, stroke: &Stroke) -> Result<(), Violation> {
        if !segment.owed {
            return Err(Violation::NotOwed);
        }
        if stroke.pen != segment.pen {
            return Err(Violation::Pen);
        }
        let ends = ends_of(stroke);
        let limits = self.limits();
        if !ends.iter().all(|end| self.holds(end)) {
            return Err(Violation::Limits);
        }
        let line = Line::of(&segment.line);
        for end in &ends {
            let near = Area { low: end.map(|v| v - 1), high: end.map(|v| v + 1) };
            if line.within(&[near], 0).is_none() {
                return Err(Violation::Astray);
            }
        }
        if let Some((from, to)) = line.within(&limits, 1) {
            if !line.near_stroke(&ends, &from) || !line.near_stroke(&ends, &to) {
                return Err(Violation::TooShort);
            }
        }
        Ok(())
    }

    /// Judges the answer that a draw is to have by the type of the segment that waits first.
    pub fn judge_type(&self, answer: Drawn) -> Result<(), Violation> {
        match (self.queue.front(), answer) {
            (Some(segment), Drawn::Stroke(stroke)) => self.judge_ends(segment, &stroke),
            (Some(segment), Drawn::Hidden) if segment.owed && self.type_of(segment) != 4 => {
                Err(Violation::EndHidden)
            }
            _ => Ok(()),
        }
    }

    fn judge_ends(&self, segment: &Segment, stroke: &Stroke) -> Result<(), Violation> {
        for (end, shown) in segment.ends.iter().zip(&ends_of(stroke)) {
            if self.holds(end) {
                if end != shown {
                    return Err(Violation::EndMoved);
                }
            } else if !self.on_edge(shown) {
                return Err(Violation::OffEdge);
            }
        }
        Ok(())
    }
}

fn ends_of(stroke: &Stroke) -> [Whole; 2] {
    [[stroke.x0, stroke.y0], [stroke.x1, stroke.y1]].map(|end| end.map(i128::from))
}

/// Whether `part` is the clip of the line between two whole points: hidden exactly if no point of the
/// line lies within all of the boxes (left, bottom, right, top), else the ends of the exact part,
/// rounded. The ends are fractions of the line, and every comparison is multiplied out.
pub fn is_clip(boxes: &[[i64; 4]], line: [[i64; 2]; 2], part: Option<[[i64; 2]; 2]>) -> bool {
    let area = |&[left, bottom, right, top]: &[i64; 4]| Area {
        low: [left, bottom].map(i128::from),
        high: [right, top].map(i128::from),
    };
    let areas: Vec<Area> = boxes.iter().map(area).collect();
    let line = Line::of(&line.map(|end| spot(&end.map(i128::from))));
    match (line.within(&areas, 0), part) {
        (None, None) => true,
        (Some((from, to)), Some([start, end])) => {
            line.rounds_to(&from, start) && line.rounds_to(&to, end)
        }
        _ => false,
    }
}

/// A parameter: a fraction with a divisor above 0.
#[derive(Clone, Copy, Debug)]
struct Parameter {
    over: Wide,
    under: Wide,
}

impl Parameter {
    /// `over / under` for `under` not 0.
    fn new(over: Wide, under: Wide) -> Self {
        if under.sign() < 0 {
            Parameter { over: -over, under: -under }
        } else {
            Parameter { over, under }
        }
    }

    fn compare(&self, other: &Parameter) -> Ordering {
        (self.over * other.under).cmp(&(other.over * self.under))
    }
}

/// The parameters from 0 to 1 with `low <= start + parameter * slope <= high`.
struct Band {
    start: Wide,
    slope: Wide,
    low: Wide,
    high: Wide,
}

/// The interval of the parameters from 0 to 1 that satisfy all bands, if there are any.
fn interval(bands: impl IntoIterator<Item = Band>) -> Option<(Parameter, Parameter)> {
    let one = Wide::from(1i64);
    let mut from = Parameter { over: Wide::ZERO, under: one };
    let mut to = Parameter { over: one, under: one };
    for band in bands {
        if band.slope.sign() == 0 {
            if band.start < band.low || band.start > band.high {
                return None;
            }
            continue;
        }
        let at_low = Parameter::new(band.low - band.start, band.slope);
        let at_high = Parameter::new(band.high - band.start, band.slope);
        let (first, last) =
            if band.slope.sign() > 0 { (at_low, at_high) } else { (at_high, at_low) };
        if first.compare(&from) == Ordering::Greater {
            from = first;
        }
        if last.compare(&to) == Ordering::Less {
            to = last;
        }
    }
    (from.compare(&to) != Ordering::Greater).then_some((from, to))
}

/// An exact line: on each axis `(start + t * slope) / under`, t from 0 to 1.
struct Line {
    start: [Wide; 2],
    slope: [Wide; 2],
    under: [Wide; 2],
}

impl Line {
    fn of(ends: &[Spot; 2]) -> Line {
        let axes = [0, 1].map(|axis| {
            let (a, b) = (ends[0][axis], ends[1][axis]);
            // The least common divisor: a.under times what b.under has beyond it.
            let common = a.under * Fraction::new(a.under, b.under).under;
            let (a, b) = (a.over * (common / a.under), b.over * (common / b.under));
            (a, b - a, common)
        });
        Line {
            start: axes.map(|(start, _, _)| Wide::from(start)),
            slope: axes.map(|(_, slope, _)| Wide::from(slope)),
            under: axes.map(|(_, _, under)| Wide::from(under)),
        }
    }

    /// The parameters where the line is at least `depth` inside all of the areas.
    fn within(&self, areas: &[Area], depth: i128) -> Option<(Parameter, Parameter)> {
        interval(areas.iter().flat_map(|area| {
            [0, 1].map(|axis| Band {
                start: self.start[axis],
                slope: self.slope[axis],
                low: Wide::from(area.low[axis] + depth) * self.under[axis],
                high: Wide::from(area.high[axis] - depth) * self.under[axis],
            })
        }))
    }

    /// Whether the line's point at `t`, rounded, is this: twice it is from `2 * v - 1` on, a half
    /// going to the larger number, and below `2 * v + 1`.
    fn rounds_to(&self, t: &Parameter, whole: [i64; 2]) -> bool {
        (0..2).all(|axis| {
            let point = self.start[axis] * t.under + self.slope[axis] * t.over;
            let unit = self.under[axis] * t.under;
            let twice = Wide::from(2 * whole[axis]) * unit;
            twice - unit <= point + point && point + point < twice + unit
        })
    }

    /// Whether the line's point at `t` is within one unit of a point of the stroke.
    fn near_stroke(&self, ends: &[Whole; 2], t: &Parameter) -> bool {
        interval([0, 1].map(|axis| {
            let point = self.start[axis] * t.under + self.slope[axis] * t.over;
            let unit = self.under[axis] * t.under;
            Band {
                start: Wide::from(ends[0][axis]) * unit,
                slope: Wide::from(ends[1][axis] - ends[0][axis]) * unit,
                low: point - unit,
                high: point + unit,
            }
        }))
        .is_some()
    }
}
