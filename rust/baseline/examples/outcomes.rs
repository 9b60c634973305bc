//! The whole outcome of every line of `crates/vectors/stdin`, in the form of `crates/vectors/stdout`:
//!
//!     cargo run --offline --example outcomes < ../../crates/vectors/stdin > ../../crates/vectors/stdout

use baseline::{drive, number, Drawn, Fed, Look, Machine, Move, Moves, Place, Stroke};
use std::fmt::Write;
use std::io::Read;

/// Hard limits where a line `limits` has none.
pub const LIMITS: [i64; 4] = [-10_000, -7_000, 10_000, 7_000];

/// What a record of the lent list holds before feed.
pub const MARK: Stroke = Stroke { pen: 7, x0: 7, y0: 7, x1: 7, y1: 7 };

/// The bytes of the buffer that is lent where a line names none.
pub const BUFFER: usize = 64;

/// What a byte of the buffer holds before it is lent.
const UNTOUCHED: u8 = 7;

/// A step of the field "bytes".
#[derive(Clone, PartialEq, Debug)]
pub enum Step {
    /// The byte is taken, a reply is fetched, and all that waits is drawn.
    Byte(u8),
    /// From here on neither follows a byte.
    Hold,
    /// One draw.
    Draw,
    /// One look.
    Look,
    /// One fetch with a buffer of so many bytes.
    Fetch(usize),
    /// One feed of these bytes into a list of so many records.
    Feed(usize, Vec<u8>),
}

/// Something that happened.
#[derive(Clone, PartialEq, Debug)]
pub enum Event {
    /// The number, and the byte, counted from 1.
    Refused(u8, usize),
    /// A stroke, or "hidden".
    Drawn(Drawn),
    /// What a look says, and whether a segment waits.
    Looked(Look, bool),
    /// What a fetch wrote, without 13, 10 at its end; none where nothing waited.
    Fetched(Option<String>),
    /// The number of a fetch that was refused.
    Unfetched(u8),
    /// What a feed answered: bytes taken, strokes stored, number.
    Fed([usize; 3]),
}

/// A line: hard limits, or a kind of calls with a name and fields.
pub enum Line<'a> {
    /// `limits`
    Limits([i64; 4]),
    /// `take`, `feed`, `strokes`, `drive`
    Calls(&'a str, &'a str, Vec<&'a str>),
}

/// The lines of a file, without comments and empty ones.
pub fn lines(text: &str) -> Vec<Line<'_>> {
    let some = |l: &&str| !l.is_empty() && !l.starts_with('#');
    text.lines().filter(some).map(line).collect()
}

fn line(text: &str) -> Line<'_> {
    if let Some(values) = text.strip_prefix("limits") {
        let values: Vec<i64> = values.split_whitespace().map(|v| v.parse().unwrap()).collect();
        return Line::Limits(values.try_into().unwrap_or(LIMITS));
    }
    let fields: Vec<&str> = text.split('|').map(str::trim).collect();
    let (kind, id) = fields[0].split_once(' ').unwrap();
    Line::Calls(kind, id, fields[1..].to_vec())
}

/// Reads the notation of the field "bytes".
pub fn steps(text: &str) -> Vec<Step> {
    let mut out = Vec::new();
    let mut rest = text;
    while let Some(c) = rest.chars().next() {
        rest = &rest[c.len_utf8()..];
        match c {
            '\\' => {
                let (byte, length) = match rest.as_bytes()[0] {
                    b'n' => (10, 1),
                    b's' => (32, 1),
                    b'x' => (u8::from_str_radix(&rest[1..3], 16).unwrap(), 3),
                    _ => panic!("escape in {text}"),
                };
                out.push(Step::Byte(byte));
                rest = &rest[length..];
            }
            '{' => {
                let end = rest.find('}').unwrap();
                out.extend(braces(&rest[..end]));
                rest = &rest[end + 1..];
            }
            c => out.push(Step::Byte(u8::try_from(c).unwrap())),
        }
    }
    out
}

fn braces(text: &str) -> Vec<Step> {
    let words: Vec<&str> = text.splitn(3, ' ').collect();
    let bytes = |text: String| text.bytes().map(Step::Byte).collect();
    match words[..] {
        ["hold"] => vec![Step::Hold],
        ["draw"] => vec![Step::Draw],
        ["look"] => vec![Step::Look],
        ["fetch", room] => vec![Step::Fetch(room.parse().unwrap())],
        ["feed", room, part] => vec![Step::Feed(room.parse().unwrap(), part.bytes().collect())],
        ["fill", k] => {
            let points = (1..=k.parse().unwrap()).map(|i: u32| format!("{i},0"));
            bytes(points.collect::<Vec<_>>().join(","))
        }
        ["rep", k, part] => bytes(part.repeat(k.parse().unwrap())),
        _ => panic!("{{{text}}}"),
    }
}

/// The bytes of a field without marks.
pub fn bytes(text: &str) -> Vec<u8> {
    let byte = |step| match step {
        Step::Byte(byte) => byte,
        _ => panic!("a mark in {text}"),
    };
    steps(text).into_iter().map(byte).collect()
}

/// What a line needs of a machine, so that a second one may stand beside it.
pub trait Calls {
    /// One byte.
    fn take(&mut self, byte: u8) -> u8;
    /// One draw.
    fn draw(&mut self) -> Drawn;
    /// One fetch: the bytes written, and the number.
    fn fetch(&mut self, buffer: &mut [u8]) -> (usize, u8);
    /// One feed.
    fn feed(&mut self, bytes: &[u8], list: &mut [Stroke]) -> Fed;
    /// The machine as it is.
    fn machine(&self) -> &Machine;
}

impl Calls for Machine {
    fn take(&mut self, byte: u8) -> u8 {
        Machine::take(self, byte)
    }

    fn draw(&mut self) -> Drawn {
        Machine::draw(self)
    }

    fn fetch(&mut self, buffer: &mut [u8]) -> (usize, u8) {
        Machine::fetch(self, buffer)
    }

    fn feed(&mut self, bytes: &[u8], list: &mut [Stroke]) -> Fed {
        Machine::feed(self, bytes, list)
    }

    fn machine(&self) -> &Machine {
        self
    }
}

/// The events of a line `take`, and how many bytes it has.
pub fn run(machine: &mut impl Calls, program: &[Step]) -> (Vec<Event>, usize) {
    let mut events = Vec::new();
    let (mut count, mut hold) = (0, false);
    for step in program {
        match step {
            Step::Hold => hold = true,
            Step::Draw => _ = draw(machine, &mut events),
            Step::Look => {
                events.push(Event::Looked(machine.machine().look(), waits(machine.machine())))
            }
            Step::Fetch(room) => events.push(fetched(machine, *room)),
            Step::Feed(room, bytes) => fed(machine, bytes, *room, &mut events),
            Step::Byte(byte) => {
                count += 1;
                match machine.take(*byte) {
                    0 => {}
                    number => events.push(Event::Refused(number, count)),
                }
                if !hold {
                    events.extend(
                        Some(fetched(machine, BUFFER)).filter(|e| *e != Event::Fetched(None)),
                    );
                    while draw(machine, &mut events) {}
                }
            }
        }
    }
    (events, count)
}

/// One draw; whether a segment waited.
fn draw(machine: &mut impl Calls, events: &mut Vec<Event>) -> bool {
    let drawn = machine.draw();
    events.extend((drawn != Drawn::Idle).then_some(Event::Drawn(drawn)));
    drawn != Drawn::Idle
}

/// One fetch. A reply is closed by 13, 10, and every other byte of the buffer keeps its content.
fn fetched(machine: &mut impl Calls, room: usize) -> Event {
    let mut buffer = vec![UNTOUCHED; room];
    let (length, number) = machine.fetch(&mut buffer);
    assert!(buffer[length..].iter().all(|&byte| byte == UNTOUCHED));
    match (length, number) {
        (0, 0) => Event::Fetched(None),
        (0, number) => Event::Unfetched(number),
        _ => {
            let text = buffer[..length].strip_suffix(b"\r\n").expect("13, 10 close a reply");
            Event::Fetched(Some(String::from_utf8(text.to_vec()).unwrap()))
        }
    }
}

/// One feed, with the strokes that it stored.
fn fed(machine: &mut impl Calls, bytes: &[u8], room: usize, events: &mut Vec<Event>) {
    let mut list = vec![MARK; room];
    let Fed { taken, stored, number } = machine.feed(bytes, &mut list);
    events.push(Event::Fed([taken, stored, usize::from(number)]));
    events.extend(list[..stored].iter().map(|&s| Event::Drawn(Drawn::Stroke(s))));
    assert!(list[stored..].iter().all(|&s| s == MARK));
}

/// The events as they are written in `crates/vectors/stdout`.
pub fn events_text(events: &[Event]) -> String {
    let mut text = String::new();
    for event in events {
        match event {
            Event::Refused(number, byte) => write!(text, " E{number}@{byte}").unwrap(),
            Event::Drawn(Drawn::Stroke(s)) => text += &stroke_text(s),
            Event::Drawn(Drawn::Hidden) => text += " hid",
            Event::Drawn(Drawn::Idle) => unreachable!(),
            Event::Looked(look, waits) => text += &look_text(look, *waits),
            Event::Fetched(Some(reply)) => write!(text, " \"{reply}\"").unwrap(),
            Event::Fetched(None) => text += " len0",
            Event::Unfetched(number) => write!(text, " E{number}@fetch").unwrap(),
            Event::Fed([taken, stored, number]) => {
                write!(text, " ({taken},{stored},{number})").unwrap()
            }
        }
    }
    text
}

fn stroke_text(s: &Stroke) -> String {
    format!(" {}:{},{}-{},{}", s.pen, s.x0, s.y0, s.x1, s.y1)
}

/// Whether a segment waits, as draw tells it.
fn waits(machine: &Machine) -> bool {
    machine.clone().draw() != Drawn::Idle
}

fn look_text(look: &Look, waits: bool) -> String {
    let Look { x, y, pen, down, bytes } = look;
    let pen_is = if *down { "dn" } else { "up" };
    let work = if waits { "waits" } else { "idle" };
    format!(" x={x} y={y} pen={pen} by={bytes} {pen_is} {work}")
}

/// What a line `feed` does to a machine.
pub struct FeedLine {
    /// The events of the bytes before it.
    pub before: Vec<Event>,
    /// Its answer: bytes taken, strokes stored, number.
    pub answer: [usize; 3],
    /// The whole list after it.
    pub list: Vec<Stroke>,
}

/// A line `feed`.
pub fn feed(machine: &mut Machine, fields: &[&str]) -> FeedLine {
    let mut program = steps(fields[0]);
    program.insert(0, Step::Hold);
    let before = run(machine, &program).0;
    let mut list = vec![MARK; fields[1].parse().unwrap()];
    let fed = machine.feed(&bytes(fields[2]), &mut list);
    FeedLine { before, answer: [fed.taken, fed.stored, usize::from(fed.number)], list }
}

/// What the program strokes prints: feed after feed, with a list of two records, a reply fetched after each.
pub fn strokes(machine: &mut Machine, input: &[u8]) -> Vec<Event> {
    let mut events = Vec::new();
    let mut at = 0;
    loop {
        let mut list = [MARK; 2];
        let fed = machine.feed(&input[at..], &mut list);
        at += fed.taken;
        events.extend(list[..fed.stored].iter().map(|&s| Event::Drawn(Drawn::Stroke(s))));
        if !matches!(fed.number, number::NONE | number::FULL | number::WAITS) {
            events.push(Event::Refused(fed.number, at));
        }
        events.extend(Some(fetched(machine, BUFFER)).filter(|e| *e != Event::Fetched(None)));
        if fed.number == number::NONE {
            return events;
        }
    }
}

/// Moves with each length by its bits.
fn moves_text(fields: &[&str]) -> String {
    let numbers: Vec<i64> = fields[1].split(' ').map(|v| v.parse().unwrap()).collect();
    let [pen, x0, y0, x1, y1] = numbers[..] else { panic!("{fields:?}") };
    let stroke = Stroke { pen: u8::try_from(pen).unwrap(), x0, y0, x1, y1 };
    match drive(stroke, fields[0].parse().unwrap()) {
        Ok(Moves::Two(first, second)) => move_text(first) + &move_text(second),
        Ok(Moves::One(dot)) => move_text(dot),
        Err(number) => format!(" E{number}"),
    }
}

fn move_text(step: Move) -> String {
    let (name, Place { x, y }) = match step {
        Move::Travel(place) => ("travel", place),
        Move::Paint(place) => ("paint", place),
        Move::Dot(place) => ("dot", place),
    };
    format!(" {name} {:08x} {:08x}", x.to_bits(), y.to_bits())
}

/// A machine with these hard limits, and the number that fresh answers.
pub fn fresh([l, b, r, t]: [i64; 4]) -> (Machine, u8) {
    Machine::fresh(l, b, r, t)
}

/// The outcomes of all lines of a file.
pub fn outcomes(text: &str) -> String {
    let mut limits = LIMITS;
    let mut out = String::new();
    for line in lines(text) {
        let (kind, id, fields) = match line {
            Line::Limits(values) => {
                limits = values;
                let [l, b, r, t] = values;
                writeln!(out, "limits {l} {b} {r} {t} | {}", fresh(values).1).unwrap();
                continue;
            }
            Line::Calls(kind, id, fields) => (kind, id, fields),
        };
        let mut machine = fresh(limits).0;
        let outcome = match kind {
            "take" => {
                let events = events_text(&run(&mut machine, &steps(fields[0])).0);
                events + " |" + &look_text(&machine.look(), waits(&machine))
            }
            "feed" => {
                let FeedLine { before, answer, list } = feed(&mut machine, &fields);
                let [taken, stored, number] = answer;
                let records: String = list.iter().map(stroke_text).collect();
                format!("{} {taken} {stored} {number} |{records}", events_text(&before))
            }
            "strokes" => events_text(&strokes(&mut machine, &bytes(fields[0]))),
            "drive" => moves_text(&fields),
            _ => panic!("{kind} {id}"),
        };
        writeln!(out, "{id} |{outcome}").unwrap();
    }
    out
}

fn main() {
    let mut text = String::new();
    std::io::stdin().read_to_string(&mut text).unwrap();
    print!("{}", outcomes(&text));
}
