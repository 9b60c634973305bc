//! Strokes to text (change request 6), beside the baseline, and the text painted again.

use crate::dice::Dice;
use crate::lists;
use crate::partner::{Partner, Record};
use crate::shrink::shorten;
use baseline::{number, Drawn, Fed};
use std::fmt::{self, Debug};

/// Writes strokes as HP-GL into the output; the bytes written, and 0, 32 or 33.
pub type Write = fn(&[Record], &mut [u8]) -> (usize, u8);

/// What every byte of an output is before.
const BEFORE: u8 = 7;

/// The most bytes of a stroke: `SP8;PU-32768,-32768;PD-32768,-32768;`.
const LONGEST: usize = 36;

/// The most strokes of a list whose text is also taken byte by byte.
const MOST_BY_BYTES: usize = 12;

/// The widest hard limits.
const WIDEST: [i64; 4] = [-32_768, -32_768, 32_767, 32_767];

/// Hard limits that are refused; the machine has 0, 0, 1, 1.
const REFUSED: [i64; 4] = [5, 5, 5, 6];

/// What was seen in a run.
#[derive(Clone, Default, Debug)]
pub struct Tally {
    /// Lists.
    pub lists: usize,
    /// Their strokes.
    pub strokes: usize,
    /// Texts that were written.
    pub texts: usize,
    /// Calls that were refused with 32 for a stroke.
    pub other: usize,
    /// Calls that were refused with 33 for the output.
    pub short: usize,
    /// Fresh machines that painted a list again.
    pub painted: usize,
    /// Those of them that came with a 10.
    pub after_10: usize,
}

impl Tally {
    /// Adds another run.
    pub fn add(&mut self, other: &Tally) {
        self.lists += other.lists;
        self.strokes += other.strokes;
        self.texts += other.texts;
        self.other += other.other;
        self.short += other.short;
        self.painted += other.painted;
        self.after_10 += other.after_10;
    }

    fn count(&mut self, number: u8) {
        match number {
            number::STROKE => self.other += 1,
            number::OUTPUT => self.short += 1,
            _ => self.texts += 1,
        }
    }
}

impl fmt::Display for Tally {
    fn fmt(&self, f: &mut fmt::Formatter<'_>) -> fmt::Result {
        let Tally { lists, strokes, texts, other, short, painted, after_10 } = self;
        write!(f, "{lists} lists of {strokes} strokes, {texts} texts, {other} refused with 32, ")?;
        write!(f, "{short} with 33, painted by {painted} machines, {after_10} of them after 10")
    }
}

/// A difference, with the shortest list found for it.
#[derive(Clone, Debug)]
pub struct Finding {
    /// Where the list came from.
    pub origin: String,
    /// The shortest list found.
    pub list: Vec<Record>,
    /// The call that shows it, and the two answers.
    pub calls: String,
}

impl fmt::Display for Finding {
    fn fmt(&self, f: &mut fmt::Formatter<'_>) -> fmt::Result {
        let Finding { origin, list, calls } = self;
        writeln!(f, "a difference, found in {origin}, here with {} strokes", list.len())?;
        write!(f, "let strokes = {list:?};\n{calls}")
    }
}

/// Whether the answers to a call are the same; if not, the call and both.
fn same<T: PartialEq + Debug>(call: impl Fn() -> String, answer: T, due: T) -> Result<(), String> {
    if answer == due {
        return Ok(());
    }
    Err(format!("{}\n// answered {answer:?}\n// due      {due:?}\n", call()))
}

/// The answer of a call of write, with the whole output.
#[derive(PartialEq)]
struct Answer {
    length: usize,
    number: u8,
    out: Vec<u8>,
}

impl Debug for Answer {
    fn fmt(&self, f: &mut fmt::Formatter<'_>) -> fmt::Result {
        let Answer { length, number, out } = self;
        write!(f, "length {length}, number {number}, output {}", out.escape_ascii())
    }
}

fn called(write: Write, list: &[Record], room: usize) -> Answer {
    let mut out = vec![BEFORE; room];
    let (length, number) = write(list, &mut out);
    Answer { length, number, out }
}

/// The lengths of outputs for a list, one that shows the whole text first: all about that of its text,
/// and others. `None` for a list that is refused: then from more than enough to none.
fn rooms(list: &[Record], length: Option<usize>) -> Vec<usize> {
    let most = 3 + LONGEST * list.len();
    match length {
        None => vec![most + 9, most, most / 2, 20, 3, 2, 0],
        Some(length) => {
            let about = length.saturating_sub(6)..length + 7;
            [length + 9].into_iter().chain(about).chain([0, 2, length / 2, most]).collect()
        }
    }
}

/// The text of a list that is not refused, by the baseline.
fn due_text(list: &[Record]) -> Option<Vec<u8>> {
    let mut out = vec![BEFORE; 3 + LONGEST * list.len()];
    let (length, number) = baseline::write(list, &mut out);
    out.truncate(length);
    (number == number::NONE).then_some(out)
}

/// Writes the list into outputs of many lengths beside the baseline: number, length, every byte.
fn compare(write: Write, list: &[Record], tally: &mut Tally) -> Result<(), String> {
    for room in rooms(list, due_text(list).map(|text| text.len())) {
        let due = called(baseline::write, list, room);
        let call = || format!("vutaroi::write(&strokes, &mut [{BEFORE}; {room}]);");
        tally.count(due.number);
        same(call, called(write, list, room), due)?;
    }
    Ok(())
}

/// The least hard limits that contain all ends; left and right, bottom and top differ.
fn around(list: &[Record]) -> [i64; 4] {
    let side = |places: [usize; 2]| {
        let ends = || list.iter().flat_map(|stroke| places.map(|place| stroke[place]));
        let (low, high) = (ends().min().unwrap_or(0), ends().max().unwrap_or(0));
        let low = low - i64::from(low == high && high == 32_767);
        (low, high.max(low + 1))
    };
    let ((left, right), (bottom, top)) = (side([1, 3]), side([2, 4]));
    [left, bottom, right, top]
}

/// Whether the machine of a 10 contains all ends.
fn within_unit(list: &[Record]) -> bool {
    list.iter().all(|[_, ends @ ..]| ends.iter().all(|end| (0..=1).contains(end)))
}

/// How a text is put through a fresh machine.
type Paint<P> = fn(&mut P, &[u8], &mut [Record]) -> Fed;

/// Take and draw in the form of feed.
fn calls<P: Partner>(machine: &mut P, text: &[u8], records: &mut [Record]) -> Fed {
    let mut fed = Fed::default();
    while let (number::NONE, Some(&byte)) = (fed.number, text.get(fed.taken)) {
        fed.taken += 1;
        fed.number = machine.take(byte);
        while let Drawn::Stroke(s) = machine.draw() {
            let Some(record) = records.get_mut(fed.stored) else { return fed };
            *record = [i64::from(s.pen), s.x0, s.y0, s.x1, s.y1];
            fed.stored += 1;
        }
    }
    fed
}

/// A text fed to a fresh machine whose hard limits contain all ends gives just the list, each stroke
/// of it, with as many records or with one more, which is left alone.
pub fn paint<P: Partner>(text: &[u8], list: &[Record], tally: &mut Tally) -> Result<(), String> {
    let limits = [Some(around(list)), Some(WIDEST), within_unit(list).then_some(REFUSED)];
    // Plot takes a byte only while a record is free; a call for each byte takes longest.
    let ways: [(&str, Paint<P>, usize); 4] =
        [("feed", P::feed, 0), ("feed", P::feed, 1), ("plot", P::plot, 1), ("take", calls, 1)];
    let ways = if list.len() <= MOST_BY_BYTES { &ways[..] } else { &ways[..3] };
    for limits in limits.into_iter().flatten() {
        for &(name, way, spare) in ways {
            let call = || {
                let text = text.escape_ascii();
                format!("// b\"{text}\" by {name}, {spare} records to spare, limits {limits:?}")
            };
            let (mut machine, number) = P::fresh(limits);
            let mut records = vec![[-7; 5]; list.len() + spare];
            let fed = way(&mut machine, text, &mut records);
            let due = Fed { taken: text.len(), stored: list.len(), number: number::NONE };
            same(call, fed, due)?;
            same(call, records, [list, &vec![[-7; 5]; spare]].concat())?;
            tally.painted += 1;
            tally.after_10 += usize::from(number == number::LIMITS);
        }
    }
    Ok(())
}

/// A list written beside the baseline and, if it is not refused, its text painted again by fresh
/// machines of `P`.
pub fn check<P: Partner>(write: Write, list: &[Record]) -> Result<Tally, String> {
    let mut tally = Tally { lists: 1, strokes: list.len(), ..Tally::default() };
    compare(write, list, &mut tally)?;
    if let Some(mut text) = due_text(list) {
        write(list, &mut text);
        paint::<P>(&text, list, &mut tally)?;
    }
    Ok(tally)
}

/// Numbers nearer to 0 or with fewer digits, of the same sign; a pen of 1.
fn simpler(place: usize, value: i64) -> Vec<i64> {
    let candidates = if place == 0 { vec![1] } else { vec![0, value.signum(), value / 10] };
    let nearer = |other: &i64| other.unsigned_abs() < value.unsigned_abs();
    candidates.into_iter().filter(nearer).collect()
}

/// Makes one number of one stroke after another as simple as it goes.
fn simplify(list: &mut [Record], fails: &mut impl FnMut(&[Record]) -> bool) {
    for (at, place) in (0..list.len()).flat_map(|at| (0..5).map(move |place| (at, place))) {
        let kept = list[at][place];
        let simpler = simpler(place, kept).into_iter().find(|&value| {
            list[at][place] = value;
            fails(list)
        });
        list[at][place] = simpler.unwrap_or(kept);
    }
}

/// The shortest list, with the simplest numbers, that still shows a difference.
fn shortest<P: Partner>(write: Write, list: &[Record]) -> Vec<Record> {
    let mut fails = |list: &[Record]| check::<P>(write, list).is_err();
    let mut shortest = list.to_vec();
    loop {
        let before = shortest.clone();
        shorten(&mut shortest, &mut fails);
        simplify(&mut shortest, &mut fails);
        if shortest == before {
            return shortest;
        }
    }
}

/// Checks a list; what is found is brought down to a short one.
pub fn search<P: Partner>(
    write: Write,
    origin: &str,
    list: &[Record],
) -> Result<Tally, Box<Finding>> {
    check::<P>(write, list).map_err(|_| {
        let list = shortest::<P>(write, list);
        let again = "not shown again: the answers change from run to run";
        let calls = check::<P>(write, &list).err().unwrap_or_else(|| again.to_string());
        Box::new(Finding { origin: origin.to_string(), list, calls })
    })
}

/// Checks lists until so many strokes are generated.
pub fn hunt<P: Partner>(write: Write, seed: u64, strokes: usize) -> Result<Tally, Box<Finding>> {
    let mut dice = Dice::new(seed);
    let mut tally = Tally::default();
    while tally.strokes < strokes {
        let list = lists::any(&mut dice);
        let origin = format!("list {} of seed {seed}", tally.lists + 1);
        tally.add(&search::<P>(write, &origin, &list)?);
    }
    Ok(tally)
}
