//! The proved library and the baseline on the same bytes.
//!
//! `bench [--markdown] [NAME..]` prints a table of all loads, or of the named ones.
//! `bench --write NAME` writes the bytes of a load.
//! `bench --turns NAME` writes how many bytes a load has; then, for each line that it reads, it runs
//! the proved library alone and writes the nanoseconds of each call. The program `compare` asks two
//! such, with two archives of the library.
//!
//! Both sides do the same job: all strokes, and refusals with the places of their bytes, into a
//! lent list, block by block; a reply is fetched where it stops them. They run in turns. A call takes some 0.1 ms, and the least time of each
//! call counts, so that what disturbs one run does not show. Before that a checksum over every mark
//! and reply of both sides is compared. The load of write is a list of strokes that both sides write as
//! text, the same list in each call of a run.

use baseline::{number, Stroke, LONGEST_REPLY};
use differential::least::{Least, Times};
use differential::loads::{Load, LIMITS, LOADS};
use differential::partner::{number_of, own, write_own, Partner, Record};
use std::hint::black_box;
use std::io::Write;
use std::process::ExitCode;
use std::time::Instant;

const BLOCK: usize = 1 << 16;
const ROOM: usize = 4096;
const ROUNDS: usize = 6;

/// Calls of write in a run.
const WRITES: usize = 100;

/// The fetches whose time is taken at once.
const FETCHES: usize = 32;

/// The columns; a mark is a stroke, a refusal or a reply. The last is how far the measurement repeats.
const HEADS: [&str; 10] = [
    "load", "bytes", "strokes", "refusals", "ns/byte", "baseline", "ns/mark", "baseline", "ratio",
    "repeats",
];

/// What came out: marks by kind, and a sum over all numbers of all of them in order.
#[derive(Clone, Copy, PartialEq, Eq, Debug, Default)]
struct Outcome {
    strokes: u64,
    refusals: u64,
    replies: u64,
    sum: u64,
}

/// What a side makes of a load: marks, with the bytes before the call that stored them, and replies.
enum Made<'a, T> {
    Marks(usize, &'a [T]),
    Reply(&'a [u8]),
}

impl Outcome {
    /// Adds a mark of a call whose bytes begin after `base` bytes of the load.
    fn add(&mut self, base: usize, [pen, a, b, c, d]: [i64; 5]) {
        let b = if pen == 0 { b + base as i64 } else { b };
        self.refusals += u64::from(pen == 0);
        self.strokes += u64::from(pen != 0);
        self.sum([pen, a, b, c, d]);
    }

    /// Adds a reply.
    fn tell(&mut self, reply: &[u8]) {
        self.replies += u64::from(!reply.is_empty());
        self.sum(reply.iter().map(|&byte| i64::from(byte)));
    }

    fn sum(&mut self, values: impl IntoIterator<Item = i64>) {
        for value in values {
            self.sum = (self.sum ^ value as u64).wrapping_mul(0x0100_0000_01b3).rotate_left(23);
        }
    }
}

/// Goes through the bytes in blocks, and answers the nanoseconds of each call. `plot` gets the bytes
/// before a call and those of the call, and answers how many it took and a number, which is 0 when
/// all was done.
fn in_blocks(bytes: &[u8], mut plot: impl FnMut(usize, &[u8]) -> (usize, u8)) -> Times {
    let mut times = Vec::new();
    let mut at = 0;
    loop {
        let end = ((at / BLOCK + 1) * BLOCK).min(bytes.len());
        let start = Instant::now();
        let (taken, number) = plot(at, &bytes[at..end]);
        times.push(start.elapsed().as_nanos() as u64);
        at += taken;
        if at == bytes.len() && number == number::NONE {
            return times;
        }
    }
}

/// Calls of `plot` until one ends with another number than 20, and a fetch after each that does; with
/// 20 after so many, so that its time is like that of a block without replies. `seen` gets the marks
/// and the replies.
fn block<M: Partner, T>(
    machine: &mut M,
    list: &mut [T],
    (at, bytes): (usize, &[u8]),
    plot: impl Fn(&mut M, &[u8], &mut [T]) -> (usize, usize, u8),
    seen: &mut impl FnMut(Made<T>),
) -> (usize, u8) {
    let mut all = 0;
    for _ in 0..FETCHES {
        let (taken, stored, number) = plot(machine, &bytes[all..], list);
        seen(Made::Marks(at + all, &list[..stored]));
        all += taken;
        if number != number::WAITS {
            return (all, number);
        }
        let mut buffer = [0; LONGEST_REPLY];
        let (length, _) = machine.fetch(&mut buffer);
        seen(Made::Reply(&buffer[..length]));
    }
    (all, number::WAITS)
}

/// The proved library.
fn proved(bytes: &[u8], mut seen: impl FnMut(Made<vutaroi::Mark>)) -> Times {
    let mut machine = <vutaroi::Machine as Partner>::fresh(LIMITS).0;
    let mut list = vec![vutaroi::Mark::default(); ROOM];
    in_blocks(bytes, |at, part| {
        let plot = |machine: &mut vutaroi::Machine, bytes: &[u8], list: &mut [vutaroi::Mark]| {
            let fed = machine.plot(bytes, list).expect("a machine of the calls");
            (fed.taken, fed.stored, number_of(fed.stopped))
        };
        block(&mut machine, &mut list, (at, part), plot, &mut seen)
    })
}

/// The baseline, likewise; a refusal is a record without a pen.
fn baseline(bytes: &[u8], mut seen: impl FnMut(Made<Stroke>)) -> Times {
    let mut machine = <baseline::Machine as Partner>::fresh(LIMITS).0;
    let mut list = vec![Stroke::default(); ROOM];
    in_blocks(bytes, |at, part| block(&mut machine, &mut list, (at, part), plot, &mut seen))
}

/// Feed that goes on after refusals. The last record is kept free for one.
fn plot(machine: &mut baseline::Machine, bytes: &[u8], list: &mut [Stroke]) -> (usize, usize, u8) {
    let room = list.len() - 1;
    let (mut taken, mut stored) = (0, 0);
    while stored <= room {
        let fed = machine.feed(&bytes[taken..], &mut list[stored..room]);
        taken += fed.taken;
        stored += fed.stored;
        if matches!(fed.number, number::NONE | number::FULL | number::WAITS) {
            return (taken, stored, fed.number);
        }
        list[stored] = Stroke { pen: 0, x0: i64::from(fed.number), y0: taken as i64, x1: 0, y1: 0 };
        stored += 1;
    }
    (taken, stored, number::FULL)
}

/// The outcomes of both sides, if they are the same.
fn outcome(bytes: &[u8]) -> Result<Outcome, String> {
    let (mut ours, mut theirs) = (Outcome::default(), Outcome::default());
    proved(bytes, |made| match made {
        Made::Marks(base, marks) => marks.iter().for_each(|mark| ours.add(base, mark.numbers)),
        Made::Reply(reply) => ours.tell(reply),
    });
    baseline(bytes, |made| match made {
        Made::Marks(base, marks) => {
            marks.iter().for_each(|s| theirs.add(base, [i64::from(s.pen), s.x0, s.y0, s.x1, s.y1]));
        }
        Made::Reply(reply) => theirs.tell(reply),
    });
    if ours == theirs {
        Ok(ours)
    } else {
        Err(format!("the outcomes differ: {ours:?}, {theirs:?}"))
    }
}

/// Writes a list again and again into one output, and answers the nanoseconds of each call.
fn writes(length: usize, write: impl Fn(&mut [u8]) -> (usize, u8)) -> Times {
    let mut out = vec![0; length];
    let time = |_| {
        let start = Instant::now();
        black_box(write(black_box(&mut out)));
        start.elapsed().as_nanos() as u64
    };
    (0..WRITES).map(time).collect()
}

/// The outcome of writing a list, if both sides write this text.
fn written(list: &[Record], ours: &[vutaroi::Stroke], text: &[u8]) -> Result<Outcome, String> {
    let mut outs = [vec![0; text.len()], vec![0; text.len()]];
    let answers = [write_own(ours, &mut outs[0]), baseline::write(list, &mut outs[1])];
    if answers != [(text.len(), number::NONE); 2] || outs.iter().any(|out| out != text) {
        return Err(format!("the texts differ: {answers:?}"));
    }
    Ok(Outcome { strokes: (list.len() * WRITES) as u64, ..Outcome::default() })
}

/// A load made ready: bytes that are plotted; or strokes, in the forms of both sides, that are written
/// as a text.
enum Job {
    Plot(Vec<u8>),
    Write(Vec<Record>, Vec<vutaroi::Stroke>, Vec<u8>),
}

impl Job {
    fn of(load: &Load) -> Job {
        match load.strokes() {
            None => Job::Plot(load.bytes()),
            Some(list) => Job::Write(list.clone(), list.iter().map(own).collect(), load.bytes()),
        }
    }

    fn outcome(&self) -> Result<Outcome, String> {
        match self {
            Job::Plot(bytes) => outcome(bytes),
            Job::Write(list, ours, text) => written(list, ours, text),
        }
    }

    /// The bytes that a run takes or writes.
    fn bytes(&self) -> usize {
        match self {
            Job::Plot(bytes) => bytes.len(),
            Job::Write(_, _, text) => text.len() * WRITES,
        }
    }

    /// The proved library, with nothing done about what it makes.
    fn ours(&self) -> Times {
        match self {
            Job::Plot(bytes) => proved(black_box(bytes), |made| _ = black_box(made)),
            Job::Write(_, ours, text) => writes(text.len(), |out| write_own(black_box(ours), out)),
        }
    }

    /// The baseline, likewise.
    fn theirs(&self) -> Times {
        match self {
            Job::Plot(bytes) => baseline(black_box(bytes), |made| _ = black_box(made)),
            Job::Write(list, _, text) => {
                writes(text.len(), |out| baseline::write(black_box(list), out))
            }
        }
    }

    /// The least of each call of both sides, in turns.
    fn measure(&self) -> [Least; 2] {
        let mut least = [Least::default(), Least::default()];
        for _ in 0..ROUNDS {
            least[0].add(&self.ours());
            least[1].add(&self.theirs());
        }
        least
    }
}

fn row(load: &Load, markdown: bool) -> Result<String, String> {
    let job = Job::of(load);
    let seen = job.outcome().map_err(|error| format!("{}: {error}", load.name))?;
    let least = job.measure();
    let [ours, theirs] = [least[0].total(), least[1].total()];
    let marks = seen.strokes + seen.refusals + seen.replies;
    let each = |time: f64| match marks {
        0 => "–".to_string(),
        _ => format!("{:.1}", time / marks as f64),
    };
    let cells = [
        load.about.to_string(),
        job.bytes().to_string(),
        seen.strokes.to_string(),
        seen.refusals.to_string(),
        format!("{:.2}", ours / job.bytes() as f64),
        format!("{:.2}", theirs / job.bytes() as f64),
        each(ours),
        each(theirs),
        format!("{:.2}", ours / theirs),
        format!("{:.3}", least[0].repeats().max(least[1].repeats())),
    ];
    Ok(line(&cells, markdown))
}

fn line(cells: &[String; 10], markdown: bool) -> String {
    if markdown {
        return format!("| {} |", cells.join(" | "));
    }
    let widths = [27, 9, 9, 9, 8, 8, 8, 8, 6, 8];
    let mut text = format!("{:27}", cells[0]);
    for (cell, width) in cells.iter().zip(widths).skip(1) {
        text += &format!(" {cell:>width$}");
    }
    text
}

fn table(names: &[String], markdown: bool) -> Result<(), String> {
    println!("{}", line(&HEADS.map(str::to_string), markdown));
    if markdown {
        println!("|---|{}", "---:|".repeat(9));
    }
    for load in LOADS.iter().filter(|load| names.is_empty() || names.iter().any(|n| n == load.name))
    {
        println!("{}", row(load, markdown)?);
    }
    Ok(())
}

/// Runs the proved library once for each line that is read.
fn turns(job: &Job) -> std::io::Result<()> {
    let mut out = std::io::stdout().lock();
    writeln!(out, "{}", job.bytes())?;
    out.flush()?;
    for line in std::io::stdin().lines() {
        line?;
        let times: Vec<String> = job.ours().iter().map(u64::to_string).collect();
        writeln!(out, "{}", times.join(" "))?;
        out.flush()?;
    }
    Ok(())
}

fn run(mut arguments: Vec<String>) -> Result<(), String> {
    let mut switch = |name: &str| {
        let count = arguments.len();
        arguments.retain(|word| word != name);
        arguments.len() < count
    };
    let [markdown, write, by_turns] = ["--markdown", "--write", "--turns"].map(&mut switch);
    if let Some(word) = arguments.iter().find(|word| !LOADS.iter().any(|load| load.name == **word))
    {
        return Err(format!("no load {word}: {}", LOADS.map(|load| load.name).join(", ")));
    }
    if !write && !by_turns {
        return table(&arguments, markdown);
    }
    let [name] = &arguments[..] else {
        return Err("--write and --turns ask for one load".to_string());
    };
    let load = LOADS.into_iter().find(|load| load.name == name).expect("a load");
    let done =
        if write { std::io::stdout().write_all(&load.bytes()) } else { turns(&Job::of(&load)) };
    done.map_err(|error| error.to_string())
}

fn main() -> ExitCode {
    match run(std::env::args().skip(1).collect()) {
        Ok(()) => ExitCode::SUCCESS,
        Err(error) => {
            eprintln!("bench: {error}");
            ExitCode::FAILURE
        }
    }
}
