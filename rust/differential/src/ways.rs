//! How a stream is put through the calls, with every answer compared.

use crate::dice::Dice;
use crate::difference::{Call, Difference};
use crate::partner::{Partner, Record};
use baseline::exact::Exact;
use baseline::{number, Drawn, Fed, Look, Machine};
use std::fmt::{self, Debug, Display};
use std::ops::Range;

/// The records of a plot with much room.
const LARGE: usize = 4096;

/// A block that holds any stream whole.
pub const WHOLE: usize = 1 << 24;

/// A way to put a stream through the calls.
#[derive(Clone, Copy, PartialEq, Eq, Debug)]
pub enum Way {
    /// Take, look, fetch, and draw until idle, after each byte; with the exact checker.
    Calls,
    /// The same with draws and fetches by the dice, so that takes are refused with 20; with the exact
    /// checker.
    Lazy(u64),
    /// Feed in blocks of `block` bytes into `room` records.
    Feed {
        /// Bytes a call.
        block: usize,
        /// Records a call.
        room: usize,
    },
    /// Plot likewise.
    Plot {
        /// Bytes a call.
        block: usize,
        /// Records a call.
        room: usize,
    },
    /// All calls, by the dice.
    Mixed(u64),
}

/// Each way that a stream is put through: rooms 0 to 8 of feed and plot, and a large one. Calls of one
/// byte each take longest, and one of the feeds and one of the plots makes them.
pub fn every_way(dice: &mut Dice) -> Vec<Way> {
    let mut ways = vec![Way::Calls, Way::Lazy(dice.roll()), Way::Mixed(dice.roll())];
    let (feed, plot) = (dice.below(9), dice.below(9));
    let mut block = |single| if single { 1 } else { dice.pick(&[7, 64, 700, WHOLE]) };
    for room in 0..=8 {
        ways.push(Way::Feed { block: block(room == feed), room });
        ways.push(Way::Plot { block: block(room == plot), room });
    }
    ways.push(Way::Plot { block: WHOLE, room: LARGE });
    ways
}

/// What was seen in a run.
#[derive(Clone, Default, Debug)]
pub struct Tally {
    /// Calls of take.
    pub takes: usize,
    /// Calls of draw.
    pub draws: usize,
    /// Calls of feed and plot.
    pub feeds: usize,
    /// Calls of fetch.
    pub fetches: usize,
    /// Replies that they wrote.
    pub replies: usize,
    /// Strokes that condition 3 was checked of.
    pub strokes: usize,
    /// Hidden segments, likewise.
    pub hidden: usize,
    /// Both by their line types, 1 to 4; at 0, draws that were idle.
    pub types: [usize; 5],
    /// Marks that feed and plot stored.
    pub stored: usize,
    /// Answers by number, of take, feed, plot and fetch.
    pub numbers: [usize; 32],
}

impl Tally {
    /// Adds another run.
    pub fn add(&mut self, other: &Tally) {
        self.takes += other.takes;
        self.draws += other.draws;
        self.feeds += other.feeds;
        self.strokes += other.strokes;
        self.hidden += other.hidden;
        self.stored += other.stored;
        self.fetches += other.fetches;
        self.replies += other.replies;
        for (sum, count) in self.types.iter_mut().zip(other.types) {
            *sum += count;
        }
        for (sum, count) in self.numbers.iter_mut().zip(other.numbers) {
            *sum += count;
        }
    }
}

impl Display for Tally {
    fn fmt(&self, f: &mut fmt::Formatter<'_>) -> fmt::Result {
        let Tally { takes, draws, feeds, strokes, hidden, types, stored, numbers, .. } = self;
        write!(f, "{takes} takes, {draws} draws, {feeds} feeds and plots ({stored} marks), ")?;
        write!(f, "{} fetches ({} replies), ", self.fetches, self.replies)?;
        write!(f, "condition 3 on {strokes} strokes and {hidden} hidden, ")?;
        write!(f, "line types {:?}, numbers", &types[1..])?;
        for (number, count) in numbers.iter().enumerate().filter(|(_, &count)| count > 0) {
            write!(f, " {number}: {count}")?;
        }
        Ok(())
    }
}

/// Two machines that get the same calls, and the calls.
struct Pair<'a, P> {
    stream: &'a [u8],
    answering: P,
    due: Machine,
    exact: Option<Exact>,
    /// How many fetches took their buffer's length from [`ROOMS`].
    lent: usize,
    calls: Vec<Call>,
    tally: Tally,
}

impl<'a, P: Partner> Pair<'a, P> {
    fn fresh(limits: [i64; 4], stream: &'a [u8], judged: bool) -> Result<Self, Difference> {
        let (answering, answer) = P::fresh(limits);
        let (due, number) = <Machine as Partner>::fresh(limits);
        let [left, bottom, right, top] = limits;
        let exact = judged.then(|| Exact::fresh(left, bottom, right, top).0);
        let (calls, tally) = (Vec::new(), Tally::default());
        let pair = Pair { stream, answering, due, exact, lent: 0, calls, tally };
        pair.same(answer, number)?;
        Ok(pair)
    }

    fn same<T: PartialEq + Debug>(&self, answer: T, due: T) -> Result<T, Difference> {
        if answer == due {
            return Ok(due);
        }
        self.differs(format!("{answer:?}"), format!("{due:?}"))
    }

    fn differs<T>(&self, answer: String, due: String) -> Result<T, Difference> {
        Err(Difference { calls: self.calls.clone(), answer, due })
    }

    fn take(&mut self, byte: u8) -> Result<u8, Difference> {
        self.calls.push(Call::Take(byte));
        self.tally.takes += 1;
        let answer = self.answering.take(byte);
        let due = self.due.take(byte);
        self.same(answer, due)?;
        if let Some(exact) = &mut self.exact {
            let owed = exact.take(byte);
            self.same(answer, owed)?;
        }
        self.tally.numbers[usize::from(due) % 32] += 1;
        Ok(due)
    }

    fn draw(&mut self) -> Result<Drawn, Difference> {
        self.calls.push(Call::Draw);
        self.tally.draws += 1;
        let answer = self.answering.draw();
        let told = self.due.line_type().map_or(0, |told| told as u8);
        // Judged before it is compared, so that condition 3 does not rest on the baseline.
        if let Some(exact) = &mut self.exact {
            assert_eq!(exact.line_type().unwrap_or(0), told, "the baseline's type is another");
            let by_type = exact.judge_type(answer);
            if let Err(violation) = exact.draw(answer).and(by_type) {
                let due = format!("{}: {violation}", violation.claim());
                return self.differs(format!("{answer:?}"), due);
            }
        }
        let due = self.due.draw();
        if self.exact.is_some() {
            self.tally.types[usize::from(told)] += 1;
            self.tally.strokes += usize::from(matches!(due, Drawn::Stroke(_)));
            self.tally.hidden += usize::from(due == Drawn::Hidden);
        }
        self.same(answer, due)
    }

    fn look(&mut self) -> Result<Look, Difference> {
        self.calls.push(Call::Look);
        let answer = self.answering.look();
        if let Some(exact) = &self.exact {
            self.same(answer, exact.look())?;
        }
        self.same(answer, self.due.look())
    }

    /// Compares what fetch answered, every byte of the buffer, and the look after it.
    fn fetch(&mut self, room: usize) -> Result<(), Difference> {
        self.calls.push(Call::Fetch(room));
        self.tally.fetches += 1;
        let content: Vec<u8> = (0..room).map(|i| 150 + (i % 100) as u8).collect();
        let (mut buffer, mut kept) = (content.clone(), content.clone());
        let (length, number) = self.answering.fetch(&mut buffer);
        let due = self.due.fetch(&mut kept);
        let told = |length, number, buffer: &[u8]| {
            format!("length {length}, number {number}, buffer {}", buffer.escape_ascii())
        };
        let answer = told(length, number, &buffer);
        if let Some(exact) = &mut self.exact {
            let (owed, length, number) = exact.fetch(&content);
            if told(length, number, &owed) != answer {
                return self.differs(answer, told(length, number, &owed));
            }
        }
        if ((length, number), buffer) != (due, kept.clone()) {
            return self.differs(answer, told(due.0, due.1, &kept));
        }
        self.tally.replies += usize::from(due.0 > 0);
        self.tally.numbers[usize::from(due.1) % 32] += 1;
        self.look().map(drop)
    }

    /// Whether a reply waits, as the baseline has it: it changes nothing for want of a buffer.
    fn replies(&mut self) -> bool {
        self.due.fetch(&mut []).1 == number::SHORT
    }

    /// Fetches with one buffer after another until no reply waits.
    fn fetch_off(&mut self) -> Result<(), Difference> {
        while self.replies() {
            self.lent += 1;
            self.fetch(ROOMS[self.lent % ROOMS.len()])?;
        }
        Ok(())
    }

    fn feed(&mut self, bytes: Range<usize>, room: usize) -> Result<Fed, Difference> {
        self.calls.push(Call::Feed(bytes.clone(), room));
        let (mut records, mut kept) = (untouched(room), untouched(room));
        let fed = self.answering.feed(&self.stream[bytes.clone()], &mut records);
        let due = Partner::feed(&mut self.due, &self.stream[bytes], &mut kept);
        self.stored((fed, records), (due, kept))
    }

    fn plot(&mut self, bytes: Range<usize>, room: usize) -> Result<Fed, Difference> {
        self.calls.push(Call::Plot(bytes.clone(), room));
        let (mut records, mut kept) = (untouched(room), untouched(room));
        let fed = self.answering.plot(&self.stream[bytes.clone()], &mut records);
        let due = Partner::plot(&mut self.due, &self.stream[bytes], &mut kept);
        self.stored((fed, records), (due, kept))
    }

    /// Compares what feed or plot answered, every record of the list included.
    fn stored(
        &mut self,
        answer: (Fed, Vec<Record>),
        due: (Fed, Vec<Record>),
    ) -> Result<Fed, Difference> {
        self.tally.feeds += 1;
        self.tally.stored += due.0.stored;
        self.tally.numbers[usize::from(due.0.number) % 32] += 1;
        let fed = self.same(answer.0, due.0)?;
        for (at, (record, kept)) in answer.1.iter().zip(&due.1).enumerate() {
            if record != kept {
                return self.differs(format!("record {at}: {record:?}"), format!("{kept:?}"));
            }
        }
        Ok(fed)
    }

    /// Draws until idle.
    fn draw_off(&mut self) -> Result<(), Difference> {
        while self.draw()? != Drawn::Idle {}
        Ok(())
    }
}

/// The lengths of lent buffers: longer than any reply, shorter than any, none, those of some replies
/// and next to them.
const ROOMS: [usize; 12] = [64, 7, 37, 2, 40, 0, 25, 3, 64, 24, 38, 6];

/// Records with content that no mark has, which feed and plot leave where they store nothing.
fn untouched(room: usize) -> Vec<Record> {
    (0..room as i64).map(|i| [1, 2, 3, 4, 5].map(|k| -70_000_000 - 10 * i - k)).collect()
}

/// Puts the stream through a fresh machine of `P` in this way.
pub fn run<P: Partner>(limits: [i64; 4], stream: &[u8], way: Way) -> Result<Tally, Difference> {
    let judged = matches!(way, Way::Calls | Way::Lazy(_));
    let mut pair = Pair::<P>::fresh(limits, stream, judged)?;
    pair.look()?;
    match way {
        Way::Calls => calls(&mut pair)?,
        Way::Lazy(seed) => lazy(&mut pair, &mut Dice::new(seed))?,
        Way::Feed { block, room } => feeds(&mut pair, block, room)?,
        Way::Plot { block, room } => plots(&mut pair, block, room)?,
        Way::Mixed(seed) => mixed(&mut pair, &mut Dice::new(seed))?,
    }
    Ok(pair.tally)
}

fn calls<P: Partner>(pair: &mut Pair<P>) -> Result<(), Difference> {
    for &byte in pair.stream {
        pair.take(byte)?;
        pair.look()?;
        pair.fetch_off()?;
        pair.draw_off()?;
    }
    // With no reply waiting.
    pair.fetch(0)?;
    pair.fetch(64)
}

/// Few draws and fetches, so that bytes are refused with 20; most of those are sent again.
fn lazy<P: Partner>(pair: &mut Pair<P>, dice: &mut Dice) -> Result<(), Difference> {
    for &byte in pair.stream {
        while pair.take(byte)? == number::WAITS && !dice.one_in(8) {
            pair.look()?;
            for _ in 0..dice.below(40) {
                pair.draw()?;
            }
            if dice.one_in(2) {
                pair.fetch(dice.pick(&ROOMS))?;
            }
        }
        pair.look()?;
        if dice.one_in(4) {
            pair.draw()?;
        }
        if dice.one_in(32) {
            pair.fetch(dice.pick(&ROOMS))?;
        }
    }
    pair.fetch_off()?;
    pair.draw_off()
}

fn feeds<P: Partner>(pair: &mut Pair<P>, block: usize, room: usize) -> Result<(), Difference> {
    let mut at = 0;
    loop {
        let end = (at + block).min(pair.stream.len());
        let fed = pair.feed(at..end, room)?;
        pair.look()?;
        at += fed.taken;
        if fed.number == number::FULL && room == 0 {
            pair.draw()?;
        }
        if fed.number == number::WAITS {
            pair.fetch_off()?;
        }
        if fed.number == number::NONE && at == pair.stream.len() {
            return pair.fetch_off();
        }
    }
}

fn plots<P: Partner>(pair: &mut Pair<P>, block: usize, room: usize) -> Result<(), Difference> {
    let mut at = 0;
    loop {
        let end = (at + block).min(pair.stream.len());
        let fed = pair.plot(at..end, room)?;
        pair.look()?;
        at += fed.taken;
        if fed.number == number::NONE && at == pair.stream.len() {
            return pair.fetch_off();
        }
        if fed.number == number::WAITS {
            pair.fetch_off()?;
            continue;
        }
        // Without records plot does nothing: a draw or, when idle, a take goes on.
        if room == 0 && pair.draw()? == Drawn::Idle {
            pair.take(pair.stream[at])?;
            at += 1;
        }
    }
}

fn mixed<P: Partner>(pair: &mut Pair<P>, dice: &mut Dice) -> Result<(), Difference> {
    let mut at = 0;
    while at < pair.stream.len() {
        let bytes = at..(at + dice.below(40)).min(pair.stream.len());
        let room = dice.below(9);
        at += match dice.below(7) {
            0 | 1 => usize::from(pair.take(pair.stream[at])? != number::WAITS || dice.one_in(8)),
            2 => {
                pair.draw()?;
                0
            }
            3 | 4 => pair.feed(bytes, room)?.taken,
            5 => {
                pair.fetch(dice.pick(&ROOMS))?;
                0
            }
            _ => pair.plot(bytes, room)?.taken,
        };
        pair.look()?;
    }
    pair.fetch_off()?;
    pair.draw_off()
}
