//! Strokes back into HP-GL (change request 6): the rows of `cr06.txt`, texts beside those of `format!`,
//! and what a fresh machine paints of them, with the exact checker beside it.

#[allow(dead_code)]
#[path = "../examples/outcomes.rs"]
mod outcomes;
#[allow(dead_code)]
mod pair;

use baseline::{write, Fed, Machine, Record, Stroke};
use outcomes::Calls;
use pair::Pair;

const WIDEST: [i64; 4] = [-32_768, -32_768, 32_767, 32_767];

/// The text of strokes, with the length found otherwise.
fn due(strokes: &[Record]) -> Vec<u8> {
    let mut text = "IN;".to_string();
    for (at, [pen, x0, y0, x1, y1]) in strokes.iter().enumerate() {
        if at == 0 || strokes[at - 1][0] != *pen {
            text += &format!("SP{pen};");
        }
        text += &format!("PU{x0},{y0};PD{x1},{y1};");
    }
    text.into_bytes()
}

/// The text as it is written into an output that just fits.
fn text(strokes: &[Record]) -> Vec<u8> {
    let mut out = due(strokes);
    let room = out.len();
    out.fill(7);
    assert_eq!(write(strokes, &mut out), (room, 0), "{strokes:?}");
    out
}

/// Written into these many sevens: the answer, and the output.
fn written(strokes: &[Record], room: usize) -> ((usize, u8), Vec<u8>) {
    let mut out = vec![7; room];
    (write(strokes, &mut out), out)
}

fn is_refused(strokes: &[Record], room: usize, number: u8) -> bool {
    written(strokes, room) == ((0, number), vec![7; room])
}

fn records(list: &[Stroke]) -> Vec<Record> {
    list.iter().map(|s| [i64::from(s.pen), s.x0, s.y0, s.x1, s.y1]).collect()
}

/// The whole numbers of a text that is nothing but these and signs between them.
fn numbers(text: &str) -> Vec<i64> {
    let parts =
        text.split(|c: char| !c.is_ascii_digit() && c != '-').filter(|part| !part.is_empty());
    parts.map(|part| part.parse().expect(text)).collect()
}

/// The strokes of a text like `(1, 0, 0, 5, 5), (2, 5, 5, 5, 5)`.
fn strokes(text: &str) -> Vec<Record> {
    numbers(text).chunks(5).map(|five| five.try_into().expect(text)).collect()
}

/// A row `write [STROKES] room N -> OUTCOME`.
fn check_write(row: &str) {
    let (given, outcome) = row.split_once(" -> ").expect(row);
    let (list, room) = given.trim_start_matches("write ").split_once("] room ").expect(row);
    let (list, room) = (strokes(list), room.parse().expect(row));
    let (answer, out) = written(&list, room);
    if let Some(refused) = outcome.strip_prefix('E') {
        let (number, rest) = refused.split_once(',').expect(row);
        assert!(rest.starts_with(" nothing written"), "{row}");
        assert_eq!((answer, out), ((0, number.parse().unwrap()), vec![7; room]), "{row}");
        return;
    }
    let [_, text, after] = outcome.split('`').collect::<Vec<_>>()[..] else { panic!("{row}") };
    let (length, _) = after.trim_start_matches(" (").split_once(" bytes)").expect(row);
    assert_eq!(answer, (length.parse().unwrap(), 0), "{row}");
    assert_eq!(
        (&out[..text.len()], &out[text.len()..]),
        (text.as_bytes(), &vec![7; room - text.len()][..])
    );
}

/// A row with an outcome `(TAKEN, [STROKES], NUMBER)` of a feed.
fn check_fed(row: &str, limits: [i64; 4], list: &[Record], room: usize) {
    let (_, outcome) = row.split_once("-> ").expect(row);
    let (taken, rest) = outcome.split_once(", [").expect(row);
    let (stored, number) = rest.split_once("], ").expect(row);
    let (taken, stored) = (numbers(taken)[0] as usize, strokes(stored));
    let due = Fed { taken, stored: stored.len(), number: numbers(number)[0] as u8 };
    let mut painted = vec![Stroke::default(); room];
    assert_eq!(Pair::fresh(limits).feed(&text(list), &mut painted), due, "{row}");
    assert_eq!(records(&painted[..due.stored]), stored, "{row}");
}

#[test]
fn agreed_outcomes() {
    let rows: Vec<&str> =
        include_str!("cr06.txt").lines().filter(|row| !row.starts_with('#')).collect();
    let (writes, feeds): (Vec<&str>, Vec<&str>) =
        rows.iter().partition(|row| row.starts_with("write "));
    writes.iter().for_each(|row| check_write(row));
    let [whole, full, silent] = feeds[..] else { panic!("{feeds:?}") };
    let given = |row: &str| numbers(row.split_once(" -> ").expect(row).0);
    // "fed to a fresh machine of limits .. strokes .. with 2 records", "the same with 1 record"
    let [left, bottom, right, top, list @ .., room] = &given(whole)[..] else { panic!("{whole}") };
    let limits = [*left, *bottom, *right, *top];
    let list: Vec<Record> = list.chunks(5).map(|five| five.try_into().expect(whole)).collect();
    check_fed(whole, limits, &list, *room as usize);
    check_fed(full, limits, &list, given(full)[0] as usize);
    // "limits .. do not contain the ends of .. claim is silent"
    let given = given(silent);
    let (limits, stroke) = given.split_at(4);
    check_fed(silent, limits.try_into().unwrap(), &[stroke.try_into().unwrap()], 8);
    assert_eq!(rows.len(), 19);
}

/// Each end that is allowed, in each of the four places, and each pen.
#[test]
fn every_number() {
    let list: Vec<Record> = (-32_768..=32_767)
        .map(|end: i64| [1 + end.rem_euclid(8), end, -1 - end, end / 2, end])
        .collect();
    assert_eq!(text(&list), due(&list));
    for far in [32_768, 32_769, 40_000, 65_535, 65_536, 1 << 32, i64::MAX - 1, i64::MAX] {
        for (end, place) in
            [far, -1 - far].iter().flat_map(|&end| (1..5).map(move |place| (end, place)))
        {
            let mut stroke = [1, 0, 0, 0, 0];
            stroke[place] = end;
            assert!(is_refused(&[stroke], 100, 32), "{stroke:?}");
        }
    }
    for pen in [i64::MIN, -1, 0, 9, 255, 256, 257, 264, 65_537, (1 << 32) + 1, i64::MAX] {
        assert!(is_refused(&[[pen, 0, 0, 0, 0]], 100, 32), "{pen}");
    }
}

/// Every output: too short, and it stays as it was; fitting; longer, and its rest stays.
#[test]
fn outputs() {
    let list = [[1, 0, -1, 10, 9], [1, 10, 9, 10, 9], [8, -32_768, 0, 1, 99], [1, -9, -10, 0, 0]];
    for count in 0..=list.len() {
        let text = due(&list[..count]);
        for room in 0..text.len() + 40 {
            if room < text.len() {
                assert!(is_refused(&list[..count], room, 33), "{count} {room}");
                continue;
            }
            let due = [&text[..], &vec![7; room - text.len()]].concat();
            assert_eq!(written(&list[..count], room), ((text.len(), 0), due));
        }
    }
}

/// A stroke that is not allowed, wherever it stands and whatever the output: 32, and nothing else.
#[test]
fn other_strokes() {
    let good = [[1, 0, 0, 5, 5], [2, 5, 5, 9, 9], [2, 0, 1, 2, 3], [1, 0, 0, 0, 0]];
    for bad in [[0, 0, 0, 5, 5], [9, 0, 0, 5, 5], [3, 32_768, 0, 5, 5], [3, 0, 0, 5, -32_769]] {
        for at in 0..=good.len() {
            let mut list = good.to_vec();
            list.insert(at, bad);
            for room in 0..120 {
                assert!(is_refused(&list, room, 32), "{list:?} {room}");
            }
        }
    }
}

struct Dice(u64);

impl Dice {
    fn within(&mut self, low: i64, high: i64) -> i64 {
        self.0 ^= self.0 << 13;
        self.0 ^= self.0 >> 7;
        self.0 ^= self.0 << 17;
        low + (self.0 >> 20) as i64 % (high - low + 1)
    }

    /// An end: about 0, at an edge of the range or where digits are added, or anywhere.
    fn end(&mut self) -> i64 {
        const EDGES: [i64; 10] =
            [-32_768, -32_767, 32_767, 32_766, 9_999, -10_000, 999, 100, -99, -9];
        match self.within(0, 3) {
            0 => self.within(-11, 11),
            1 => EDGES[self.within(0, 9) as usize],
            _ => self.within(-32_768, 32_767),
        }
    }

    fn point(&mut self) -> [i64; 2] {
        [self.end(), self.end()]
    }

    /// A stroke: the one before it again, one from its end, a dot, or any other.
    fn stroke(&mut self, before: Option<&Record>) -> Record {
        let pen = self.within(1, 8);
        let before = before.copied().unwrap_or([pen, 0, 0, 0, 0]);
        let [last, _, _, x, y] = before;
        let pen = if self.within(0, 2) == 0 { pen } else { last };
        let ([x0, y0], [x1, y1]) = (self.point(), self.point());
        match self.within(0, 5) {
            0 => before,
            1 => [pen, x, y, x1, y1],
            2 => [pen, x0, y0, x0, y0],
            _ => [pen, x0, y0, x1, y1],
        }
    }

    fn list(&mut self) -> Vec<Record> {
        let most = [3, 12, 60][self.within(0, 2) as usize];
        let mut list = Vec::new();
        for _ in 0..self.within(0, most) {
            list.push(self.stroke(list.last()));
        }
        list
    }
}

/// The least hard limits that contain all ends; left and right, bottom and top differ.
fn around(list: &[Record]) -> [i64; 4] {
    let side = |places: [usize; 2]| {
        let ends = || list.iter().flat_map(|stroke| places.map(|place| stroke[place]));
        let (low, high) = (ends().min().unwrap_or(0), ends().max().unwrap_or(0));
        let low = low - i64::from(low == high && high == 32_767);
        (low, high.max(low + 1))
    };
    let ((left, right), (bottom, top)) = (side([1, 3]), side([2, 4]));
    [left, bottom, right, top]
}

/// The text of the list, fed to this fresh machine, gives just the list, and no record more.
fn check_painted(mut machine: impl Calls, list: &[Record]) {
    let text = text(list);
    let mut painted = vec![Stroke { pen: 77, ..Stroke::default() }; list.len() + 1];
    let fed = machine.feed(&text, &mut painted);
    assert_eq!((fed.taken, fed.stored, fed.number), (text.len(), list.len(), 0), "{list:?}");
    assert_eq!(painted.pop().map(|past| past.pen), Some(77));
    assert_eq!(records(&painted), list);
}

#[test]
fn painted_again() {
    let mut dice = Dice(0x2545_f491_4f6c_dd1d);
    let (mut strokes, mut dots, mut equal, mut pens) = (0, 0, 0, 0);
    for _ in 0..2_000 {
        let list = dice.list();
        assert_eq!(text(&list), due(&list));
        for limits in [around(&list), WIDEST] {
            assert_eq!(outcomes::fresh(limits).1, 0, "{limits:?}");
            check_painted(Pair::fresh(limits), &list);
        }
        strokes += list.len();
        dots += list.iter().filter(|[_, x0, y0, x1, y1]| (x0, y0) == (x1, y1)).count();
        equal += list.windows(2).filter(|two| two[0] == two[1]).count();
        pens += list.windows(2).filter(|two| two[0][0] != two[1][0]).count();
    }
    println!("{strokes} strokes, {dots} dots, {equal} equal, {pens} changes of pen");
    assert!(strokes > 20_000 && dots > 3_000 && equal > 3_000 && pens > 3_000);
}

/// The machine of a 10 has limits 0, 0, 1, 1.
#[test]
fn painted_after_10() {
    let mut dice = Dice(0x2545_f491_4f6c_dd1d);
    for limits in [[0, 0, 0, 1], [5, 5, 5, 6], [-32_769, 0, 1, 1], [i64::MAX, 0, i64::MIN, 1]] {
        assert_eq!(outcomes::fresh(limits).1, 10);
        for _ in 0..100 {
            let mut list = vec![[0; 5]; 12];
            for [pen, ends @ ..] in &mut list {
                *pen = dice.within(1, 8);
                *ends = ends.map(|_| dice.within(0, 1));
            }
            check_painted(Pair::fresh(limits), &list);
        }
    }
}

/// In blocks of any length, and into few records at a time.
#[test]
fn painted_piece_by_piece() {
    let mut dice = Dice(0x2545_f491_4f6c_dd1d);
    for _ in 0..300 {
        let list = dice.list();
        let [left, bottom, right, top] = around(&list);
        let mut machine = Machine::fresh(left, bottom, right, top).0;
        let (text, mut painted, mut at) = (text(&list), Vec::new(), 0);
        let room = dice.within(1, 4) as usize;
        loop {
            let end = (at + dice.within(1, 20) as usize).min(text.len());
            let mut records = vec![Stroke::default(); room];
            let fed = machine.feed(&text[at..end], &mut records);
            painted.extend(self::records(&records[..fed.stored]));
            at += fed.taken;
            assert!([0, 21].contains(&fed.number), "{list:?}");
            if at == text.len() && fed.number == 0 {
                break;
            }
        }
        assert_eq!(painted, list);
    }
}
