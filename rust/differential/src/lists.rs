//! Lists of strokes, as a hand may have changed them: good ones, and ones that write refuses.

use crate::dice::Dice;
use crate::partner::Record;

/// Pens that are refused: next to the good ones first, good in their lowest byte or half, the farthest.
pub const OTHER_PENS: [i64; 11] =
    [0, 9, -1, 255, 256, 257, 264, 65_537, (1 << 32) + 1, i64::MIN, i64::MAX];

/// Ends that are refused, likewise.
pub const OTHER_ENDS: [i64; 13] = [
    32_768,
    -32_769,
    32_769,
    -32_770,
    40_000,
    65_535,
    65_536,
    -65_536,
    1 << 32,
    (1 << 32) + 5,
    -(1 << 32),
    i64::MIN,
    i64::MAX,
];

/// Ends at the edges of the range, and where a digit or the sign is added.
const EDGES: [i64; 20] = [
    -32_768, -32_767, 32_767, 32_766, -10_000, 10_000, -9_999, 9_999, -1_000, 1_000, -999, 999,
    -100, 100, -99, 99, -10, 10, -1, 0,
];

/// The most strokes of lists, the longest of them seldom.
const MOST: [usize; 8] = [0, 2, 3, 5, 8, 12, 40, 300];

/// Ends of one kind: on the machine of a 10, about 0, at edges, anywhere, or of all kinds.
#[derive(Clone, Copy)]
enum Ends {
    Unit,
    Near,
    Edges,
    Far,
    All,
}

impl Ends {
    fn end(self, dice: &mut Dice) -> i64 {
        match self {
            Ends::Unit => dice.within(0, 1),
            Ends::Near => dice.within(-12, 12),
            Ends::Edges => dice.pick(&EDGES),
            Ends::Far => dice.within(-32_768, 32_767),
            Ends::All => dice.pick(&[Ends::Unit, Ends::Near, Ends::Edges, Ends::Far]).end(dice),
        }
    }
}

/// A list without strokes that are refused.
pub fn good(dice: &mut Dice) -> Vec<Record> {
    let ends = dice.pick(&[Ends::Unit, Ends::Near, Ends::Edges, Ends::Far, Ends::All]);
    let most = dice.pick(&MOST);
    let mut list = Vec::new();
    for _ in 0..dice.below(most + 1) {
        list.push(stroke(dice, ends, &list));
    }
    list
}

/// A stroke: now and then one of the list again, one from the last end, or a dot. Most keep the pen.
fn stroke(dice: &mut Dice, ends: Ends, list: &[Record]) -> Record {
    let [pen, _, _, x, y] = list.last().copied().unwrap_or([dice.within(1, 8), 0, 0, 0, 0]);
    let pen = if dice.one_in(3) { dice.within(1, 8) } else { pen };
    let [x0, y0, x1, y1] = [0; 4].map(|_| ends.end(dice));
    match dice.below(10) {
        0 if !list.is_empty() => dice.pick(list),
        1 | 2 => list.last().copied().unwrap_or([pen, x0, y0, x1, y1]),
        3 | 4 => [pen, x, y, x1, y1],
        5 => [pen, x0, y0, x0, y0],
        _ => [pen, x0, y0, x1, y1],
    }
}

/// A good list, or one in which a number or some are put that are refused.
pub fn any(dice: &mut Dice) -> Vec<Record> {
    let mut list = good(dice);
    if dice.one_in(3) && !list.is_empty() {
        for _ in 0..dice.pick(&[1, 1, 1, 3]) {
            let (at, place) = (dice.below(list.len()), dice.below(6).saturating_sub(1));
            let others: &[i64] = if place == 0 { &OTHER_PENS } else { &OTHER_ENDS };
            // The first two are those next to the good ones.
            list[at][place] =
                if dice.one_in(3) { dice.pick(&others[..2]) } else { dice.pick(others) };
        }
    }
    list
}
