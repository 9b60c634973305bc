//! Strokes to text through the proved library, beside the baseline; the text through the proved machine.
//!
//! `SEED` and `STROKES` (generated strokes) set other lists and more of them.

use differential::lists::{OTHER_ENDS, OTHER_PENS};
use differential::partner::{write, Partner, Record};
use differential::redraw::{hunt, paint, search, Tally};
use vutaroi::Machine;

fn setting(name: &str, usual: u64) -> u64 {
    match std::env::var(name) {
        Ok(text) => text.parse().unwrap_or_else(|_| panic!("{name} is no whole number: {text}")),
        Err(_) => usual,
    }
}

/// No difference in generated lists; every answer is reached, and the machine of a 10.
#[test]
fn generated_lists() {
    let (seed, strokes) = (setting("SEED", 20_260_101), setting("STROKES", 40_000));
    match hunt::<Machine>(write, seed, strokes as usize) {
        Ok(tally) => {
            println!("seed {seed}, no difference: {tally}");
            assert!(strokes < 40_000 || all_reached(&tally), "{tally}");
        }
        Err(finding) => panic!("{finding}"),
    }
}

fn all_reached(tally: &Tally) -> bool {
    [tally.texts, tally.other, tally.short, tally.painted, tally.after_10].iter().all(|&n| n > 100)
}

fn same(origin: &str, list: &[Record]) {
    if let Err(finding) = search::<Machine>(write, origin, list) {
        panic!("{finding}");
    }
}

/// Each end that is allowed in each of the four places, and each pen.
#[test]
fn every_end() {
    let list: Vec<Record> = (-32_768..=32_767)
        .map(|end: i64| [1 + end.rem_euclid(8), end, -1 - end, end ^ 1, end])
        .collect();
    for part in list.chunks(8_192) {
        same("every end", part);
    }
}

/// A stroke that is refused, by each of its numbers, at each place of a list.
#[test]
fn every_refusal() {
    let good = [[1, 0, 0, 5, 5], [2, 5, 5, -9, 9], [8, 1, 1, 1, 1]];
    for place in 0..5 {
        let others: &[i64] = if place == 0 { &OTHER_PENS } else { &OTHER_ENDS };
        for (&other, at) in others.iter().flat_map(|other| (0..3).map(move |at| (other, at))) {
            let mut list = good;
            list[at][place] = other;
            same("a stroke that is refused", &list);
        }
    }
}

/// The lists of the agreed outcomes, which the baseline's own tests hold it to.
#[test]
fn agreed_lists() {
    let rows = include_str!("../../baseline/tests/cr06.txt").lines();
    let mut count = 0;
    for row in rows.filter(|row| row.starts_with("write ")) {
        let (list, _) = row.split_once("] room ").expect(row);
        let words = list.split(|c: char| !c.is_ascii_digit() && c != '-');
        let numbers: Vec<i64> = words.filter_map(|word| word.parse().ok()).collect();
        let list: Vec<Record> = numbers.chunks(5).map(|five| five.try_into().expect(row)).collect();
        same(row, &list);
        count += 1;
    }
    assert_eq!(count, 16);
}

/// Hard limits that do not contain all ends give other strokes: the comparison of what is painted can
/// fail.
#[test]
fn other_paint_is_told() {
    let list = [[1, 0, 0, 10, 10], [2, 5, 5, 5, 5]];
    let mut text = *b"IN;SP1;PU0,0;PD10,10;SP2;PU5,5;PD5,5;";
    assert_eq!(paint::<Machine>(&text, &list, &mut Tally::default()), Ok(()));
    text[16] = b'1';
    assert!(paint::<Machine>(&text, &list, &mut Tally::default()).is_err());
    let mut records = [[7; 5]];
    let fed = Partner::feed(
        &mut <Machine as Partner>::fresh([0, 0, 5, 5]).0,
        b"IN;SP1;PU0,0;PD10,10;",
        &mut records,
    );
    assert_eq!((fed.stored, records), (1, [[1, 0, 0, 5, 5]]));
}
