//! What depends on no seed, through the proved library: hard limits, agreed sequences, written drawings.

use differential::dice::Dice;
use differential::hunt::{compare, USUAL};
use differential::partner::Partner;
use differential::ways::{run, Tally, Way};
use std::path::PathBuf;
use std::{fs, thread};
use vutaroi::Machine;

/// Limits at and beyond what fresh allows; after 10 the machine has 0, 0, 1, 1.
#[test]
fn fresh() {
    let edges = [i64::MIN, -32_769, -32_768, -1, 0, 1, 32_767, 32_768, i64::MAX];
    let stream = b"SP1;PU-5,1;PD5,1;SC0,10,0,10;PD10,5;IP;PA3,3;CI5,90;";
    let mut refused = 0;
    for case in 0..edges.len().pow(4) {
        let limits = [0, 1, 2, 3].map(|place| edges[case / edges.len().pow(place) % edges.len()]);
        refused += usize::from(<Machine as Partner>::fresh(limits).1 == 10);
        for way in [Way::Calls, Way::Plot { block: 9, room: 3 }] {
            if let Err(difference) = run::<Machine>(limits, stream, way) {
                panic!("{}", difference.explain(limits, stream));
            }
        }
    }
    // Of the nine edges five are in range: ten pairs in order on each axis.
    assert_eq!(edges.len().pow(4) - refused, 100);
}

/// Sequences with outcomes that were agreed on, or found by hand; the baseline's own tests hold it to
/// these.
const AGREED: [&str; 6] = [
    include_str!("../../baseline/tests/cr01.txt"),
    include_str!("../../baseline/tests/arcs.txt"),
    include_str!("../../baseline/tests/cr02.txt"),
    include_str!("../../baseline/tests/cr03.txt"),
    include_str!("../../baseline/tests/cr04.txt"),
    include_str!("../../baseline/tests/cr05.txt"),
];

/// The bytes of a sequence. Of `h{..}` and `[feed n: ..]` what is in them stays, and of other calls in
/// brackets nothing: the ways make their own. A line feed is the only byte that is written by its number.
fn bytes(text: &str) -> Vec<u8> {
    let mut rest = text.replace("<10>", "\n").replace("h{", "").replace('}', "");
    while let Some((before, call)) = rest.split_once('[') {
        let (call, after) = call.split_once(']').expect(text);
        let fed = call.split_once(": ").map_or("", |(_, bytes)| bytes);
        rest = format!("{before}{fed}{after}");
    }
    rest.into_bytes()
}

/// The hard limits that stand before a sequence.
fn limits(text: &str) -> [i64; 4] {
    match text.strip_prefix("limits ") {
        None => USUAL,
        Some(four) => {
            let values = four.trim_end_matches(": ").split(',').map(|value| value.parse());
            values.collect::<Result<Vec<_>, _>>().expect(text).try_into().expect(text)
        }
    }
}

#[test]
fn agreed_sequences() {
    let mut dice = Dice::new(1);
    let (mut count, mut tally) = (0, Tally::default());
    for row in AGREED.iter().flat_map(|text| text.lines()).filter(|row| !row.starts_with('#')) {
        let [before, bytes, _] = row.splitn(3, '`').collect::<Vec<_>>()[..] else {
            panic!("{row}")
        };
        match compare::<Machine>(row, limits(before), &self::bytes(bytes), &mut dice) {
            Ok(seen) => tally.add(&seen),
            Err(finding) => panic!("{finding}"),
        }
        count += 1;
    }
    println!("{count} agreed sequences, no difference: {tally}");
    assert!(count > 215 && tally.strokes > 0 && tally.replies > 0, "{count} sequences");
}

/// Puts these drawings through in every way.
fn compare_drawings(paths: &[PathBuf]) -> Tally {
    let (mut dice, mut tally) = (Dice::new(1), Tally::default());
    for path in paths {
        let name = path.display().to_string();
        let stream = fs::read(path).expect(&name);
        match compare::<Machine>(&name, USUAL, &stream, &mut dice) {
            Ok(seen) => tally.add(&seen),
            Err(finding) => panic!("{finding}"),
        }
    }
    tally
}

/// The drawings of real writers and of the manual, whole, in two halves side by side.
#[test]
fn written_drawings() {
    let folder = concat!(env!("CARGO_MANIFEST_DIR"), "/../../crates/drawings/data");
    let entries = fs::read_dir(folder).expect(folder);
    let mut paths: Vec<PathBuf> = entries.map(|entry| entry.expect(folder).path()).collect();
    paths.retain(|path| path.extension().is_some_and(|kind| kind == "hpgl" || kind == "plt"));
    paths.sort();
    let (first, second) = paths.split_at(paths.len() / 2);
    let tally = thread::scope(|scope| {
        let other = scope.spawn(|| compare_drawings(second));
        let mut tally = compare_drawings(first);
        tally.add(&other.join().expect("no difference in the second half"));
        tally
    });
    println!("{} drawings, no difference: {tally}", paths.len());
    assert!(paths.len() > 30, "{} drawings in {folder}", paths.len());
}
