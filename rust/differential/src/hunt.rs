//! A budget of generated streams, each put through in every way.

use crate::dice::Dice;
use crate::partner::Partner;
use crate::shrink::shrink;
use crate::streams::Family;
use crate::ways::{every_way, run, Tally, Way, WHOLE};
use std::fmt;

/// The hard limits of the program strokes.
pub const USUAL: [i64; 4] = [-10_000, -7_000, 10_000, 7_000];

/// A difference, with the shortest input found for it.
#[derive(Clone, Debug)]
pub struct Finding {
    /// Where the stream came from.
    pub origin: String,
    /// The hard limits.
    pub limits: [i64; 4],
    /// The way.
    pub way: Way,
    /// The shortest input found.
    pub input: Vec<u8>,
    /// The calls that reproduce it, and the two answers.
    pub calls: String,
}

impl fmt::Display for Finding {
    fn fmt(&self, f: &mut fmt::Formatter<'_>) -> fmt::Result {
        let Finding { origin, limits, way, input, calls } = self;
        writeln!(f, "a difference, found in {origin}, here with {way:?} and limits {limits:?}")?;
        writeln!(f, "input, {} bytes: b\"{}\"", input.len(), input.escape_ascii())?;
        write!(f, "{calls}")
    }
}

impl Finding {
    /// The shortest input, with the plainest limits and way, that shows a difference.
    fn of<P: Partner>(origin: String, mut limits: [i64; 4], input: &[u8], mut way: Way) -> Self {
        let fails = |limits, input: &[u8], way| run::<P>(limits, input, way).is_err();
        let mut input = shrink(input, |bytes| fails(limits, bytes, way));
        let before = (limits, way);
        if fails(USUAL, &input, way) {
            limits = USUAL;
        }
        let block = WHOLE;
        let plain = [Way::Calls, Way::Feed { block, room: 8 }, Way::Plot { block, room: 8 }];
        if let Some(&plainer) = plain.iter().find(|&&plainer| fails(limits, &input, plainer)) {
            way = plainer;
        }
        if (limits, way) != before {
            input = shrink(&input, |bytes| fails(limits, bytes, way));
        }
        let calls = match run::<P>(limits, &input, way) {
            Err(difference) => difference.explain(limits, &input),
            Ok(_) => "not shown again: the answers change from run to run".to_string(),
        };
        Finding { origin, limits, way, input, calls }
    }
}

/// Puts one stream through in every way.
pub fn compare<P: Partner>(
    origin: &str,
    limits: [i64; 4],
    stream: &[u8],
    dice: &mut Dice,
) -> Result<Tally, Box<Finding>> {
    let mut tally = Tally::default();
    for way in every_way(dice) {
        match run::<P>(limits, stream, way) {
            Ok(seen) => tally.add(&seen),
            Err(_) => return Err(Box::new(Finding::of::<P>(origin.into(), limits, stream, way))),
        }
    }
    Ok(tally)
}

/// Compares streams of this family until `bytes` bytes are generated; how many they were.
pub fn hunt<P: Partner>(
    family: Family,
    seed: u64,
    bytes: usize,
) -> Result<(usize, Tally), Box<Finding>> {
    let mut dice = Dice::new(seed.wrapping_mul(16).wrapping_add(family as u64));
    let mut tally = Tally::default();
    let (mut generated, mut streams) = (0, 0);
    while generated < bytes {
        let stream = family.stream(&mut dice);
        generated += stream.len();
        streams += 1;
        let origin = format!("{family:?} of seed {seed}, stream {streams}");
        let limits = family.limits(&mut dice);
        tally.add(&compare::<P>(&origin, limits, &stream, &mut dice)?);
    }
    Ok((generated, tally))
}
