//! The loads of the benchmark.

use crate::dice::Dice;
use crate::partner::{Partner, Record};

/// The hard limits of all loads: the widest.
pub const LIMITS: [i64; 4] = [-32_768, -32_768, 32_767, 32_767];

/// Bytes of a load of moves.
const MOVES: usize = 20_000_000;

/// Bytes of circles; each 20 of them give 720 strokes.
const CIRCLES: usize = 300_000;

/// Bytes of arcs; each 34 of them, about, give 720 strokes.
const ARCS: usize = 450_000;

/// Bytes of replies; each 3 of them are a reply, which ends a call.
const REPLIES: usize = 300_000;

/// Begins the loads of moves of the manual's types 2, 3 and 4.
const WINDOW: &str = "IN;SP1;IW-5000,-3500,5000,3500;";

/// A rink that Inkscape wrote.
const RINK: &[u8] = include_bytes!("../../../crates/drawings/data/inkscape_rink.hpgl");

/// The strokes of the load of write: so many pens in turn, each with so many strokes.
const PENS: usize = 1_250;
const STROKES_OF_A_PEN: usize = 8;

/// The load of write: not its bytes are plotted, but what they paint is written.
const REDRAW: Load = Load {
    name: "redraw",
    about: "10,000 strokes to HP-GL",
    setup: "IN;",
    size: "IN;".len() + 1,
    part: drawing,
};

/// A load: its name, what it is, and its bytes.
pub struct Load {
    /// A short name.
    pub name: &'static str,
    /// What it is.
    pub about: &'static str,
    /// Begins the load.
    setup: &'static str,
    size: usize,
    part: fn(&mut Dice) -> String,
}

/// Every load.
pub const LOADS: [Load; 16] = [
    Load { name: "pd", about: "PD moves", setup: "IN;SP1;", size: MOVES, part: pen_down },
    Load { name: "pu", about: "PU moves", setup: "IN;SP1;", size: MOVES, part: pen_up },
    Load {
        name: "decimals",
        about: "PD moves of six decimals",
        setup: "IN;SP1;",
        size: MOVES,
        part: six_decimals,
    },
    Load { name: "turned", about: "turned moves", setup: "IN;SP1;PD;", size: MOVES, part: turned },
    Load {
        name: "leaving",
        about: "moves out of a window",
        setup: WINDOW,
        size: MOVES,
        part: leaving,
    },
    Load {
        name: "entering",
        about: "moves into a window",
        setup: WINDOW,
        size: MOVES,
        part: entering,
    },
    Load {
        name: "crossing",
        about: "moves across a window",
        setup: WINDOW,
        size: MOVES,
        part: crossing,
    },
    Load {
        name: "relative",
        about: "relative chains under SC",
        setup: "IN;SP1;SC0,300,0,200;PD;",
        size: MOVES,
        part: chain,
    },
    Load {
        name: "circles",
        about: "circles of 720 chords",
        setup: "IN;SP1;",
        size: CIRCLES,
        part: circle,
    },
    Load { name: "arcs", about: "arcs of 720 chords", setup: "IN;SP1;", size: ARCS, part: arc },
    Load {
        name: "polygons",
        about: "polygons with EP",
        setup: "IN;SP1;",
        size: MOVES,
        part: polygon,
    },
    Load {
        name: "rink",
        about: "a rink that Inkscape wrote",
        setup: "",
        size: MOVES,
        part: written,
    },
    Load { name: "refusals", about: "refusals only", setup: "IN;SP1;", size: MOVES, part: unknown },
    Load {
        name: "replies",
        about: "replies, each fetched",
        setup: "IN;SP1;",
        size: REPLIES,
        part: asked,
    },
    Load {
        name: "asking",
        about: "PD moves, a question after each 100",
        setup: "IN;SP1;",
        size: MOVES,
        part: drawn_then_asked,
    },
    REDRAW,
];

impl Load {
    /// The bytes, the same each time.
    pub fn bytes(&self) -> Vec<u8> {
        let mut dice = Dice::new(1);
        let mut text = self.setup.as_bytes().to_vec();
        while text.len() < self.size {
            text.extend((self.part)(&mut dice).bytes());
        }
        text
    }

    /// The strokes of its bytes, if it is the load of write; they are written as its bytes.
    pub fn strokes(&self) -> Option<Vec<Record>> {
        if self.name != REDRAW.name {
            return None;
        }
        let mut list = vec![[0; 5]; PENS * STROKES_OF_A_PEN];
        let mut machine = <baseline::Machine as Partner>::fresh(LIMITS).0;
        Partner::feed(&mut machine, &self.bytes(), &mut list);
        Some(list)
    }
}

fn pair(dice: &mut Dice) -> String {
    format!("{},{}", dice.within(-9_999, 9_999), dice.within(-6_999, 6_999))
}

fn pen_down(dice: &mut Dice) -> String {
    format!("PD{};", pair(dice))
}

fn pen_up(dice: &mut Dice) -> String {
    format!("PU{};", pair(dice))
}

/// A place in the window.
fn inside(dice: &mut Dice) -> String {
    format!("{},{}", dice.within(-5_000, 5_000), dice.within(-3_500, 3_500))
}

/// A place beyond one of the window's edges, or beyond two.
fn outside(dice: &mut Dice) -> String {
    let (x, y) = (dice.within(5_001, 9_999), dice.within(3_501, 6_999));
    let (x, y) = (dice.pick(&[-x, x]), dice.pick(&[-y, y]));
    match dice.below(3) {
        0 => format!("{x},{}", dice.within(-3_500, 3_500)),
        1 => format!("{},{y}", dice.within(-5_000, 5_000)),
        _ => format!("{x},{y}"),
    }
}

/// A segment of type 2.
fn leaving(dice: &mut Dice) -> String {
    format!("PU{};PD{};", inside(dice), outside(dice))
}

/// A segment of type 3.
fn entering(dice: &mut Dice) -> String {
    format!("PU{};PD{};", outside(dice), inside(dice))
}

/// A segment of type 4 that shows, from beyond the left edge to beyond the right one or back.
fn crossing(dice: &mut Dice) -> String {
    let (x, y) = (dice.within(5_001, 9_999), dice.within(-3_500, 3_500));
    let (u, v) = (dice.within(5_001, 9_999), dice.within(-3_500, 3_500));
    let side = dice.pick(&[-1, 1]);
    format!("PU{},{y};PD{},{v};", side * x, -side * u)
}

/// A move as new packages write it.
fn six_decimals(dice: &mut Dice) -> String {
    let (x, y) = (dice.within(-9_999, 9_999), dice.within(-6_999, 6_999));
    format!("PD{x}.{:06},{y}.{:06};", dice.below(1_000_000), dice.below(1_000_000))
}

/// Eight moves under each of the half and the three-quarter turn.
fn turned(dice: &mut Dice) -> String {
    let mut eight = || (0..8).map(|_| format!("PD{};", pair(dice))).collect::<String>();
    format!("RO180;{}RO270;{}", eight(), eight())
}

/// Eight small moves from a place within the scale.
fn chain(dice: &mut Dice) -> String {
    let links: Vec<String> =
        (0..16).map(|_| format!("{}.{}", dice.within(-3, 3), dice.below(100))).collect();
    let (x, y) = (dice.within(50, 250), dice.within(50, 150));
    format!("PA{x},{y};PR{};", links.join(","))
}

fn circle(dice: &mut Dice) -> String {
    format!("PA{};CI{},.5;", pair(dice), dice.within(10, 3_000))
}

/// An arc of a whole turn, with a way on both axes.
fn arc(dice: &mut Dice) -> String {
    let (x, y) = (dice.within(10, 3_000), dice.within(-3_000, 3_000));
    format!("PU{};PD;AR{x},{y},360,.5;", pair(dice))
}

/// A polygon of eight corners and its edges.
fn polygon(dice: &mut Dice) -> String {
    let corners: Vec<String> = (0..8).map(|_| pair(dice)).collect();
    format!("PM0;PD{};PM2;EP;", corners.join(","))
}

fn written(_: &mut Dice) -> String {
    String::from_utf8_lossy(RINK).into_owned()
}

/// Names that are not known.
fn unknown(dice: &mut Dice) -> String {
    format!("{};", dice.pick(&["VS", "LT", "UC", "XX", "TL"]))
}

/// The five that reply, now and then under another turn or window, elsewhere, or after a refusal.
fn asked(dice: &mut Dice) -> String {
    let before = match dice.below(8) {
        0 => format!("PU{};", pair(dice)),
        1 => dice.pick(&["RO90;", "RO;", "IW-5000,-3500,5000,3500;", "IW;", "XX;"]).to_string(),
        _ => String::new(),
    };
    format!("{before}OA;OP;OW;OH;OE;")
}

/// Strokes of one pen after another.
fn drawing(dice: &mut Dice) -> String {
    let mut text = String::new();
    for pen in (1..=8).cycle().take(PENS) {
        text += &format!("SP{pen};");
        for _ in 0..STROKES_OF_A_PEN {
            text += &format!("PU{};PD{};", pair(dice), pair(dice));
        }
    }
    text
}

/// A package that draws, and asks where the pen is or what was refused.
fn drawn_then_asked(dice: &mut Dice) -> String {
    let moves: String = (0..100).map(|_| pen_down(dice)).collect();
    moves + dice.pick(&["OA;", "OE;"])
}
