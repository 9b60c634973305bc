//! Generated streams of HP-GL.

use crate::dice::Dice;
use crate::line_types;
use crate::replies;

/// A kind of stream.
#[derive(Clone, Copy, PartialEq, Eq, Debug)]
pub enum Family {
    /// Drawings that obey the grammar: scales, windows, turns, relative chains, all figures.
    Drawings,
    /// Such drawings, and real writers' ones, with bytes changed, doubled, moved and left out.
    Mutations,
    /// Random bytes, of all 256 or of those that HP-GL is made of.
    Bytes,
    /// Polygons up to and beyond 1024 bytes.
    Brims,
    /// Circles at extreme scales.
    Circles,
    /// Numbers of thousands of digits.
    Digits,
    /// Arcs at every border of their numbers, under scales, turns and windows of all kinds.
    Arcs,
    /// Numbers of five to thirty decimals, at ties and next to them, in every instruction.
    Decimals,
    /// Every value of RO, one after another, with windows, and all figures under each turn.
    Turns,
    /// Segments of the manual's four types: ends inside small limits and windows, on an edge, in a
    /// corner, just outside, along an edge.
    LineTypes,
    /// OA, OP, OW, OH and OE in every state and mode, with numbers, ended by a letter, after refusals
    /// of each kind, under turns and windows.
    Replies,
}

/// Drawings of real writers (`crates/drawings/data`), to be changed.
const WRITTEN: [&[u8]; 6] = [
    include_bytes!("../../../crates/drawings/data/dia_rink.plt"),
    include_bytes!("../../../crates/drawings/data/gnuplot_curling.hpgl"),
    include_bytes!("../../../crates/drawings/data/inkscape_rink.hpgl"),
    include_bytes!("../../../crates/drawings/data/kicad_rink.plt"),
    include_bytes!("../../../crates/drawings/data/manual_window_houses.hpgl"),
    include_bytes!("../../../crates/drawings/data/pstoedit_curling.hpgl"),
];

/// What HP-GL is made of, and a few bytes that it knows not.
const ALPHABET: &[u8] = b"PDUARMSICEWNLBFOpdu0123456789.-+,; \n\t\r\x03\x1b@~\xc3";

/// Numbers that are none, or stand at the ends of the range.
const AT_FAULT: [&str; 11] =
    ["-", ".", "+", "5-", "1.2.3", "-.", "32767.9999", "32768", "-32768", "-32768.0001", "40000"];

/// Scales from one end of what the numbers allow to the other.
const SCALES: [&str; 8] = [
    "IP-32768,-32768,32767,32767;SC-32768,32767.9999,-32768,32767.9999;",
    "IP32767,32767,-32768,-32768;SC32767.9999,-32768,-32768,32767.9999;",
    "IP0,0,1,1;SC-32768,32767.9999,32767.9999,-32768;",
    "IP-32768,-32768,32767,32767;SC0,.0001,.0001,0;",
    "IP0,0,32767,32767;SC0,1,0,1;",
    "IP0,0,1000,-1000;SC0,3,3,0;",
    HUNDRED,
    "IP;SC;",
];

/// A scale where 100 is a location of 1,000,000, the last in range.
const HUNDRED: &str = "IP0,0,10000,-10000;SC0,1,0,1;";

/// Places at and next to the edge of the range, under that scale.
const EDGES: [&str; 6] =
    ["100,-100", "-100,100", "100.0001,0", "0,-100.0001", "99.9999,-99.9999", "100,100.0001"];

impl Family {
    /// Every family.
    pub const ALL: [Family; 11] = [
        Family::Drawings,
        Family::Mutations,
        Family::Bytes,
        Family::Brims,
        Family::Circles,
        Family::Digits,
        Family::Arcs,
        Family::Decimals,
        Family::Turns,
        Family::LineTypes,
        Family::Replies,
    ];

    /// How many of a hundred bytes are of this family.
    pub fn share(self) -> usize {
        match self {
            Family::Drawings => 26,
            Family::Mutations => 18,
            Family::Bytes => 13,
            Family::Brims => 13,
            Family::Circles => 3,
            Family::Digits => 7,
            Family::Arcs => 4,
            Family::Decimals => 4,
            Family::Turns => 4,
            Family::LineTypes => 4,
            Family::Replies => 4,
        }
    }

    /// A stream of a few hundred to a few thousand bytes.
    pub fn stream(self, dice: &mut Dice) -> Vec<u8> {
        match self {
            Family::Drawings => drawing(dice).into_bytes(),
            Family::Mutations => mutation(dice),
            Family::Bytes => bytes(dice),
            Family::Brims => brim(dice).into_bytes(),
            Family::Circles => circles(dice).into_bytes(),
            Family::Digits => digits(dice),
            Family::Arcs => arcs(dice),
            Family::Decimals => decimals(dice),
            Family::Turns => turns(dice),
            Family::LineTypes => line_types::stream(dice),
            Family::Replies => replies::stream(dice),
        }
    }

    /// Hard limits for a stream of this family.
    pub fn limits(self, dice: &mut Dice) -> [i64; 4] {
        match self {
            Family::LineTypes => line_types::limits(dice),
            Family::Replies => replies::limits(dice),
            _ => limits(dice),
        }
    }
}

/// Hard limits: the usual ones, the widest, tiny ones, and some that are refused with 10.
fn limits(dice: &mut Dice) -> [i64; 4] {
    match dice.below(12) {
        0 => [0, 0, 10, 10],
        1 | 2 => [-32_768, -32_768, 32_767, 32_767],
        3 => [-3, -4, 300, 200],
        4 => [0, 0, 1, 1],
        5 => {
            dice.pick(&[[5, 5, 5, 9], [0, 0, 32_768, 1], [9, 0, -9, 1], [i64::MIN, 0, i64::MAX, 1]])
        }
        6 | 7 => {
            let (left, bottom) = (dice.within(-9_000, 9_000), dice.within(-9_000, 9_000));
            [left, bottom, left + dice.within(1, 9_000), bottom + dice.within(1, 9_000)]
        }
        _ => crate::hunt::USUAL,
    }
}

/// The text of a number from −`reach` to `reach`, in one of the ways it may be written.
fn number(dice: &mut Dice, reach: i64) -> String {
    let sign = dice.pick(&["", "", "", "-", "-", "+"]);
    let whole = dice.within(0, reach);
    match dice.below(12) {
        0 => format!("{sign}{whole}.{:04}", dice.below(10_000)),
        1 => format!("{sign}{whole}.5"),
        2 => format!("{sign}{whole}.4{}", dice.below(1_000_000)),
        3 => format!("{sign}.{}", dice.below(100_000)),
        4 => format!("{sign}000{whole}."),
        _ => format!("{sign}{whole}"),
    }
}

/// Numbers with one kind of blank between them; now and then a wrong count or a wrong number.
fn numbers(dice: &mut Dice, count: usize, reach: i64) -> String {
    let count = if dice.one_in(40) { dice.below(7) } else { count };
    let mut parts: Vec<String> = (0..count).map(|_| number(dice, reach)).collect();
    if dice.one_in(50) && count > 0 {
        parts[dice.below(count)] = dice.pick(&AT_FAULT).to_string();
    }
    parts.join(dice.pick(&[",", ",", ",", " ", ", ", "\n", "\t,", ",,"]))
}

/// Scale, turn, window, defaults.
fn setting(dice: &mut Dice, reach: i64) -> String {
    let four = if dice.one_in(4) { 0 } else { 4 };
    match dice.below(12) {
        0 => dice.pick(&["IN;", "DF;"]).to_string(),
        1 | 2 => {
            let count = dice.pick(&[0, 2, 4, 4]);
            format!("IP{};", numbers(dice, count, reach))
        }
        3..=5 => {
            let span = dice.pick(&[1, 3, 40, 1_000, 32_767]);
            format!("SC{};", numbers(dice, four, span))
        }
        6 => dice.pick(&SCALES).to_string(),
        7 | 8 => format!("IW{};", numbers(dice, four, reach)),
        9 | 10 => format!("RO{};", dice.pick(&["", "0", "90", "90", "90", "90.4", "89.5", "45"])),
        _ => format!("SP{};", dice.pick(&["1", "2", "3.4", "4", "5", "7.5", "8", "0", "9", ""])),
    }
}

/// Moves: lists of pairs, absolute and relative, pen up and down.
fn moves(dice: &mut Dice, reach: i64) -> String {
    let pairs = 2 * (1 + dice.below(5));
    let name = dice.pick(&["PD", "PD", "PD", "PA", "PU", "PR"]);
    let reach = if name == "PR" { reach / 8 + 1 } else { reach };
    let bare = dice.pick(&["PD;", "PU;", "PR;", "PA;", "PDPR", "PR;PD", "pd", ""]);
    format!("{bare}{name}{};", numbers(dice, pairs, reach))
}

/// A chain of small relative moves, whose exact position hardly is a whole one. What comes
/// between two parts of it may be refused, and then must not move the base.
fn chain(dice: &mut Dice, reach: i64) -> String {
    let step = reach / 50 + 1;
    let (links, more) = (2 * (1 + dice.below(20)), 2 * (1 + dice.below(6)));
    let start = numbers(dice, 2, reach);
    let between =
        ["SC1,1,0,3;", "SC0,1,2;", "IP0,0,0,5;", "RO45;", "IN3;", "RO;", "IP;", "SP;SP1;", ""];
    let (first, then) = (numbers(dice, links, step), numbers(dice, more, step));
    format!("PU{start};PD;PR{first};{}PR{then};", dice.pick(&between))
}

/// Moves at the edge of the range.
fn edge(dice: &mut Dice) -> String {
    let moves = ["PA", "PR", "PD", "EA", "ER", "CI100;PU", "PU;CI.0001,90;PA"];
    let mut text = format!("{HUNDRED}PA{};", dice.pick(&EDGES));
    for _ in 0..1 + dice.below(4) {
        text += &format!("{}{};", dice.pick(&moves), dice.pick(&EDGES));
        text += dice.pick(&[
            "PR.0001,0;",
            "PR0,-.0001;",
            "RO90;",
            "IW0,0,100,100;",
            "CI.0001,60;",
            "PR-50,50;",
        ]);
    }
    text
}

fn polygon(dice: &mut Dice, reach: i64) -> String {
    let mut text = dice.pick(&["PM0;", "PM;", "PM0"]).to_string();
    for _ in 0..dice.below(6) {
        text += &moves(dice, reach);
        if dice.one_in(4) {
            text += dice.pick(&["PM1;", "PM1", "PM0;", "EP;", "SP2;", "IN;", "PM3;"]);
        }
    }
    text + dice.pick(&["PM2;EP;", "PM2;EP;", "PM2;RO90;EP;", "PM2EP;PU;EP;", "EP;", "PM2;"])
}

fn circle(dice: &mut Dice, radius: &str) -> String {
    let angle = dice.pick(&[
        "", "", ",5", ",7", ",45", ",60.0499", ",90", ",110", ",119.95", ",120.05", ",.44",
    ]);
    format!("CI{radius}{angle};")
}

/// A part of a drawing.
fn figure(dice: &mut Dice, reach: i64) -> String {
    match dice.below(24) {
        0..=2 => setting(dice, reach),
        3 | 4 => format!("{}{};", dice.pick(&["EA", "ER"]), numbers(dice, 2, reach)),
        5 if dice.one_in(2) => {
            let radius = number(dice, reach / 2);
            circle(dice, &radius)
        }
        6 | 7 => polygon(dice, reach),
        8..=11 => chain(dice, reach),
        13 if dice.one_in(3) => edge(dice),
        12 => dice.pick(&["LBPD5,5;\x03", "XX;", "P;", "@;", "5,5;", "\x1b.(;", "VS30;"]).into(),
        _ => moves(dice, reach),
    }
}

/// A scale that most of the numbers fit, or any settings, and figures.
fn sheet(dice: &mut Dice) -> String {
    let reach = dice.pick(&[3, 50, 300, 12_000, 32_767]);
    let mut text = String::new();
    if dice.one_in(2) {
        text += &format!("SP1;IW;IP;SC{},{reach},{reach},{};", -reach, -reach);
    }
    text.extend((0..dice.below(3)).map(|_| setting(dice, reach)));
    text.extend((0..3 + dice.below(12)).map(|_| figure(dice, reach)));
    text
}

fn drawing(dice: &mut Dice) -> String {
    let mut text = format!("IN;SP{};", 1 + dice.below(8));
    text.extend((0..2 + dice.below(5)).map(|_| sheet(dice)));
    if dice.one_in(8) {
        text.make_ascii_lowercase();
    }
    text
}

fn mutation(dice: &mut Dice) -> Vec<u8> {
    let mut text = if dice.one_in(3) {
        let whole = dice.pick(&WRITTEN);
        let from = dice.below(whole.len().saturating_sub(1_500).max(1));
        [b"IN;SP1;", &whole[from..whole.len().min(from + 1_500)]].concat()
    } else {
        drawing(dice).into_bytes()
    };
    for _ in 0..1 + dice.below(20) {
        mutate(&mut text, dice);
    }
    text
}

/// One change at some place.
pub(crate) fn mutate(text: &mut Vec<u8>, dice: &mut Dice) {
    let at = dice.below(text.len() + 1);
    let end = (at + dice.below(24)).min(text.len());
    let byte = if dice.one_in(4) { dice.below(256) as u8 } else { dice.pick(ALPHABET) };
    match dice.below(6) {
        0 => text.insert(at, byte),
        1 if at < text.len() => text[at] = byte,
        2 => {
            text.drain(at..end);
        }
        3 => {
            let part = text[at..end].to_vec();
            let to = dice.below(text.len() + 1);
            text.splice(to..to, part);
        }
        4 if at < text.len() => text[at] ^= 1 << dice.below(8),
        _ => text[at..end].reverse(),
    }
}

fn bytes(dice: &mut Dice) -> Vec<u8> {
    let names =
        ["IN", "DF", "IP", "SC", "IW", "RO", "SP", "PM", "CI", "EA", "ER", "EP", "PU", "PD"];
    let (size, kind) = (200 + dice.below(2_000), dice.below(3));
    let mut text = b"SP1;PD;".to_vec();
    while text.len() < size {
        match kind {
            0 => text.push(dice.below(256) as u8),
            1 => text.push(dice.pick(ALPHABET)),
            _ if dice.one_in(9) => text.extend(dice.pick(&names).bytes()),
            _ => text.push(dice.pick(b"0123456789.-+,,,,;;;;")),
        }
    }
    text
}

fn brim(dice: &mut Dice) -> String {
    let mut text = format!("SP1;{}", if dice.one_in(3) { dice.pick(&SCALES) } else { "" });
    text.extend((0..1 + dice.below(2)).map(|_| full_polygon(dice)));
    text
}

/// A polygon of about as many points as fit, with every way to spend the last bytes.
fn full_polygon(dice: &mut Dice) -> String {
    let pen = dice.pick(&["", "PD;", "PR;", "PD;PR;"]);
    let marks: usize = dice.pick(&[0, 0, 3, 40, 300, 506]);
    let points = ((1_024 - 11 - 2 * marks) / 9).saturating_sub(dice.below(12));
    let list: Vec<String> = (0..points).map(|i| format!("{},{}", i % 9, i * i % 7)).collect();
    let (start, list) = (numbers(dice, 2, 90), list.join(","));
    let mut text = format!("PU{start};{pen}PM0;{}PD{list};", "PM1;".repeat(marks));
    text.extend((0..dice.below(24)).map(|_| last_bytes(dice)));
    let ends = ["PM2;EP;", "PM2;EP;", "PM2;PM2;EP;", "PM1;PM2;EP;", "IN;EP;", "PM2;RO90;EP;"];
    text + dice.pick(&ends)
}

fn last_bytes(dice: &mut Dice) -> String {
    let pair = numbers(dice, 2, 90);
    match dice.below(10) {
        0 => "PM1;".to_string(),
        1..=3 => format!("PU{pair};"),
        4..=6 => format!("PD{pair};"),
        7 => format!("PR{pair};PA"),
        8 => "PU;PD;".to_string(),
        _ => format!("PD{pair},{pair};"),
    }
}

/// Places that are far, near, and at the edge of the range of some scale.
const PLACES: [&str; 7] =
    ["0,0", "32767.9999,-32768", ".0001,-.0001", "-.5,.5", "30.5184,-30.5184", "1,2", "100,-100"];

/// Radii likewise.
const RADII: [&str; 10] =
    ["0", ".0001", "-.0001", "1", "1000", "-32768", "32767.9999", "31.25", "100", "12345.6789"];

fn circles(dice: &mut Dice) -> String {
    let mut text = format!("SP{};", 1 + dice.below(8));
    text.extend((0..8 + dice.below(16)).map(|_| far_circle(dice)));
    text
}

/// A move to some place and a circle there, or a window or rectangle.
fn far_circle(dice: &mut Dice) -> String {
    let scale = if dice.one_in(6) { dice.pick(&SCALES) } else { "" };
    let name = dice.pick(&["PA", "PR", "PD", "PU"]);
    let (place, other, radius) = (dice.pick(&PLACES), dice.pick(&PLACES), dice.pick(&RADII));
    let figure = match dice.below(12) {
        0 => format!("CI{radius},.5;"),
        1 => setting(dice, 32_767),
        2 => format!("IW{place},{other};"),
        3 => format!("{}{other};", dice.pick(&["EA", "ER"])),
        _ => circle(dice, radius),
    };
    format!("{scale}{name}{place};{figure}")
}

/// A count of digits, thousands of them now and then.
fn count_of_digits(dice: &mut Dice) -> usize {
    match dice.below(12) {
        0 => dice.below(6_000),
        1 => dice.below(300),
        _ => dice.below(26),
    }
}

fn many(dice: &mut Dice) -> String {
    let count = count_of_digits(dice);
    match dice.below(3) {
        0 => "0".repeat(count),
        1 => "9".repeat(count),
        _ => (0..count).map(|_| char::from(b'0' + dice.below(10) as u8)).collect(),
    }
}

/// A number with zeros before it, decimals after it, or far out of range, where one kept in few
/// bits would come round to a small one.
fn long_number(dice: &mut Dice) -> String {
    let whole = dice.within(0, 12_000);
    let zeros = "0".repeat(count_of_digits(dice));
    let bits = [1 << 16, 1 << 32, 10_000 << 32, 1 << 63, 1 << 64, 10_000 << 64, 1i128 << 96];
    match dice.below(10) {
        0 => format!("-{zeros}{whole}"),
        1 | 2 => format!("{zeros}{whole}.{}", many(dice)),
        3 => format!("-{whole}.{}", many(dice)),
        4 => format!("{}{zeros}{whole}", 1 + dice.below(9)),
        5 => format!("{}{}", dice.pick(&["", "-"]), dice.pick(&bits) + i128::from(whole)),
        6 if dice.one_in(3) => format!("{}.{}", many(dice), many(dice)),
        _ => number(dice, 12_000),
    }
}

fn digits(dice: &mut Dice) -> Vec<u8> {
    let mut text = "SP1;PD;".to_string();
    for _ in 0..12 + dice.below(24) {
        text += dice
            .pick(&["PA", "PD", "PD", "PR", "PU", "PU", "CI", "SP", "SC0,1,", "IP", "RO", "IW"]);
        let count = dice.pick(&[1, 2, 2, 2, 2, 4]);
        let list: Vec<String> = (0..count).map(|_| long_number(dice)).collect();
        text += &format!("{};SP1;PD;", list.join(","));
    }
    text.into_bytes()
}

/// Swept angles at and next to the borders, and others.
const SWEEPS: [&str; 24] = [
    "0",
    ".0499",
    ".05",
    "-.05",
    "-.0501",
    "360.0499",
    "360.05",
    "-360.05",
    "-360.0501",
    "-360",
    "360",
    ".1",
    "-.1",
    "1",
    "-7.3",
    "12",
    "45",
    "-45",
    "-50",
    "90",
    "-90",
    "180",
    "-200",
    "270",
];

/// Chord angles likewise, and now and then a number too many.
const CHORDS: [&str; 16] = [
    "",
    "",
    "",
    ",5",
    ",20",
    ",30",
    ",30",
    ",45",
    ",90",
    ",120",
    ",120.0499",
    ",120.05",
    ",.45",
    ",.4499",
    ",7.7",
    ",30,1",
];

/// Scales that are mirrored or unequal on their axes, and those where a unit is half a
/// ten-thousandth, so that ways end in a half.
const ARC_SCALES: [&str; 10] = [
    "IP0,0,100,200;SC1,0,0,1;",
    "IP100,100,0,0;SC0,3,0,7;",
    "IP0,100,100,0;SC-1,1,1,-1;",
    "IP300,0,0,100;SC9,-9,7,-7;",
    "IP20000,20000,0,0;SC0,1,0,1;",
    "IP0,0,20000,20000;SC1,0,1,0;",
    "IP0,0,3000,-3000;SC0,1,0,1;",
    "IP0,0,1,1;SC0,3,3,0;",
    "DF;",
    "SC;",
];

fn arcs(dice: &mut Dice) -> Vec<u8> {
    let mut text = format!("SP{};", 1 + dice.below(8));
    text.extend((0..6 + dice.below(20)).map(|_| arc_figure(dice)));
    let mut text = text.into_bytes();
    if dice.one_in(5) {
        (0..1 + dice.below(6)).for_each(|_| mutate(&mut text, dice));
    }
    text
}

/// An arc with what it stands in, or a setting.
fn arc_figure(dice: &mut Dice) -> String {
    let reach = dice.pick(&[1, 3, 50, 300, 12_000, 32_767]);
    match dice.below(16) {
        0 | 1 => dice.pick(&ARC_SCALES).to_string(),
        2 => setting(dice, reach),
        3 => dice
            .pick(&["RO90;", "RO90;", "RO;", "IW-90,-90,90,90;", "IW0,0,1,1;", "IW;"])
            .to_string(),
        4 => {
            dice.pick(&["SP0;", "SP3;", "SP8;", "PU;", "PD;", "PR;", "PA;", "IN;SP1;"]).to_string()
        }
        5 => format!("PM0;{}PD1,1;PM2;EP;", arc(dice, reach)),
        6 | 7 => far_way(dice),
        8 | 9 => edge_arc(dice),
        10 => half_way(dice),
        _ => placed_arc(dice, reach),
    }
}

fn arc(dice: &mut Dice, reach: i64) -> String {
    let (name, centre) =
        (dice.pick(&["AA", "AR", "AA", "AR", "aA", "ar"]), numbers(dice, 2, reach));
    format!("{name}{centre},{}{};", dice.pick(&SWEEPS), dice.pick(&CHORDS))
}

/// A move that mostly ends at no whole position, an arc, and a move from where that ends.
fn placed_arc(dice: &mut Dice, reach: i64) -> String {
    let place = numbers(dice, 2, reach);
    let part =
        dice.pick(&["", "PR.3,.4;", "PR-.2499,.7;", "PR.5,-.5;", "PR1,0;", "PR.0001,.0001;"]);
    let after = dice.pick(&["", "PR.4,.4;", "PR0,0;", "PD0,0;", "PD;PR-.3,.3;", "PU1,1;"]);
    format!("{}{place};{part}PD;{}{after}", dice.pick(&["PA", "PU", "PD", "PR"]), arc(dice, reach))
}

/// A way of about 32768 units, unscaled or under a scale.
fn far_way(dice: &mut Dice) -> String {
    let scale = dice.pick(&["DF;", "DF;", "IP0,0,10,10;SC0,10,0,-10;", "IP0,0,3,7;SC0,7,0,3;"]);
    let place = dice.pick(&[
        "PA32767,0;",
        "PA-32768,0;",
        "PA0,32767;",
        "PA0,-32768;",
        "PA32767.9999,0;PR.0001,0;",
        "PA0,32767;PR0,1.0001;",
    ]);
    let centre = dice.pick(&[
        "0,0",
        "-1,0",
        "-1.0001,0",
        "-.9999,0",
        ".0001,0",
        "0,-1",
        "0,-1.0001",
        "0,.0001",
        "1,1",
    ]);
    let sweep = dice.pick(&["1", "-1", ".1", "90", "0"]);
    format!("{scale}{place}{}{centre},{sweep};", dice.pick(&["AA", "AA", "AR"]))
}

/// Vertices at and next to the edge of the range, the centre perhaps far beyond it.
fn edge_arc(dice: &mut Dice) -> String {
    let place =
        dice.pick(&["99,0", "-99,0", "0,99", "0,-99", "99.8485,-.8485", "99.9999,99.9999", "0,0"]);
    let centre = dice.pick(&[
        "0,1",
        "0,1.0001",
        "1,0",
        "1.0001,0",
        "0,-1",
        "0,-1.0001",
        "-1.0001,0",
        "0,2",
        "-.8485,.8485",
        "32767,0",
        "0,-32768",
        "5000,-5000",
    ]);
    let sweep = dice.pick(&["90", "-90", "180", "-180", "45", ".1", "-.1", ".2", "360", "400"]);
    let chord = dice.pick(&["", ",90", ",45", ",30", ",120"]);
    format!("{HUNDRED}PA{place};AR{centre},{sweep}{chord};")
}

/// Ways that end in a half of a ten-thousandth, on both axes.
fn half_way(dice: &mut Dice) -> String {
    let corners = dice.pick(&["0,0,20000,20000", "0,20000,20000,0", "20000,0,0,20000"]);
    let (x, y) = (dice.within(-3, 3), dice.within(-3, 3));
    let scale = dice.pick(&["0,1,0,1", "1,0,0,1", "0,1,1,0", "1,0,1,0"]);
    let centre = dice.pick(&["0,0", "1,1", "0,1", ".0001,-.0001"]);
    format!(
        "DF;IP{corners};PA{x},{y};SC{scale};AA{centre},{};",
        dice.pick(&["180", "90", "-90", "30"])
    )
}

/// Scales where a unit is a ten-thousandth, mirrored too, and others.
const FINE_SCALES: [&str; 8] = [
    "IP0,0,10000,10000;SC0,1,0,1;",
    "IP0,0,10000,10000;SC0,1,0,1;",
    "IP10000,10000,0,0;SC0,1,0,1;",
    "IP0,0,10000,-10000;SC1,0,0,1;",
    "IP0,0,20000,30000;SC0,1,0,1;",
    "IP0,0,1,1;SC0,.0001,0,.0001;",
    "RO90;IP0,0,10000,10000;SC0,1,0,1;",
    "IN;SP1;PD;",
];

/// Four decimals next to which a tail decides, and the ends of the range.
const FOURTHS: [&str; 10] =
    ["0000", "0001", "0002", "0013", "4999", "5000", "4998", "9998", "9999", "1234"];
const ENDS: [&str; 6] =
    ["32767.9999", "32767.9998", "32768.0000", "-32768.0000", "-32768.0001", "-32767.9999"];

/// A number whose tail decides what its instruction does: what stands before it, the number up to
/// its fourth decimal, what stands after it.
type Border = (&'static str, &'static str, &'static str);

const BORDERS: [Border; 40] = [
    ("SP", "8.4999", ";"),
    ("SP", "-0.5000", ";"),
    ("SP", "-0.5001", ";"),
    ("SP", "2.4999", ";"),
    ("RO", "89.4999", ";PD9,0;"),
    ("RO", "90.4999", ";PD0,9;"),
    ("RO", "0.4999", ";"),
    ("RO", "-0.5000", ";PD9,9;"),
    ("PM", "0.4999", ";PD9,9,0,9;PM2;EP;"),
    ("PM", "-0.5000", ";PD9,9,0,9;PM2;EP;"),
    ("PM0;PD9,9;PM", "0.4999", ";PD5,5,9,5;PM2;EP;"),
    ("PM0;PD9,9;PM", "1.4999", ";PD5,5,9,5;PM2;EP;"),
    ("PM0;PD9,9;PM", "2.4999", ";PM2;EP;"),
    ("IP0,0,", "9.4999", ",7;SC0,1,0,1;PA1,1;"),
    ("IP0,0,", "-9.5000", ",7;SC0,1,0,1;PA1,1;"),
    ("IP0,0,", "32767.4999", ",9;SC0,1,0,1;PA1,1;"),
    ("IP", "-32768.5000", ",0;SC0,1,0,1;PA0,0;"),
    ("SC0,", "0.0000", ",0,1;PD0,1;"),
    ("SC0,", "-0.0000", ",0,1;PD0,1;"),
    ("SC0,1,", "0.9999", ",1;PD1,1;"),
    ("SC-1,", "-1.0000", ",0,1;PD-1,1;"),
    ("IW0,0,", "0.4999", ",9;PD0,0,9,9;IW;"),
    ("IW", "-0.5000", ",-5,5,5;PD-9,0,9,0;IW;"),
    ("IW0,", "-8.5000", ",9,9;PD9,9,9,-9;IW;"),
    ("CI", "0.4999", ",90;"),
    ("CI", "-9.0000", ",120;"),
    ("CI9,", "0.4499", ";"),
    ("CI9,", "120.0499", ";"),
    ("CI9,", "59.9499", ";"),
    ("EA", "0.4999", ",3;"),
    ("EA3,", "-0.5000", ";"),
    ("ER", "-0.5000", ",-3;"),
    ("ER-2,", "0.4999", ";"),
    ("PD9,0;AA0,0,", "0.0499", ",90;"),
    ("PD9,0;AA0,0,", "-0.0500", ";"),
    ("PD9,0;AA0,0,", "360.0499", ",90;"),
    ("PD9,0;AA0,0,", "-360.0500", ",90;"),
    ("AR9,0,90,", "0.4499", ";"),
    ("AR9,0,90,", "120.0499", ";"),
    ("AR", "0.4999", ",9,90,45;"),
];

/// What follows the fourth decimal: a half, next to a half, zeros, nines, any digits.
fn tail(dice: &mut Dice) -> String {
    let count = if dice.one_in(2) { dice.below(3) } else { dice.below(24) };
    let (zeros, nines) = ("0".repeat(count), "9".repeat(count));
    match dice.below(10) {
        0 | 1 => format!("5{zeros}"),
        2 => format!("5{zeros}1"),
        3 => format!("5{zeros}{}00", 1 + dice.below(9)),
        4 => format!("4{nines}"),
        5 => format!("4{nines}0"),
        6 => format!("{zeros}{}", 1 + dice.below(9)),
        7 => format!("9{nines}"),
        8 => dice.pick(&["4", "5", "6", "45", "49", "50", "51", "05", "54", "500005"]).to_string(),
        _ => (0..=count).map(|_| char::from(b'0' + dice.below(10) as u8)).collect(),
    }
}

/// A number of five to thirty decimals.
fn fine_number(dice: &mut Dice) -> String {
    let sign = dice.pick(&["", "", "-", "-", "+"]);
    let reach = dice.pick(&[0, 0, 2, 90, 32_767]);
    let whole = if dice.one_in(4) { String::new() } else { dice.within(0, reach).to_string() };
    format!("{sign}{whole}.{}{}", dice.pick(&FOURTHS), tail(dice))
}

/// Moves of such numbers, now and then at the end of the range.
fn fine_moves(dice: &mut Dice) -> String {
    let name = dice.pick(&["PA", "PD", "PD", "PU", "PR", "PR"]);
    let count = 2 * (1 + dice.below(3));
    let mut list: Vec<String> = (0..count).map(|_| fine_number(dice)).collect();
    if dice.one_in(4) {
        list[dice.below(count)] = format!("{}{}", dice.pick(&ENDS), tail(dice));
    }
    format!("{name}{};", list.join(dice.pick(&[",", ",", " ", "\n", ", "])))
}

/// An instruction that one number's tail decides about.
fn border(dice: &mut Dice) -> String {
    let (before, number, after) = dice.pick(&BORDERS);
    format!("{before}{number}{}{after}SP1;PD;", tail(dice))
}

fn decimals(dice: &mut Dice) -> Vec<u8> {
    let mut text = "SP1;PD;".to_string();
    for _ in 0..8 + dice.below(20) {
        text += &match dice.below(8) {
            0 => dice.pick(&FINE_SCALES).to_string(),
            1..=3 => border(dice),
            _ => fine_moves(dice),
        };
    }
    let mut text = text.into_bytes();
    if dice.one_in(6) {
        (0..1 + dice.below(6)).for_each(|_| mutate(&mut text, dice));
    }
    text
}

/// Values of RO: the four turns, those that round to them, those next to these, and others.
const TURNS: [&str; 48] = [
    "0",
    "90",
    "180",
    "270",
    "",
    "90",
    "180",
    "270",
    "180",
    "270",
    "180",
    "270",
    "-.5",
    "-.5001",
    ".4999",
    ".5",
    "89.5",
    "89.4999",
    "90.4999",
    "90.5",
    "179.5",
    "179.4999",
    "179.49995",
    "179.499949",
    "180.4999",
    "180.49995",
    "180.5",
    "269.5",
    "269.4999",
    "269.49995",
    "270.4999",
    "270.49994",
    "270.5",
    "+180.",
    "000270",
    "360",
    "359.5",
    "450",
    "-90",
    "-180",
    "-270",
    "45",
    "135",
    "181",
    "32767.9999",
    "270-",
    "180,0",
    "90 270",
];

/// Windows of which no two turns look alike, and none.
const WINDOWS: [&str; 8] = [
    "IW0,0,5,10;",
    "IW-3,2,40,90;",
    "IW7,-9,-30,4;",
    "IW-200,-10,-20,150;",
    "IW.5,-.5,9.5,-20.5;",
    "IW3,3,3,3;",
    "IW-12000,-50,12000,9;",
    "IW;",
];

/// What stands between turns.
const BETWEEN: [&str; 10] = [
    "IN;SP1;PD;",
    "DF;",
    "IP;",
    "IP0,0,200,-100;SC0,4,0,4;",
    "IP10,20;",
    "SC0,3,3,0;",
    "SC1,1,0,3;",
    "SC;",
    "SP3;",
    "PR.4,-.3;",
];

fn turn(dice: &mut Dice) -> String {
    format!("{}{};", dice.pick(&["RO", "RO", "RO", "ro"]), dice.pick(&TURNS))
}

/// Moves that end on halves, where it counts whether a place is rounded before it is turned.
fn half_moves(dice: &mut Dice) -> String {
    let pair = |dice: &mut Dice| format!("{}.5,{}.5", dice.within(-9, 9), dice.within(-9, 9));
    let list: Vec<String> = (0..1 + dice.below(4)).map(|_| pair(dice)).collect();
    format!("{}{};", dice.pick(&["PD", "PD;PA", "PD;PR", "PU"]), list.join(","))
}

/// A polygon whose edges are drawn under one turn after another.
fn turned_polygon(dice: &mut Dice, reach: i64) -> String {
    let (pairs, more) = (2 * (1 + dice.below(4)), 2 * dice.below(3));
    let (first, then) = (numbers(dice, pairs, reach), numbers(dice, more, reach));
    let mut text = format!("PM0;PD{first};PM1;PU{then};PM2;EP;");
    text.extend((0..1 + dice.below(3)).map(|_| turn(dice) + "EP;"));
    text
}

/// A turn, what it turns, or what stands between turns.
fn turned_figure(dice: &mut Dice) -> String {
    let reach = dice.pick(&[3, 12, 90, 300, 12_000, 32_767]);
    match dice.below(20) {
        0..=3 => turn(dice),
        4 => (0..2 + dice.below(5)).map(|_| turn(dice)).collect(),
        5 | 6 => dice.pick(&WINDOWS).to_string(),
        7 => dice.pick(&BETWEEN).to_string(),
        8 => setting(dice, reach),
        9 | 10 => turned_polygon(dice, reach),
        11 => {
            let radius = number(dice, reach / 2);
            circle(dice, &radius)
        }
        12 => format!("{}{};", dice.pick(&["EA", "ER"]), numbers(dice, 2, reach)),
        13 => placed_arc(dice, reach),
        14 => format!("{HUNDRED}PA{};{}PD{};", dice.pick(&EDGES), turn(dice), dice.pick(&EDGES)),
        15 => format!("PD;PR.4,.3;{}PR-.4,.2,.7,-.6;", turn(dice)),
        16 | 17 => half_moves(dice),
        _ => moves(dice, reach),
    }
}

fn turns(dice: &mut Dice) -> Vec<u8> {
    let mut text = format!("SP{};PD;", 1 + dice.below(8));
    text.extend((0..8 + dice.below(24)).map(|_| turned_figure(dice)));
    let mut text = text.into_bytes();
    if dice.one_in(6) {
        (0..1 + dice.below(6)).for_each(|_| mutate(&mut text, dice));
    }
    text
}
