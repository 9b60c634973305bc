//! Streams about the manual's four line types: small hard limits and windows, and segments whose ends
//! aim at their edges.

use crate::dice::Dice;
use crate::streams::mutate;

/// A box: left, bottom, right, top.
type Area = [i64; 4];

/// Hard limits. They share edges, so that a place at the edge of one often is at that of another.
const HARD: [Area; 4] = [[0, 0, 10, 10], [0, -4, 10, 8], [-10, -10, 10, 10], [-3, 0, 7, 10]];

/// Windows: within the hard limits, across them, with edges in common, around them, outside; a line
/// along each axis, and a point.
const WINDOWS: [Area; 12] = [
    [2, 2, 8, 8],
    [1, 0, 6, 10],
    [5, -5, 20, 5],
    [-20, 3, 4, 30],
    [0, 0, 10, 10],
    [-9, -9, 9, 0],
    [-99, -99, 99, 99],
    [20, 20, 30, 30],
    [11, 0, 12, 10],
    [5, 0, 5, 10],
    [-10, 4, 10, 4],
    [7, 8, 7, 8],
];

/// Hard limits for such a stream.
pub(crate) fn limits(dice: &mut Dice) -> Area {
    dice.pick(&HARD)
}

pub(crate) fn stream(dice: &mut Dice) -> Vec<u8> {
    let mut text = format!("SP{};", 1 + dice.below(8));
    for _ in 0..2 + dice.below(4) {
        let (setting, area) = setting(dice);
        text += &setting;
        text.extend((0..4 + dice.below(10)).map(|_| figure(dice, area)));
    }
    let mut text = text.into_bytes();
    if dice.one_in(8) {
        (0..1 + dice.below(4)).for_each(|_| mutate(&mut text, dice));
    }
    text
}

/// A turn and a window, or none, in either order, and the box that the places after them aim at.
fn setting(dice: &mut Dice) -> (String, Area) {
    let turn = dice.pick(&["", "", "RO;", "RO90;", "RO180;", "RO270;", "IN;", "DF;"]);
    if dice.one_in(3) {
        let hard = dice.pick(&HARD);
        let [left, bottom, right, top] = hard;
        // The hard limits do not turn: under each turn these places come to their edges.
        let back = match turn {
            "RO90;" => [bottom, -right, top, -left],
            "RO180;" => [-right, -top, -left, -bottom],
            "RO270;" => [-top, left, -bottom, right],
            _ => hard,
        };
        return (format!("{turn}IW;"), back);
    }
    let window = dice.pick(&WINDOWS);
    let [left, bottom, right, top] = window;
    let corners = dice.pick(&[[left, bottom, right, top], [right, bottom, left, top]]);
    let corners = corners.map(|corner| corner.to_string()).join(",");
    let setting =
        if dice.one_in(2) { format!("{turn}IW{corners};") } else { format!("IW{corners};{turn}") };
    (setting, if dice.one_in(4) { dice.pick(&HARD) } else { window })
}

/// A coordinate: at an edge, next to one, a part of a unit away, between the edges, or further off.
fn coordinate(dice: &mut Dice, low: i64, high: i64) -> String {
    let edge = dice.pick(&[low, high]);
    match dice.below(12) {
        0..=3 => edge.to_string(),
        4 => (edge + dice.pick(&[-1, 1])).to_string(),
        5 => tenths(10 * edge + dice.pick(&[-6, -5, -4, 4, 5, 6])),
        6 | 7 => dice.within(low, high).to_string(),
        8 => dice.pick(&[-32_768, -1_000, 1_000, 32_767]).to_string(),
        _ => dice.within(low - 12, high + 12).to_string(),
    }
}

/// Tenths of a unit as a number.
fn tenths(value: i64) -> String {
    let sign = if value < 0 { "-" } else { "" };
    format!("{sign}{}.{}", value.abs() / 10, value.abs() % 10)
}

fn place(dice: &mut Dice, [left, bottom, right, top]: Area) -> String {
    format!("{},{}", coordinate(dice, left, right), coordinate(dice, bottom, top))
}

fn figure(dice: &mut Dice, area: Area) -> String {
    let (from, to) = (place(dice, area), place(dice, area));
    match dice.below(16) {
        0 => format!("PU{from};PD{from};"),
        1 | 2 => along(dice, area),
        3 => {
            format!("PU{from};CI{},{};", dice.within(0, 15), dice.pick(&["90", "120", "45", "30"]))
        }
        4 => {
            let (sweep, chord) =
                (dice.pick(&["90", "-90", "200", "-360"]), dice.pick(&["45", "90"]));
            format!("PU{from};PD;AA{to},{sweep},{chord};")
        }
        5 | 6 => polygon(dice, area),
        7 => format!("PU{from};EA{to};"),
        8 => format!("PU{from};PD;PR{},0,0,{};PA;", dice.within(-9, 9), dice.within(-9, 9)),
        9 => dice.pick(&["SP0;", "SP3;", "SP8;", "PU;", "PD;", "EP;"]).to_string(),
        10..=12 => format!("PD{to},{},{};", place(dice, area), place(dice, area)),
        _ => format!("PU{from};PD{to};"),
    }
}

/// A segment along an edge, or right beside it.
fn along(dice: &mut Dice, [left, bottom, right, top]: Area) -> String {
    let beside = dice.pick(&[-1, 0, 0, 0, 1]);
    if dice.one_in(2) {
        let (y, z) = (coordinate(dice, bottom, top), coordinate(dice, bottom, top));
        let x = dice.pick(&[left, right]) + beside;
        format!("PU{x},{y};PD{x},{z};")
    } else {
        let (x, z) = (coordinate(dice, left, right), coordinate(dice, left, right));
        let y = dice.pick(&[bottom, top]) + beside;
        format!("PU{x},{y};PD{z},{y};")
    }
}

/// A polygon with edges that are reached pen up; perhaps drawn under another turn.
fn polygon(dice: &mut Dice, area: Area) -> String {
    let mut text = "PM0;".to_string();
    for _ in 0..2 + dice.below(4) {
        text += &format!("{}{};", dice.pick(&["PD", "PD", "PU"]), place(dice, area));
        text += dice.pick(&["", "", "", "PM1;"]);
    }
    let turned = dice.pick(&["PM2;RO90;EP;", "PM2;RO180;EP;", "PM2;RO270;EP;"]);
    text + dice.pick(&["PM2;EP;", "PM2;EP;", turned, "PM2;IW;EP;", "PM2;PD;EP;"])
}
