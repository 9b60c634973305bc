//! Streams about replies: OA, OP, OW, OH and OE in every state, and what each of them tells of.

use crate::dice::Dice;
use crate::hunt::USUAL;
use crate::streams::mutate;

/// Hard limits of which no two turns look alike, the widest, and some that are refused with 10.
const HARD: [[i64; 4]; 8] = [
    USUAL,
    [-10, -200, 3_000, 4_000],
    [-3, -4, 300, 200],
    [5, 60, 700, 8_000],
    [-9_000, -800, -70, -6],
    [-32_768, -32_768, 32_767, 32_767],
    [0, 0, 1, 1],
    [5, 5, 5, 6],
];

/// The names, and others of the manual that stay unknown.
const NAMES: [&str; 14] =
    ["OA", "OP", "OW", "OH", "OE", "OA", "OW", "OE", "oA", "Oe", "ow", "OC", "OS", "OI"];

/// What ends one: a semicolon, the letter of what follows, blanks before either, numbers.
const ENDS: [&str; 14] =
    [";", ";", ";", ";", "", "", "\n;", " ,;", " ", "5;", "1,2;", "-;", "\x1b;", "5"];

/// Turns, windows, scales, corners; the last window is the one with the longest reply.
const SETTINGS: [&str; 24] = [
    "RO;",
    "RO90;",
    "RO180;",
    "RO270;",
    "RO90;IW0,0,5,10;",
    "IW0,0,5,10;",
    "IW-5,7,100.5,-8;",
    "IW-20000,-20000,20000,20000;",
    "IW-3,2,40,90;RO270;",
    "IW.5,-.5,9.5,-20.5;",
    "IW3,3,3,3;",
    "IW;",
    "IP;",
    "IP5,6,1,-2;",
    "IP10,10;",
    "IP1,2,3,4;",
    "IP-32768,-32768,32767,32767;",
    "SC;",
    "IP0,0,1000,1000;SC0,3,3,0;",
    "SC0,100,0,50;",
    "DF;",
    "IN;",
    "IN;SP1;PD;",
    "IP0,0,10000,10000;SC0,1,0,1;IW-100,-100,-100,-100;",
];

/// Refusals of each kind: of names, counts, numbers and settings, places and room; and none.
const REFUSED: [&str; 28] = [
    "XX;",
    "@;",
    "5,6;",
    "P;",
    "P5;",
    "PA\x1b;",
    "LBOE;\x03",
    "SP1,2;",
    "PA5;",
    "PD1,1,5;",
    "EA5;",
    "CI;",
    "IN5;",
    "DF1;",
    "PA5",
    "PA-,1;",
    "PA1.2.;",
    "SP32768;",
    "SP9;",
    "RO45;",
    "IP1,1,1,2;",
    "SC1,1,2,3;",
    "PM1;",
    "CI5,121;",
    "AA0,0,0;",
    "IP0,0,10000,10000;SC0,1,0,1;PA101,0;",
    "IP0,0,10000,10000;SC0,1,0,1;CI101;",
    "PU;",
];

/// Places and pens that OA tells.
const MOVES: [&str; 16] = [
    "PU;",
    "PD;",
    "PA3,-4;",
    "PA-.5,.5;",
    "PU5,5;",
    "PD5,5;",
    "PD-7,9,12.5,-.5;",
    "PR.4,-.6;",
    "PR1,1;PA",
    "PU-32768,32767.9999;",
    "SP1;",
    "SP0;",
    "SP3;PD9,9;PU",
    "CI9,120;",
    "EA20,30;",
    "PD4,4;AA0,0,90,45;",
];

/// Hard limits for such a stream.
pub(crate) fn limits(dice: &mut Dice) -> [i64; 4] {
    dice.pick(&HARD)
}

pub(crate) fn stream(dice: &mut Dice) -> Vec<u8> {
    let mut text = dice.pick(&["SP1;PD;", "", "IN;SP2;", "PM0;"]).to_string();
    text.extend((0..10 + dice.below(40)).map(|_| part(dice)));
    let mut text = text.into_bytes();
    if dice.one_in(6) {
        (0..1 + dice.below(6)).for_each(|_| mutate(&mut text, dice));
    }
    text
}

/// One of the five, or what it tells of.
fn part(dice: &mut Dice) -> String {
    match dice.below(12) {
        0 | 1 => dice.pick(&SETTINGS).to_string(),
        2 | 3 => dice.pick(&REFUSED).to_string(),
        4 | 5 => dice.pick(&MOVES).to_string(),
        6 => polygon(dice),
        _ => asked(dice),
    }
}

fn asked(dice: &mut Dice) -> String {
    format!("{}{}", dice.pick(&NAMES), dice.pick(&ENDS))
}

/// Polygon mode with the five in it; now and then full, or left open.
fn polygon(dice: &mut Dice) -> String {
    let mut text = dice.pick(&["PM0;", "PM;", "PM0"]).to_string();
    for _ in 0..dice.below(6) {
        text += &match dice.below(6) {
            0 => dice.pick(&["PM1;", "PM1", "SP1;", "RO90;", "IN;", "PM3;"]).to_string(),
            1 | 2 => dice.pick(&MOVES).to_string(),
            _ => asked(dice),
        };
    }
    if dice.one_in(16) {
        text += &format!("PD{}0,1;", "1,0,0,0,".repeat(57));
    }
    text + dice.pick(&["PM2;", "PM2", "PM2;EP;", "PM2OA;", ""])
}
