//! Numbers of more than four decimals (change request 2): the rows of `cr02.txt`, and every number
//! near a tie reckoned as a fraction, with the exact checker beside the machine.

#[allow(dead_code)]
#[path = "../examples/outcomes.rs"]
mod outcomes;
mod pair;
mod rows;

use outcomes::{Event, Step, LIMITS};
use pair::Pair;

#[test]
fn agreed_outcomes() {
    assert_eq!(rows::check(include_str!("cr02.txt")), 29);
}

/// Ends of numbers, after the fourth decimal: on both sides of a half, at it, and far from it.
const TAILS: [&str; 18] = [
    "",
    "0",
    "1",
    "4",
    "49",
    "4999999999",
    "5",
    "50",
    "5000000000",
    "50000000001",
    "501",
    "51",
    "59",
    "6",
    "9",
    "99",
    "9999999999",
    "00000000001",
];

/// The nearest ten-thousandth to a number with this sign, these ten-thousandths and this tail: the
/// whole part of the fraction and a half, found downwards.
fn nearest(negative: bool, size: i128, tail: &str) -> i128 {
    let under = 10_i128.pow(tail.len() as u32);
    let over = size * under + tail.parse::<i128>().unwrap_or(0);
    let over = if negative { -over } else { over };
    (2 * over + under).div_euclid(2 * under)
}

/// The text of that number.
fn text(negative: bool, size: i128, tail: &str) -> String {
    let (whole, decimals) = (size / 10_000, size % 10_000);
    format!("{}{whole}.{decimals:04}{tail}", if negative { "-" } else { "" })
}

/// What these bytes are refused with, and the x that they lead to.
fn x_after(bytes: &str) -> (Vec<Event>, i64) {
    let mut pair = Pair::fresh(LIMITS);
    let steps: Vec<Step> = bytes.bytes().map(Step::Byte).collect();
    let (events, _) = outcomes::run(&mut pair, &steps);
    (events, pair.machine.look().x)
}

/// With one ten-thousandth to a plotter unit the location is the number.
#[test]
fn every_tie() {
    let sizes = [0, 1, 2, 4, 5, 9, 10, 99, 4_999, 5_000, 9_998, 9_999, 10_000, 123_456, 999_999];
    for size in sizes {
        for (negative, tail) in [false, true].iter().flat_map(|&n| TAILS.map(|tail| (n, tail))) {
            let number = text(negative, size, tail);
            let (events, x) = x_after(&format!("IP0,0,10000,10000;SC0,1,0,1;PA{number},0;"));
            assert_eq!(
                (events.len(), i128::from(x)),
                (0, nearest(negative, size, tail)),
                "{number}"
            );
        }
    }
}

/// The range is judged after rounding, on both sides.
#[test]
fn ends_of_the_range() {
    let mut refused = 0;
    for size in 327_679_997..=327_680_002 {
        for (negative, tail) in [false, true].iter().flat_map(|&n| TAILS.map(|tail| (n, tail))) {
            let number = text(negative, size, tail);
            let due = match nearest(negative, size, tail) {
                -327_680_000..=327_679_999 => vec![],
                _ => vec![Event::Refused(3, 3 + number.len())],
            };
            refused += due.len();
            assert_eq!(x_after(&format!("PA{number},0;")).0, due, "{number}");
        }
    }
    assert!(refused > 80, "{refused}");
}

/// A tail is as long as it likes: the last of 5000 decimals decides.
#[test]
fn long_tails() {
    let zeros = "0".repeat(5_000);
    let nines = "9".repeat(5_000);
    for (number, due) in [
        (format!(".00005{zeros}"), 1),
        (format!("-.00005{zeros}"), 0),
        (format!("-.00005{zeros}1"), -1),
        (format!(".00005{zeros}1{zeros}"), 1),
        (format!(".00004{nines}"), 0),
        (format!("-.00004{nines}"), 0),
        (format!("-.00014{nines}"), -1),
        (format!("-.00015{zeros}1{zeros}"), -2),
        (format!("-99.9999{nines}"), -1_000_000),
    ] {
        let (events, x) = x_after(&format!("IP0,0,10000,10000;SC0,1,0,1;PA{number},0;"));
        assert_eq!((events.len(), x), (0, due), "{}..", &number[..9]);
    }
}
