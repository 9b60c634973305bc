//! RO (change request 3): the rows of `cr03.txt`, and values, changes of turn, windows and limits, with
//! the exact checker beside the machine.

#[allow(dead_code)]
#[path = "../examples/outcomes.rs"]
mod outcomes;
mod pair;
mod rows;

use baseline::{Drawn, Stroke};
use outcomes::{Event, Step, LIMITS};
use pair::Pair;

#[test]
fn agreed_outcomes() {
    assert_eq!(rows::check(include_str!("cr03.txt")), 27);
}

/// The angles of RO.
const ANGLES: [i64; 4] = [0, 90, 180, 270];

/// Where documents 01 and 02 say that a point goes on the page.
fn image(angle: i64, x: i64, y: i64) -> (i64, i64) {
    match angle {
        0 => (x, y),
        90 => (-y, x),
        180 => (-x, -y),
        _ => (y, -x),
    }
}

/// What these bytes give, and the location that they lead to.
fn outcome(limits: [i64; 4], bytes: &str) -> (Vec<Event>, (i64, i64)) {
    let mut pair = Pair::fresh(limits);
    let steps: Vec<Step> = bytes.bytes().map(Step::Byte).collect();
    let (events, _) = outcomes::run(&mut pair, &steps);
    let look = pair.machine.look();
    (events, (look.x, look.y))
}

/// The ends of the strokes of these bytes, of which none is refused or hidden.
fn strokes(limits: [i64; 4], bytes: &str) -> Vec<[(i64, i64); 2]> {
    let ends = |event| match event {
        Event::Drawn(Drawn::Stroke(Stroke { x0, y0, x1, y1, .. })) => [(x0, y0), (x1, y1)],
        other => panic!("{bytes}: {other:?}"),
    };
    outcome(limits, bytes).0.into_iter().map(ends).collect()
}

/// Each value by quarters of a degree, and those next to it: the nearest whole is one of the angles, and
/// the point shows which, or the value is refused and nothing turns.
#[test]
fn every_value() {
    let mut accepted = 0;
    for value in
        (-1_600..=1_600_i64).flat_map(|quarters| [-1, 0, 1].map(|more| 2_500 * quarters + more))
    {
        let sign = if value < 0 { "-" } else { "" };
        let size = value.abs();
        let text = format!("{sign}{}.{:04}", size / 10_000, size % 10_000);
        let (events, _) = outcome(LIMITS, &format!("SP1;RO{text};PD3,5;"));
        let angle = (value + 5_000).div_euclid(10_000);
        let turn = if ANGLES.contains(&angle) { angle } else { 0 };
        let (x1, y1) = image(turn, 3, 5);
        let mut due = vec![Event::Drawn(Drawn::Stroke(Stroke { pen: 1, x0: 0, y0: 0, x1, y1 }))];
        if angle != turn {
            due.insert(0, Event::Refused(3, 7 + text.len()));
        }
        assert_eq!(events, due, "{text}");
        accepted += usize::from(angle == turn);
    }
    // From a half below each angle up to the last value before the half above it.
    assert_eq!(accepted, 4 * 12);
}

/// From each turn to each other: the page point stays, the base is whole, and the next move is turned
/// by the new one.
#[test]
fn changes_of_turn() {
    for (from, to) in ANGLES.iter().flat_map(|&from| ANGLES.map(|to| (from, to))) {
        let setup = format!("SP1;RO{from};PU30.4,-7.5;PD;PR0,0;RO{to};PR0,0;PA2.5,-2.5;");
        let lines = strokes(LIMITS, &setup);
        let page = image(from, 30, -7);
        assert_eq!(lines[0], [page; 2], "{setup}");
        assert_eq!(lines[1], [page; 2], "{setup}");
        // Rounded first, then turned.
        assert_eq!(lines[2], [page, image(to, 3, -2)], "{setup}");
    }
    // Any way round and back.
    for row in 0..4_usize.pow(4) {
        let turns: String =
            (0..4).map(|place| format!("RO{};", ANGLES[row / 4_usize.pow(place) % 4])).collect();
        assert_eq!(outcome(LIMITS, &format!("PA3,5;{turns}RO;")).1, (3, 5), "{turns}");
        assert_eq!(outcome(LIMITS, &format!("PA3,5;{turns}IN;")).1, (3, 5), "{turns}");
    }
}

/// The window turns along from the turn it was set under, and is put in order again; the hard limits,
/// off centre, stay. A line through both shows the part within both.
#[test]
fn windows_and_limits() {
    let limits = [-40, -30, 60, 90];
    for (set, then) in ANGLES.iter().flat_map(|&set| ANGLES.map(|then| (set, then))) {
        let bytes = format!("SP1;RO{set};IW50,10,-20,-70;RO{then};PU-300,0;PD300,0;");
        let ((left, bottom), (right, top)) = (image(then, -20, -70), image(then, 50, 10));
        let window = [left.min(right), bottom.min(top), left.max(right), bottom.max(top)];
        let (low, high) = ([-40, -30], [60, 90]);
        let inside = |(x, y): (i64, i64)| {
            let x = x.clamp(low[0].max(window[0]), high[0].min(window[2]));
            (x, y.clamp(low[1].max(window[1]), high[1].min(window[3])))
        };
        // The line lies on an axis, which both hold, so its ends are moved along it.
        let ends = [inside(image(then, -300, 0)), inside(image(then, 300, 0))];
        assert_eq!(strokes(limits, &bytes), [ends], "{bytes}");
    }
}

/// P1 and P2 do not turn, and DF keeps the turn.
#[test]
fn what_stays() {
    for angle in ANGLES {
        let bytes = format!("SP1;RO{angle};IP;SC0,1,0,1;PU0,0;PD1,1;DF;PA0,0,5,9;");
        let (p1, p2) = (image(angle, -100, -100), image(angle, 100, 100));
        let due = [[p1, p2], [p2, (0, 0)], [(0, 0), image(angle, 5, 9)]];
        assert_eq!(strokes([-100, -100, 100, 100], &bytes), due, "{angle}");
    }
}

/// The largest locations and windows under each turn: no number outgrows its bits.
#[test]
fn extremes() {
    let mut tally = [0; 32];
    for (set, then) in ANGLES.iter().flat_map(|&set| ANGLES.map(|then| (set, then))) {
        let bytes = format!(
            "SP1;RO{set};IP0,0,10000,10000;SC0,1,0,1;IW-100,-100,100,100;PA100,-100;PD-100,100;\
             RO{then};PD100,100;PD100.0001,0;EA-100,-100;CI.0001,90;AR-100,-100,90,30;"
        );
        for event in outcome([-32_768, -32_768, 32_767, 32_767], &bytes).0 {
            match event {
                Event::Refused(number, _) => tally[usize::from(number)] += 1,
                _ => tally[0] += 1,
            }
        }
    }
    println!("drawn {}, refusals {tally:?}", tally[0]);
    assert!(tally[0] > 0 && tally[6] > 0);
}
