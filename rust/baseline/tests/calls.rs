//! Fresh, drive, and the clip against a slower one.

use baseline::geometry::{round_div, Bounds, Point};
use baseline::{drive, Drawn, Look, Machine, Move, Moves, Place, Stroke};

#[test]
fn fresh() {
    let good = [(-32768, -32768, 32767, 32767), (0, 0, 1, 1), (5, 6, 7, 8)];
    for (l, b, r, t) in good {
        assert_eq!(Machine::fresh(l, b, r, t).1, 0);
    }
    let bad = [
        (0, 0, 0, 1),
        (0, 0, 1, 0),
        (1, 0, 0, 1),
        (-32769, 0, 1, 1),
        (0, -32769, 1, 1),
        (0, 0, 32768, 1),
        (0, 0, 1, 32768),
        (i64::MIN, i64::MIN, i64::MAX, i64::MAX),
    ];
    for (l, b, r, t) in bad {
        let (mut machine, number) = Machine::fresh(l, b, r, t);
        assert_eq!(number, 10);
        assert_eq!(machine.look(), Look { x: 0, y: 0, pen: 0, down: false, bytes: 0 });
        assert_eq!(machine.draw(), Drawn::Idle);
        // Limits 0, 0, 1, 1, which are P1 and P2 too.
        let mut list = [Stroke::default(); 1];
        let fed = machine.feed(b"SP1;PU-5,1;PD5,1;SC0,10,0,10;PU10,5;", &mut list);
        assert_eq!((fed.stored, fed.number), (1, 0));
        assert_eq!(list[0], Stroke { pen: 1, x0: 0, y0: 1, x1: 1, y1: 1 });
        assert_eq!((machine.look().x, machine.look().y), (1, 1));
    }
    // The page point is (0, 0) even outside the limits.
    assert_eq!(Machine::fresh(5, 6, 7, 8).0.look().x, 0);
}

#[test]
fn drive_moves() {
    let stroke = |x0, y0, x1, y1| Stroke { pen: 77, x0, y0, x1, y1 };
    let place = |x, y| Place { x, y };
    // Figure (n).
    assert_eq!(drive(stroke(3, 3, 3, 3), 0), Ok(Moves::One(Move::Dot(place(0.375, 0.375)))));
    for (code, pitch) in [(0, 0.125), (1, 0.25), (2, 0.5), (3, 1.0)] {
        assert_eq!(
            drive(stroke(-32768, 32767, 0, -7), code),
            Ok(Moves::Two(
                Move::Travel(place(-32768.0 * pitch, 32767.0 * pitch)),
                Move::Paint(place(0.0, -7.0 * pitch)),
            ))
        );
        for v in -32768..=32767 {
            let Ok(Moves::One(Move::Dot(dot))) = drive(stroke(v, v, v, v), code) else {
                panic!("{v}")
            };
            assert_eq!(f64::from(dot.x), v as f64 * f64::from(pitch));
            assert_eq!(dot.x.is_sign_negative(), v < 0);
            assert_eq!(dot, place(dot.x, dot.x));
        }
    }
    for code in [-1, 4, i64::MIN, i64::MAX] {
        assert_eq!(drive(stroke(0, 0, 1, 1), code), Err(11));
        assert_eq!(drive(stroke(40000, 0, 1, 1), code), Err(11));
    }
    for bad in [-32769, 32768, i64::MIN, i64::MAX] {
        assert_eq!(drive(stroke(bad, 0, 0, 0), 0), Err(12));
        assert_eq!(drive(stroke(0, bad, 0, 0), 1), Err(12));
        assert_eq!(drive(stroke(0, 0, bad, 0), 2), Err(12));
        assert_eq!(drive(stroke(0, 0, 0, bad), 3), Err(12));
    }
}

#[test]
fn rounding() {
    for d in 1..12 {
        for n in -50..50 {
            let r = round_div(n, d);
            // r - 1/2 <= n/d < r + 1/2
            assert!((2 * r - 1) * d <= 2 * n && 2 * n < (2 * r + 1) * d, "{n}/{d}");
        }
    }
}

/// The clip by another road: all parameters where the line meets an edge, and 0 and 1, as
/// fractions over one divisor; the first and the last of those inside are the ends.
fn slow_clip(area: &Bounds, a: Point, b: Point) -> Option<(Point, Point)> {
    let (dx, dy) = ((b.x - a.x) as i128, (b.y - a.y) as i128);
    let under = dx.abs().max(1) * dy.abs().max(1);
    let mut marks = vec![0, under];
    for (start, delta, edges) in
        [(a.x, dx, [area.left, area.right]), (a.y, dy, [area.bottom, area.top])]
    {
        if delta != 0 {
            marks.extend(edges.map(|edge| (edge - start) as i128 * (under / delta)));
        }
    }
    let inside = |t: &i128| {
        let (x, y) = (a.x as i128 * under + dx * t, a.y as i128 * under + dy * t);
        (0..=under).contains(t)
            && area.left as i128 * under <= x
            && x <= area.right as i128 * under
            && area.bottom as i128 * under <= y
            && y <= area.top as i128 * under
    };
    let at = |t: i128| {
        let round = |v: i128| (2 * v + under).div_euclid(2 * under) as i64;
        Point::new(round(a.x as i128 * under + dx * t), round(a.y as i128 * under + dy * t))
    };
    let first = marks.iter().copied().filter(inside).min()?;
    let last = marks.iter().copied().filter(inside).max()?;
    Some((at(first), at(last)))
}

#[test]
fn clip_two_ways() {
    let mut seed = 0x2545_f491_4f6c_dd1d_u64;
    let mut next = |size: i64| {
        seed ^= seed << 13;
        seed ^= seed >> 7;
        seed ^= seed << 17;
        (seed >> 20) as i64 % (2 * size + 1) - size
    };
    let mut shown = 0;
    for round in 0..300_000 {
        let size = [3, 12, 200, 40_000, 1_000_000][round % 5];
        let area = Bounds {
            left: next(size.min(32_768)) / 2,
            bottom: next(size.min(32_768)) / 2,
            right: next(size.min(32_767)),
            top: next(size.min(32_767)),
        };
        let (a, b) = (Point::new(next(size), next(size)), Point::new(next(size), next(size)));
        let part = area.clip(a, b);
        assert_eq!(part, slow_clip(&area, a, b), "{area:?} {a:?} {b:?}");
        shown += usize::from(part.is_some());
    }
    assert!(shown > 20_000, "{shown}");
}
