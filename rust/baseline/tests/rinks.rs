//! The rinks that ship with the project: their stored strokes beside true circles, in whole numbers.
//!
//! The gate compares the same strokes with those of the proved program. Here they are judged by geometry alone: nothing
//! of the machine is used, and no floating point. The sines of a true circle are enclosed between multiples of 10⁻¹²,
//! and of the two ends of an enclosure the worse one counts. Where both ends of a stroke are within some distance of the
//! ends of a chord, each point of the stroke is within that distance of the chord's point at the same part of the way;
//! so the ends decide.

const HOCKEY: (&str, &str) = (
    include_str!("../../../crates/drawings/data/ice-hockey.hpgl"),
    include_str!("../../../crates/drawings/data/ice-hockey.hpgl.strokes"),
);
const CURLING: (&str, &str) = (
    include_str!("../../../crates/drawings/data/curling.hpgl"),
    include_str!("../../../crates/drawings/data/curling.hpgl.strokes"),
);

/// The arcs of the ice hockey sheet: centre, radius, first angle, chord angle (tenths of a degree), chords.
const ARCS: [(i128, i128, i128, i128, i128, i128); 7] = [
    (21500, -6500, 8500, -900, 15, 60),
    (21500, 6500, 8500, 0, 15, 60),
    (-21500, 6500, 8500, 900, 15, 60),
    (-21500, -6500, 8500, 1800, 15, 60),
    (26000, 0, 1830, 1404, 36, 22),
    (-26000, 0, 1830, 396, -36, 22),
    (0, -15000, 3000, 0, 25, 72),
];

/// Sines are counted in parts of one.
const ONE: i128 = 1_000_000_000_000;
/// Numbers of a drawing are kept in ten-thousandths, and a product with a sine in parts of those.
const UNIT: i128 = 10_000 * ONE;

/// A real number, not below zero in a product, between two whole numbers of parts.
#[derive(Clone, Copy)]
struct Between {
    low: i128,
    high: i128,
}

const PI: Between = Between { low: 3_141_592_653_589, high: 3_141_592_653_590 };

impl Between {
    fn scaled(self, by: i128, over: i128) -> Between {
        Between { low: self.low * by / over, high: (self.high * by + over - 1) / over }
    }

    fn times(self, other: Between) -> Between {
        Between { low: self.low * other.low / ONE, high: (self.high * other.high + ONE - 1) / ONE }
    }

    fn minus(self, other: Between) -> Between {
        Between { low: self.low - other.high, high: self.high - other.low }
    }

    fn negative(self) -> Between {
        Between { low: -self.high, high: -self.low }
    }
}

/// The sum of first − first·square/((n+1)(n+2)) + .., which is the sine of x for x and 1, and the cosine for 1 and 0.
/// Up to a quarter turn the terms fall from the second on, so what is left out is less than the last term taken.
fn series(first: Between, square: Between, n: i128) -> Between {
    let (mut sum, mut term) = (first, first);
    for k in 0..12 {
        let below = (n + 2 * k + 1) * (n + 2 * k + 2);
        term = term.times(square).scaled(1, below);
        sum = sum.minus(if k % 2 == 0 { term } else { term.negative() });
    }
    Between { low: sum.low - term.high, high: sum.high + term.high }
}

/// Cosine and sine of whole tenths of a degree.
fn cosine_and_sine(tenths: i128) -> (Between, Between) {
    let x = PI.scaled(tenths.rem_euclid(900), 1800);
    let square = x.times(x);
    let cosine = series(Between { low: ONE, high: ONE }, square, 0);
    let sine = series(x, square, 1);
    match tenths.div_euclid(900).rem_euclid(4) {
        0 => (cosine, sine),
        1 => (sine.negative(), cosine),
        2 => (cosine.negative(), sine.negative()),
        _ => (sine, cosine.negative()),
    }
}

fn nearest(number: i128, of: i128) -> i128 {
    (2 * number + of).div_euclid(2 * of)
}

type Point = (i128, i128);

#[derive(Clone, Copy, PartialEq, Debug)]
struct Stroke {
    pen: i128,
    from: Point,
    to: Point,
}

fn strokes(lines: &str) -> Vec<Stroke> {
    let stroke = |line: &str| {
        let words: Vec<i128> = line.split(' ').map(|word| word.parse().expect(line)).collect();
        let [pen, x0, y0, x1, y1] = words[..] else { panic!("{line}") };
        Stroke { pen, from: (x0, y0), to: (x1, y1) }
    };
    lines.lines().map(stroke).collect()
}

/// A circle of a drawing, in ten-thousandths, and its chord angle in tenths of a degree.
#[derive(Clone, Copy, Debug)]
struct Circle {
    pen: i128,
    centre: Point,
    radius: i128,
    angle: i128,
}

impl Circle {
    fn chords(&self) -> usize {
        (3600 / self.angle + i128::from(3600 % self.angle != 0)) as usize
    }

    /// The distance of a point from the true vertex k, squared, or more; a far point counts as 100 units away.
    fn off(&self, k: usize, point: Point) -> i128 {
        let (cosine, sine) = cosine_and_sine(k as i128 % self.chords() as i128 * self.angle);
        let along = |at: i128, centre: i128, factor: Between| {
            let way = (at * 10_000 - centre) * ONE;
            let ends = [factor.low, factor.high].map(|end| (way - self.radius * end).abs());
            ends[0].max(ends[1]).min(100 * UNIT)
        };
        let x = along(point.0, self.centre.0, cosine);
        let y = along(point.1, self.centre.1, sine);
        x * x + y * y
    }

    /// The worst distance of the strokes' ends from the true vertices, squared, if they are this circle's: one for each
    /// chord, of its pen, each from where the last one ended, and within one unit.
    fn worst(&self, strokes: &[Stroke]) -> Result<i128, String> {
        let mut worst = 0;
        for (k, stroke) in strokes.iter().enumerate() {
            let next = strokes[(k + 1) % strokes.len()];
            if stroke.pen != self.pen || stroke.to != next.from {
                return Err(format!("chord {k} of {self:?}: {stroke:?}, then {next:?}"));
            }
            worst = worst.max(self.off(k, stroke.from)).max(self.off(k + 1, stroke.to));
            if worst > UNIT * UNIT {
                return Err(format!("chord {k} of {self:?} is not within one unit: {stroke:?}"));
            }
        }
        let whole = strokes.len() == self.chords();
        whole.then_some(worst).ok_or(format!("{} chords of {self:?}", strokes.len()))
    }
}

enum Part {
    Line(Stroke),
    Circle(Circle),
}

/// A number of a drawing in ten-thousandths; the rinks write at most four decimals.
fn number(text: &str) -> i128 {
    let (whole, decimals) = text.split_once('.').unwrap_or((text, ""));
    format!("{whole}{decimals:0<4}").parse().expect(text)
}

/// What a drawing paints, in order, read by the few instructions that the rinks use.
fn parts(drawing: &str) -> Vec<Part> {
    let (mut pen, mut at) = (0, (0, 0));
    let mut parts = Vec::new();
    for instruction in drawing.split(';').map(str::trim).filter(|text| !text.is_empty()) {
        let (name, rest) = instruction.split_at(2);
        let numbers: Vec<i128> = rest.split_terminator(',').map(number).collect();
        match (name, &numbers[..]) {
            ("IN", []) => {}
            ("SP", [number]) => pen = number / 10_000,
            ("PU" | "PD", pairs) => {
                let to = pairs.chunks(2).map(|pair| (pair[0], pair[1]));
                let points: Vec<Point> = std::iter::once(at).chain(to).collect();
                at = points[points.len() - 1];
                if name == "PD" {
                    parts.extend(lines(pen, &points));
                }
            }
            ("EA", &[x, y]) => {
                parts.extend(lines(pen, &[at, (x, at.1), (x, y), (at.0, y), at]));
            }
            ("CI", &[radius, angle]) => {
                let angle = nearest(angle, 1000);
                parts.push(Part::Circle(Circle { pen, centre: at, radius, angle }));
            }
            _ => panic!("{instruction}"),
        }
    }
    parts
}

/// The strokes from point to point.
fn lines(pen: i128, points: &[Point]) -> Vec<Part> {
    let whole = |(x, y): Point| (nearest(x, 10_000), nearest(y, 10_000));
    let line = |ends: &[Point]| Stroke { pen, from: whole(ends[0]), to: whole(ends[1]) };
    points.windows(2).map(|ends| Part::Line(line(ends))).collect()
}

/// Each circle of a rink with its stored strokes; the strokes between them have to be the rink's lines.
fn circles((drawing, lines): (&str, &str)) -> Vec<(Circle, Vec<Stroke>)> {
    let mut rest = strokes(lines).into_iter();
    let mut circles = Vec::new();
    for part in parts(drawing) {
        match part {
            Part::Line(line) => assert_eq!(rest.next(), Some(line)),
            Part::Circle(circle) => {
                circles.push((circle, rest.by_ref().take(circle.chords()).collect()))
            }
        }
    }
    assert_eq!(rest.next(), None);
    circles
}

/// A distance in thousandths of a unit, rounded up, from its square.
fn thousandths(square: i128) -> i128 {
    let part = UNIT / 1000;
    (0..).find(|n| n * n * part * part >= square).unwrap()
}

fn face_off(radius: i128) -> Vec<(Circle, Vec<Stroke>)> {
    circles(HOCKEY).into_iter().filter(|(circle, _)| circle.radius == radius * 10_000).collect()
}

/// These hold of the true sines alone, so they also show that the numbers for pi are right.
#[test]
fn sines_are_enclosed() {
    let holds = |between: Between, n: i128, of: i128| {
        between.low * of <= n * ONE && n * ONE <= between.high * of
    };
    for (tenths, cosine, sine) in [(0, 2, 0), (900, 0, 2), (1800, -2, 0), (2700, 0, -2)] {
        let (c, s) = cosine_and_sine(tenths);
        assert!(holds(c, cosine, 2) && holds(s, sine, 2), "{tenths}");
    }
    for (tenths, sine) in [(300, 1), (1500, 1), (2100, -1), (3300, -1)] {
        assert!(holds(cosine_and_sine(tenths).1, sine, 2), "{tenths}");
    }
    for tenths in 0..3600 {
        let (c, s) = cosine_and_sine(tenths);
        assert!(c.high - c.low < 50 && s.high - s.low < 50, "{tenths}");
    }
}

#[test]
fn every_circle_is_within_one_unit_of_its_true_chords() {
    for (name, rink, count) in [("ice hockey", HOCKEY, 14), ("curling", CURLING, 8)] {
        let circles = circles(rink);
        assert_eq!(circles.len(), count);
        for (circle, strokes) in circles {
            let worst = thousandths(circle.worst(&strokes).unwrap());
            let Circle { centre: (x, y), radius, .. } = circle;
            let (x, y) = (x / 10_000, y / 10_000);
            let (radius, tenths) = (radius / 10_000, radius % 10_000 / 1000);
            println!("{name}: {radius}.{tenths} about ({x}, {y}): at most 0.{worst:03} units off");
        }
    }
}

/// The circles at the ends of the rink are the one in its middle, moved: no more is lost far out than near.
#[test]
fn far_circles_are_as_exact_as_the_near_one() {
    let (near, far): (Vec<_>, Vec<_>) =
        face_off(4500).into_iter().partition(|(circle, _)| circle.centre == (0, 0));
    let [(circle, strokes)] = &near[..] else { panic!("{} near circles", near.len()) };
    let bound = circle.worst(strokes).unwrap();
    assert_eq!(far.len(), 4);
    for (circle, strokes_there) in far {
        assert!(circle.worst(&strokes_there).unwrap() <= bound);
        let (x, y) = (circle.centre.0 / 10_000, circle.centre.1 / 10_000);
        let back = |(a, b): Point| (a - x, b - y);
        let moved = strokes_there.iter().map(|stroke| (back(stroke.from), back(stroke.to)));
        assert!(moved.eq(strokes.iter().map(|stroke| (stroke.from, stroke.to))));
    }
}

#[test]
fn chords_are_within_one_unit_of_the_curve() {
    // A chord leaves the curve by radius − radius·cos(angle / 2), and 2·cos²(angle / 2) is 1 + cos(angle).
    let circles = circles(HOCKEY).into_iter().chain(circles(CURLING));
    let curves = circles.map(|(circle, _)| (circle.radius, circle.angle));
    let arcs = ARCS.map(|(_, _, radius, _, step, _)| (radius * 10_000, step));
    for (radius, angle) in curves.chain(arcs) {
        let (cosine, _) = cosine_and_sine(angle);
        let inner = radius - 10_000;
        assert!((ONE + cosine.low) * radius * radius >= 2 * inner * inner * ONE, "{radius}");
    }
}

/// Corners, goal creases and the referee's crease: written point by point, each the nearest whole to a true one.
#[test]
fn arcs_join_the_nearest_points() {
    let stored = strokes(HOCKEY.1);
    for (x, y, radius, start, step, chords) in ARCS {
        let whole = |centre: i128, factor: Between| {
            let [low, high] = [factor.low, factor.high].map(|end| nearest(radius * end, ONE));
            assert_eq!(low, high);
            centre + low
        };
        let vertex = |k: i128| {
            let (cosine, sine) = cosine_and_sine(start + k * step);
            (whole(x, cosine), whole(y, sine))
        };
        let arc: Vec<_> = (0..chords).map(|k| (vertex(k), vertex(k + 1))).collect();
        let painted = stored
            .windows(arc.len())
            .any(|run| run.iter().map(|stroke| (stroke.from, stroke.to)).eq(arc.iter().copied()));
        assert!(painted, "arc of {radius} about ({x}, {y})");
    }
}

/// The check can fail: of every circle each vertex in turn is moved by two units, in the two strokes that meet there.
#[test]
fn a_vertex_two_units_off_is_found() {
    for (circle, strokes) in face_off(4500).into_iter().chain(face_off(300)) {
        for k in 0..strokes.len() {
            for (dx, dy) in [(2, 0), (-2, 0), (0, 2), (0, -2)] {
                let mut moved = strokes.clone();
                let next = (k + 1) % strokes.len();
                moved[k].to = (moved[k].to.0 + dx, moved[k].to.1 + dy);
                moved[next].from = moved[k].to;
                assert!(circle.worst(&moved).is_err(), "vertex {next} of {circle:?}");
            }
        }
    }
}

/// So are chords that are rounded one by one and added up, another pen, a gap, and a chord left out.
#[test]
fn other_faults_are_found() {
    for (circle, strokes) in face_off(4500) {
        let way = |k: i128| {
            let (cosine, sine) = cosine_and_sine(k * circle.angle);
            (circle.radius * cosine.low, circle.radius * sine.low)
        };
        let mut added = strokes.clone();
        for k in 1..added.len() {
            let ((x0, y0), (x1, y1)) = (way(k as i128 - 1), way(k as i128));
            let (x, y) = added[k - 1].from;
            added[k].from = (x + nearest(x1 - x0, UNIT), y + nearest(y1 - y0, UNIT));
            added[k - 1].to = added[k].from;
        }
        assert!(circle.worst(&added).is_err());
        let mut other = strokes.clone();
        other[70].pen += 1;
        assert!(circle.worst(&other).is_err());
        let mut open = strokes.clone();
        open[70].to.0 += 1;
        assert!(circle.worst(&open).is_err());
        assert!(circle.worst(&strokes[1..]).is_err());
    }
}
