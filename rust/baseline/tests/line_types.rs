//! The manual's four line types (change request 4): the rows of `cr04.txt`, each segment's type told
//! by the machine and by the exact checker, and segments about boxes of all kinds.

#[allow(dead_code)]
#[path = "../examples/outcomes.rs"]
mod outcomes;
mod pair;
mod rows;

use baseline::exact::is_clip;
use baseline::geometry::{Bounds, LineType, Point};
use baseline::Drawn;
use outcomes::{Event, Step};
use pair::Pair;

#[test]
fn agreed_outcomes() {
    assert_eq!(rows::check(include_str!("cr04.txt")), 26);
}

/// The types and the strokes of these bytes under limits 0,0,10,10, as the program strokes prints
/// them; "none" for a hidden segment.
fn painted(bytes: &str) -> (Vec<u8>, Vec<String>) {
    let mut pair = Pair::fresh([0, 0, 10, 10]);
    let steps: Vec<Step> = bytes.bytes().map(Step::Byte).collect();
    let text = |event| match event {
        Event::Drawn(Drawn::Stroke(s)) => {
            format!("{} {} {} {} {}", s.pen, s.x0, s.y0, s.x1, s.y1)
        }
        Event::Drawn(_) => "none".to_string(),
        event => panic!("{bytes}: {event:?}"),
    };
    let (events, _) = outcomes::run(&mut pair, &steps);
    (pair.types, events.into_iter().map(text).collect())
}

/// The table that fitters read and its figure have the types and the strokes of the machine.
#[test]
fn table_and_figure_for_users() {
    let users = include_str!("../../../docs/USERS.md");
    let figure = include_str!("../../../docs/line-types.svg");
    let section = users.split("\n### The four line types\n").nth(1).expect("the section");
    let section = section.split("\n## ").next().unwrap_or_default();
    let mut rows = 0;
    for row in section.lines().filter(|row| row.starts_with("| ") && !row.starts_with("| type")) {
        let cells: Vec<&str> = row.split('|').map(|cell| cell.trim().trim_matches('`')).collect();
        let (types, strokes) = painted(cells[5]);
        assert_eq!(
            (format!("{types:?}"), &strokes[..]),
            (format!("[{}]", cells[1]), &[cells[6].to_string()][..])
        );
        check_figure(figure, cells[5], &strokes[0]);
        rows += 1;
    }
    assert_eq!(rows, 5);
    // The four that show, and one line of the legend.
    assert_eq!(figure.matches("<line class=\"painted\"").count(), 5);
}

/// The figure has the two ends of the moves of `SP1;PUx,y;PDx,y;`, and the stroke.
fn check_figure(figure: &str, bytes: &str, stroke: &str) {
    let pair = |name: &str| {
        let after = bytes.split(name).nth(1).expect(bytes);
        after.split(';').next().and_then(|pair| pair.split_once(',')).expect(bytes)
    };
    for (name, class) in [("PU", "last"), ("PD", "new")] {
        let (x, y) = pair(name);
        let mark = format!("<circle class=\"{class}\" cx=\"{x}\" cy=\"{y}\"");
        assert!(figure.contains(&mark), "{bytes}: {mark}");
    }
    if let [_, x0, y0, x1, y1] = stroke.split(' ').collect::<Vec<_>>()[..] {
        let line =
            format!("<line class=\"painted\" x1=\"{x0}\" y1=\"{y0}\" x2=\"{x1}\" y2=\"{y1}\"/>");
        assert!(figure.contains(&line), "{bytes}: {line}");
    }
}

/// What the text under the table says.
#[test]
fn text_for_users() {
    for (bytes, types, strokes) in [
        ("SP1;PU9.6,5;PD10.4,5;PD10.5,5;", vec![1, 2], vec!["1 10 5 10 5", "1 10 5 10 5"]),
        ("SP1;PU10,5;PD20,5;", vec![2], vec!["1 10 5 10 5"]),
        ("SP1;PU-5,5;PD5,15;", vec![4], vec!["1 0 10 0 10"]),
        ("SP1;PU6,7;PD12,10;PD12,4;", vec![2, 4], vec!["1 6 7 10 9", "none"]),
    ] {
        assert_eq!(painted(bytes), (types, strokes.into_iter().map(String::from).collect()));
    }
}

struct Dice(u64);

impl Dice {
    fn within(&mut self, low: i64, high: i64) -> i64 {
        self.0 ^= self.0 << 13;
        self.0 ^= self.0 >> 7;
        self.0 ^= self.0 << 17;
        low + (self.0 >> 20) as i64 % (high - low + 1)
    }

    /// A coordinate: in the middle of two edges, at one, next to one, or anywhere.
    fn aimed(&mut self, edges: [i64; 2], reach: i64) -> i64 {
        let [low, high] = edges;
        match self.within(0, 5) {
            0 => low + self.within(-1, 1),
            1 => high + self.within(-1, 1),
            2 => low,
            3 => high,
            4 => (low + high).div_euclid(2),
            _ => self.within(-reach, reach),
        }
    }

    fn point(&mut self, area: &Bounds, reach: i64) -> Point {
        let Bounds { left, bottom, right, top } = *area;
        Point::new(self.aimed([left, right], reach), self.aimed([bottom, top], reach))
    }

    fn hard(&mut self, reach: i64) -> Bounds {
        let (left, bottom) = (self.within(-reach, reach - 1), self.within(-reach, reach - 1));
        Bounds {
            left,
            bottom,
            right: self.within(left + 1, reach),
            top: self.within(bottom + 1, reach),
        }
    }

    /// A window whose corners aim at the hard limits too: a line or a point now and then.
    fn window(&mut self, hard: &Bounds, reach: i64) -> Bounds {
        let (a, mut b) = (self.point(hard, reach), self.point(hard, reach));
        if self.within(0, 5) == 0 {
            b.x = a.x;
        }
        if self.within(0, 5) == 0 {
            b.y = a.y;
        }
        Bounds::of_corners(a, b)
    }
}

/// What was met: segments by type, hidden ones, dots; limits that are empty, a line or a point.
#[derive(Default, Debug)]
struct Met {
    types: [usize; 5],
    hidden: usize,
    dots: usize,
    empty: usize,
    line: usize,
    point: usize,
}

impl Met {
    fn limits(&mut self, area: &Bounds) {
        let (width, height) = (area.right - area.left, area.top - area.bottom);
        self.empty += usize::from(width < 0 || height < 0);
        self.line += usize::from((width == 0) != (height == 0) && width >= 0 && height >= 0);
        self.point += usize::from(width == 0 && height == 0);
    }

    fn part(&mut self, told: LineType, part: Option<(Point, Point)>) {
        self.types[told as usize] += 1;
        self.hidden += usize::from(part.is_none());
        self.dots += usize::from(part.is_some_and(|(start, end)| start == end));
    }
}

/// The one type whose words are true of the ends: within both boxes, or not.
fn one_type(boxes: [&Bounds; 2], a: Point, b: Point) -> LineType {
    let inside = |p: Point| boxes.iter().all(|area| area.holds(p));
    let types = [
        (LineType::InsideToInside, inside(a) && inside(b)),
        (LineType::InsideToOutside, inside(a) && !inside(b)),
        (LineType::OutsideToInside, !inside(a) && inside(b)),
        (LineType::OutsideToOutside, !inside(a) && !inside(b)),
    ];
    let mut of_type = types.into_iter().filter(|&(_, of_type)| of_type).map(|(told, _)| told);
    let told = of_type.next().expect("some type");
    assert_eq!(of_type.next(), None, "one type alone");
    told
}

/// An end within the limits is kept; for one outside there is a point on an edge of what both boxes
/// hold.
fn right_end(area: &Bounds, end: Point, shown: Point) -> bool {
    let on_edge =
        [area.left, area.right].contains(&shown.x) || [area.bottom, area.top].contains(&shown.y);
    if area.holds(end) {
        end == shown
    } else {
        area.holds(shown) && on_edge
    }
}

fn numbers(area: &Bounds) -> [i64; 4] {
    [area.left, area.bottom, area.right, area.top]
}

fn check(hard: &Bounds, window: &Bounds, a: Point, b: Point) -> (LineType, Option<(Point, Point)>) {
    let area = hard.meet(window);
    let told = area.line_type(a, b);
    assert_eq!(told, one_type([hard, window], a, b), "{hard:?} {window:?} {a:?} {b:?}");
    let part = area.clip(a, b);
    match part {
        None => assert_eq!(told, LineType::OutsideToOutside, "{hard:?} {window:?} {a:?} {b:?}"),
        Some((start, end)) => {
            assert!(right_end(&area, a, start), "{hard:?} {window:?} {a:?} {b:?}: {start:?}");
            assert!(right_end(&area, b, end), "{hard:?} {window:?} {a:?} {b:?}: {end:?}");
        }
    }
    let shown = part.map(|(start, end)| [[start.x, start.y], [end.x, end.y]]);
    let exact = is_clip(&[numbers(hard), numbers(window)], [[a.x, a.y], [b.x, b.y]], shown);
    assert!(exact, "{hard:?} {window:?} {a:?} {b:?}: {part:?}");
    (told, part)
}

#[test]
fn boxes_and_segments() {
    let mut dice = Dice(0x2545_f491_4f6c_dd1d);
    let mut met = Met::default();
    for round in 0..60_000 {
        let reach = [4, 12, 300, 32_767][round % 4];
        let hard = dice.hard(reach);
        let window = dice.window(&hard, reach);
        let area = hard.meet(&window);
        met.limits(&area);
        for _ in 0..4 {
            let far = if dice.within(0, 3) == 0 { 1_000_000 } else { 2 * reach };
            let (a, mut b) = (dice.point(&area, far), dice.point(&area, far));
            if dice.within(0, 15) == 0 {
                b = a;
            }
            let (told, part) = check(&hard, &window, a, b);
            met.part(told, part);
        }
    }
    println!("{met:?}");
    assert!(met.types[1..].iter().all(|&count| count > 10_000), "{met:?}");
    assert!(met.hidden > 10_000 && met.dots > 10_000, "{met:?}");
    assert!(met.empty > 1_000 && met.line > 1_000 && met.point > 1_000, "{met:?}");
}

/// Every segment of a small sheet, about every box of it.
#[test]
fn all_small_ones() {
    let places = || (-1..=3).flat_map(|x| (-1..=3).map(move |y| Point::new(x, y)));
    let hard = Bounds { left: 0, bottom: 0, right: 2, top: 2 };
    let mut met = Met::default();
    for (one, other) in places().flat_map(|one| places().map(move |other| (one, other))) {
        let window = Bounds::of_corners(one, other);
        met.limits(&hard.meet(&window));
        for (a, b) in places().flat_map(|a| places().map(move |b| (a, b))) {
            let (told, part) = check(&hard, &window, a, b);
            met.part(told, part);
        }
    }
    println!("{met:?}");
    assert_eq!(met.types.iter().sum::<usize>(), 390_625);
}

/// The exact checker's clip tells wrong parts.
#[test]
fn wrong_parts_are_told() {
    let boxes = [[0, 0, 10, 10], [5, -5, 20, 5]];
    let line = [[0, 0], [12, 6]]; // y = x / 2: from (5, 2.5) to (10, 5)
    assert!(is_clip(&boxes, line, Some([[5, 3], [10, 5]])));
    for wrong in [[[5, 2], [10, 5]], [[5, 3], [10, 4]], [[4, 3], [10, 5]], [[10, 5], [5, 3]]] {
        assert!(!is_clip(&boxes, line, Some(wrong)), "{wrong:?}");
    }
    assert!(!is_clip(&boxes, line, None));
    assert!(is_clip(&boxes, [[0, 6], [12, 6]], None));
    assert!(!is_clip(&boxes, [[0, 6], [12, 6]], Some([[5, 5], [10, 5]])));
}
