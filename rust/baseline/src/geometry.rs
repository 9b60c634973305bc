//! Rounding, scaling, the turns and the clip, all in whole numbers.
//!
//! Magnitudes: locations are within ±1,000,000, the products of the clip below 1e13, an
//! offset times its span below 1.4e15. All of it fits i64 with room to spare.

use crate::sines::{cosine, sine};

/// A whole point, on the page or in unturned plotter units.
#[derive(Clone, Copy, PartialEq, Eq, Debug, Default)]
pub struct Point {
    /// To the right.
    pub x: i64,
    /// Upward.
    pub y: i64,
}

impl Point {
    /// A point from its coordinates.
    #[inline]
    pub const fn new(x: i64, y: i64) -> Self {
        Point { x, y }
    }

    /// Whether it may be a location.
    #[inline]
    pub const fn in_range(&self) -> bool {
        -REACH <= self.x && self.x <= REACH && -REACH <= self.y && self.y <= REACH
    }
}

/// Locations are within plus and minus this.
pub const REACH: i64 = 1_000_000;

/// `n / d` to the nearest whole for `d` above 0; a half goes to the larger number.
#[inline]
pub const fn round_div(n: i64, d: i64) -> i64 {
    (2 * n + d).div_euclid(2 * d)
}

/// A number in ten-thousandths, rounded to a whole.
#[inline]
pub const fn round_number(n: i64) -> i64 {
    round_div(n, 10_000)
}

/// How numbers become positions on one axis: `origin + (number - min) * span / width`.
#[derive(Clone, Copy, PartialEq, Eq, Debug)]
pub struct Scale {
    origin: i64,
    min: i64,
    /// D with the sign of W.
    span: i64,
    /// The size of W.
    width: i64,
}

impl Scale {
    /// Scaling off.
    pub const OFF: Scale = Scale { origin: 0, min: 0, span: 1, width: 10_000 };

    /// Scaling on: P1 to P2 is min to max. Min and max differ.
    pub const fn new(p1: i64, p2: i64, min: i64, max: i64) -> Self {
        let sign = if max < min { -1 } else { 1 };
        Scale { origin: p1, min, span: (p2 - p1) * sign, width: (max - min) * sign }
    }

    /// `offset * D / W`, rounded.
    #[inline]
    fn rounded(&self, offset: i64) -> i64 {
        if self.width == 10_000 {
            // A constant divisor, which is the common case, costs no division.
            return round_div(offset * self.span, 10_000);
        }
        round_div(offset * self.span, self.width)
    }

    /// The position with this base and offset.
    #[inline]
    pub fn axis(&self, base: i64, offset: i64) -> Axis {
        Axis { base, offset, at: base + self.rounded(offset) }
    }

    /// The position of a number in absolute sense.
    #[inline]
    pub fn absolute(&self, number: i64) -> Axis {
        self.axis(self.origin, number - self.min)
    }

    /// The position moved by a number.
    #[inline]
    pub fn relative(&self, from: Axis, number: i64) -> Axis {
        self.axis(from.base, from.offset + number)
    }

    /// The way between two exact positions in ten-thousandths of current units, rounded. The
    /// bases differ in plotter units, of which each is `width / span` ten-thousandths.
    pub fn way(&self, from: Axis, to: Axis) -> i64 {
        let apart = (to.base - from.base) * self.width * self.span.signum();
        round_div(apart, self.span.abs()) + to.offset - from.offset
    }
}

/// A position on one axis: base, offset in ten-thousandths, and the location they give.
#[derive(Clone, Copy, PartialEq, Eq, Debug)]
pub struct Axis {
    base: i64,
    offset: i64,
    at: i64,
}

impl Axis {
    /// A whole position.
    #[inline]
    pub const fn whole(at: i64) -> Self {
        Axis { base: at, offset: 0, at }
    }

    /// The location.
    #[inline]
    pub const fn at(&self) -> i64 {
        self.at
    }

    /// Whether the location is in range.
    #[inline]
    pub const fn in_range(&self) -> bool {
        -REACH <= self.at && self.at <= REACH
    }
}

/// One axis of a circle or an arc, ready to give the locations of its vertices.
///
/// The position of a vertex is `base + (offset + radius * c / 100000) * span / width`. With
/// `offset * span = q * width + m` it is `base + q` plus a fraction whose numerator,
/// `m * 100000 + radius * span * c`, stays below 2.2e18 for a circle. An arc has the radius 1
/// and as `c` a way turned, at most 32768 units by sine and cosine each, which add up to less
/// than 141,500: below 3.1e18, and rounding doubles it. No need of more than i64.
#[derive(Clone, Copy, PartialEq, Eq, Debug, Default)]
pub struct Swing {
    whole: i64,
    rest: i64,
    reach: i64,
    divisor: i64,
}

impl Swing {
    /// The swing of this radius around a position.
    pub fn new(scale: &Scale, centre: Axis, radius: i64) -> Self {
        let product = centre.offset * scale.span;
        Swing {
            whole: centre.base + product.div_euclid(scale.width),
            rest: product.rem_euclid(scale.width) * 100_000,
            reach: radius * scale.span,
            divisor: scale.width * 100_000,
        }
    }

    /// The location at a sine or cosine, scaled by 100,000.
    #[inline]
    pub fn at(&self, c: i64) -> i64 {
        self.whole + round_div(self.rest + self.reach * c, self.divisor)
    }
}

/// An arc around a centre: the way to its start, turned.
#[derive(Clone, Copy, PartialEq, Eq, Debug, Default)]
pub struct Arc {
    x: Swing,
    y: Swing,
    /// The way from the centre to the start, in ten-thousandths of current units.
    way: Point,
    /// Positive is from x towards y.
    positive: bool,
    /// The size of the swept angle, in tenths of a degree.
    sweep: usize,
    /// The chord angle, likewise.
    angle: usize,
}

impl Arc {
    /// The most ten-thousandths of a way on an axis.
    pub const MOST_WAY: i64 = 327_680_000;

    /// The arc around this centre; the swept angle, not 0, and the chord angle are in tenths.
    pub fn new(scales: [&Scale; 2], centre: [Axis; 2], way: Point, sweep: i64, angle: i64) -> Self {
        Arc {
            x: Swing::new(scales[0], centre[0], 1),
            y: Swing::new(scales[1], centre[1], 1),
            way,
            positive: sweep > 0,
            sweep: sweep.unsigned_abs() as usize,
            angle: angle as usize,
        }
    }

    /// The tenths of the vertex after the one at `tenths`: a chord angle on, at the last the
    /// swept angle itself.
    #[inline]
    pub fn next(&self, tenths: usize) -> usize {
        (tenths + self.angle).min(self.sweep)
    }

    /// Whether the vertex at `tenths` is the last.
    #[inline]
    pub fn ends_at(&self, tenths: usize) -> bool {
        tenths == self.sweep
    }

    /// The location of the vertex at tenths of a degree.
    #[inline]
    pub fn vertex(&self, tenths: usize) -> Point {
        let (c, s) = (cosine(tenths), sine(tenths));
        let s = if self.positive { s } else { -s };
        let Point { x, y } = self.way;
        Point::new(self.x.at(x * c - y * s), self.y.at(x * s + y * c))
    }

    /// The location of the last vertex.
    pub fn end(&self) -> Point {
        self.vertex(self.sweep)
    }

    /// Whether every vertex after the start is in range. No turn leads farther than the ways of
    /// both axes together, so vertices are looked at only where that is out of range.
    pub fn in_range(&self) -> bool {
        let most = (self.way.x.abs() + self.way.y.abs()) * 100_000;
        let square = [-most, most].map(|far| Point::new(self.x.at(far), self.y.at(far)));
        square.iter().all(Point::in_range) || self.vertices_in_range()
    }

    fn vertices_in_range(&self) -> bool {
        let whole = (self.angle..self.sweep).step_by(self.angle);
        whole.chain([self.sweep]).all(|tenths| self.vertex(tenths).in_range())
    }
}

/// The turn in force.
#[derive(Clone, Copy, PartialEq, Eq, Debug)]
pub enum Turn {
    /// RO 0.
    None,
    /// RO 90.
    Quarter,
    /// RO 180.
    Half,
    /// RO 270.
    ThreeQuarters,
}

impl Turn {
    /// The two by two table: rows give page x and page y.
    pub const fn table(self) -> [[i64; 2]; 2] {
        match self {
            Turn::None => [[1, 0], [0, 1]],
            Turn::Quarter => [[0, -1], [1, 0]],
            Turn::Half => [[-1, 0], [0, -1]],
            Turn::ThreeQuarters => [[0, 1], [-1, 0]],
        }
    }

    /// A point, turned to the page.
    #[inline]
    pub const fn to_page(self, p: Point) -> Point {
        let t = self.table();
        Point::new(t[0][0] * p.x + t[0][1] * p.y, t[1][0] * p.x + t[1][1] * p.y)
    }

    /// A page point, turned back; the inverse table is the transposed one.
    #[inline]
    pub const fn from_page(self, p: Point) -> Point {
        let t = self.table();
        Point::new(t[0][0] * p.x + t[1][0] * p.y, t[0][1] * p.x + t[1][1] * p.y)
    }
}

/// A box with its edges. An intersection may be empty: a low edge above a high one.
#[derive(Clone, Copy, PartialEq, Eq, Debug)]
#[allow(missing_docs)]
pub struct Bounds {
    pub left: i64,
    pub bottom: i64,
    pub right: i64,
    pub top: i64,
}

impl Bounds {
    /// The box with these opposite corners.
    pub fn of_corners(a: Point, b: Point) -> Self {
        Bounds { left: a.x.min(b.x), bottom: a.y.min(b.y), right: a.x.max(b.x), top: a.y.max(b.y) }
    }

    /// The box turned to the page, its corners put in order again.
    pub fn turned(&self, turn: Turn) -> Self {
        Bounds::of_corners(
            turn.to_page(Point::new(self.left, self.bottom)),
            turn.to_page(Point::new(self.right, self.top)),
        )
    }

    /// What both boxes hold.
    pub fn meet(&self, other: &Bounds) -> Self {
        Bounds {
            left: self.left.max(other.left),
            bottom: self.bottom.max(other.bottom),
            right: self.right.min(other.right),
            top: self.top.min(other.top),
        }
    }

    /// Whether the point is inside, edges included.
    #[inline]
    pub const fn holds(&self, p: Point) -> bool {
        self.left <= p.x && p.x <= self.right && self.bottom <= p.y && p.y <= self.top
    }

    /// The type of the segment from `a` to `b`, the page points of its locations, where this box is
    /// the limits in force. An empty box holds no point, so there every segment is of the fourth.
    pub const fn line_type(&self, a: Point, b: Point) -> LineType {
        match (self.holds(a), self.holds(b)) {
            (true, true) => LineType::InsideToInside,
            (true, false) => LineType::InsideToOutside,
            (false, true) => LineType::OutsideToInside,
            (false, false) => LineType::OutsideToOutside,
        }
    }

    /// The part of the line from `a` to `b` inside the box, its exact ends rounded.
    #[inline]
    pub fn clip(&self, a: Point, b: Point) -> Option<(Point, Point)> {
        if self.holds(a) && self.holds(b) {
            Some((a, b))
        } else {
            self.clip_across(a, b)
        }
    }

    /// The clip where an end is outside: a cut at each end, of which the part between is left.
    #[inline(never)]
    fn clip_across(&self, a: Point, b: Point) -> Option<(Point, Point)> {
        let beyond = a.x.max(b.x) < self.left
            || a.x.min(b.x) > self.right
            || a.y.max(b.y) < self.bottom
            || a.y.min(b.y) > self.top;
        if beyond || self.left > self.right || self.bottom > self.top {
            return None;
        }
        let (start, end) = (self.cut(a, b), self.cut(b, a));
        if start.over * end.under + end.over * start.under > start.under * end.under {
            return None;
        }
        Some((start.point(a, b), end.point(b, a)))
    }

    /// The cut at `p` of the line to `q`. The two are not beyond the same edge, so the line
    /// moves on every axis where `p` is outside.
    fn cut(&self, p: Point, q: Point) -> Cut {
        let edge = Point::new(p.x.clamp(self.left, self.right), p.y.clamp(self.bottom, self.top));
        let (over_x, over_y) = ((edge.x - p.x).abs(), (edge.y - p.y).abs());
        let (under_x, under_y) = ((q.x - p.x).abs(), (q.y - p.y).abs());
        if over_x == 0 && over_y == 0 {
            Cut { over: 0, under: 1, axis: Cutting::Nothing }
        } else if over_y == 0 || (over_x != 0 && over_x * under_y >= over_y * under_x) {
            Cut { over: over_x, under: under_x, axis: Cutting::AtX(edge.x) }
        } else {
            Cut { over: over_y, under: under_y, axis: Cutting::AtY(edge.y) }
        }
    }
}

/// The manual's four types of line segments, from the last point to the new point (chapter 10,
/// "Windowing"): each end is told before it is clipped, and an edge is inside. A type has the manual's
/// number.
#[derive(Clone, Copy, PartialEq, Eq, Debug)]
#[allow(missing_docs)]
pub enum LineType {
    InsideToInside = 1,
    InsideToOutside = 2,
    OutsideToInside = 3,
    OutsideToOutside = 4,
}

/// The edge that cuts.
#[derive(Clone, Copy)]
enum Cutting {
    Nothing,
    AtX(i64),
    AtY(i64),
}

/// What is cut off from an end of a line: the part `over / under` of it.
#[derive(Clone, Copy)]
struct Cut {
    over: i64,
    under: i64,
    axis: Cutting,
}

impl Cut {
    /// The exact point of the cut, rounded: on an edge, one coordinate is whole.
    fn point(&self, p: Point, q: Point) -> Point {
        let along = |from: i64, to: i64| from + round_div((to - from) * self.over, self.under);
        match self.axis {
            Cutting::Nothing => p,
            Cutting::AtX(x) => Point::new(x, along(p.y, q.y)),
            Cutting::AtY(y) => Point::new(along(p.x, q.x), y),
        }
    }
}
