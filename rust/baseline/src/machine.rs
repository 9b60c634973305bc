//! The machine: settings, position, pen, polygon and the waiting segments.

use crate::geometry::{
    round_div, round_number, Arc, Axis, Bounds, LineType, Point, Scale, Swing, Turn,
};
use crate::number;
use crate::reader::{Event, Op, Reader};
use crate::reply::Reply;
use crate::sines::{cosine, sine};

/// A painted line on the page.
#[derive(Clone, Copy, PartialEq, Eq, Debug, Default)]
#[allow(missing_docs)]
pub struct Stroke {
    pub pen: u8,
    pub x0: i64,
    pub y0: i64,
    pub x1: i64,
    pub y1: i64,
}

/// The answer of [`Machine::draw`].
#[derive(Clone, Copy, PartialEq, Eq, Debug)]
pub enum Drawn {
    /// No segment waits.
    Idle,
    /// A segment was worked off; nothing of it shows.
    Hidden,
    /// A segment was worked off; this is its stroke.
    Stroke(Stroke),
}

/// The answer of [`Machine::look`].
#[derive(Clone, Copy, PartialEq, Eq, Debug)]
pub struct Look {
    /// The location, not turned.
    pub x: i64,
    /// The location, not turned.
    pub y: i64,
    /// The pen number, 0 to 8.
    pub pen: u8,
    /// Whether the pen is down.
    pub down: bool,
    /// The polygon bytes, at most 1024.
    pub bytes: usize,
}

/// The most polygon bytes.
const MOST_BYTES: usize = 1024;
/// The most points: 2 + 113 * 9 is 1019.
const MOST_POINTS: usize = 113;
const POINT_BYTES: usize = 9;
const MARK_BYTES: usize = 2;
const RECTANGLE_BYTES: usize = 49;

/// A position on both axes with its location.
#[derive(Clone, Copy, PartialEq, Eq, Debug)]
struct Position {
    x: Axis,
    y: Axis,
}

impl Position {
    const fn whole(p: Point) -> Self {
        Position { x: Axis::whole(p.x), y: Axis::whole(p.y) }
    }

    #[inline]
    const fn at(&self) -> Point {
        Point::new(self.x.at(), self.y.at())
    }

    #[inline]
    const fn in_range(&self) -> bool {
        self.x.in_range() && self.y.in_range()
    }
}

/// A stored point. Only its location is needed to paint; it is not turned.
#[derive(Clone, Copy, Debug)]
struct Corner {
    at: Point,
    /// The point was reached pen down.
    down: bool,
    /// The point begins a subpolygon.
    begins: bool,
}

#[derive(Clone, Debug)]
struct Polygon {
    corners: [Corner; MOST_POINTS],
    len: usize,
    bytes: usize,
}

impl Polygon {
    const EMPTY: Polygon = Polygon {
        corners: [Corner { at: Point::new(0, 0), down: false, begins: false }; MOST_POINTS],
        len: 0,
        bytes: 0,
    };

    fn clear(&mut self) {
        self.len = 0;
        self.bytes = 0;
    }

    /// Stores a point. The bytes, counted by the caller, leave room for it.
    fn push(&mut self, at: Point, down: bool, begins: bool) {
        self.corners[self.len] = Corner { at, down, begins };
        self.len += 1;
    }

    /// The first index from `from` on whose point has a neighbour before it.
    fn next_edge(&self, from: usize) -> Option<usize> {
        let corners = &self.corners[..self.len];
        (from..self.len).find(|&i| !corners[i].begins)
    }
}

/// Polygon mode: what PM0 saved, and the exact first point of the open subpolygon.
#[derive(Clone, Copy, Debug)]
struct Mode {
    position: Position,
    relative: bool,
    down: bool,
    first: Option<Position>,
}

/// A circle, of which the chords from `next` on wait.
#[derive(Clone, Copy, Debug)]
struct Circle {
    x: Swing,
    y: Swing,
    angle: usize,
    chords: usize,
    next: usize,
    /// The page point where the next chord begins.
    from: Point,
}

/// The segments that wait, all of them from one byte, or the reply: no byte makes both.
#[derive(Clone, Copy, Debug)]
enum Work {
    None,
    /// One move between page points.
    Line(Point, Point),
    /// The polygon's edges, the next one ending at this index.
    Edges(usize),
    Chords(Circle),
    /// The arc's chords from the vertex at these tenths on, which is this page point.
    Arc(usize, Point),
    Reply(Reply),
}

/// The HP-GL machine.
#[derive(Clone, Debug)]
pub struct Machine {
    reader: Reader,
    work: Work,
    position: Position,
    x: Scale,
    y: Scale,
    turn: Turn,
    relative: bool,
    down: bool,
    /// The PU or PD being read changed the pen, and has stored no point yet.
    changed: bool,
    pen: u8,
    /// The limits in force: hard limits and turned window.
    limits: Bounds,
    hard: Bounds,
    /// The window, not turned.
    window: Option<Bounds>,
    p1: Point,
    p2: Point,
    /// The numbers of SC: xmin, xmax, ymin, ymax.
    scaling: Option<[i64; 4]>,
    mode: Option<Mode>,
    polygon: Polygon,
    /// The arc whose chords wait, if those of one do.
    arc: Arc,
    /// The latest refusal since fresh, IN or OE; 0 for none. 20 is no part of it.
    latest: u8,
}

/// Whether a number fits the range of P1, P2 and the hard limits.
const fn is_plotter_unit(v: i64) -> bool {
    -32_768 <= v && v <= 32_767
}

/// A tenth of a degree, in ten-thousandths.
const TENTH: i64 = 1_000;

/// The chord angle of a circle or an arc, in tenths of a degree; 5 degrees if none is given.
fn chord_angle(number: Option<i64>) -> Result<i64, u8> {
    let tenths = number.map_or(50, |number| round_div(number, TENTH));
    if (5..=1_200).contains(&tenths) {
        Ok(tenths)
    } else {
        Err(number::RANGE)
    }
}

impl Machine {
    /// A fresh machine with these hard limits and 0, or one with limits 0, 0, 1, 1 and 10.
    pub fn fresh(left: i64, bottom: i64, right: i64, top: i64) -> (Machine, u8) {
        let good = [left, bottom, right, top].into_iter().all(is_plotter_unit)
            && left < right
            && bottom < top;
        if good {
            (Machine::with_limits(Bounds { left, bottom, right, top }), number::NONE)
        } else {
            let bounds = Bounds { left: 0, bottom: 0, right: 1, top: 1 };
            (Machine::with_limits(bounds), number::LIMITS)
        }
    }

    fn with_limits(hard: Bounds) -> Machine {
        Machine {
            reader: Reader::new(),
            work: Work::None,
            position: Position::whole(Point::new(0, 0)),
            x: Scale::OFF,
            y: Scale::OFF,
            turn: Turn::None,
            relative: false,
            down: false,
            changed: false,
            pen: 0,
            limits: hard,
            hard,
            window: None,
            p1: Point::new(hard.left, hard.bottom),
            p2: Point::new(hard.right, hard.top),
            scaling: None,
            mode: None,
            polygon: Polygon::EMPTY,
            arc: Arc::default(),
            latest: number::NONE,
        }
    }

    /// Whether a segment waits.
    #[inline]
    pub fn waits(&self) -> bool {
        !matches!(self.work, Work::None | Work::Reply(_))
    }

    /// Takes one byte; answers 0 or the number it is refused with.
    #[inline]
    pub fn take(&mut self, byte: u8) -> u8 {
        // The common case first. A segment or reply waits only from a byte that ended a number or
        // an instruction, until it is drawn or fetched, so none waits while a number is open.
        if self.reader.step_digit(byte) {
            return number::NONE;
        }
        if !matches!(self.work, Work::None) {
            return number::WAITS;
        }
        let answer = match self.reader.step(byte) {
            Event::Quiet => return number::NONE,
            Event::Refused(number) => Err(number),
            Event::Pair => self.pair(),
            Event::Name => self.name(),
            Event::Perform => self.perform(),
        };
        match answer {
            Ok(()) => number::NONE,
            Err(number) => {
                self.reader.refuse();
                self.latest = number;
                number
            }
        }
    }

    /// Works off one waiting segment.
    #[inline]
    pub fn draw(&mut self) -> Drawn {
        match self.work {
            Work::None | Work::Reply(_) => Drawn::Idle,
            Work::Line(a, b) => {
                self.work = Work::None;
                self.show(a, b)
            }
            Work::Edges(index) => self.draw_edge(index),
            Work::Chords(circle) => self.draw_chord(circle),
            Work::Arc(tenths, from) => self.draw_arc(tenths, from),
        }
    }

    /// The type of the segment that waits first, if one does; an edge of EP has one too that was
    /// reached pen up and is not painted.
    pub fn line_type(&self) -> Option<LineType> {
        let (from, to) = self.segment()?;
        Some(self.limits.line_type(from, to))
    }

    /// The page points that the segment joins which waits first.
    fn segment(&self) -> Option<(Point, Point)> {
        match self.work {
            Work::None | Work::Reply(_) => None,
            Work::Line(from, to) => Some((from, to)),
            Work::Edges(index) => {
                let page = |index: usize| self.turn.to_page(self.polygon.corners[index].at);
                Some((page(index - 1), page(index)))
            }
            Work::Chords(circle) => Some((circle.from, self.chord_end(&circle))),
            Work::Arc(tenths, from) => {
                Some((from, self.turn.to_page(self.arc.vertex(self.arc.next(tenths)))))
            }
        }
    }

    /// Location, pen and polygon bytes.
    pub fn look(&self) -> Look {
        let Point { x, y } = self.position.at();
        Look { x, y, pen: self.pen, down: self.down, bytes: self.polygon.bytes }
    }

    /// Writes the reply that waits into the buffer, whose rest keeps its content; answers length and
    /// number. The length is 0 if no reply waits, and with 31: for a buffer shorter than the reply,
    /// which then still waits.
    pub fn fetch(&mut self, buffer: &mut [u8]) -> (usize, u8) {
        let Work::Reply(reply) = self.work else { return (0, number::NONE) };
        let text = reply.text();
        let Some(room) = buffer.get_mut(..text.len()) else { return (0, number::SHORT) };
        room.copy_from_slice(text);
        self.work = Work::None;
        (text.len(), number::NONE)
    }

    /// The answer for the line between two page points.
    #[inline]
    fn show(&self, a: Point, b: Point) -> Drawn {
        match self.limits.clip(a, b) {
            None => Drawn::Hidden,
            Some((a, b)) => {
                Drawn::Stroke(Stroke { pen: self.pen, x0: a.x, y0: a.y, x1: b.x, y1: b.y })
            }
        }
    }

    #[inline(never)]
    fn draw_edge(&mut self, index: usize) -> Drawn {
        let (from, to) = (self.polygon.corners[index - 1], self.polygon.corners[index]);
        self.wait_for_edges(index + 1);
        if to.down {
            self.show(self.turn.to_page(from.at), self.turn.to_page(to.at))
        } else {
            Drawn::Hidden
        }
    }

    #[inline(never)]
    fn draw_chord(&mut self, mut circle: Circle) -> Drawn {
        let to = self.chord_end(&circle);
        circle.next += 1;
        let last = circle.next == circle.chords;
        let from = std::mem::replace(&mut circle.from, to);
        self.work = if last { Work::None } else { Work::Chords(circle) };
        self.show(from, to)
    }

    #[inline(never)]
    fn draw_arc(&mut self, tenths: usize, from: Point) -> Drawn {
        let tenths = self.arc.next(tenths);
        let to = self.turn.to_page(self.arc.vertex(tenths));
        self.work = if self.arc.ends_at(tenths) { Work::None } else { Work::Arc(tenths, to) };
        self.show(from, to)
    }

    /// The page point where the next chord ends; the last vertex is the first again.
    fn chord_end(&self, circle: &Circle) -> Point {
        let next = circle.next + 1;
        self.vertex(circle, if next == circle.chords { 0 } else { next * circle.angle })
    }

    /// The page point of a circle at tenths of a degree.
    fn vertex(&self, circle: &Circle, tenths: usize) -> Point {
        self.turn.to_page(Point::new(circle.x.at(cosine(tenths)), circle.y.at(sine(tenths))))
    }

    fn wait_for_edges(&mut self, from: usize) {
        self.work = self.polygon.next_edge(from).map_or(Work::None, Work::Edges);
    }

    /// The second letter of a name.
    #[inline]
    fn name(&mut self) -> Result<(), u8> {
        let op = self.reader.op();
        let asks = matches!(op, Op::Oa | Op::Op | Op::Ow | Op::Oh | Op::Oe);
        if self.mode.is_some() && !(op.is_move() || asks || matches!(op, Op::Pm | Op::In)) {
            return Err(number::UNKNOWN);
        }
        match op {
            Op::Pu | Op::Pd => {
                let down = op == Op::Pd;
                self.changed = self.down != down;
                self.down = down;
            }
            Op::Pa | Op::Pr => {
                self.changed = false;
                self.relative = op == Op::Pr;
            }
            _ => {}
        }
        Ok(())
    }

    /// The second number of a pair.
    #[inline]
    fn pair(&mut self) -> Result<(), u8> {
        let &[x, y, ..] = self.reader.numbers();
        let to = if self.relative { self.relative(x, y) } else { self.absolute(x, y) };
        if !to.in_range() {
            return Err(number::LOCATION);
        }
        if let Some(mode) = &mut self.mode {
            let bytes = if self.changed { POINT_BYTES + MARK_BYTES } else { POINT_BYTES };
            if self.polygon.bytes + bytes > MOST_BYTES {
                return Err(number::POLYGON);
            }
            self.polygon.bytes += bytes;
            self.polygon.push(to.at(), self.down, mode.first.is_none());
            mode.first.get_or_insert(to);
            self.changed = false;
        } else if self.down && self.pen != 0 {
            let from = self.turn.to_page(self.position.at());
            self.work = Work::Line(from, self.turn.to_page(to.at()));
        }
        self.position = to;
        Ok(())
    }

    #[inline]
    fn absolute(&self, x: i64, y: i64) -> Position {
        Position { x: self.x.absolute(x), y: self.y.absolute(y) }
    }

    #[inline]
    fn relative(&self, x: i64, y: i64) -> Position {
        Position { x: self.x.relative(self.position.x, x), y: self.y.relative(self.position.y, y) }
    }

    /// The end of an instruction other than PU, PD, PA and PR.
    #[inline(never)]
    fn perform(&mut self) -> Result<(), u8> {
        let n = *self.reader.numbers();
        let count = self.reader.given().len();
        match self.reader.op() {
            Op::In => self.initialize(),
            Op::Df => {
                self.scaling = None;
                self.window = None;
                self.relative = false;
                self.rebase();
            }
            Op::Ip => self.set_corners(&n[..count])?,
            Op::Sc => {
                if count > 0 && (n[0] == n[1] || n[2] == n[3]) {
                    return Err(number::RANGE);
                }
                self.scaling = (count > 0).then_some(n);
                self.rebase();
            }
            Op::Ro => {
                let turn = match round_number(if count > 0 { n[0] } else { 0 }) {
                    0 => Turn::None,
                    90 => Turn::Quarter,
                    180 => Turn::Half,
                    270 => Turn::ThreeQuarters,
                    _ => return Err(number::RANGE),
                };
                self.set_turn(turn);
            }
            Op::Iw => self.set_window(&n[..count])?,
            Op::Sp => {
                let pen = round_number(if count > 0 { n[0] } else { 0 });
                if !(0..=8).contains(&pen) {
                    return Err(number::RANGE);
                }
                self.pen = pen as u8;
            }
            Op::Pm => {
                let part = round_number(if count > 0 { n[0] } else { 0 });
                match (part, self.mode) {
                    (0, None) => self.begin_polygon(),
                    (1, Some(mode)) => self.end_subpolygon(mode)?,
                    (2, Some(mode)) => self.end_polygon(mode)?,
                    _ => return Err(number::RANGE),
                }
            }
            Op::Ci => self.circle(n[0], if count > 1 { Some(n[1]) } else { None })?,
            Op::Aa => self.arc(self.absolute(n[0], n[1]), n[2], n[3..count].first().copied())?,
            Op::Ar => self.arc(self.relative(n[0], n[1]), n[2], n[3..count].first().copied())?,
            Op::Ep => self.edge_polygon(),
            Op::Ea => self.rectangle(self.absolute(n[0], n[1]))?,
            Op::Er => self.rectangle(self.relative(n[0], n[1]))?,
            Op::Oa | Op::Op | Op::Ow | Op::Oh | Op::Oe => self.reply(),
            Op::Pu | Op::Pd | Op::Pa | Op::Pr => {}
        }
        Ok(())
    }

    /// OA, OP, OW, OH and OE. The window is told as it was given, neither turned nor cut by the hard
    /// limits; these take its place where there is none, turned back to where it would stand.
    fn reply(&mut self) {
        let sides = |b: Bounds| Reply::of(&[b.left, b.bottom, b.right, b.top]);
        let back = |x, y| self.turn.from_page(Point::new(x, y));
        let Bounds { left, bottom, right, top } = self.hard;
        let reply = match self.reader.op() {
            Op::Oa => {
                let Point { x, y } = self.position.at();
                Reply::of(&[x, y, i64::from(self.down)])
            }
            Op::Op => Reply::of(&[self.p1.x, self.p1.y, self.p2.x, self.p2.y]),
            Op::Ow => {
                let hard = Bounds::of_corners(back(left, bottom), back(right, top));
                sides(self.window.unwrap_or(hard))
            }
            Op::Oh => sides(self.hard),
            _ => Reply::of(&[i64::from(std::mem::take(&mut self.latest))]),
        };
        self.work = Work::Reply(reply);
    }

    /// B becomes the location and O 0, and scales and limits follow the settings.
    fn rebase(&mut self) {
        self.position = Position::whole(self.position.at());
        (self.x, self.y) = match self.scaling {
            None => (Scale::OFF, Scale::OFF),
            Some([x_min, x_max, y_min, y_max]) => (
                Scale::new(self.p1.x, self.p2.x, x_min, x_max),
                Scale::new(self.p1.y, self.p2.y, y_min, y_max),
            ),
        };
        self.set_limits();
    }

    fn set_limits(&mut self) {
        self.limits = match &self.window {
            None => self.hard,
            Some(window) => self.hard.meet(&window.turned(self.turn)),
        };
    }

    /// IN.
    fn initialize(&mut self) {
        self.down = false;
        self.relative = false;
        self.p1 = Point::new(self.hard.left, self.hard.bottom);
        self.p2 = Point::new(self.hard.right, self.hard.top);
        self.scaling = None;
        self.window = None;
        self.mode = None;
        self.polygon.clear();
        self.latest = number::NONE;
        self.set_turn(Turn::None);
    }

    /// Sets the turn; the page point stays.
    fn set_turn(&mut self, turn: Turn) {
        let page = self.turn.to_page(self.position.at());
        self.turn = turn;
        self.position = Position::whole(turn.from_page(page));
        self.rebase();
    }

    /// IP.
    fn set_corners(&mut self, numbers: &[i64]) -> Result<(), u8> {
        let (p1, p2) = match *numbers {
            [x1, y1, x2, y2] => (
                Point::new(round_number(x1), round_number(y1)),
                Point::new(round_number(x2), round_number(y2)),
            ),
            [x, y] => {
                let p1 = Point::new(round_number(x), round_number(y));
                let (dx, dy) = (self.p2.x - self.p1.x, self.p2.y - self.p1.y);
                (p1, Point::new(p1.x + dx, p1.y + dy))
            }
            _ => (
                Point::new(self.hard.left, self.hard.bottom),
                Point::new(self.hard.right, self.hard.top),
            ),
        };
        let good = [p1.x, p1.y, p2.x, p2.y].into_iter().all(is_plotter_unit)
            && p1.x != p2.x
            && p1.y != p2.y;
        if !good {
            return Err(number::RANGE);
        }
        self.p1 = p1;
        self.p2 = p2;
        self.rebase();
        Ok(())
    }

    /// IW.
    fn set_window(&mut self, numbers: &[i64]) -> Result<(), u8> {
        self.window = match *numbers {
            [x1, y1, x2, y2] => {
                let (a, b) = (self.absolute(x1, y1), self.absolute(x2, y2));
                if !(a.in_range() && b.in_range()) {
                    return Err(number::RANGE);
                }
                Some(Bounds::of_corners(a.at(), b.at()))
            }
            _ => None,
        };
        self.set_limits();
        Ok(())
    }

    /// PM0.
    fn begin_polygon(&mut self) {
        self.polygon.clear();
        self.polygon.push(self.position.at(), self.down, true);
        self.polygon.bytes = MARK_BYTES + POINT_BYTES;
        self.mode = Some(Mode {
            position: self.position,
            relative: self.relative,
            down: self.down,
            first: Some(self.position),
        });
    }

    /// Closes the open subpolygon for `extra` bytes and those of the added point, if any.
    fn close_subpolygon(&mut self, mode: &Mode, extra: usize) -> Result<(), u8> {
        let missing =
            mode.first.filter(|first| self.polygon.corners[self.polygon.len - 1].at != first.at());
        let bytes = extra + if missing.is_some() { POINT_BYTES } else { 0 };
        if self.polygon.bytes + bytes > MOST_BYTES {
            return Err(number::POLYGON);
        }
        self.polygon.bytes += bytes;
        if let Some(first) = missing {
            self.polygon.push(first.at(), self.down, false);
            self.position = first;
        }
        Ok(())
    }

    /// PM1.
    fn end_subpolygon(&mut self, mode: Mode) -> Result<(), u8> {
        self.close_subpolygon(&mode, MARK_BYTES)?;
        self.down = false;
        self.mode = Some(Mode { first: None, ..mode });
        Ok(())
    }

    /// PM2. It ends the mode also where the polygon stays open.
    fn end_polygon(&mut self, mode: Mode) -> Result<(), u8> {
        let closed = self.close_subpolygon(&mode, 0);
        self.position = mode.position;
        self.relative = mode.relative;
        self.down = mode.down;
        self.mode = None;
        closed
    }

    /// EP.
    fn edge_polygon(&mut self) {
        if self.pen != 0 {
            self.wait_for_edges(0);
        }
    }

    /// EA and ER.
    fn rectangle(&mut self, corner: Position) -> Result<(), u8> {
        if !corner.in_range() {
            return Err(number::LOCATION);
        }
        let (a, c) = (self.position.at(), corner.at());
        self.polygon.clear();
        self.polygon.push(a, true, true);
        self.polygon.push(Point::new(c.x, a.y), true, false);
        self.polygon.push(c, true, false);
        self.polygon.push(Point::new(a.x, c.y), true, false);
        self.polygon.push(a, true, false);
        self.polygon.bytes = RECTANGLE_BYTES;
        self.edge_polygon();
        Ok(())
    }

    /// CI.
    fn circle(&mut self, radius: i64, angle: Option<i64>) -> Result<(), u8> {
        let tenths = chord_angle(angle)?;
        if !(self.relative(radius, radius).in_range() && self.relative(-radius, -radius).in_range())
        {
            return Err(number::LOCATION);
        }
        if self.pen == 0 {
            return Ok(());
        }
        let angle = tenths as usize;
        let mut circle = Circle {
            x: Swing::new(&self.x, self.position.x, radius),
            y: Swing::new(&self.y, self.position.y, radius),
            angle,
            chords: 3_600usize.div_ceil(angle),
            next: 0,
            from: Point::default(),
        };
        circle.from = self.vertex(&circle, 0);
        self.work = Work::Chords(circle);
        Ok(())
    }

    /// AA and AR. The centre itself may be out of range; the vertices are judged, also where
    /// nothing is painted, before anything changes.
    fn arc(&mut self, centre: Position, sweep: i64, angle: Option<i64>) -> Result<(), u8> {
        let sweep = round_div(sweep, TENTH);
        if sweep == 0 || sweep.abs() > 3_600 {
            return Err(number::RANGE);
        }
        let angle = chord_angle(angle)?;
        let way = Point::new(
            self.x.way(centre.x, self.position.x),
            self.y.way(centre.y, self.position.y),
        );
        if way.x.abs() > Arc::MOST_WAY || way.y.abs() > Arc::MOST_WAY {
            return Err(number::RANGE);
        }
        let arc = Arc::new([&self.x, &self.y], [centre.x, centre.y], way, sweep, angle);
        if !arc.in_range() {
            return Err(number::LOCATION);
        }
        if self.down && self.pen != 0 {
            let from = self.turn.to_page(self.position.at());
            self.work = Work::Arc(0, from);
            self.arc = arc;
        }
        self.position = Position::whole(arc.end());
        Ok(())
    }
}
