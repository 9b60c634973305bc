//! Writes copies of the baseline, each with one fault: in its arcs for `src/arcs.rs`, in the rounding of
//! numbers for `src/decimals.rs`, in its turns for `src/turns.rs`, in what becomes of a segment by its
//! type for `src/line_types.rs`, in its replies for `src/replies.rs`, in its texts of strokes for
//! `src/redraw.rs`.

use std::path::Path;
use std::{env, fs};

/// The parts of the baseline that its machine is made of.
const PARTS: [&str; 5] = ["geometry", "reader", "reply", "machine", "feed"];

/// What writes strokes as text, by itself.
const WRITER: [&str; 1] = ["write"];

/// A fault: its name, the part, what is there once, and what it becomes.
type Fault = (&'static str, &'static str, &'static str, &'static str);

const ARCS: [Fault; 13] = [
    (
        "centre_for_start",
        "machine",
        "self.turn.to_page(self.position.at());\n            self.work = Work::Arc",
        "self.turn.to_page(centre.at());\n            self.work = Work::Arc",
    ),
    (
        "whole_last_chord",
        "geometry",
        "sweep: sweep.unsigned_abs() as usize,",
        "sweep: (sweep.unsigned_abs() as usize).next_multiple_of(angle as usize),",
    ),
    ("sign_lost", "geometry", "positive: sweep > 0,", "positive: true,"),
    ("left_at_start", "machine", "self.position = Position::whole(arc.end());", ""),
    (
        "way_from_location",
        "machine",
        "self.x.way(centre.x, self.position.x),",
        "self.x.way(centre.x, Axis::whole(self.position.at().x)),",
    ),
    (
        "half_to_the_smaller",
        "geometry",
        "round_div(apart, self.span.abs())",
        "-round_div(-apart, self.span.abs())",
    ),
    (
        "way_below_the_most",
        "machine",
        "way.y.abs() > Arc::MOST_WAY",
        "way.y.abs() >= Arc::MOST_WAY",
    ),
    ("whole_turn_refused", "machine", "sweep.abs() > 3_600", "sweep.abs() >= 3_600"),
    (
        "sweep_to_the_smaller",
        "machine",
        "let sweep = round_div(sweep, TENTH);",
        "let sweep = -round_div(-sweep, TENTH);",
    ),
    (
        "centre_judged",
        "machine",
        "if !arc.in_range() {",
        "if !arc.in_range() || !centre.in_range() {",
    ),
    (
        "drawn_pen_up",
        "machine",
        "if self.down && self.pen != 0 {\n            let from = self.turn.to_page(self.position.at());\n            self.work = Work::Arc",
        "if self.pen != 0 {\n            let from = self.turn.to_page(self.position.at());\n            self.work = Work::Arc",
    ),
    (
        "known_in_polygons",
        "machine",
        "matches!(op, Op::Pm | Op::In)",
        "matches!(op, Op::Pm | Op::In | Op::Aa | Op::Ar)",
    ),
    ("last_not_judged", "geometry", "whole.chain([self.sweep]).all(", "whole.chain([]).all("),
];

/// Where a decimal after the fifth is read.
const LATER: &str = "self.beyond |= digit != 0;";
/// Where a number is rounded, and where its range is judged.
const ROUNDED: &str = "(self.signed(size) + 50).div_euclid(100)";
const JUDGED: &str = "(LEAST..=MOST).contains(&value)";

const DECIMALS: [Fault; 12] = [
    ("dropped", "reader", ROUNDED, "self.signed(size / 100)"),
    ("half_away_from_zero", "reader", ROUNDED, "self.signed((size + 50) / 100)"),
    ("half_towards_zero", "reader", ROUNDED, "self.signed((size + 49) / 100)"),
    ("half_to_the_smaller", "reader", ROUNDED, "(self.signed(size) + 49).div_euclid(100)"),
    (
        "half_to_even",
        "reader",
        ROUNDED,
        "(self.signed(size) + 49 + self.signed(size).div_euclid(100).rem_euclid(2)).div_euclid(100)",
    ),
    ("size_rounded_up", "reader", ROUNDED, "self.signed((size + 99) / 100)"),
    ("fifth_alone", "reader", LATER, "self.beyond = false;"),
    ("later_zero_makes_a_half", "reader", LATER, "self.beyond = digit != 0;"),
    (
        "tail_begun_anew",
        "reader",
        LATER,
        "self.decimals += digit - self.decimals % 10;",
    ),
    (
        "tail_of_the_number_before",
        "reader",
        "self.decimals = 0;\n        self.beyond = false;",
        "self.decimals = 0;",
    ),
    (
        "range_of_the_kept_digits",
        "reader",
        JUDGED,
        "(LEAST..=MOST).contains(&if self.places < 5 { value } else { self.signed(\
         i64::from(self.whole) * 10_000 + i64::from(self.decimals / 10)) })",
    ),
    (
        "range_of_the_exact",
        "reader",
        JUDGED,
        "(LEAST..=MOST).contains(&value) && !(value == LEAST && self.places == 5 \
         && (self.decimals > 0 || self.beyond) && self.whole == 32_768)",
    ),
];

/// Where a move is queued, and the same with its end turned first and then rounded: where a coordinate
/// changes its sign, a half goes to what was the smaller number.
const QUEUED: &str = "self.work = Work::Line(from, self.turn.to_page(to.at()));";
const TURNED_FIRST: &str = "\
    let (at, [first, second]) = (to.at(), self.turn.table());
    let x = self.x.relative(Axis::whole(-at.x), -self.x.way(Axis::whole(at.x), to.x)).at();
    let y = self.y.relative(Axis::whole(-at.y), -self.y.way(Axis::whole(at.y), to.y)).at();
    let page = |[a, b]: [i64; 2]| {
        (if a < 0 { x } else { a * at.x }) + (if b < 0 { y } else { b * at.y })
    };
    self.work = Work::Line(from, Point::new(page(first), page(second)));";

/// Where the page point is kept.
const KEPT: &str = "Position::whole(turn.from_page(page))";

const TURNS: [Fault; 17] = [
    ("half_for_three_quarters", "machine", "270 => Turn::ThreeQuarters,", "270 => Turn::Half,"),
    ("three_quarters_for_half", "machine", "180 => Turn::Half,", "180 => Turn::ThreeQuarters,"),
    (
        "window_left_at_half",
        "machine",
        "self.hard.meet(&window.turned(self.turn))",
        "self.hard.meet(&if self.turn == Turn::Half { *window } else { window.turned(self.turn) })",
    ),
    (
        "window_not_put_in_order",
        "geometry",
        "Bounds::of_corners(
            turn.to_page(Point::new(self.left, self.bottom)),
            turn.to_page(Point::new(self.right, self.top)),
        )",
        "{
            let a = turn.to_page(Point::new(self.left, self.bottom));
            let b = turn.to_page(Point::new(self.right, self.top));
            Bounds { left: a.x, bottom: a.y, right: b.x, top: b.y }
        }",
    ),
    ("hard_limits_turned", "machine", "None => self.hard,", "None => self.hard.turned(self.turn),"),
    ("page_point_moved", "machine", KEPT, "Position::whole(self.position.at())"),
    ("not_turned_back", "machine", KEPT, "Position::whole(turn.to_page(page))"),
    (
        "whole_turn_accepted",
        "machine",
        "0 => Turn::None,\n                    90",
        "0 | 360 => Turn::None,\n                    90",
    ),
    ("minus_90_accepted", "machine", "270 => Turn::Three", "270 | -90 => Turn::Three"),
    (
        "value_not_rounded",
        "machine",
        "let turn = match round_number(if count > 0 { n[0] } else { 0 }) {",
        "let turn = match (if count > 0 { n[0] } else { 0 }).div_euclid(10_000) {",
    ),
    ("half_of_x_alone", "geometry", "[[-1, 0], [0, -1]]", "[[-1, 0], [0, 1]]"),
    ("half_of_y_alone", "geometry", "[[-1, 0], [0, -1]]", "[[1, 0], [0, -1]]"),
    ("three_quarters_mirrored_in_y", "geometry", "[[0, 1], [-1, 0]]", "[[0, 1], [1, 0]]"),
    ("three_quarters_mirrored_in_x", "geometry", "[[0, 1], [-1, 0]]", "[[0, -1], [-1, 0]]"),
    ("turned_before_rounding", "machine", QUEUED, TURNED_FIRST),
    (
        "edges_not_turned",
        "machine",
        "self.show(self.turn.to_page(from.at), self.turn.to_page(to.at))",
        "self.show(from.at, to.at)",
    ),
    (
        "ended_by_df",
        "machine",
        "self.relative = false;\n                self.rebase();",
        "self.relative = false;\n                self.set_turn(Turn::None);",
    ),
];

/// Where both ends are looked at, where one or both are cut off, where the part is told, and where
/// a segment is clipped.
const BOTH: &str = "if self.holds(a) && self.holds(b) {\n            Some((a, b))";
const ACROSS: &str = "            self.clip_across(a, b)\n";
const PART: &str = "Some((start.point(a, b), end.point(b, a)))";
const SHOWN: &str = "match self.limits.clip(a, b) {";

const LINE_TYPES: [Fault; 11] = [
    (
        // Types 2 and 3 exchanged: what leaves is painted as what enters, and the other way.
        "leaving_as_entering",
        "geometry",
        ACROSS,
        "if self.holds(a) || self.holds(b) { self.clip_across(b, a) } else { self.clip_across(a, b) }\n",
    ),
    (
        // The same, each end treated as the other's type has it: the outer one is kept.
        "wrong_end_kept",
        "geometry",
        ACROSS,
        "if self.holds(a) || self.holds(b) { Some((a, b)) } else { self.clip_across(a, b) }\n",
    ),
    ("edge_outside", "geometry", "a.x.min(b.x) > self.right", "a.x.min(b.x) >= self.right"),
    (
        "dot_on_an_edge_hidden",
        "geometry",
        BOTH,
        "if a == b && a.y == self.top {\n            None\n        } \
         else if self.holds(a) && self.holds(b) {\n            Some((a, b))",
    ),
    (
        "end_from_the_rounded_start",
        "geometry",
        PART,
        "{ let from = start.point(a, b); Some((from, self.cut(b, from).point(b, from))) }",
    ),
    (
        "start_from_the_rounded_end",
        "geometry",
        PART,
        "{ let to = end.point(b, a); Some((self.cut(a, to).point(a, to), to)) }",
    ),
    (
        "type_by_the_window_alone",
        "machine",
        SHOWN,
        "match if self.window.is_some_and(|window| { let window = window.turned(self.turn); \
         window.holds(a) && window.holds(b) }) { Some((a, b)) } else { self.limits.clip(a, b) } {",
    ),
    (
        "type_by_the_hard_limits_alone",
        "machine",
        SHOWN,
        "match if self.hard.holds(a) && self.hard.holds(b) { Some((a, b)) } \
         else { self.limits.clip(a, b) } {",
    ),
    (
        "hidden_with_one_end_inside",
        "geometry",
        ACROSS,
        "self.clip_across(a, b).filter(|part| part.0 != part.1 || !(self.holds(a) || self.holds(b)))\n",
    ),
    (
        "pen_up_edge_inside_painted",
        "machine",
        "if to.down {",
        "if to.down || self.limits.holds(self.turn.to_page(from.at)) \
         && self.limits.holds(self.turn.to_page(to.at)) {",
    ),
    (
        "window_not_turned",
        "machine",
        "self.hard.meet(&window.turned(self.turn))",
        "self.hard.meet(window)",
    ),
];

/// Where a fetch writes, where OA and OW tell, and where a reply is closed and a number written.
const WRITTEN: &str = "room.copy_from_slice(text);\n        self.work = Work::None;";
const PLACE: &str = "let Point { x, y } = self.position.at();\n                Reply::of(";
const WINDOW: &str = "sides(self.window.unwrap_or(hard))";
const SIGN: &str = "if value < 0 {";

const REPLIES: [Fault; 25] = [
    ("made_at_its_name", "machine", "            _ => {}\n        }\n        Ok(())\n    }\n\n    /// The second", "            _ if asks => self.reply(),\n            _ => {}\n        }\n        Ok(())\n    }\n\n    /// The second"),
    (
        "cleared_by_a_fetch",
        "machine",
        WRITTEN,
        "room.copy_from_slice(text);\n        self.work = Work::None;\n        self.latest = 0;",
    ),
    ("oe_keeps_what_it_tells", "machine", "std::mem::take(&mut self.latest)", "self.latest"),
    ("kept_by_in", "machine", "self.latest = number::NONE;", ""),
    (
        "cleared_by_df",
        "machine",
        "self.relative = false;\n                self.rebase();",
        "self.relative = false;\n                self.latest = 0;\n                self.rebase();",
    ),
    (
        "busy_remembered",
        "machine",
        "return number::WAITS;",
        "self.latest = number::WAITS;\n            return number::WAITS;",
    ),
    (
        "first_refusal_kept",
        "machine",
        "self.latest = number;",
        "if self.latest == 0 { self.latest = number; }",
    ),
    (
        "taken_while_a_reply_waits",
        "machine",
        "if !matches!(self.work, Work::None) {",
        "if self.waits() {",
    ),
    (
        "byte_counted_at_20",
        "feed",
        "fed.taken += usize::from(refused != number::WAITS);",
        "fed.taken += 1;",
    ),
    (
        "short_buffer_written",
        "machine",
        "let Some(room)",
        "if let Some(part) = text.get(..buffer.len()) { buffer.copy_from_slice(part); }\n        let Some(room)",
    ),
    (
        "dropped_at_31",
        "machine",
        "else { return (0, number::SHORT) };",
        "else { self.work = Work::None; return (0, number::SHORT) };",
    ),
    (
        "fitting_buffer_refused",
        "machine",
        "let Some(room) = buffer.get_mut(..text.len()) else",
        "let Some((room, true)) = buffer.split_at_mut_checked(text.len()).map(|(a, b)| (a, !b.is_empty())) else",
    ),
    (
        "byte_past_the_reply",
        "machine",
        WRITTEN,
        "room.copy_from_slice(text);\n        if let Some(past) = buffer.get_mut(text.len()) { *past = 0; }\n        self.work = Work::None;",
    ),
    ("dropped_by_a_draw", "machine", "            Work::None | Work::Reply(_) => Drawn::Idle,", "            Work::None | Work::Reply(_) => { self.work = Work::None; Drawn::Idle }"),
    (
        "oa_in_page_units",
        "machine",
        PLACE,
        "let Point { x, y } = self.turn.to_page(self.position.at());\n                Reply::of(",
    ),
    ("oa_without_the_pen", "machine", "Reply::of(&[x, y, i64::from(self.down)])", "Reply::of(&[x, y, 0])"),
    (
        "corners_in_order",
        "machine",
        "Reply::of(&[self.p1.x, self.p1.y, self.p2.x, self.p2.y])",
        "sides(Bounds::of_corners(self.p1, self.p2))",
    ),
    ("hard_limits_for_a_window", "machine", WINDOW, "sides(hard)"),
    (
        "window_cut_by_the_limits",
        "machine",
        WINDOW,
        "sides(self.window.map_or(hard, |window| window.meet(&hard)))",
    ),
    (
        "window_turned",
        "machine",
        WINDOW,
        "sides(self.window.map_or(hard, |window| window.turned(self.turn)))",
    ),
    (
        "turned_the_wrong_way",
        "machine",
        "self.turn.from_page(Point::new(x, y))",
        "self.turn.to_page(Point::new(x, y))",
    ),
    (
        "unknown_in_polygons",
        "machine",
        "!(op.is_move() || asks ||",
        "!(op.is_move() || asks && op != Op::Oh ||",
    ),
    ("number_allowed", "reader", "line(b\"OE\", Op::Oe, 0, 0, 1)", "line(b\"OE\", Op::Oe, 0, 1, 1)"),
    ("plus_sign", "reply", SIGN, "if value > 0 { self.push(b'+'); }\n        if value < 0 {"),
    ("minus_zero", "reply", SIGN, "if value <= 0 {"),
];

/// What judges a list, and what makes up the text of a stroke.
const JUDGED_FIRST: &str = "if !strokes.iter().all(is_allowed) {";
const ROOM: &str = "let Some(room) = out.get_mut(..length) else { return (0, number::OUTPUT) };";
const DONE: &str = "(length, number::NONE)";
const PENS: &str = "(1..=8).contains(pen)";
const ENDS: &str = "i16::try_from(end).is_ok()";
const EACH: &str = "for &[pen, x0, y0, x1, y1] in strokes {";
const CHANGE: &str = "if pen != before {";
const FROM: &str = "self.pair(b\"PU\", x0, y0);";
const UP_TO_FROM: &str = "\
let mut before = NO_PEN;
        for &[pen, x0, y0, x1, y1] in strokes {
            if pen != before {
                self.bytes(b\"SP\");
                self.whole(pen);
                self.bytes(b\";\");
            }
            self.pair(b\"PU\", x0, y0);";
const TO: &str = "self.pair(b\"PD\", x1, y1);";

const REDRAW: [Fault; 28] = [
    (
        "short_before_other",
        "write",
        JUDGED_FIRST,
        "let mut text = Length(0);\n    text.strokes(strokes);\n    if text.0 > out.len() {\n        return (0, number::OUTPUT);\n    }\n    if !strokes.iter().all(is_allowed) {",
    ),
    (
        "written_up_to_a_bad_stroke",
        "write",
        JUDGED_FIRST,
        "if let Some(at) = strokes.iter().position(|stroke| !is_allowed(stroke)) {\n        write(&strokes[..at], out);",
    ),
    ("only_the_first_judged", "write", JUDGED_FIRST, "if !strokes.iter().take(1).all(is_allowed) {"),
    (
        "last_not_judged",
        "write",
        JUDGED_FIRST,
        "if !strokes.iter().rev().skip(1).all(is_allowed) {",
    ),
    (
        "length_with_a_refusal",
        "write",
        "return (0, number::STROKE);",
        "return (3, number::STROKE);",
    ),
    (
        "short_output_written",
        "write",
        ROOM,
        "let Some(room) = out.get_mut(..length) else {\n        if let Some(start) = out.get_mut(..3) {\n            start.copy_from_slice(b\"IN;\");\n        }\n        return (0, number::OUTPUT);\n    };",
    ),
    (
        "fitting_output_refused",
        "write",
        ROOM,
        "if out.len() == length {\n        return (0, number::OUTPUT);\n    }\n    let Some(room) = out.get_mut(..length) else { return (0, number::OUTPUT) };",
    ),
    (
        "byte_past_the_text",
        "write",
        DONE,
        "if let Some(past) = out.get_mut(length) {\n        *past = 0;\n    }\n    (length, number::NONE)",
    ),
    ("counted_one_more", "write", DONE, "(length + usize::from(strokes.len() > 2), number::NONE)"),
    ("pen_0_allowed", "write", PENS, "(0..=8).contains(pen)"),
    ("pen_9_allowed", "write", PENS, "(1..=9).contains(pen)"),
    ("pen_8_refused", "write", PENS, "(1..=7).contains(pen)"),
    ("pen_by_its_lowest_byte", "write", PENS, "(1..=8).contains(&(*pen as u8))"),
    ("end_32768_allowed", "write", ENDS, "(-32_768..=32_768).contains(&end)"),
    ("least_end_refused", "write", ENDS, "i16::try_from(end).is_ok_and(|end| end > i16::MIN)"),
    ("end_by_its_lower_half", "write", ENDS, "i16::try_from(end as i32).is_ok()"),
    ("in_without_its_semicolon", "write", "self.bytes(b\"IN;\");", "self.bytes(b\"IN\");"),
    (
        "no_sp_where_the_pen_comes_back",
        "write",
        CHANGE,
        "if pen != before && (before == NO_PEN || pen != strokes[0][0]) {",
    ),
    ("sp_before_each", "write", CHANGE, "if pen != NO_PEN || before == NO_PEN {"),
    ("no_sp_before_the_first", "write", "const NO_PEN: i64 = 0;", "const NO_PEN: i64 = 1;"),
    ("pd_from_the_last_end", "write", FROM, "if before == NO_PEN {\n                self.pair(b\"PU\", x0, y0);\n            }"),
    (
        "strokes_joined",
        "write",
        UP_TO_FROM,
        "\
let (mut before, mut last) = (NO_PEN, None);
        for &[pen, x0, y0, x1, y1] in strokes {
            if pen != before {
                self.bytes(b\"SP\");
                self.whole(pen);
                self.bytes(b\";\");
            }
            if last != Some([x0, y0]) {
                self.pair(b\"PU\", x0, y0);
            }
            last = Some([x1, y1]);",
    ),
    ("from_end_to_start", "write", "b\"PU\", x0, y0);\n            self.pair(b\"PD\", x1, y1)", "b\"PU\", x1, y1);\n            self.pair(b\"PD\", x0, y0)"),
    (
        "dot_left_out",
        "write",
        TO,
        "if (x0, y0) != (x1, y1) {\n                self.pair(b\"PD\", x1, y1);\n            }",
    ),
    (
        "equal_strokes_once",
        "write",
        EACH,
        "let mut once = strokes.to_vec();\n        once.dedup();\n        for [pen, x0, y0, x1, y1] in once {",
    ),
    ("minus_zero", "write", "if value < 0 {", "if value <= 0 {"),
    ("plus_sign", "write", "if value < 0 {", "if value > 0 {\n            self.bytes(b\"+\");\n        }\n        if value < 0 {"),
    ("digits_in_front", "write", "fold(1,", "fold(2,"),
];

/// The text of a part with the fault in it, if it is the one.
fn part(source: &Path, part: &str, (name, at, right, wrong): Fault) -> String {
    let file = source.join(part).with_extension("rs");
    let text =
        fs::read_to_string(&file).unwrap_or_else(|error| panic!("{}: {error}", file.display()));
    if part != at {
        return text;
    }
    assert_eq!(text.matches(right).count(), 1, "{name}: the baseline no longer has {right}");
    text.replace(right, wrong)
}

/// The copy of these parts as a module; the numbers and the sines are the baseline's own.
fn copy(source: &Path, parts: &[&str], fault: Fault) -> String {
    let module = |name: &&str| format!("pub mod {name} {{\n{}}}\n", part(source, name, fault));
    let text = parts.iter().map(module).collect::<String>().replace("crate::", "super::");
    format!("pub mod {} {{\npub use baseline::{{number, sines}};\n{text}}}\n", fault.0)
}

fn main() {
    let here = env::var_os("CARGO_MANIFEST_DIR").expect("cargo says where the crate is");
    let source = Path::new(&here).join("../../baseline/src");
    println!("cargo:rerun-if-changed=build.rs");
    println!("cargo:rerun-if-changed={}", source.display());
    let out = env::var_os("OUT_DIR").expect("cargo says where to write");
    let files = [
        ("wrong_arcs.rs", &PARTS[..], &ARCS[..]),
        ("wrong_decimals.rs", &PARTS, &DECIMALS),
        ("wrong_turns.rs", &PARTS, &TURNS),
        ("wrong_line_types.rs", &PARTS, &LINE_TYPES),
        ("wrong_replies.rs", &PARTS, &REPLIES),
        ("wrong_redraw.rs", &WRITER, &REDRAW),
    ];
    for (file, parts, faults) in files {
        let copies: String = faults.iter().map(|&fault| copy(&source, parts, fault)).collect();
        fs::write(Path::new(&out).join(file), copies).expect("the folder of the build");
    }
}
