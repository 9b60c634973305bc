//! Rows of agreed outcomes (`cr01.txt` and its like), with the exact checker beside the machine.
//!
//! A row: hard limits unless they are the usual ones, the bytes (`<n>` is byte n), what they give,
//! the look at the end, a note. Of very many strokes the first and the last are written, and
//! between them the counts. Where a row tells types, `t1` to `t4` stands before each answer of draw.
//!
//!     limits 0,0,10,10: `BYTES` -> EVENTS | loc(x,y) up|dn penN byN   (NOTE)
//!     EVENTS .. (720 strokes, 0 hid, 720 in all) .. EVENTS

use crate::outcomes::{self, events_text, Event, Step, LIMITS};
use crate::pair::Pair;
use baseline::{Drawn, Look};

pub struct Row<'a> {
    pub limits: [i64; 4],
    pub bytes: &'a str,
    pub events: &'a str,
    pub look: &'a str,
}

pub fn rows(text: &str) -> Vec<Row<'_>> {
    text.lines().filter(|line| !line.starts_with('#')).map(row).collect()
}

fn row(line: &str) -> Row<'_> {
    let [before, bytes, after] = line.split('`').collect::<Vec<_>>()[..] else { panic!("{line}") };
    let (outcome, _note) = after.split_once("   (").expect(line);
    let (events, look) = outcome.trim_start_matches(" -> ").split_once('|').expect(line);
    Row { limits: limits(before), bytes, events: events.trim(), look: look.trim() }
}

fn limits(text: &str) -> [i64; 4] {
    let Some(values) = text.strip_prefix("limits ") else {
        assert_eq!(text, "");
        return LIMITS;
    };
    let values = values.trim_end_matches(": ").split(',').map(|value| value.parse().unwrap());
    values.collect::<Vec<_>>().try_into().unwrap()
}

pub fn steps(text: &str) -> Vec<Step> {
    let mut parts = text.split('<');
    let mut bytes = parts.next().unwrap_or_default().as_bytes().to_vec();
    for part in parts {
        let (byte, rest) = part.split_once('>').expect(text);
        bytes.push(byte.parse().expect(text));
        bytes.extend(rest.bytes());
    }
    bytes.into_iter().map(Step::Byte).collect()
}

pub fn look_text(look: &Look) -> String {
    let Look { x, y, pen, down, bytes } = look;
    format!("loc({x},{y}) {} pen{pen} by{bytes}", if *down { "dn" } else { "up" })
}

/// The counts that stand between the first events and the last.
fn counts(events: &[Event]) -> String {
    let hidden = events.iter().filter(|event| **event == Event::Drawn(Drawn::Hidden)).count();
    let drawn = events.iter().filter(|event| matches!(event, Event::Drawn(_))).count();
    format!("({} strokes, {hidden} hid, {drawn} in all)", drawn - hidden)
}

/// The events, with the type of each segment before what was drawn of it.
fn typed_text(events: &[Event], types: &[u8]) -> String {
    let mut types = types.iter();
    let text = |event: &Event| {
        let told = match event {
            Event::Drawn(_) => format!(" t{}", types.next().expect("a type for each segment")),
            _ => String::new(),
        };
        told + &events_text(std::slice::from_ref(event))
    };
    events.iter().map(text).collect()
}

fn check_events(row: &Row, events: &[Event], types: &[u8]) {
    let typed = row.events.split(' ').any(|word| word.starts_with('t'));
    let text = if typed { typed_text(events, types) } else { events_text(events) };
    match row.events.split(" .. ").collect::<Vec<_>>()[..] {
        [all] => assert_eq!(text.trim(), all, "{}", row.bytes),
        [first, between, last] => {
            assert!(text.trim().starts_with(first) && text.ends_with(last), "{}", row.bytes);
            assert_eq!(counts(events), between, "{}", row.bytes);
        }
        _ => panic!("{}", row.events),
    }
}

/// Checks all rows; how many they are.
pub fn check(text: &str) -> usize {
    let rows = rows(text);
    for row in &rows {
        let mut pair = Pair::fresh(row.limits);
        let (events, _) = outcomes::run(&mut pair, &steps(row.bytes));
        check_events(row, &events, &pair.types);
        assert_eq!(look_text(&pair.machine.look()), row.look, "{}", row.bytes);
    }
    rows.len()
}
