//! Runs the lines of `crates/vectors/stdin` through the machine, with the exact checker beside it: the outcomes that the
//! document states, and the whole outcomes of `crates/vectors/stdout`.

#[allow(dead_code)]
#[path = "../examples/outcomes.rs"]
mod outcomes;
mod pair;

use baseline::{Drawn, Look, Stroke};
use outcomes::{events_text, Event, FeedLine, Line, LIMITS, MARK};
use pair::Pair;
use std::io::Write;
use std::process::{Command, Stdio};

const VECTORS: &str = include_str!("../../../crates/vectors/stdin");
const OUTCOMES: &str = include_str!("../../../crates/vectors/stdout");

/// The words of a field; `-` is none.
fn words(field: &str) -> impl Iterator<Item = &str> {
    field.split_whitespace().filter(|&word| word != "-")
}

/// Reads `p:x0,y0-x1,y1`.
fn stroke(text: &str) -> Stroke {
    let (pen, ends) = text.split_once(':').unwrap();
    let [x0, middle, y1] = ends.split(',').collect::<Vec<_>>()[..] else { panic!("{text}") };
    let dash = 1 + middle[1..].find('-').unwrap();
    let n = |t: &str| t.parse::<i64>().unwrap();
    Stroke {
        pen: pen.parse().unwrap(),
        x0: n(x0),
        y0: n(&middle[..dash]),
        x1: n(&middle[dash + 1..]),
        y1: n(y1),
    }
}

/// The stated events beside those that happened, word by word.
fn check_events(id: &str, expected: &str, count: usize, events: &[Event]) {
    let told = events_text(events);
    let mut rest = told.split_whitespace();
    for word in words(expected) {
        if let Some(n) = word.strip_prefix('#') {
            for _ in 0..n.parse::<usize>().unwrap() {
                let drawn = |word: &str| word == "hid" || word.contains(':');
                assert!(rest.next().is_some_and(drawn), "{id}: {word} of {told}");
            }
            continue;
        }
        let (times, word) = match word.split_once('*') {
            Some((n, word)) => (n.parse().unwrap(), word),
            None => (1, word),
        };
        let word = word.replace("@end", &format!("@{count}"));
        for _ in 0..times {
            assert_eq!(rest.next(), Some(&word[..]), "{id}: {told}");
        }
    }
    assert_eq!(rest.next(), None, "{id}: more than expected in {told}");
}

fn check_look(id: &str, expected: &str, look: &Look, waits: bool) {
    for word in words(expected) {
        let value = |prefix: &str| word.strip_prefix(prefix).map(|v| v.parse::<i64>().unwrap());
        let good = if let Some(x) = value("x=") {
            look.x == x
        } else if let Some(y) = value("y=") {
            look.y == y
        } else if let Some(pen) = value("pen=") {
            i64::from(look.pen) == pen
        } else if let Some(bytes) = value("by=") {
            look.bytes as i64 == bytes
        } else {
            match word {
                "up" => !look.down,
                "dn" => look.down,
                "waits" => waits,
                "idle" => !waits,
                _ => panic!("{id}: {word}"),
            }
        };
        assert!(good, "{id}: expected {word}, got {look:?}, waits {waits}");
    }
}

fn check_take(id: &str, limits: [i64; 4], fields: &[&str]) {
    let [program, events, look] = *fields else { panic!("{id}: fields") };
    let mut pair = Pair::fresh(limits);
    let (seen, count) = outcomes::run(&mut pair, &outcomes::steps(program));
    check_events(id, events, count, &seen);
    let waits = pair.machine.clone().draw() != Drawn::Idle;
    check_look(id, look, &pair.machine.look(), waits);
}

fn check_feed(id: &str, limits: [i64; 4], fields: &[&str]) {
    let FeedLine { before, answer, list } = outcomes::feed(&mut outcomes::fresh(limits).0, fields);
    assert_eq!(before, [], "{id}");
    let due: Vec<usize> = words(fields[3]).map(|v| v.parse().unwrap()).collect();
    assert_eq!(answer, due[..], "{id}");
    let strokes: Vec<Stroke> = words(fields[4]).map(stroke).collect();
    assert_eq!(list[..answer[1]], strokes, "{id}");
    assert!(list[answer[1]..].iter().all(|&s| s == MARK), "{id}");
}

/// What the program *strokes* prints, as events.
fn check_strokes(id: &str, fields: &[&str]) {
    let input = outcomes::bytes(fields[0]);
    let event = |line: &str| {
        let values: Vec<&str> = line.split(' ').collect();
        match values[..] {
            ["E", number, byte] => Event::Refused(number.parse().unwrap(), byte.parse().unwrap()),
            [pen, x0, y0, x1, y1] => {
                Event::Drawn(Drawn::Stroke(stroke(&format!("{pen}:{x0},{y0}-{x1},{y1}"))))
            }
            [reply] => Event::Fetched(Some(reply.to_string())),
            _ => panic!("{id}: {line}"),
        }
    };
    let events: Vec<Event> = strokes(&input, &[]).lines().map(event).collect();
    check_events(id, fields[1], input.len(), &events);
    assert_eq!(outcomes::strokes(&mut outcomes::fresh(LIMITS).0, &input), events, "{id}");
}

/// The lengths of the moves, in millimetres, against the bits of the stored outcome.
fn check_drive(id: &str, fields: &[&str]) {
    let line = OUTCOMES.lines().find(|l| l.starts_with(&format!("{id} |"))).unwrap();
    let length = |word: &str| match word.parse::<f32>() {
        Ok(length) => format!("{:08x}", length.to_bits()),
        Err(_) => word.to_string(),
    };
    let due: Vec<String> = words(fields[2]).map(length).collect();
    assert_eq!(line.split_once('|').unwrap().1.trim(), due.join(" "), "{id}");
}

/// What the program *strokes* prints.
fn strokes(input: &[u8], arguments: &[&str]) -> String {
    let mut child = Command::new(env!("CARGO_BIN_EXE_strokes-baseline"))
        .args(arguments)
        .stdin(Stdio::piped())
        .stdout(Stdio::piped())
        .spawn()
        .unwrap();
    let mut stdin = child.stdin.take().unwrap();
    let input = input.to_vec();
    let writer = std::thread::spawn(move || stdin.write_all(&input).unwrap());
    let output = child.wait_with_output().unwrap();
    writer.join().unwrap();
    assert!(output.status.success());
    String::from_utf8(output.stdout).unwrap()
}

#[test]
fn stated_outcomes() {
    let mut limits = LIMITS;
    let mut failures = Vec::new();
    let mut count = 0;
    for line in outcomes::lines(VECTORS) {
        let (kind, id, fields) = match line {
            Line::Limits(values) => {
                limits = values;
                continue;
            }
            Line::Calls(kind, id, fields) => (kind, id, fields),
        };
        count += 1;
        let check = || match kind {
            "take" => check_take(id, limits, &fields),
            "feed" => check_feed(id, limits, &fields),
            "strokes" => check_strokes(id, &fields),
            "drive" => check_drive(id, &fields),
            _ => panic!("{kind} {id}"),
        };
        if std::panic::catch_unwind(check).is_err() {
            failures.push(id.to_string());
        }
    }
    assert!(count > 300, "only {count} vectors");
    assert!(failures.is_empty(), "of {count} vectors failed: {failures:?}");
    println!("{count} vectors");
}

#[test]
fn stored_outcomes() {
    for (stored, due) in OUTCOMES.lines().zip(outcomes::outcomes(VECTORS).lines()) {
        assert_eq!(stored, due);
    }
    assert_eq!(OUTCOMES, outcomes::outcomes(VECTORS));
}

/// Bytes are counted over the whole input, over block and list borders.
#[test]
fn strokes_across_blocks() {
    let mut input = b"SP1;".to_vec();
    let mut lines = String::new();
    let mut last = 0;
    for i in 0..100_000 {
        let x = i % 50;
        input.extend(format!("PD{x},0;").bytes());
        lines += &format!("1 {last} 0 {x} 0\n");
        last = x;
        if i % 1000 == 0 {
            input.extend(*b"@;");
            lines += &format!("E 1 {}\n", input.len() - 1);
        }
    }
    assert_eq!(strokes(&input, &["-100", "-100", "100", "100"]), lines);
}
