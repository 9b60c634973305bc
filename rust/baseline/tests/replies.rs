//! Replies (change request 5): the rows of `cr05.txt`, and what its words say beyond them, with the
//! exact checker beside the machine.

#[allow(dead_code)]
#[path = "../examples/outcomes.rs"]
mod outcomes;
mod pair;
#[allow(dead_code)]
mod rows;

use baseline::{Drawn, LONGEST_REPLY};
use outcomes::{events_text, Calls, Event, Step, LIMITS};
use pair::Pair;
use std::io::{BufRead, BufReader, Write};
use std::process::{Command, Stdio};
use std::sync::mpsc;
use std::time::Duration;

/// The bytes that are written so; `FILL(k)` is 1,0,2,0,..,k,0.
fn bytes(text: &str) -> Vec<u8> {
    let Some((before, after)) = text.split_once("FILL(") else {
        let byte = |step| if let Step::Byte(byte) = step { byte } else { panic!("{text}") };
        return rows::steps(text).into_iter().map(byte).collect();
    };
    let (last, after) = after.split_once(')').expect(text);
    let points: Vec<String> = (1..=last.parse().unwrap()).map(|i: u32| format!("{i},0")).collect();
    bytes(&format!("{before}{}{after}", points.join(",")))
}

/// What the text of a row gives, as the row writes it.
fn run(pair: &mut Pair, text: &str) -> String {
    let (mut told, mut count, mut rest) = (String::new(), 0, text);
    while !rest.is_empty() {
        let marks = [rest.find("h{"), rest.find('[')];
        let end = marks.into_iter().flatten().min().unwrap_or(rest.len());
        if end > 0 {
            told += &taken(pair, &rest[..end], false, &mut count);
            rest = &rest[end..];
        } else if let Some(held) = rest.strip_prefix("h{") {
            let (held, after) = held.split_once('}').expect(text);
            told += &taken(pair, held, true, &mut count);
            rest = after;
        } else {
            let (call, after) = rest[1..].split_once(']').expect(text);
            told += &called(pair, call);
            rest = after;
        }
    }
    told.trim().to_string()
}

/// Bytes, after each of which, unless held, a reply is fetched and all that waits is drawn.
fn taken(pair: &mut Pair, text: &str, held: bool, count: &mut usize) -> String {
    let mut told = String::new();
    for byte in bytes(text) {
        *count += 1;
        match pair.take(byte) {
            0 => {}
            number => told += &format!(" E{number}@{count}"),
        }
        if !held {
            told += fetched(pair, LONGEST_REPLY).trim_end_matches(" len0");
        }
        while !held && pair.exact.waiting() > 0 {
            told += &events_text(&[Event::Drawn(pair.draw())]);
        }
    }
    told
}

/// `D`, `L`, `F n` or `feed n: ..`.
fn called(pair: &mut Pair, text: &str) -> String {
    match text.split_once(' ').unwrap_or((text, "")) {
        ("D", _) => match pair.draw() {
            Drawn::Idle => " idle".to_string(),
            drawn => events_text(&[Event::Drawn(drawn)]),
        },
        ("L", _) => format!(" {}", rows::look_text(&pair.machine.look())),
        ("F", room) => fetched(pair, room.parse().unwrap()),
        (_, feed) => {
            let (records, text) = feed.split_once(": ").expect(text);
            fed(pair, records.parse().unwrap(), &bytes(text))
        }
    }
}

fn fetched(pair: &mut Pair, room: usize) -> String {
    events_text(&outcomes::run(pair, &[Step::Fetch(room)]).0)
}

fn fed(pair: &mut Pair, records: usize, bytes: &[u8]) -> String {
    let (events, _) = outcomes::run(pair, &[Step::Feed(records, bytes.to_vec())]);
    events_text(&events)
}

fn outcome(limits: [i64; 4], text: &str) -> String {
    run(&mut Pair::fresh(limits), text)
}

#[test]
fn agreed_outcomes() {
    let rows = rows::rows(include_str!("cr05.txt"));
    for row in &rows {
        let mut pair = Pair::fresh(row.limits);
        let fresh = if outcomes::fresh(row.limits).1 == 10 { "E10@fresh " } else { "" };
        let told = format!("{fresh}{}", run(&mut pair, row.bytes));
        // One row writes the length apart.
        assert_eq!(told, row.events.replace("len 0", "len0"), "{}", row.bytes);
        assert_eq!(rows::look_text(&pair.machine.look()), row.look, "{}", row.bytes);
    }
    assert_eq!(rows.len(), 41);
}

/// Every buffer: too short, and it stays as it was and the reply waits; fitting; longer, and its rest
/// stays. Once fetched, nothing is written any more.
#[test]
fn buffers() {
    for (bytes, reply) in [
        ("OE;", "0\r\n"),
        ("PD;PA-3,4;OA;", "-3,4,1\r\n"),
        (
            "IP0,0,10000,10000;SC0,1,0,1;IW-100,-100,-100,-100;OW;",
            "-1000000,-1000000,-1000000,-1000000\r\n",
        ),
    ] {
        let mut waiting = outcomes::fresh(LIMITS).0;
        bytes.bytes().for_each(|byte| assert_eq!(waiting.take(byte), 0));
        for room in 0..LONGEST_REPLY + 2 {
            let mut machine = waiting.clone();
            let mut buffer = vec![b'x'; room];
            let answer = machine.fetch(&mut buffer);
            if room < reply.len() {
                assert_eq!((answer, buffer), ((0, 31), vec![b'x'; room]), "{bytes} {room}");
                assert_eq!(format!("{machine:?}"), format!("{waiting:?}"));
                continue;
            }
            let due = format!("{reply}{}", "x".repeat(room - reply.len()));
            assert_eq!((answer, &buffer[..]), ((reply.len(), 0), due.as_bytes()));
            assert_eq!((machine.fetch(&mut buffer), machine.fetch(&mut [])), ((0, 0), (0, 0)));
            assert_eq!((&buffer[..], machine.take(b'I')), (due.as_bytes(), 0));
        }
    }
}

/// While a reply waits every byte is refused with 20 and draw is idle; neither changes anything.
#[test]
fn a_reply_waits() {
    for bytes in ["OA;", "PM0;PD5,5;OW;", "OEP"] {
        let mut pair = Pair::fresh(LIMITS);
        bytes.bytes().for_each(|byte| assert_eq!(pair.take(byte), 0));
        let before = format!("{:?} {:?}", pair.machine, pair.exact);
        for byte in 0..=255 {
            assert_eq!((pair.take(byte), pair.draw()), (20, Drawn::Idle), "{bytes}");
        }
        assert_eq!(format!("{:?} {:?}", pair.machine, pair.exact), before);
    }
}

/// Refusals of each number, one a word.
const REFUSALS: [(u8, &str); 5] = [
    (1, "@; 5,6; P5; P; XX; PA\x1b; LBOE;\x03 PM0;DF; OC;"),
    (2, "SP1,2; PA5; PD1,1,5; EA5; CI; OA5; IN5;"),
    (3, "PA-,1; PA1.2.; SP32768; SP9; RO45; IP1,1,1,2; SC1,1,2,3; PM1; CI5,121; AA0,0,0; PM0;PM0;"),
    (6, "SC0,1,0,1;PA101,0; SC0,1,0,1;EA0,101; SC0,1,0,1;CI101; SC0,1,0,1;AA101,0,90;"),
    (7, "PM0;PAFILL(113); PM0;PAFILL(112);PM1; PM0;PAFILL(112);PM2;"),
];

/// OE after each kind of refusal: its number, then 0. IN clears it, the other replies do not.
#[test]
fn latest_refusal() {
    for (number, words) in REFUSALS {
        for bytes in words.split(' ') {
            for (between, due) in [("", number), ("OA;OP;OW;OH;", number), ("IN;", 0)] {
                let told = outcome([0, 0, 10_000, 10_000], &format!("{bytes}{between}OE;OE;"));
                assert!(told.starts_with(&format!("E{number}@")), "{bytes}: {told}");
                assert!(told.ends_with(&format!("\"{due}\" \"0\"")), "{bytes}: {told}");
            }
        }
    }
}

/// OW under each turn, the limits differing on all sides: a window as it was given, whatever the turn
/// it was given under; without one, the hard limits as each turn's image has them.
#[test]
fn windows() {
    for (set, then) in [0, 90, 180, 270].iter().flat_map(|s| [0, 90, 180, 270].map(|t| (s, t))) {
        let back = match then {
            0 => "-10,-200,3000,4000",
            90 => "-200,-3000,4000,10",
            180 => "-3000,-4000,10,200",
            _ => "-4000,-10,200,3000",
        };
        let bytes = format!("RO{set};IW7,-8,-5.5,5000;RO{then};OW;OH;IW;OW;IW1,2,3,4;DF;OW;IN;OW;");
        let hard = "-10,-200,3000,4000";
        let due = format!("\"-5,-8,7,5000\" \"{hard}\" \"{back}\" \"{back}\" \"{hard}\"");
        assert_eq!(outcome([-10, -200, 3_000, 4_000], &bytes), due, "{bytes}");
    }
}

/// Polygon mode and IN; numbers that OE does not tell (10, 20, 21, 31); P1 and P2 in no order.
#[test]
fn more_outcomes() {
    for (bytes, due) in [
        ("PM0;PD5,5;OAPU9,9;[L]", "\"5,5,1\" loc(9,9) up pen0 by33"),
        ("PM0;PD;OA;PD5,5;[L]OE5;OE;", "\"0,0,1\" loc(5,5) dn pen0 by20 E2@20 \"2\""),
        ("PM0;PD5,5;PM1;OA;[L]", "\"0,0,0\" loc(0,0) up pen0 by33"),
        ("PM0;PD5,5;XX;INOAOE;[L]", "E1@12 \"5,5,0\" \"0\" loc(5,5) up pen0 by0"),
        ("h{PM0;PD5,5;OA;IN}[F 64][L]", "E20@14 E20@15 \"5,5,1\" loc(5,5) dn pen0 by22"),
        ("SP1;h{PD5,5;X}[D]OE;", "E20@11 1:0,0-5,5 \"0\""),
        ("h{OA;X}[F 5][F 9]OE;", "E20@4 E31@fetch \"0,0,0\" \"0\""),
        ("[feed 0: SP1;PD5,5;][D]OE;", "(10,0,21) 1:0,0-5,5 \"0\""),
        ("[feed 0: XX;]h{OE;}[F 2][F 3]OE;", "(2,0,1) E31@fetch \"1\" \"0\""),
        ("IP5,6,1,-2;RO90;OP;IP0,0;OP;", "\"5,6,1,-2\" \"0,0,-4,-8\""),
    ] {
        assert_eq!(outcome(LIMITS, bytes), due, "{bytes}");
    }
    assert_eq!(outcome([5, 5, 5, 6], "OE;OH;"), "\"0\" \"0,0,1,1\"");
}

/// The program *strokes* prints a reply while its input is still open, in place among its lines.
#[test]
fn strokes_replies_at_once() {
    let mut child = Command::new(env!("CARGO_BIN_EXE_strokes-baseline"))
        .stdin(Stdio::piped())
        .stdout(Stdio::piped())
        .spawn()
        .unwrap();
    let mut input = child.stdin.take().unwrap();
    let lines = BufReader::new(child.stdout.take().unwrap()).split(b'\n');
    let (tell, heard) = mpsc::channel();
    std::thread::spawn(move || lines.for_each(|line| tell.send(line.unwrap()).unwrap()));
    let hear = |due: &[&str]| {
        for due in due {
            let line = heard.recv_timeout(Duration::from_secs(20)).expect(due);
            assert_eq!(String::from_utf8(line).unwrap(), *due);
        }
    };
    input.write_all(b"SP1;PD5,5;XX;OA;").unwrap();
    hear(&["1 0 0 5 5", "E 1 12", "5,5,1\r"]);
    input.write_all(b"PD6,6;OEOE;PD7,7;OHXX").unwrap();
    drop(input);
    hear(&["1 5 5 6 6", "1\r", "0\r", "1 6 6 7 7", "-10000,-7000,10000,7000\r", "E 1 37"]);
    assert!(child.wait().unwrap().success());
}
