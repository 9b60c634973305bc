//! AA and AR (change request 1): the rows of `cr01.txt` and of `arcs.txt`, with the exact checker
//! beside the machine.

#[allow(dead_code)]
#[path = "../examples/outcomes.rs"]
mod outcomes;
mod pair;
mod rows;

use baseline::{Drawn, Machine, Stroke};
use outcomes::{Step, LIMITS};
use pair::Pair;
use rows::check;

#[test]
fn agreed_outcomes() {
    assert_eq!(check(include_str!("cr01.txt")), 48);
}

#[test]
fn more_outcomes() {
    assert!(check(include_str!("arcs.txt")) > 40);
}

/// The strokes of these bytes, each judged by the exact checker.
fn strokes(bytes: &str) -> Vec<Stroke> {
    let mut pair = Pair::fresh(LIMITS);
    let steps: Vec<Step> = bytes.bytes().map(Step::Byte).collect();
    let drawn = |event| match event {
        outcomes::Event::Drawn(Drawn::Stroke(stroke)) => stroke,
        other => panic!("{bytes}: {other:?}"),
    };
    outcomes::run(&mut pair, &steps).0.into_iter().map(drawn).collect()
}

/// Chords: the swept angle over the chord angle, rounded up; each begins where the last ended.
#[test]
fn chords() {
    for (sweep, angle, due) in [
        ("360", "0.5", 720),
        ("-360", ".45", 720),
        ("360", "120", 3),
        ("-359.9", "120", 3),
        ("360", "119.9", 4),
        ("359.5", ".5", 719),
        ("359.6", ".5", 720),
        (".1", ".5", 1),
        ("-.5", ".5", 1),
        ("-.6", ".5", 2),
        ("0.7", "120.0499", 1),
        ("360", "5", 72),
    ] {
        let list = strokes(&format!("SP1;PU3000,40;PD;AA0,0,{sweep},{angle};"));
        assert_eq!(list.len(), due, "{sweep} {angle}");
        assert_eq!((list[0].x0, list[0].y0), (3_000, 40));
        for two in list.windows(2) {
            assert_eq!((two[0].x1, two[0].y1), (two[1].x0, two[1].y0));
        }
        if sweep.trim_start_matches('-') == "360" {
            assert_eq!((list[due - 1].x1, list[due - 1].y1), (3_000, 40));
        }
    }
}

/// An arc is a circle's chords, where it starts at the circle's first vertex and turns once.
#[test]
fn circle_as_an_arc() {
    for angle in ["", ",.5", ",7", ",45", ",120"] {
        let circle = strokes(&format!("SP1;PU-200,300;CI1234.5{angle};"));
        let arc = strokes(&format!("SP1;PU1034.5,300;PD;AA-200,300,360{angle};"));
        assert_eq!(circle, arc, "{angle}");
    }
}

/// The largest ways at the widest and the finest scales: no number outgrows its bits.
#[test]
fn extremes() {
    let scales = [
        "IP-32768,-32768,32767,32767;SC-32768,32767.9999,32767.9999,-32768;",
        "IP32767,-32768,-32768,32767;SC0,.0001,.0001,0;",
        "IP0,0,1,1;SC-32768,32767.9999,-32768,32767.9999;",
        "IP0,0,1,-1;SC0,.0001,0,.0001;",
        "",
    ];
    let places = ["PA0,0;", "PA-32768,-32768;", "PA32767.9999,-32768;PR1,1;", "PA-.0015,.0015;"];
    let mut tally = [0; 32];
    for (scale, place) in scales.iter().flat_map(|s| places.map(|p| (s, p))) {
        for centre in ["-32768,-32768", "32767.9999,-32768", "0,0", ".0001,0", "-30,30"] {
            for arc in ["45", "-45,120", "135,22.5", ".1", "360,90"] {
                let bytes =
                    format!("SP1;PD;{scale}{place}AR{centre},{arc};{place}AA{centre},{arc};");
                let mut pair = Pair::fresh([-32768, -32768, 32767, 32767]);
                let steps: Vec<Step> = bytes.bytes().map(Step::Byte).collect();
                for event in outcomes::run(&mut pair, &steps).0 {
                    if let outcomes::Event::Refused(number, _) = event {
                        tally[usize::from(number)] += 1;
                    }
                }
            }
        }
    }
    println!("refusals {tally:?}");
    assert!(tally[3] > 0 && tally[6] > 0 && tally[1] == 0 && tally[2] == 0);
}

/// An arc waits like a circle: bytes are refused with 20 until its last chord is drawn.
#[test]
fn an_arc_waits() {
    let (mut machine, _) = Machine::fresh(-10_000, -7_000, 10_000, 7_000);
    for byte in *b"SP1;PD;AR9,0,90,30;" {
        assert_eq!(machine.take(byte), 0);
    }
    let look = machine.look();
    for _ in 0..3 {
        assert_eq!(machine.take(b'I'), 20);
        assert_eq!(machine.look(), look);
        assert!(matches!(machine.draw(), Drawn::Stroke(_)));
    }
    assert_eq!((look.x, look.y), (9, -9));
    assert_eq!(machine.draw(), Drawn::Idle);
    assert_eq!(machine.take(b'I'), 0);
}
