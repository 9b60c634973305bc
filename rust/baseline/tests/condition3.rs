//! Generated calls, with the exact model beside the machine: numbers, look, condition 3.

use baseline::exact::{Exact, Violation};
use baseline::{Drawn, Machine, Stroke};

struct Dice(u64);

impl Dice {
    fn next(&mut self) -> u64 {
        self.0 ^= self.0 << 13;
        self.0 ^= self.0 >> 7;
        self.0 ^= self.0 << 17;
        self.0.wrapping_mul(0x2545_f491_4f6c_dd1d) >> 16
    }

    fn below(&mut self, n: u64) -> u64 {
        self.next() % n
    }

    fn one_in(&mut self, n: u64) -> bool {
        self.below(n) == 0
    }

    fn pick<'a>(&mut self, from: &[&'a str]) -> &'a str {
        from[self.below(from.len() as u64) as usize]
    }

    /// A number's text, mostly of use, of the given rough size.
    fn number(&mut self, size: u64) -> String {
        if self.one_in(60) {
            return self
                .pick(&[
                    "-",
                    ".",
                    "40000",
                    "1.2.3",
                    "-32768.0001",
                    "32767.9999",
                    "00000000001",
                    "5-",
                ])
                .to_string();
        }
        let sign = self.pick(&["", "", "", "-", "-", "+"]);
        let whole = self.below(size + 1);
        match self.below(5) {
            0 => format!("{sign}{whole}.{:04}", self.below(10_000)),
            1 => format!("{sign}{whole}.5"),
            2 => format!("{sign}{whole}.4{}", self.below(1_000_000)),
            _ => format!("{sign}{whole}"),
        }
    }

    fn numbers(&mut self, count: u64, size: u64) -> String {
        let count = if self.one_in(25) { self.below(6) } else { count };
        let parts: Vec<String> = (0..count).map(|_| self.number(size)).collect();
        let between = self.pick(&[",", ",", ",", " ", ", ", "\n", "\t,"]);
        parts.join(between)
    }

    fn arc(&mut self, size: u64) -> String {
        let sweep = self.pick(&["90", "-90", "360", "-360.05", ".05", "12", "-200", "0", "361"]);
        let chord = self.pick(&["", ",30", ",.5", ",120", ",7", ",121", ",44.95,1"]);
        format!("{}{},{sweep}{chord}", self.pick(&["AA", "AR"]), self.numbers(2, size))
    }

    fn instruction(&mut self, in_polygon: bool) -> Vec<u8> {
        let size = [3, 50, 300, 12_000, 32_767][self.below(5) as usize];
        let pairs = 2 * (1 + self.below(3));
        let choice = if in_polygon { 12 + self.below(15) } else { self.below(27) };
        let text = match choice {
            0 => "IN".into(),
            1 => "DF".into(),
            2 | 3 => {
                let count = [0, 2, 4, 4][self.below(4) as usize];
                format!("IP{}", self.numbers(count, size))
            }
            4 | 5 => {
                let count = if self.one_in(4) { 0 } else { 4 };
                let range = [1, 3, 40, 32_767][self.below(4) as usize];
                format!("SC{}", self.numbers(count, range))
            }
            6 => {
                let count = if self.one_in(3) { 0 } else { 4 };
                format!("IW{}", self.numbers(count, size))
            }
            7 => format!("RO{}", self.pick(&["", "0", "90", "180", "270", "269.5", "90.4", "45"])),
            8 => "EP".into(),
            9 => format!("CI{},{}", self.number(size), 5 + self.below(120)),
            10 => format!("EA{}", self.numbers(2, size)),
            11 => format!("ER{}", self.numbers(2, size)),
            12 | 13 => format!("PM{}", self.pick(&["0", "1", "2", "2", "2", ""])),
            14 => format!("PU{}", self.numbers(pairs, size)),
            15 => self.pick(&["PU", "PD", "PA", "PR"]).into(),
            16 | 17 => format!("PR{}", self.numbers(pairs, size)),
            18 | 19 => format!("PA{}", self.numbers(pairs, size)),
            20 if self.one_in(3) => {
                self.pick(&["LBPD5,5;\x03", "XX", "P", "@", "5", "\x1b.", "IN3"]).into()
            }
            21 if !in_polygon => {
                format!("SP{}", self.pick(&["1", "2", "3", "4", "5", "8", "0", "9", ""]))
            }
            22 | 23 if !in_polygon => self.arc(size),
            26 => self.pick(&["OA", "OP", "OW", "OH", "OE", "OE", "OA5", "OC"]).into(),
            _ => format!("PD{}", self.numbers(pairs, size)),
        };
        let text = if self.one_in(10) { text.to_lowercase() } else { text };
        let mut bytes = text.into_bytes();
        if !self.one_in(6) {
            bytes.push(b';');
        }
        if self.one_in(150) {
            let at = self.below(bytes.len() as u64 + 1) as usize;
            bytes.insert(at, self.below(256) as u8);
        }
        bytes
    }
}

#[derive(Default)]
struct Tally {
    bytes: usize,
    refused: [usize; 32],
    strokes: usize,
    hidden: usize,
    /// Segments by their types, 1 to 4.
    types: [usize; 5],
}

/// A fetch of both with a buffer of this length; its number.
fn fetch(machine: &mut Machine, exact: &mut Exact, room: usize) -> u8 {
    let mut buffer = vec![7; room];
    let due = exact.fetch(&buffer);
    let (length, number) = machine.fetch(&mut buffer);
    assert_eq!((buffer, length, number), due);
    number
}

/// One drawing: instructions, draws and fetches in many orders.
fn drawing(dice: &mut Dice, instructions: usize, tally: &mut Tally) {
    let limits = match dice.below(6) {
        0 => [0, 0, 10, 10],
        1 => [-32768, -32768, 32767, 32767],
        2 => [-3, -4, 300, 200],
        3 => [5, 5, 5, 9], // refused: 0, 0, 1, 1
        _ => [-10_000, -7_000, 10_000, 7_000],
    };
    let [l, b, r, t] = limits;
    let (mut machine, number) = Machine::fresh(l, b, r, t);
    let (mut exact, due) = Exact::fresh(l, b, r, t);
    assert_eq!(number, due);
    let mut text = Vec::new();
    let mut in_polygon = false;
    let eager = !dice.one_in(5);
    let bare = dice.one_in(10);
    for i in 0..instructions {
        let bytes = match i {
            0 => if bare { b"SP0;" } else { b"SP8;" }.to_vec(),
            _ => dice.instruction(in_polygon),
        };
        if bytes.starts_with(b"PM") {
            in_polygon = !(bytes.starts_with(b"PM2") || dice.one_in(30));
        }
        for byte in bytes {
            text.push(byte);
            tally.bytes += 1;
            let answer = machine.take(byte);
            let shown = || String::from_utf8_lossy(&text).into_owned();
            assert_eq!(answer, exact.take(byte), "{limits:?} {}", shown());
            assert_eq!(machine.look(), exact.look(), "{limits:?} {}", shown());
            tally.refused[usize::from(answer)] += 1;
            // Mostly a reply is fetched after a byte; else the buffer may be too short for it.
            let room = if eager || dice.one_in(3) { 64 } else { dice.below(30) as usize };
            tally.refused[usize::from(fetch(&mut machine, &mut exact, room))] += 1;
            // Mostly all draws after a byte, else some, also on an empty queue.
            let most = if eager || dice.one_in(3) { usize::MAX } else { dice.below(4) as usize };
            for _ in 0..most {
                let told = machine.line_type().map(|told| told as u8);
                assert_eq!(told, exact.line_type(), "{limits:?} {}", shown());
                tally.types[usize::from(told.unwrap_or(0))] += 1;
                let answer = machine.draw();
                let by_type = exact.judge_type(answer);
                if let Err(violation) = exact.draw(answer).and(by_type) {
                    panic!("{violation}: {answer:?} {limits:?} {}", shown());
                }
                match answer {
                    Drawn::Idle => break,
                    Drawn::Hidden => tally.hidden += 1,
                    Drawn::Stroke(_) => tally.strokes += 1,
                }
            }
        }
    }
}

#[test]
fn generated_drawings() {
    let mut dice = Dice(0x9e37_79b9_7f4a_7c15);
    let mut tally = Tally::default();
    // More with the variable set, for a longer run by hand.
    let rounds = std::env::var("ROUNDS").ok().and_then(|r| r.parse().ok()).unwrap_or(2_000);
    for round in 0..rounds {
        let long = round % 20 == 0;
        drawing(&mut dice, if long { 400 } else { 40 }, &mut tally);
    }
    println!(
        "{} bytes, {} strokes, {} hidden, types {:?}, refusals {:?}",
        tally.bytes,
        tally.strokes,
        tally.hidden,
        &tally.types[1..],
        tally.refused
    );
    for number in [1, 2, 3, 6, 7, 20, 31] {
        assert!(tally.refused[number] > 0, "no refusal with {number}");
    }
    assert!(tally.strokes > 10_000 && tally.hidden > 1_000);
    assert!(tally.types[1..].iter().all(|&count| count > 1_000), "{:?}", tally.types);
}

/// Raw bytes from a small alphabet.
#[test]
fn generated_bytes() {
    let alphabet = b"PDUARMSICEWNLBFO0123459.-+,; \n\x03@";
    let mut dice = Dice(42);
    for _ in 0..300 {
        let mut machine = Machine::fresh(-100, -100, 100, 100).0;
        let mut exact = Exact::fresh(-100, -100, 100, 100).0;
        for _ in 0..1_000 {
            let byte = alphabet[dice.below(alphabet.len() as u64) as usize];
            assert_eq!(machine.take(byte), exact.take(byte));
            assert_eq!(machine.look(), exact.look());
            fetch(&mut machine, &mut exact, 40);
            let answer = machine.draw();
            assert_eq!(exact.draw(answer), Ok(()));
        }
    }
}

/// The model after these bytes, every segment but the last few drawn by the machine.
fn waiting(limits: [i64; 4], bytes: &[u8]) -> (Machine, Exact) {
    let [l, b, r, t] = limits;
    let (mut machine, mut exact) = (Machine::fresh(l, b, r, t).0, Exact::fresh(l, b, r, t).0);
    for &byte in bytes {
        while exact.waiting() > 0 {
            assert_eq!(exact.draw(machine.draw()), Ok(()));
        }
        assert_eq!(machine.take(byte), 0);
        assert_eq!(exact.take(byte), 0);
    }
    (machine, exact)
}

fn judge(limits: [i64; 4], bytes: &[u8], answer: Drawn) -> Result<(), Violation> {
    waiting(limits, bytes).1.draw(answer)
}

/// The checker itself: right answers pass, each kind of wrong one is told.
#[test]
fn wrong_answers_are_told() {
    const TEN: [i64; 4] = [0, 0, 10, 10];
    let stroke = |pen, x0, y0, x1, y1| Drawn::Stroke(Stroke { pen, x0, y0, x1, y1 });
    let line = b"SP1;PU-5,0;PD15,20;"; // figure (e): (0,5) to (5,10)
    assert_eq!(judge(TEN, line, stroke(1, 0, 5, 5, 10)), Ok(()));
    assert_eq!(judge(TEN, line, Drawn::Hidden), Err(Violation::PaintMissing));
    assert_eq!(judge(TEN, line, Drawn::Idle), Err(Violation::Waits));
    assert_eq!(judge(TEN, line, stroke(2, 0, 5, 5, 10)), Err(Violation::Pen));
    assert_eq!(judge(TEN, line, stroke(1, -1, 4, 5, 10)), Err(Violation::Limits));
    assert_eq!(judge(TEN, line, stroke(1, 0, 5, 5, 7)), Err(Violation::Astray));
    assert_eq!(judge(TEN, line, stroke(1, 0, 5, 2, 7)), Err(Violation::TooShort));
    assert_eq!(judge(TEN, line, stroke(1, 3, 8, 5, 10)), Err(Violation::TooShort));
    assert_eq!(judge(TEN, b"SP1;", stroke(1, 0, 0, 0, 0)), Err(Violation::NothingWaits));
    assert_eq!(judge(TEN, b"SP1;", Drawn::Hidden), Err(Violation::NothingWaits));
    assert_eq!(judge(TEN, b"SP1;", Drawn::Idle), Ok(()));

    // Exactly one unit is still within one unit, a ten-thousandth more is not.
    assert_eq!(judge(TEN, b"SP1;PU2,2;PD8,2;", stroke(1, 2, 3, 8, 3)), Ok(()));
    assert_eq!(judge(TEN, b"SP1;PU2,2;PD8,2;", stroke(1, 2, 3, 8, 1)), Ok(()));
    let off = b"SP1;PU2,2;PD8,1.9999;";
    assert_eq!(judge(TEN, off, stroke(1, 2, 3, 8, 3)), Err(Violation::Astray));
    assert_eq!(judge(TEN, off, stroke(1, 2, 3, 8, 2)), Ok(()));
    assert_eq!(judge(TEN, b"SP1;PU2,2;PD8,2;", stroke(1, 3, 2, 7, 2)), Ok(()));
    assert_eq!(
        judge(TEN, b"SP1;PU2,2;PD8.0001,2;", stroke(1, 3, 2, 7, 2)),
        Err(Violation::TooShort)
    );

    // Less than one unit inside nothing is due; exactly one unit inside it is.
    assert_eq!(judge(TEN, b"SP1;PU2,.9999;PD8,.9999;", Drawn::Hidden), Ok(()));
    assert_eq!(judge(TEN, b"SP1;PU2,1;PD8,1;", Drawn::Hidden), Err(Violation::PaintMissing));
    let window = b"SP1;IW0,0,10,2;PU2,1.0001;PD8,1.0001;";
    assert_eq!(judge(TEN, window, Drawn::Hidden), Ok(()));

    // Pen-up edges are hidden.
    let edges = b"SP1;PM0;PU5,0;PM2;EP;";
    assert_eq!(judge(TEN, edges, Drawn::Hidden), Ok(()));
    assert_eq!(judge(TEN, edges, stroke(1, 0, 0, 5, 0)), Err(Violation::NotOwed));

    // Clipping from an end already rounded: the exact line is y = x / 2000.
    let flat = b"SP1;PU-1000,-.5;PD1000,.5;";
    assert_eq!(judge(TEN, flat, stroke(1, 0, 1, 10, 1)), Ok(()));
    assert_eq!(judge(TEN, flat, stroke(1, 0, 2, 10, 2)), Err(Violation::Astray));
}

/// What change request 4 asks for beyond condition 3: right answers pass, wrong ones are told that
/// condition 3 lets pass.
#[test]
fn wrong_ends_are_told() {
    const TEN: [i64; 4] = [0, 0, 10, 10];
    let stroke = |x0, y0, x1, y1| Drawn::Stroke(Stroke { pen: 1, x0, y0, x1, y1 });
    let by_type = |bytes: &[u8], answer: Drawn| {
        assert_eq!(judge(TEN, bytes, answer), Ok(()));
        waiting(TEN, bytes).1.judge_type(answer)
    };
    let inside = b"SP1;PU2,2;PD8,2;";
    assert_eq!(by_type(inside, stroke(2, 2, 8, 2)), Ok(()));
    assert_eq!(by_type(inside, stroke(3, 2, 8, 2)), Err(Violation::EndMoved));
    assert_eq!(by_type(inside, stroke(2, 2, 8, 3)), Err(Violation::EndMoved));
    let leaving = b"SP1;PU5,5;PD15,5;";
    assert_eq!(by_type(leaving, stroke(5, 5, 10, 5)), Ok(()));
    assert_eq!(by_type(leaving, stroke(5, 5, 9, 5)), Err(Violation::OffEdge));
    assert_eq!(by_type(leaving, stroke(6, 5, 10, 5)), Err(Violation::EndMoved));
    let entering = b"SP1;PU15,5;PD5,5;";
    assert_eq!(by_type(entering, stroke(10, 5, 5, 5)), Ok(()));
    assert_eq!(by_type(entering, stroke(5, 5, 10, 5)), Err(Violation::OffEdge));
    let crossing = b"SP1;PU-5,5;PD15,5;";
    assert_eq!(by_type(crossing, stroke(0, 5, 10, 5)), Ok(()));
    assert_eq!(by_type(crossing, stroke(1, 5, 10, 5)), Err(Violation::OffEdge));

    // Along an edge, and on one: condition 3 asks for no paint there.
    for bytes in [&b"SP1;PU10,2;PD10,8;"[..], b"SP1;PU10,5;PD20,5;", b"SP1;PU10,10;PD10,10;"] {
        assert_eq!(by_type(bytes, Drawn::Hidden), Err(Violation::EndHidden));
    }
    // Both ends outside, or an edge that was reached pen up: hidden.
    assert_eq!(by_type(b"SP1;PU11,0;PD11,10;", Drawn::Hidden), Ok(()));
    assert_eq!(by_type(b"SP1;PM0;PU5,0;PM2;EP;", Drawn::Hidden), Ok(()));
    // An edge of the limits as they meet, 5 to 10, though not of the hard limits.
    let window = b"SP1;IW5,-5,20,5;PU0,0;PD12,6;";
    assert_eq!(by_type(window, stroke(5, 3, 10, 5)), Ok(()));
    assert_eq!(by_type(window, stroke(6, 3, 10, 5)), Err(Violation::OffEdge));
}

/// The plausible blunders of document 01, made on purpose, are told.
#[test]
fn blunders_are_told() {
    let limits = [-10_000, -7_000, 10_000, 7_000];
    let stroke = |x0, y0, x1, y1| Drawn::Stroke(Stroke { pen: 1, x0, y0, x1, y1 });
    // Rounding a PR to whole units before adding: (6,0) for 15 times .4.
    let steps = b"SP1;PR.4,0,.4,0,.4,0,.4,0,.4,0,.4,0,.4,0,.4,0,.4,0,.4,0;PD.4,0,.4,0,.4,0,.4,0;";
    assert_eq!(judge(limits, steps, stroke(5, 0, 6, 0)), Ok(()));
    assert_eq!(judge(limits, steps, stroke(0, 0, 0, 0)), Err(Violation::Astray));
    // The first pair drawn, later ones only moved.
    let (mut machine, mut exact) = waiting(limits, b"SP1;PD5,5,");
    assert_eq!(exact.draw(machine.draw()), Ok(()));
    for byte in *b"9,9;" {
        assert_eq!(machine.take(byte), exact.take(byte));
    }
    assert_eq!(exact.clone().draw(Drawn::Idle), Err(Violation::Waits));
    assert_eq!(exact.draw(machine.draw()), Ok(()));
}

/// Numbers, spans, widths and offsets at the ends of their ranges; overflow would panic.
#[test]
fn extremes() {
    let widest = "IP-32768,-32768,32767,32767;SC-32768,32767.9999,-32768,32767.9999;";
    let mirrored = "IP32767,32767,-32768,-32768;SC32767.9999,-32768,-32768,32767.9999;";
    let finest = "IP0,0,1,1;SC-32768,32767.9999,32767.9999,-32768;";
    let coarsest = "IP-32768,-32768,32767,32767;SC0,.0001,.0001,0;";
    let far = "IP0,0,32767,32767;SC0,1,0,1;PA30.5184,-30.5184;";
    let mut moves = String::new();
    for pair in ["32767.9999,-32768", "-32768,32767.9999", "0,0", ".0001,-.0001", "-.5,.5"] {
        for name in ["PA", "PR", "PD", "PU"] {
            moves += &format!("{name}{pair};CI32767.9999,.5;CI-32768,119.9;CI.0001,90;");
            moves += &format!("EA{pair};ER{pair};PM0;PD{pair},{pair};PM1;PR{pair};PM2;EP;");
            moves += &format!("IW{pair},{pair};RO{};", [0, 90, 180, 270][moves.len() % 4]);
        }
    }
    let mut tally = [0usize; 32];
    let mut strokes = 0;
    for limits in [[-32768, -32768, 32767, 32767], [-10, -10, 10, 10]] {
        for setup in [widest, mirrored, finest, coarsest, far] {
            for again in [setup, ""] {
                let text = format!("SP1;{setup}{moves}{again}IW;{moves}");
                let [l, b, r, t] = limits;
                let (mut machine, mut exact) =
                    (Machine::fresh(l, b, r, t).0, Exact::fresh(l, b, r, t).0);
                for byte in text.bytes() {
                    let answer = machine.take(byte);
                    assert_eq!(answer, exact.take(byte));
                    assert_eq!(machine.look(), exact.look());
                    tally[usize::from(answer)] += 1;
                    while exact.waiting() > 0 {
                        let answer = machine.draw();
                        assert_eq!(exact.draw(answer), Ok(()), "{answer:?}");
                        strokes += usize::from(matches!(answer, Drawn::Stroke(_)));
                    }
                    assert_eq!(machine.draw(), Drawn::Idle);
                }
            }
        }
    }
    println!("{strokes} strokes, refusals {tally:?}");
    assert!(strokes > 10_000 && tally[6] > 0);
}

/// A long way in relative steps: the offset grows to 6.5e13 while the location creeps.
#[test]
fn long_way() {
    let mut machine = Machine::fresh(-32768, -32768, 32767, 32767).0;
    let mut exact = Exact::fresh(-32768, -32768, 32767, 32767).0;
    let setup = "SP1;IP0,0,1,1;SC-32768,32767.9999,-32768,32767.9999;PR";
    let steps = std::iter::repeat_n("32767.9999,-32768,", 200_000);
    for byte in std::iter::once(setup).chain(steps).chain(["0,0;PD1,1;CI100;"]).flat_map(str::bytes)
    {
        assert_eq!(machine.take(byte), exact.take(byte));
        while exact.waiting() > 0 {
            assert_eq!(exact.draw(machine.draw()), Ok(()));
        }
    }
    assert_eq!(machine.look(), exact.look());
    assert_eq!((machine.look().x, machine.look().y), (100_000, -100_000));
}
