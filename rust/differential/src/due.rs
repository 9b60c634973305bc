//! What is due: the baseline's answers.

use crate::partner::{Partner, Record};
use baseline::{number, Drawn, Fed, Look, Machine, Stroke};

fn record(s: Stroke) -> Record {
    [i64::from(s.pen), s.x0, s.y0, s.x1, s.y1]
}

/// Plot in terms of take and draw, as `crates/feeding/specs/Plot.antt` defines it: while a segment
/// waits, draw; when idle, take the next byte. Both first ask for a free record, else 21. A byte that
/// meets a reply ends it with 20 before that; it is neither counted nor stored.
pub fn plot<P: Partner>(
    machine: &mut P,
    waits: fn(&P) -> bool,
    bytes: &[u8],
    records: &mut [Record],
) -> Fed {
    let mut fed = Fed::default();
    loop {
        let waits = waits(machine);
        if !waits && fed.taken == bytes.len() {
            return fed;
        }
        if !waits && machine.fetch(&mut []).1 == number::SHORT {
            fed.number = number::WAITS;
            return fed;
        }
        let Some(free) = records.get_mut(fed.stored) else {
            fed.number = number::FULL;
            return fed;
        };
        let mark = if waits {
            match machine.draw() {
                Drawn::Stroke(stroke) => Some(record(stroke)),
                _ => None,
            }
        } else {
            fed.taken += 1;
            let refused = machine.take(bytes[fed.taken - 1]);
            (refused != 0).then_some([0, i64::from(refused), fed.taken as i64, 0, 0])
        };
        if let Some(mark) = mark {
            *free = mark;
            fed.stored += 1;
        }
    }
}

impl Partner for Machine {
    fn fresh([left, bottom, right, top]: [i64; 4]) -> (Self, u8) {
        Machine::fresh(left, bottom, right, top)
    }

    fn take(&mut self, byte: u8) -> u8 {
        Machine::take(self, byte)
    }

    fn draw(&mut self) -> Drawn {
        Machine::draw(self)
    }

    fn look(&self) -> Look {
        Machine::look(self)
    }

    fn fetch(&mut self, buffer: &mut [u8]) -> (usize, u8) {
        Machine::fetch(self, buffer)
    }

    fn feed(&mut self, bytes: &[u8], records: &mut [Record]) -> Fed {
        let mut list = vec![Stroke::default(); records.len()];
        let fed = Machine::feed(self, bytes, &mut list);
        for (kept, &stroke) in records.iter_mut().zip(&list[..fed.stored]) {
            *kept = record(stroke);
        }
        fed
    }

    fn plot(&mut self, bytes: &[u8], records: &mut [Record]) -> Fed {
        plot(self, Machine::waits, bytes, records)
    }
}
