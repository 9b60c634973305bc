//! The exact checker beside the machine, each answer compared.

use crate::outcomes::{self, Calls};
use baseline::exact::Exact;
use baseline::{Drawn, Fed, Machine, Stroke};

/// The machine and the exact model side by side.
pub struct Pair {
    pub machine: Machine,
    pub exact: Exact,
    /// The types, 1 to 4, of the segments that were drawn; both tell the same.
    pub types: Vec<u8>,
}

impl Pair {
    pub fn fresh(limits: [i64; 4]) -> Pair {
        let [l, b, r, t] = limits;
        let (machine, number) = outcomes::fresh(limits);
        let (exact, due) = Exact::fresh(l, b, r, t);
        assert_eq!(number, due);
        Pair { machine, exact, types: Vec::new() }
    }
}

impl Calls for Pair {
    fn take(&mut self, byte: u8) -> u8 {
        let answer = self.machine.take(byte);
        assert_eq!(answer, self.exact.take(byte), "number of byte {byte}");
        assert_eq!(self.machine.look(), self.exact.look(), "look after byte {byte}");
        answer
    }

    fn draw(&mut self) -> Drawn {
        let look = self.machine.look();
        let told = self.machine.line_type().map(|told| told as u8);
        assert_eq!(told, self.exact.line_type());
        self.types.extend(told);
        let answer = self.machine.draw();
        let by_type = self.exact.judge_type(answer);
        if let Err(violation) = self.exact.draw(answer).and(by_type) {
            panic!("{violation}: {answer:?}");
        }
        assert_eq!(self.machine.look(), look);
        answer
    }

    fn fetch(&mut self, buffer: &mut [u8]) -> (usize, u8) {
        let look = self.machine.look();
        let due = self.exact.fetch(buffer);
        let (length, number) = self.machine.fetch(buffer);
        assert_eq!((buffer.to_vec(), length, number), due);
        assert_eq!(self.machine.look(), look);
        (length, number)
    }

    /// A feed, and the same by take and draw: answer, list and machine are alike.
    fn feed(&mut self, bytes: &[u8], list: &mut [Stroke]) -> Fed {
        let mut machine = self.machine.clone();
        let mut due = list.to_vec();
        let (mut taken, mut stored) = (0, 0);
        let number = loop {
            if self.exact.waiting() > 0 {
                if stored == due.len() {
                    break 21;
                }
                if let Drawn::Stroke(stroke) = self.draw() {
                    due[stored] = stroke;
                    stored += 1;
                }
                continue;
            }
            let Some(&byte) = bytes.get(taken) else { break 0 };
            let number = self.take(byte);
            taken += usize::from(number != 20);
            if number != 0 {
                break number;
            }
        };
        let fed = machine.feed(bytes, list);
        assert_eq!((fed, &list[..]), (Fed { taken, stored, number }, &due[..]));
        assert_eq!(format!("{machine:?}"), format!("{:?}", self.machine));
        fed
    }

    fn machine(&self) -> &Machine {
        &self.machine
    }
}
