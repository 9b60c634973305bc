//! The comparison can fail: faults are put into the answers of the proved library, and each must
//! be found and brought down to a short input.

use baseline::{number, Drawn, Fed, Look};
use differential::hunt::{hunt, Finding};
use differential::partner::{Partner, Record};
use differential::streams::Family;
use std::marker::PhantomData;
use vutaroi::Machine;

/// What a fault does to the answers; each leaves most of them alone.
trait Fault {
    fn fresh(number: u8) -> u8 {
        number
    }
    fn take(_machine: &mut Machine, number: u8) -> u8 {
        number
    }
    fn draw(drawn: Drawn) -> Drawn {
        drawn
    }
    fn look(seen: Look) -> Look {
        seen
    }
    fn fetch(answer: (usize, u8), _buffer: &mut [u8]) -> (usize, u8) {
        answer
    }
    fn feed(fed: Fed, _records: &mut [Record]) -> Fed {
        fed
    }
    fn plot(fed: Fed, _records: &mut [Record]) -> Fed {
        fed
    }
}

struct Faulty<F>(Machine, PhantomData<F>);

impl<F: Fault> Partner for Faulty<F> {
    fn fresh(limits: [i64; 4]) -> (Self, u8) {
        let (machine, number) = <Machine as Partner>::fresh(limits);
        (Faulty(machine, PhantomData), F::fresh(number))
    }
    fn take(&mut self, byte: u8) -> u8 {
        let number = Partner::take(&mut self.0, byte);
        F::take(&mut self.0, number)
    }
    fn draw(&mut self) -> Drawn {
        F::draw(Partner::draw(&mut self.0))
    }
    fn look(&self) -> Look {
        F::look(Partner::look(&self.0))
    }
    fn fetch(&mut self, buffer: &mut [u8]) -> (usize, u8) {
        let answer = Partner::fetch(&mut self.0, buffer);
        F::fetch(answer, buffer)
    }
    fn feed(&mut self, bytes: &[u8], records: &mut [Record]) -> Fed {
        let fed = Partner::feed(&mut self.0, bytes, records);
        F::feed(fed, records)
    }
    fn plot(&mut self, bytes: &[u8], records: &mut [Record]) -> Fed {
        let fed = Partner::plot(&mut self.0, bytes, records);
        F::plot(fed, records)
    }
}

/// The finding in streams of this family, its input at most `most` bytes long; streams have
/// hundreds to thousands.
fn found_within<F: Fault>(family: Family, most: usize) -> Finding {
    let Err(finding) = hunt::<Faulty<F>>(family, 1, 200_000) else {
        panic!("the fault was not found");
    };
    println!("{finding}");
    assert!(finding.input.len() <= most, "not shrunk: {finding}");
    assert!(finding.calls.contains("// due "), "no calls: {finding}");
    *finding
}

fn found<F: Fault>(family: Family) -> Finding {
    found_within::<F>(family, 48)
}

/// The right end of a stroke of pen 3 is one unit off, far to the right.
struct Astray;
impl Fault for Astray {
    fn draw(drawn: Drawn) -> Drawn {
        match drawn {
            Drawn::Stroke(mut stroke) if stroke.pen == 3 && stroke.x1 > 200 => {
                stroke.x1 += 1;
                Drawn::Stroke(stroke)
            }
            _ => drawn,
        }
    }
}

#[test]
fn stroke_off_by_one() {
    let finding = found::<Astray>(Family::Drawings);
    assert!(finding.calls.contains("machine.draw(); }\n// answered Stroke"), "{finding}");
}

/// A stroke that is left out.
struct LeftOut;
impl Fault for LeftOut {
    fn draw(drawn: Drawn) -> Drawn {
        match drawn {
            Drawn::Stroke(stroke) if stroke.y0 < -100 && stroke.x0 != stroke.x1 => Drawn::Hidden,
            _ => drawn,
        }
    }
}

#[test]
fn stroke_left_out() {
    let finding = found::<LeftOut>(Family::Drawings);
    assert!(finding.calls.contains("condition 3"), "not judged by condition 3: {finding}");
}

/// A byte that is refused with another number.
struct OtherNumber;
impl Fault for OtherNumber {
    fn take(_: &mut Machine, refused: u8) -> u8 {
        if refused == number::LOCATION {
            number::RANGE
        } else {
            refused
        }
    }
}

#[test]
fn other_number() {
    found::<OtherNumber>(Family::Circles);
}

/// A take while a segment waits, answered with 20, that works the segment off.
struct Swallowed;
impl Fault for Swallowed {
    fn take(machine: &mut Machine, refused: u8) -> u8 {
        if refused == number::WAITS {
            Partner::draw(machine);
        }
        refused
    }
}

#[test]
fn segment_swallowed() {
    let finding = found::<Swallowed>(Family::Mutations);
    assert!(matches!(finding.way, differential::ways::Way::Lazy(_)), "{finding}");
}

/// Polygon bytes miscounted where there are many.
struct Miscounted;
impl Fault for Miscounted {
    fn look(mut seen: Look) -> Look {
        seen.bytes -= usize::from(seen.bytes > 200);
        seen
    }
}

#[test]
fn bytes_miscounted() {
    // The least that costs 200 bytes: 22 points of 9, "0,0,"; with PM1 alone, of 2, it is 300.
    found_within::<Miscounted>(Family::Brims, 310);
}

/// A feed that also writes the record after those stored.
struct Touched;
impl Fault for Touched {
    fn feed(fed: Fed, records: &mut [Record]) -> Fed {
        if let (6, Some(record)) = (fed.stored, records.get_mut(fed.stored)) {
            record[4] = 0;
        }
        fed
    }
}

#[test]
fn record_touched() {
    let finding = found::<Touched>(Family::Drawings);
    assert!(finding.calls.contains("machine.feed("), "{finding}");
}

/// A feed that does not count the refused byte as taken.
struct NotCounted;
impl Fault for NotCounted {
    fn feed(mut fed: Fed, _: &mut [Record]) -> Fed {
        fed.taken -= usize::from(fed.number == number::COUNT);
        fed
    }
}

#[test]
fn refused_byte_not_counted() {
    found_within::<NotCounted>(Family::Bytes, 4);
}

/// A plot that counts the places of refused bytes from 0.
struct CountedFromZero;
impl Fault for CountedFromZero {
    fn plot(fed: Fed, records: &mut [Record]) -> Fed {
        for record in records[..fed.stored].iter_mut().filter(|record| record[0] == 0) {
            record[2] -= 1;
        }
        fed
    }
}

#[test]
fn place_counted_from_zero() {
    found_within::<CountedFromZero>(Family::Digits, 4);
}

/// A fetch that also writes the byte after a reply.
struct BytePast;
impl Fault for BytePast {
    fn fetch(answer: (usize, u8), buffer: &mut [u8]) -> (usize, u8) {
        if let (true, Some(past)) = (answer.0 > 0, buffer.get_mut(answer.0)) {
            *past = 0;
        }
        answer
    }
}

#[test]
fn byte_past_a_reply() {
    let finding = found_within::<BytePast>(Family::Replies, 4);
    assert!(finding.calls.contains("machine.fetch(&mut [0; "), "{finding}");
}

/// A fetch that counts 13 and 10 out.
struct CountedOut;
impl Fault for CountedOut {
    fn fetch((length, number): (usize, u8), _: &mut [u8]) -> (usize, u8) {
        (length.saturating_sub(2), number)
    }
}

#[test]
fn reply_counted_short() {
    found_within::<CountedOut>(Family::Replies, 4);
}

/// A short buffer that is written, as far as it goes.
struct WrittenShort;
impl Fault for WrittenShort {
    fn fetch(answer: (usize, u8), buffer: &mut [u8]) -> (usize, u8) {
        if answer.1 == number::SHORT {
            buffer.fill(b'0');
        }
        answer
    }
}

#[test]
fn short_buffer_written() {
    found::<WrittenShort>(Family::Replies);
}

/// A feed that counts the byte that meets a reply.
struct CountedAtReply;
impl Fault for CountedAtReply {
    fn feed(mut fed: Fed, _: &mut [Record]) -> Fed {
        fed.taken += usize::from(fed.number == number::WAITS);
        fed
    }
}

#[test]
fn byte_counted_at_20() {
    found_within::<CountedAtReply>(Family::Replies, 4);
}

/// A plot that stores a refusal for the byte that meets a reply.
struct StoredAtReply;
impl Fault for StoredAtReply {
    fn plot(mut fed: Fed, records: &mut [Record]) -> Fed {
        if let (number::WAITS, Some(record)) = (fed.number, records.get_mut(fed.stored)) {
            *record = [0, i64::from(number::WAITS), fed.taken as i64 + 1, 0, 0];
            fed.stored += 1;
        }
        fed
    }
}

#[test]
fn refusal_stored_at_20() {
    found_within::<StoredAtReply>(Family::Replies, 4);
}

/// Bad hard limits that are not refused.
struct Accepted;
impl Fault for Accepted {
    fn fresh(_: u8) -> u8 {
        number::NONE
    }
}

#[test]
fn limits_accepted() {
    let finding = found_within::<Accepted>(Family::Drawings, 0);
    assert_ne!(finding.limits, differential::hunt::USUAL);
}

/// Faults in the texts of strokes.
#[cfg(feature = "writing")]
mod redraw {
    use baseline::number;
    use differential::partner::{write, Record};
    use differential::redraw::{hunt, Write};
    use vutaroi::Machine;

    /// The fault is found in lists of strokes, and shown with at most so many of them.
    fn found_within(write: Write, most: usize) {
        let Err(finding) = hunt::<Machine>(write, 1, 8_000) else {
            panic!("the fault was not found");
        };
        println!("{finding}");
        assert!(finding.list.len() <= most, "not shrunk: {finding}");
        assert!(finding.calls.contains("// due "), "no calls: {finding}");
    }

    fn byte_past(strokes: &[Record], out: &mut [u8]) -> (usize, u8) {
        let answer = write(strokes, out);
        if let (number::NONE, Some(past)) = (answer.1, out.get_mut(answer.0)) {
            *past = 0;
        }
        answer
    }

    #[test]
    fn byte_past_a_text() {
        found_within(byte_past, 0);
    }

    /// 33 before 32: a list that is refused is so with 33 where one of its length would not fit.
    fn short_first(strokes: &[Record], out: &mut [u8]) -> (usize, u8) {
        match write(strokes, out) {
            (0, number::STROKE) if out.len() < 19 => (0, number::OUTPUT),
            answer => answer,
        }
    }

    #[test]
    fn short_before_other() {
        found_within(short_first, 1);
    }

    /// A stroke that is refused, with those before it written.
    fn up_to_it(strokes: &[Record], out: &mut [u8]) -> (usize, u8) {
        let answer = write(strokes, out);
        if let (0, number::STROKE, [first, _, ..]) = (answer.0, answer.1, strokes) {
            write(&[*first], out);
        }
        answer
    }

    #[test]
    fn bad_stroke_in_the_middle() {
        found_within(up_to_it, 2);
    }

    /// A text whose last byte is not counted.
    fn counted_short(strokes: &[Record], out: &mut [u8]) -> (usize, u8) {
        let (length, number) = write(strokes, out);
        (length.saturating_sub(usize::from(strokes.len() > 2)), number)
    }

    #[test]
    fn text_counted_short() {
        found_within(counted_short, 3);
    }
}
