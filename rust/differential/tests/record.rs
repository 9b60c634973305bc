//! The record tells two versions of a library apart, and has no arcs, no fifth decimal, no turn by
//! more than a quarter, or no replies.

use baseline::geometry::round_number;
use baseline::reader::{Event, Op, Reader};
use baseline::{number, Drawn, Fed, Look, Machine};
use differential::partner::{Partner, Record};
use differential::record::{
    four_decimals, lines, quarter_turns, recorded, without_arcs, without_replies, Without,
};
use differential::streams::Family;

const BYTES: usize = 20_000;

#[test]
fn no_arcs() {
    assert_eq!(without_arcs(b"AA0,0,90;PAAR1;aarPR;A;R".to_vec()), b"AZ0,0,90;PAZR1;aZrPR;A;R");
    for &family in Without::Arcs.families() {
        let streams = recorded(Without::Arcs, family, BYTES);
        assert!(streams.iter().map(|(_, stream)| stream.len()).sum::<usize>() >= BYTES);
        for (_, stream) in streams {
            let text = stream.to_ascii_uppercase();
            assert!(!text.windows(2).any(|name| name == b"AA" || name == b"AR"));
        }
    }
}

#[test]
fn no_fifth_decimal() {
    let (long, short) =
        (b"PA1.23456,-.00005;12345.6;.12345.67890", b"PA1.2345,-.0000;12345.6;.1234.6789");
    assert_eq!(four_decimals(long.to_vec()), short);
    let mut arcs = 0;
    for &family in Without::FifthDecimals.families() {
        let streams = recorded(Without::FifthDecimals, family, BYTES);
        assert!(streams.iter().map(|(_, stream)| stream.len()).sum::<usize>() >= BYTES);
        for (_, stream) in streams {
            let mut decimals = stream.split(|&byte| byte == b'.').skip(1);
            assert!(
                decimals.all(|text| text.iter().take_while(|b| b.is_ascii_digit()).count() <= 4)
            );
            arcs += stream.windows(2).filter(|name| name == b"AA" || name == b"AR").count();
        }
    }
    assert!(arcs > 100, "{arcs}");
}

/// The names and numbers of RO in a stream, as the baseline's reader tells them.
fn turns(stream: &[u8]) -> Vec<i64> {
    let mut reader = Reader::new();
    let mut found = Vec::new();
    for &byte in stream {
        if reader.step(byte) == Event::Perform && reader.op() == Op::Ro {
            found.extend(reader.given().iter().map(|&number| round_number(number)));
        }
    }
    found
}

#[test]
fn no_further_turn() {
    let (all, some) = (
        b"RO180;ro 270.4;RO+0269.49995;RO90;RO-180;RO;RO,,179.5\nRO360;PRO180;RO179;RO181;RO180",
        b"RZ180;rZ 270.4;RZ+0269.49995;RO90;RO-180;RO;RZ,,179.5\nRO360;PRZ180;RO179;RO181;RZ180",
    );
    assert_eq!(quarter_turns(all.to_vec()), some);
    let (mut further, mut kept) = (0, 0);
    for &family in Without::FurtherTurns.families() {
        let streams = recorded(Without::FurtherTurns, family, BYTES);
        assert!(streams.iter().map(|(_, stream)| stream.len()).sum::<usize>() >= BYTES);
        for (_, stream) in streams {
            let turns = turns(&stream);
            kept += turns.len();
            further += turns.iter().filter(|&turn| [180, 270].contains(turn)).count();
        }
    }
    assert!(further == 0 && kept > 100, "{further} {kept}");
}

#[test]
fn no_replies() {
    assert_eq!(without_replies(b"OA;oPOWOHoe;ROA;O;OC".to_vec()), b"OZ;oZOZOZoZ;ROZ;O;OC");
    let mut further = 0;
    for &family in Without::Replies.families() {
        let streams = recorded(Without::Replies, family, BYTES);
        assert!(streams.iter().map(|(_, stream)| stream.len()).sum::<usize>() >= BYTES);
        for (limits, stream) in streams {
            let mut machine = <Machine as Partner>::fresh(limits).0;
            for &byte in &stream {
                machine.take(byte);
                assert_eq!(machine.fetch(&mut []), (0, 0), "{}", stream.escape_ascii());
                while machine.draw() != Drawn::Idle {}
            }
            further += turns(&stream).iter().filter(|&turn| [180, 270].contains(turn)).count();
        }
    }
    assert!(further > 100, "{further}");
}

/// The proved library and the baseline have the same lines.
fn same_lines(without: Without) {
    for &family in without.families() {
        let due = lines::<Machine>(without, family, BYTES);
        assert_eq!(lines::<vutaroi::Machine>(without, family, BYTES), due);
    }
}

#[test]
fn same_lines_without_arcs() {
    same_lines(Without::Arcs);
}

#[test]
fn same_lines_without_fifth_decimals() {
    same_lines(Without::FifthDecimals);
}

#[test]
fn same_lines_without_further_turns() {
    same_lines(Without::FurtherTurns);
}

#[test]
fn same_lines_without_replies() {
    same_lines(Without::Replies);
}

#[test]
fn same_lines_of_whole_streams() {
    same_lines(Without::Nothing);
}

/// The baseline with one answer changed.
struct Changed<const CALL: u8>(Machine);

impl<const CALL: u8> Changed<CALL> {
    /// The stored count, one less where this call is changed and the list is full.
    fn short<const THIS: u8>(mut fed: Fed) -> Fed {
        fed.stored -= usize::from(CALL == THIS && fed.number == number::FULL);
        fed
    }
}

impl<const CALL: u8> Partner for Changed<CALL> {
    fn fresh(limits: [i64; 4]) -> (Self, u8) {
        let (machine, number) = <Machine as Partner>::fresh(limits);
        (Changed(machine), if CALL == 0 { 0 } else { number })
    }
    fn take(&mut self, byte: u8) -> u8 {
        match self.0.take(byte) {
            number::LOCATION if CALL == 1 => number::RANGE,
            number => number,
        }
    }
    fn draw(&mut self) -> Drawn {
        match self.0.draw() {
            Drawn::Hidden if CALL == 2 => Drawn::Idle,
            drawn => drawn,
        }
    }
    fn look(&self) -> Look {
        let mut seen = self.0.look();
        seen.down ^= CALL == 3 && seen.pen == 5;
        seen
    }
    fn fetch(&mut self, buffer: &mut [u8]) -> (usize, u8) {
        let (length, number) = self.0.fetch(buffer);
        (length + usize::from(CALL == 7 && length > 0), number)
    }
    fn feed(&mut self, bytes: &[u8], records: &mut [Record]) -> Fed {
        Self::short::<4>(Partner::feed(&mut self.0, bytes, records))
    }
    fn plot(&mut self, bytes: &[u8], records: &mut [Record]) -> Fed {
        Self::short::<5>(Partner::plot(&mut self.0, bytes, records))
    }
}

/// Each call, changed by itself, changes lines; none changed, none.
#[test]
fn a_change_is_seen() {
    let (without, family, bytes) = (Without::FifthDecimals, Family::Circles, 4 * BYTES);
    let due = lines::<Machine>(without, family, bytes);
    assert_ne!(lines::<Changed<0>>(without, family, bytes), due);
    assert_ne!(lines::<Changed<1>>(without, family, bytes), due);
    assert_ne!(lines::<Changed<2>>(without, family, bytes), due);
    assert_ne!(lines::<Changed<3>>(without, family, bytes), due);
    assert_ne!(lines::<Changed<4>>(without, family, bytes), due);
    assert_ne!(lines::<Changed<5>>(without, family, bytes), due);
    assert_eq!(lines::<Changed<6>>(without, family, bytes), due);
    let (without, family) = (Without::Nothing, Family::Replies);
    let due = lines::<Machine>(without, family, BYTES);
    assert_ne!(lines::<Changed<7>>(without, family, BYTES), due);
    assert_eq!(lines::<Changed<6>>(without, family, BYTES), due);
}
