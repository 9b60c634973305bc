//! The loads that are named after a line type have segments of that type alone, and all of them show; the
//! load of write has the text of its strokes.

use baseline::{Drawn, Machine};
use differential::loads::{LIMITS, LOADS};

#[test]
fn line_types_of_loads() {
    for (name, due) in [("pd", 1), ("leaving", 2), ("entering", 3), ("crossing", 4)] {
        let load = LOADS.into_iter().find(|load| load.name == name).expect(name);
        let [left, bottom, right, top] = LIMITS;
        let mut machine = Machine::fresh(left, bottom, right, top).0;
        let mut strokes = 0;
        for &byte in &load.bytes()[..100_000] {
            assert_eq!(machine.take(byte), 0);
            if let Some(told) = machine.line_type() {
                assert_eq!(told as u8, due, "{name}");
                assert!(matches!(machine.draw(), Drawn::Stroke(_)), "{name}");
                strokes += 1;
            }
        }
        println!("{name}: {strokes} strokes of type {due}");
        assert!(strokes > 3_000, "{name}: {strokes}");
    }
}

#[test]
fn text_of_a_load() {
    let load = LOADS.into_iter().find(|load| load.name == "redraw").expect("a load of write");
    let (list, mut out) = (load.strokes().expect("strokes"), load.bytes());
    assert_eq!(list.len(), 10_000);
    out.fill(0);
    assert_eq!(baseline::write(&list, &mut out), (out.len(), 0));
    assert!(out == load.bytes());
    assert_eq!(LOADS.iter().filter(|load| load.strokes().is_some()).count(), 1);
}
