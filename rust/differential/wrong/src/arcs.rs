//! Wrong arcs.

use baseline::{Drawn, Fed, Look, Stroke};
use differential::hunt::hunt;
use differential::partner::{Partner, Record};
use differential::streams::Family;

#[allow(dead_code, unused_imports, missing_docs, clippy::wrong_self_convention)]
mod wrong {
    include!(concat!(env!("OUT_DIR"), "/wrong_arcs.rs"));
}

fault!(Arcs, centre_for_start, 24);
fault!(Arcs, whole_last_chord, 24);
fault!(Arcs, sign_lost, 24);
fault!(Arcs, left_at_start, 24);
fault!(Arcs, way_from_location, 48);
fault!(Arcs, last_not_judged, 60);
fault!(Arcs, half_to_the_smaller, 60);
fault!(Arcs, way_below_the_most, 40);
fault!(Arcs, whole_turn_refused, 24);
fault!(Arcs, sweep_to_the_smaller, 24);
fault!(Arcs, centre_judged, 60);
fault!(Arcs, drawn_pen_up, 24);
fault!(Arcs, known_in_polygons, 24);

/// The arcs of the baseline itself are what the exact checker asks for, in every way; all borders
/// are reached.
#[test]
fn right_arcs() {
    let (_, tally) = hunt::<baseline::Machine>(Family::Arcs, 1, 40_000)
        .unwrap_or_else(|finding| panic!("{finding}"));
    println!("{tally}");
    for number in [0, 1, 2, 3, 6, 20, 21] {
        assert!(tally.numbers[number] > 0, "{number} was never answered: {tally}");
    }
}
