//! Wrong line types.

use baseline::{Drawn, Fed, Look, Stroke};
use differential::hunt::hunt;
use differential::partner::{Partner, Record};
use differential::streams::Family;

#[allow(dead_code, unused_imports, missing_docs, clippy::wrong_self_convention)]
mod wrong {
    include!(concat!(env!("OUT_DIR"), "/wrong_line_types.rs"));
}

fault!(LineTypes, leaving_as_entering, 24);
fault!(LineTypes, wrong_end_kept, 24);
fault!(LineTypes, edge_outside, 24);
fault!(LineTypes, dot_on_an_edge_hidden, 24);
fault!(LineTypes, end_from_the_rounded_start, 32);
fault!(LineTypes, start_from_the_rounded_end, 32);
fault!(LineTypes, type_by_the_window_alone, 32);
fault!(LineTypes, type_by_the_hard_limits_alone, 32);
fault!(LineTypes, hidden_with_one_end_inside, 24);
fault!(LineTypes, pen_up_edge_inside_painted, 32);
fault!(LineTypes, window_not_turned, 40);

/// The line types of the baseline itself are what the exact checker asks for, in every way; all four
/// are reached, shown and hidden.
#[test]
fn right_line_types() {
    let (_, tally) = hunt::<baseline::Machine>(Family::LineTypes, 1, 80_000)
        .unwrap_or_else(|finding| panic!("{finding}"));
    println!("{tally}");
    assert!(tally.types[1..].iter().all(|&count| count > 500), "{tally}");
    assert!(tally.strokes > 1_000 && tally.hidden > 1_000, "{tally}");
}
