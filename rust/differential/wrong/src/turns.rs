//! Wrong turns.

use baseline::{Drawn, Fed, Look, Stroke};
use differential::hunt::hunt;
use differential::partner::{Partner, Record};
use differential::streams::Family;

#[allow(dead_code, unused_imports, unused_variables, missing_docs, clippy::wrong_self_convention)]
mod wrong {
    include!(concat!(env!("OUT_DIR"), "/wrong_turns.rs"));
}

fault!(Turns, half_for_three_quarters, 28);
fault!(Turns, three_quarters_for_half, 28);
fault!(Turns, window_left_at_half, 28);
fault!(Turns, window_not_put_in_order, 28);
fault!(Turns, hard_limits_turned, 28);
fault!(Turns, page_point_moved, 28);
fault!(Turns, not_turned_back, 28);
fault!(Turns, whole_turn_accepted, 28);
fault!(Turns, minus_90_accepted, 28);
fault!(Turns, value_not_rounded, 28);
fault!(Turns, half_of_x_alone, 28);
fault!(Turns, half_of_y_alone, 28);
fault!(Turns, three_quarters_mirrored_in_y, 28);
fault!(Turns, three_quarters_mirrored_in_x, 28);
fault!(Turns, turned_before_rounding, 28);
fault!(Turns, edges_not_turned, 28);
fault!(Turns, ended_by_df, 28);

/// The turns of the baseline itself are what the exact checker asks for, in every way; all borders are
/// reached.
#[test]
fn right_turns() {
    let (_, tally) = hunt::<baseline::Machine>(Family::Turns, 1, 80_000)
        .unwrap_or_else(|finding| panic!("{finding}"));
    println!("{tally}");
    for number in [0, 1, 2, 3, 6, 20, 21] {
        assert!(tally.numbers[number] > 0, "{number} was never answered: {tally}");
    }
}
