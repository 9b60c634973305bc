//! Wrong replies. That a reply is made when it is fetched no call can show: nothing changes while it waits.

use baseline::{Drawn, Fed, Look, Stroke};
use differential::hunt::hunt;
use differential::partner::{Partner, Record};
use differential::streams::Family;

#[allow(dead_code, unused_imports, missing_docs, clippy::wrong_self_convention)]
mod wrong {
    include!(concat!(env!("OUT_DIR"), "/wrong_replies.rs"));
}

fault!(Replies, made_at_its_name, 24);
fault!(Replies, cleared_by_a_fetch, 24);
fault!(Replies, oe_keeps_what_it_tells, 24);
fault!(Replies, kept_by_in, 24);
fault!(Replies, cleared_by_df, 24);
fault!(Replies, busy_remembered, 24);
fault!(Replies, first_refusal_kept, 24);
fault!(Replies, taken_while_a_reply_waits, 24);
fault!(Replies, byte_counted_at_20, 24);
fault!(Replies, short_buffer_written, 24);
fault!(Replies, dropped_at_31, 24);
fault!(Replies, fitting_buffer_refused, 24);
fault!(Replies, byte_past_the_reply, 24);
fault!(Replies, dropped_by_a_draw, 24);
fault!(Replies, oa_in_page_units, 24);
fault!(Replies, oa_without_the_pen, 24);
fault!(Replies, corners_in_order, 24);
fault!(Replies, hard_limits_for_a_window, 24);
fault!(Replies, window_cut_by_the_limits, 24);
fault!(Replies, window_turned, 24);
fault!(Replies, turned_the_wrong_way, 24);
fault!(Replies, unknown_in_polygons, 24);
fault!(Replies, number_allowed, 24);
fault!(Replies, plus_sign, 24);
fault!(Replies, minus_zero, 24);

/// The replies of the baseline itself are what the exact checker asks for, in every way, and all that
/// OE tells is reached.
#[test]
fn right_replies() {
    let (_, tally) = hunt::<baseline::Machine>(Family::Replies, 1, 80_000)
        .unwrap_or_else(|finding| panic!("{finding}"));
    println!("{tally}");
    for number in [0, 1, 2, 3, 6, 7, 20, 21, 31] {
        assert!(tally.numbers[number] > 0, "{number} was never answered: {tally}");
    }
    assert!(tally.replies > 10_000, "{tally}");
}
