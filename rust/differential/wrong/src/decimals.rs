//! Wrong roundings of a number.

use baseline::{Drawn, Fed, Look, Stroke};
use differential::hunt::hunt;
use differential::partner::{Partner, Record};
use differential::streams::Family;

#[allow(dead_code, unused_imports, missing_docs, clippy::wrong_self_convention)]
mod wrong {
    include!(concat!(env!("OUT_DIR"), "/wrong_decimals.rs"));
}

fault!(Decimals, dropped, 40);
fault!(Decimals, half_away_from_zero, 40);
fault!(Decimals, half_towards_zero, 40);
fault!(Decimals, half_to_the_smaller, 40);
fault!(Decimals, half_to_even, 40);
fault!(Decimals, size_rounded_up, 40);
fault!(Decimals, fifth_alone, 40);
fault!(Decimals, later_zero_makes_a_half, 40);
fault!(Decimals, tail_begun_anew, 40);
fault!(Decimals, tail_of_the_number_before, 40);
fault!(Decimals, range_of_the_kept_digits, 40);
fault!(Decimals, range_of_the_exact, 40);

/// The numbers of the baseline itself are what the exact checker asks for, in every way; all borders
/// are reached.
#[test]
fn right_decimals() {
    let (_, tally) = hunt::<baseline::Machine>(Family::Decimals, 1, 80_000)
        .unwrap_or_else(|finding| panic!("{finding}"));
    println!("{tally}");
    for number in [0, 1, 2, 3, 6, 20, 21] {
        assert!(tally.numbers[number] > 0, "{number} was never answered: {tally}");
    }
}
