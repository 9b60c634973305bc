//! Wrong texts of strokes.

use baseline::Machine;
use differential::dice::Dice;
use differential::lists;
use differential::redraw::{hunt, paint, Tally, Write};

#[allow(dead_code, unused_imports, missing_docs)]
mod wrong {
    include!(concat!(env!("OUT_DIR"), "/wrong_redraw.rs"));
}

/// A wrong copy is found, and the list brought down to at most so many strokes.
macro_rules! fault {
    ($name:ident, $most:expr) => {
        #[test]
        fn $name() {
            found(wrong::$name::write::write, $most);
        }
    };
}

fn found(write: Write, most: usize) {
    let Err(finding) = hunt::<Machine>(write, 1, 8_000) else { panic!("the fault was not found") };
    println!("{finding}");
    assert!(finding.list.len() <= most, "not shrunk: {finding}");
    assert!(finding.calls.contains("// due "), "no calls: {finding}");
}

fault!(short_before_other, 1);
fault!(written_up_to_a_bad_stroke, 1);
fault!(only_the_first_judged, 2);
fault!(last_not_judged, 1);
fault!(length_with_a_refusal, 1);
fault!(short_output_written, 1);
fault!(fitting_output_refused, 0);
fault!(byte_past_the_text, 0);
fault!(counted_one_more, 3);
fault!(pen_0_allowed, 1);
fault!(pen_9_allowed, 1);
fault!(pen_8_refused, 1);
fault!(pen_by_its_lowest_byte, 1);
fault!(end_32768_allowed, 1);
fault!(least_end_refused, 1);
fault!(end_by_its_lower_half, 1);
fault!(in_without_its_semicolon, 0);
fault!(no_sp_where_the_pen_comes_back, 3);
fault!(sp_before_each, 2);
fault!(no_sp_before_the_first, 1);
fault!(pd_from_the_last_end, 2);
fault!(strokes_joined, 2);
fault!(from_end_to_start, 1);
fault!(dot_left_out, 1);
fault!(equal_strokes_once, 2);
fault!(minus_zero, 1);
fault!(plus_sign, 1);
fault!(digits_in_front, 1);

/// How many of 200 good lists a fresh machine paints otherwise.
fn not_painted_again(write: Write) -> usize {
    let mut dice = Dice::new(1);
    let is_other = |_: &usize| {
        let list = lists::good(&mut dice);
        let mut out = vec![7; 3 + 36 * list.len()];
        let (length, _) = write(&list, &mut out);
        paint::<Machine>(&out[..length], &list, &mut Tally::default()).is_err()
    };
    (0..200).filter(is_other).count()
}

/// What is painted tells by itself where a text gives another list, and only there.
#[test]
fn painted_otherwise() {
    use wrong::*;
    let others: [Write; 6] = [
        pd_from_the_last_end::write::write,
        no_sp_where_the_pen_comes_back::write::write,
        no_sp_before_the_first::write::write,
        from_end_to_start::write::write,
        dot_left_out::write::write,
        equal_strokes_once::write::write,
    ];
    for write in others {
        assert!(not_painted_again(write) > 10);
    }
    for write in [in_without_its_semicolon::write::write, strokes_joined::write::write] {
        assert_eq!(not_painted_again(write), 0);
    }
    assert_eq!(not_painted_again(baseline::write), 0);
}

/// The baseline itself shows no difference, and every answer is reached.
#[test]
fn right_texts() {
    let tally =
        hunt::<Machine>(baseline::write, 1, 8_000).unwrap_or_else(|found| panic!("{found}"));
    println!("{tally}");
    let counts = [tally.texts, tally.other, tally.short, tally.painted, tally.after_10];
    assert!(counts.iter().all(|&count| count > 50), "{tally}");
}
