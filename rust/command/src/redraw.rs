//! Strokes back into HP-GL: lines as strokes prints them in, a drawing out. So a drawing can be changed
//! by hand: `vutaroi strokes a.hpgl > a.txt`, change a.txt, `vutaroi redraw a.txt > b.hpgl`.

use crate::failure::Failure;
use crate::streams::{Name, Output};
use vutaroi::{most_bytes, write, Stroke};

/// What a line is.
enum Line {
    Stroke(Stroke),
    Passed,
}

/// One drawing of the lines of all inputs.
pub fn drawing(inputs: &[Name], output: &mut Output) -> Result<(), Failure> {
    let mut strokes = Vec::new();
    let mut passed = 0;
    for name in inputs {
        let bytes = name.open()?.whole()?;
        passed += gathered(name, &String::from_utf8_lossy(&bytes), &mut strokes)?;
    }
    let mut text = vec![0; most_bytes(strokes.len())];
    let length =
        write(&strokes, &mut text).map_err(|refusal| Failure::Line(refusal.to_string()))?;
    output.text().push(&text[..length]);
    output.flush()?;
    if passed > 0 {
        eprintln!("vutaroi: lines of refusals and replies passed over: {passed}");
    }
    Ok(())
}

/// Appends the strokes of a text; how many of its lines are passed over.
fn gathered(name: &Name, text: &str, strokes: &mut Vec<Stroke>) -> Result<usize, Failure> {
    let mut passed = 0;
    for (i, line) in text.lines().enumerate() {
        let told = |why: &str| Failure::Line(format!("{name}: line {}: {why}: {line}", i + 1));
        match read(line).ok_or_else(|| told("no stroke"))? {
            Line::Stroke(stroke) => {
                // alone, so that a stroke that cannot be written is told by its line
                write(&[stroke], &mut [0; most_bytes(1)]).map_err(|refusal| {
                    let cause = "a pen other than 1 to 8 or an end outside -32768 to 32767";
                    told(&format!("{refusal}, {cause}"))
                })?;
                strokes.push(stroke);
            }
            Line::Passed => passed += 1,
        }
    }
    Ok(passed)
}

/// A line of strokes: a stroke's five numbers; `E`, number and byte of a refusal; or a reply, one, three
/// or four numbers with commas. None is anything else.
fn read(line: &str) -> Option<Line> {
    if let Some(refusal) = line.strip_prefix("E ") {
        return (numbers(refusal, ' ')?.len() == 2).then_some(Line::Passed);
    }
    match numbers(line, ' ').as_deref() {
        Some(&[pen, x0, y0, x1, y1]) => Some(Line::Stroke(Stroke { pen, x0, y0, x1, y1 })),
        _ => matches!(numbers(line, ',')?.len(), 1 | 3 | 4).then_some(Line::Passed),
    }
}

/// Whole numbers with a byte between two of them, and nothing else.
fn numbers(text: &str, between: char) -> Option<Vec<i64>> {
    text.split(between).map(|word| word.parse().ok()).collect()
}
