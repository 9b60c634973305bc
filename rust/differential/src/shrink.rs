//! The shortest input that still fails.

/// Shortens `input`, which fails: chunks are left out, then bytes, then numbers are made simpler,
/// as long as the rest still fails. What is returned fails, and no byte of it can be left out.
pub fn shrink(input: &[u8], mut fails: impl FnMut(&[u8]) -> bool) -> Vec<u8> {
    let mut shortest = input.to_vec();
    loop {
        let before = shortest.clone();
        shorten(&mut shortest, &mut fails);
        simplify(&mut shortest, &mut fails);
        if shortest == before {
            return shortest;
        }
    }
}

/// Leaves out chunks, half of the input at first and single bytes, or other parts of it, at last.
pub(crate) fn shorten<T: Clone>(input: &mut Vec<T>, fails: &mut impl FnMut(&[T]) -> bool) {
    let mut size = input.len().div_ceil(2);
    while size > 0 {
        leave_out_chunks(input, size, fails);
        size /= 2;
    }
}

fn leave_out_chunks<T: Clone>(
    input: &mut Vec<T>,
    size: usize,
    fails: &mut impl FnMut(&[T]) -> bool,
) {
    let mut at = 0;
    while at < input.len() {
        let end = (at + size).min(input.len());
        let rest = [&input[..at], &input[end..]].concat();
        if fails(&rest) {
            *input = rest;
        } else {
            at = end;
        }
    }
}

/// Makes one number after another as simple as it goes.
fn simplify(input: &mut Vec<u8>, fails: &mut impl FnMut(&[u8]) -> bool) {
    let in_number = |byte: &u8| byte.is_ascii_digit() || matches!(byte, b'+' | b'-' | b'.');
    let mut at = 0;
    while at < input.len() {
        let end = at + input[at..].iter().take_while(|byte| in_number(byte)).count();
        let put = |number: Vec<u8>| [&input[..at], &number, &input[end..]].concat();
        match simpler(&input[at..end]).into_iter().map(put).find(|input| fails(input)) {
            Some(failing) => *input = failing,
            None => at = end + 1,
        }
    }
}

/// Numbers that are shorter than this one or, at the same length, have a smaller sum of digits.
fn simpler(number: &[u8]) -> Vec<Vec<u8>> {
    let cost =
        |text: &[u8]| (text.len(), text.iter().map(|&byte| usize::from(byte)).sum::<usize>());
    let round = |digit: u8| {
        let lead = number.iter().position(u8::is_ascii_digit).unwrap_or(0);
        let zeros = number[lead..].iter().skip(1).map(|&b| if b == b'.' { b } else { b'0' });
        number[..lead].iter().copied().chain([digit]).chain(zeros).collect::<Vec<u8>>()
    };
    let mut candidates = vec![b"0".to_vec(), b"1".to_vec(), round(b'1')];
    if let Some(&first) = number.iter().find(|byte| byte.is_ascii_digit()) {
        candidates.extend([round(first), round(first.saturating_sub(1).max(b'0'))]);
    }
    for at in (0..number.len()).filter(|&at| number[at].is_ascii_digit() && number[at] > b'0') {
        let mut lower = number.to_vec();
        lower[at] -= 1;
        candidates.push(lower);
    }
    candidates.retain(|candidate| cost(candidate) < cost(number));
    candidates
}
