//! Text that is gathered: bytes, and whole numbers in decimal. (`write!` takes many times as long for
//! these, and a drawing is little else.)

/// The most bytes of a number: a minus and nineteen digits, or twenty; and a byte after it.
const LONGEST: usize = 21;

/// The most numbers that are appended at once.
const MOST: usize = 5;

/// Room for that many, and for four digits that are written before it is known how many count.
const ROOM: usize = MOST * LONGEST + 4;

/// Bytes, of which the first count.
pub struct Text {
    bytes: Vec<u8>,
    used: usize,
}

impl Text {
    pub fn new() -> Text {
        Text { bytes: Vec::new(), used: 0 }
    }

    /// What is gathered.
    pub fn bytes(&self) -> &[u8] {
        &self.bytes[..self.used]
    }

    /// From now on nothing is.
    pub fn clear(&mut self) {
        self.used = 0;
    }

    /// Makes room for so many bytes.
    #[inline]
    fn reserve(&mut self, count: usize) {
        if self.bytes.len() - self.used < count {
            self.bytes.resize(2 * (self.used + count), 0);
        }
    }

    /// Appends bytes.
    #[inline]
    pub fn push(&mut self, bytes: &[u8]) {
        self.reserve(bytes.len());
        self.bytes[self.used..self.used + bytes.len()].copy_from_slice(bytes);
        self.used += bytes.len();
    }

    /// Appends a number.
    pub fn push_number(&mut self, number: i64) {
        self.push_numbers(&[number], b' ', b"");
    }

    /// Appends numbers, at most five, with a byte between two of them, and bytes after the last.
    #[inline]
    pub fn push_numbers<const N: usize>(&mut self, numbers: &[i64; N], between: u8, after: &[u8]) {
        const { assert!(N > 0 && N <= MOST) };
        self.reserve(ROOM);
        let Some(room) = self.bytes[self.used..].first_chunk_mut() else { return };
        let mut at = 0;
        for &number in numbers {
            at = put(room, at, number);
            room[at] = between;
            at += 1;
        }
        self.used += at - 1;
        self.push(after);
    }
}

/// Both digits of each number below 100.
static PAIRS: [[u8; 2]; 100] = pairs();

const fn pairs() -> [[u8; 2]; 100] {
    let mut pairs = [[0; 2]; 100];
    let mut n = 0;
    while n < pairs.len() {
        pairs[n] = [b'0' + (n / 10) as u8, b'0' + (n % 10) as u8];
        n += 1;
    }
    pairs
}

/// Four digits, with zeros before.
#[inline]
fn digits(n: u32) -> [u8; 4] {
    let ([a, b], [c, d]) = (PAIRS[(n / 100 % 100) as usize], PAIRS[(n % 100) as usize]);
    [a, b, c, d]
}

/// A number below 10,000 without the zeros before it.
#[inline]
fn put_short(room: &mut [u8; ROOM], at: usize, n: u32) -> usize {
    let zeros = usize::from(n < 1000) + usize::from(n < 100) + usize::from(n < 10);
    let word = u32::from_le_bytes(digits(n)) >> (8 * zeros);
    room[at..at + 4].copy_from_slice(&word.to_le_bytes());
    at + 4 - zeros
}

/// Any number: what stands before its last four digits, and these.
fn put_long(room: &mut [u8; ROOM], at: usize, n: u64) -> usize {
    let (before, last) = (n / 10_000, (n % 10_000) as u32);
    if before == 0 {
        return put_short(room, at, last);
    }
    let end = put_long(room, at, before);
    room[end..end + 4].copy_from_slice(&digits(last));
    end + 4
}

#[inline]
fn put(room: &mut [u8; ROOM], at: usize, number: i64) -> usize {
    room[at] = b'-';
    let at = at + usize::from(number < 0);
    let size = number.unsigned_abs();
    if size < 10_000 {
        return put_short(room, at, size as u32);
    }
    put_long(room, at, size)
}
