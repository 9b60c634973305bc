//! The text of a reply (change request 5).

/// The most bytes of a reply: four times -1000000, three commas, 13 and 10.
pub const LONGEST_REPLY: usize = 37;

/// Whole numbers in decimal with commas, closed by 13, 10; made once, whatever changes after.
#[derive(Clone, Copy, Debug)]
pub(crate) struct Reply {
    bytes: [u8; LONGEST_REPLY],
    /// Where the text begins; it ends with the bytes.
    start: usize,
}

impl Reply {
    /// Written from its last byte to its first, since the digits of a number come that way.
    pub(crate) fn of(values: &[i64]) -> Reply {
        let mut reply = Reply { bytes: [0; LONGEST_REPLY], start: LONGEST_REPLY };
        reply.push(10);
        reply.push(13);
        for (index, &value) in values.iter().enumerate().rev() {
            reply.push_whole(value);
            if index > 0 {
                reply.push(b',');
            }
        }
        reply
    }

    pub(crate) fn text(&self) -> &[u8] {
        &self.bytes[self.start..]
    }

    fn push(&mut self, byte: u8) {
        self.start -= 1;
        self.bytes[self.start] = byte;
    }

    fn push_whole(&mut self, value: i64) {
        let mut rest = value.unsigned_abs();
        loop {
            self.push(b'0' + (rest % 10) as u8);
            rest /= 10;
            if rest == 0 {
                break;
            }
        }
        if value < 0 {
            self.push(b'-');
        }
    }
}
