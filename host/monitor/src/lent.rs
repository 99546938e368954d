//! Lent buffers between canary bytes.

use second_checker::random::Random;

/// So many canary bytes stand on each side at least.
const CANARIES: usize = 256;

/// Bytes to lend, at any alignment, with canary bytes before and after.
pub struct Lent {
    whole: Vec<u8>,
    start: usize,
    length: usize,
    canary: [u8; 8],
}

impl Lent {
    pub fn new(content: &[u8], random: &mut Random) -> Lent {
        let canary = random.next().to_le_bytes();
        let start = CANARIES + random.below(16);
        let length = content.len();
        let end = start + length;
        let mut whole = canary.repeat((end + CANARIES).div_ceil(8));
        whole[start..end].copy_from_slice(content);
        Lent {
            whole,
            start,
            length,
            canary,
        }
    }

    pub fn bytes(&self) -> &[u8] {
        &self.whole[self.start..self.start + self.length]
    }

    pub fn bytes_mut(&mut self) -> &mut [u8] {
        &mut self.whole[self.start..self.start + self.length]
    }

    /// Whether the bytes around the buffer are what they were.
    pub fn canaries_unchanged(&self) -> bool {
        let end = self.start + self.length;
        self.are_canaries(0, self.start) && self.are_canaries(end, self.whole.len())
    }

    /// Whether the bytes from one index up to another are canary bytes.
    fn are_canaries(&self, from: usize, to: usize) -> bool {
        let mut canary = self.canary;
        canary.rotate_left(from % 8);
        self.whole[from..to]
            .chunks(8)
            .all(|chunk| *chunk == canary[..chunk.len()])
    }
}
