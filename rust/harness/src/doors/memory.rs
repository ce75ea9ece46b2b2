/// All that is lent, at odd places and with gaps of pattern around each slice.
/// A byte's pattern goes by its place, so that a shifted byte is seen.
pub struct Memory {
    pub bytes: Vec<u8>,
    lengths: [usize; 3],
}

/// Bytes before the first slice, between the slices, and behind the last.
const GAP: usize = 13;

impl Memory {
    /// Both operands, and room for an answer.
    pub fn new(first: &[u8], second: &[u8], room: usize) -> Self {
        let lengths = [first.len(), second.len(), room];
        let size = lengths.iter().sum::<usize>() + 4 * GAP;
        let mut memory = Memory {
            bytes: (0..size).map(pattern).collect(),
            lengths,
        };
        let (lent_first, lent_second, _) = memory.split();
        lent_first.copy_from_slice(first);
        lent_second.copy_from_slice(second);
        memory
    }

    /// First operand, second operand and answer buffer.
    pub fn split(&mut self) -> (&mut [u8], &mut [u8], &mut [u8]) {
        let [first, second, out] = self.lengths;
        let (_, rest) = self.bytes.split_at_mut(GAP);
        let (first, rest) = rest.split_at_mut(first);
        let (_, rest) = rest.split_at_mut(GAP);
        let (second, rest) = rest.split_at_mut(second);
        let (_, rest) = rest.split_at_mut(GAP);
        (first, second, &mut rest[..out])
    }
}

fn pattern(at: usize) -> u8 {
    (at * 37) as u8 ^ 0xA5
}
