//! The order in which the four lines of a set were used.

/// For each line, the pairs it takes part in.
const PAIRS: [u32; 4] = [0b001011, 0b010101, 0b100110, 0b111000];

/// For each line, the pairs in which it is the higher line.
const HIGHER: [u32; 4] = [0b000000, 0b000001, 0b000110, 0b111000];

/// A use code. Bits 0 to 5 stand for the pairs 01, 02, 12, 03, 13, 23; a bit
/// is one when the higher line of its pair was used later.
#[derive(Clone, Copy, Debug, PartialEq, Eq)]
pub struct UseOrder(u32);

impl UseOrder {
    /// Of the word only the six bits of the code count.
    pub fn new(word: u32) -> Self {
        UseOrder(word & 0x3F)
    }

    pub fn code(self) -> u32 {
        self.0
    }

    /// The order after the line was used.
    pub fn using(self, line: usize) -> Self {
        UseOrder(self.0 & !PAIRS[line & 3] | HIGHER[line & 3])
    }

    /// The line used earlier than all others, if there is one.
    pub fn earliest(self) -> Option<usize> {
        (0..4).find(|&line| self.earlier_lines(line) == 0)
    }

    /// Whether the six pairs agree on one order of the four lines.
    pub fn is_order(self) -> bool {
        let counts = (0..4).fold(0, |counts, line| counts | 1 << self.earlier_lines(line));
        counts == 0b1111
    }

    /// How many lines were used earlier than this one.
    fn earlier_lines(self, line: usize) -> u32 {
        (!(self.0 ^ HIGHER[line]) & PAIRS[line]).count_ones()
    }
}
