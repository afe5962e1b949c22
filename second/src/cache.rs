//! The data cache: 256 sets of four lines of four words.

use crate::bits::{PAGE, TAG_OWN};
use crate::bus::merge;
use crate::order::UseOrder;
use crate::refusal::Cells;

/// Words of state in one set: four tags and the use code.
pub const SET_WORDS: usize = 5;
pub const SETS: usize = 256;
pub const LINES: usize = 4;

/// The states of a line.
pub const EXCLUSIVE: u32 = 0;
pub const MODIFIED: u32 = 1;
pub const SHARED: u32 = 2;
pub const INVALID: u32 = 3;

const STATE: u32 = 3;

/// A line of a set.
#[derive(Clone, Copy, Debug, PartialEq, Eq)]
pub struct Place {
    pub set: usize,
    pub line: usize,
}

impl Place {
    fn tag_index(self) -> usize {
        SET_WORDS * (self.set & 0xFF) + (self.line & 3)
    }

    fn use_index(self) -> usize {
        SET_WORDS * (self.set & 0xFF) + LINES
    }

    fn first_cell(self) -> usize {
        16 * (self.set & 0xFF) + 4 * (self.line & 3)
    }
}

/// The set of a physical address.
pub fn set_of(address: u32) -> usize {
    (address >> 4 & 0xFF) as usize
}

/// The cache during one call: its state and its lent data.
pub struct Cache<'a> {
    lines: &'a mut [u32; SET_WORDS * SETS],
    cells: &'a mut Cells,
}

impl<'a> Cache<'a> {
    pub fn new(lines: &'a mut [u32; SET_WORDS * SETS], cells: &'a mut Cells) -> Self {
        Cache { lines, cells }
    }

    /// The lowest valid line with the tag of a physical address.
    pub fn find(&self, address: u32) -> Option<Place> {
        let set = set_of(address);
        (0..LINES).map(|line| Place { set, line }).find(|place| {
            let word = self.lines[place.tag_index()];
            (word ^ address) & PAGE == 0 && word & STATE != INVALID
        })
    }

    /// The line to be filled on a miss.
    pub fn victim(&self, address: u32) -> Place {
        let set = set_of(address);
        let place = |line| Place { set, line };
        let invalid = (0..LINES).find(|&line| self.state(place(line)) == INVALID);
        let order = UseOrder::new(self.lines[place(0).use_index()]);
        place(invalid.or_else(|| order.earliest()).unwrap_or(0))
    }

    pub fn state(&self, place: Place) -> u32 {
        self.lines[place.tag_index()] & STATE
    }

    /// Gives a line a state; tag and data stay.
    pub fn set_state(&mut self, place: Place, state: u32) {
        let word = &mut self.lines[place.tag_index()];
        *word = *word & (TAG_OWN & !STATE) | state;
    }

    /// The physical address of a line's first word.
    pub fn address(&self, place: Place) -> u32 {
        self.lines[place.tag_index()] & PAGE | (place.set as u32 & 0xFF) << 4
    }

    pub fn words(&self, place: Place) -> &[u32; 4] {
        let first = place.first_cell();
        self.cells[first..first + 4].try_into().unwrap_or(&[0; 4])
    }

    /// Puts a line of memory into its place, shared.
    pub fn fill(&mut self, place: Place, address: u32, words: &[u32; 4]) {
        let first = place.first_cell();
        self.cells[first..first + 4].copy_from_slice(words);
        self.lines[place.tag_index()] = address & PAGE | SHARED;
    }

    pub fn word(&self, place: Place, address: u32) -> u32 {
        self.cells[word_cell(place, address)]
    }

    pub fn write_word(&mut self, place: Place, address: u32, data: u32, enables: u32) {
        let word = &mut self.cells[word_cell(place, address)];
        *word = merge(*word, data, enables);
    }

    /// Notes that a line was used.
    pub fn mark_used(&mut self, place: Place) {
        let word = &mut self.lines[place.use_index()];
        *word = UseOrder::new(*word).using(place.line).code();
    }
}

fn word_cell(place: Place, address: u32) -> usize {
    place.first_cell() + (address >> 2 & 3) as usize
}
