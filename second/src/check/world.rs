//! Everything a call can reach, and the calls themselves.

use crate::bits::*;
use crate::unit::{Unit, IDR, PATC_ENTRIES, POINTER, SAPR, SCR, SCTR, SSR, UAPR};
use crate::IMAGE;

/// Words and bytes that each buffer holds beyond what is lent by the rules, so
/// that a call can be given too much.
pub const SPARE: usize = 8;

/// A unit with the memory that its host lends.
#[derive(Clone, Debug, PartialEq, Eq)]
pub struct World {
    pub unit: Unit,
    pub cells: Vec<u32>,
    pub ram: Vec<u32>,
    pub rom: Vec<u32>,
    pub out: Vec<u8>,
    /// What is lent by the rules.
    pub lend: Lend,
}

impl World {
    pub fn new(ram: usize, rom: usize) -> Self {
        World {
            unit: Unit::default(),
            cells: vec![0; 4096 + SPARE],
            ram: vec![0; ram + SPARE],
            rom: vec![0; rom + SPARE],
            out: vec![0xEE; IMAGE + SPARE],
            lend: Lend { cells: 4096, ram, rom },
        }
    }

    pub fn set(&mut self, part: Part, index: usize, value: u32) {
        if let Some(word) = self.part_mut(part).get_mut(index) {
            *word = value;
        }
    }

    pub fn part(&self, part: Part) -> &[u32] {
        match part {
            Part::Registers => &self.unit.regs,
            Part::Fault => &self.unit.fault,
            Part::Entries => &self.unit.patc,
            Part::Lines => &self.unit.lines,
            Part::Cells => &self.cells,
            Part::Ram => &self.ram,
            Part::Rom => &self.rom,
        }
    }

    fn part_mut(&mut self, part: Part) -> &mut [u32] {
        match part {
            Part::Registers => &mut self.unit.regs,
            Part::Fault => &mut self.unit.fault,
            Part::Entries => &mut self.unit.patc,
            Part::Lines => &mut self.unit.lines,
            Part::Cells => &mut self.cells,
            Part::Ram => &mut self.ram,
            Part::Rom => &mut self.rom,
        }
    }

    /// Clears every bit that does not count.
    pub fn clear_foreign_bits(&mut self) {
        for part in Part::STATE {
            for (index, word) in self.part_mut(part).iter_mut().enumerate() {
                *word = own_value(part, index, *word);
            }
        }
    }
}

/// The parts of a world that are made of words.
#[derive(Clone, Copy, Debug, PartialEq, Eq)]
pub enum Part {
    Registers,
    Fault,
    Entries,
    Lines,
    Cells,
    Ram,
    Rom,
}

impl Part {
    pub const STATE: [Part; 4] = [Part::Registers, Part::Fault, Part::Entries, Part::Lines];
    pub const ALL: [Part; 7] =
        [Part::Registers, Part::Fault, Part::Entries, Part::Lines, Part::Cells, Part::Ram, Part::Rom];
}

/// The value of a word without what does not count in it.
pub fn own_value(part: Part, index: usize, word: u32) -> u32 {
    let own = match (part, index) {
        (Part::Registers, POINTER) => return if word < PATC_ENTRIES as u32 { word } else { 0 },
        (Part::Registers, IDR) => IDR_OWN,
        (Part::Registers, SCR) => SCR_OWN,
        (Part::Registers, SSR) => SSR_OWN,
        (Part::Registers, SCTR) => SCTR_OWN,
        (Part::Registers, SAPR | UAPR) => AREA_OWN,
        (Part::Fault, 0) => PFSR_OWN,
        (Part::Entries, index) if index % 2 == 0 => PATC_PAGE_OWN,
        (Part::Entries, _) => PATC_FRAME_OWN,
        (Part::Lines, index) if index % 5 == 4 => USE_OWN,
        (Part::Lines, _) => TAG_OWN,
        _ => u32::MAX,
    };
    word & own
}

/// How many words of each buffer a call is given.
#[derive(Clone, Copy, Debug, PartialEq, Eq)]
pub struct Lend {
    pub cells: usize,
    pub ram: usize,
    pub rom: usize,
}

/// A call with all that it is given.
#[derive(Clone, PartialEq, Eq)]
pub enum Call {
    Reset { cells: usize, number: u8 },
    Access { lend: Lend, address: u32, kind: u32, enables: u32, word: u32 },
    Snoop { lend: Lend, address: u32, kind: u32 },
    ReadRegister { offset: u32 },
    WriteRegister { lend: Lend, offset: u32, value: u32 },
    Save { cells: usize, out: usize },
    Restore { cells: usize, image: Vec<u8> },
}

impl Call {
    pub const KINDS: usize = 7;

    /// The call's place in tables.
    pub fn kind(&self) -> usize {
        match self {
            Call::Reset { .. } => 0,
            Call::Access { .. } => 1,
            Call::Snoop { .. } => 2,
            Call::ReadRegister { .. } => 3,
            Call::WriteRegister { .. } => 4,
            Call::Save { .. } => 5,
            Call::Restore { .. } => 6,
        }
    }
}

impl std::fmt::Debug for Call {
    fn fmt(&self, f: &mut std::fmt::Formatter) -> std::fmt::Result {
        match self {
            Call::Reset { cells, number } => write!(f, "reset(cells {cells}, number {number})"),
            Call::Access { lend, address, kind, enables, word } => write!(
                f,
                "access({lend:?}, address {address:08X}, kind {kind:02X}, enables {enables:X}, word {word:08X})"
            ),
            Call::Snoop { lend, address, kind } => {
                write!(f, "snoop({lend:?}, address {address:08X}, kind {kind:X})")
            }
            Call::ReadRegister { offset } => write!(f, "read_register(offset {offset:03X})"),
            Call::WriteRegister { lend, offset, value } => {
                write!(f, "write_register({lend:?}, offset {offset:03X}, value {value:08X})")
            }
            Call::Save { cells, out } => write!(f, "save(cells {cells}, out {out})"),
            Call::Restore { cells, image } => {
                write!(f, "restore(cells {cells}, image of {} bytes)", image.len())
            }
        }
    }
}
