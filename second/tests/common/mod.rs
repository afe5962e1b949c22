//! A unit with its lent memory, as the tests use it.

#![allow(dead_code)]

use second::{Access, Answer, Outcome, Snoop, Snooped, Transaction, Unit, IMAGE};

/// Kinds of accesses.
pub const USER: u32 = 0;
pub const SUPERVISOR: u32 = 0x80;
pub const WRITE: u32 = 0x40;
pub const LOCK: u32 = 0x20;

/// Bits of descriptors, area pointers and SSR.
pub const WT: u32 = 1 << 9;
pub const SP: u32 = 1 << 8;
pub const G: u32 = 1 << 7;
pub const CI: u32 = 1 << 6;
pub const M: u32 = 1 << 4;
pub const U: u32 = 1 << 3;
pub const WP: u32 = 1 << 2;
pub const BH: u32 = 1 << 1;
pub const V: u32 = 1;
pub const TE: u32 = 1;
pub const CE: u32 = 1 << 15;
pub const BE: u32 = 1 << 14;

/// Register offsets.
pub const IDR: u32 = 0x000;
pub const SCR: u32 = 0x004;
pub const SSR: u32 = 0x008;
pub const SAR: u32 = 0x00C;
pub const SCTR: u32 = 0x104;
pub const PFSR: u32 = 0x108;
pub const PFAR: u32 = 0x10C;
pub const SAPR: u32 = 0x200;
pub const UAPR: u32 = 0x204;
pub const BWP0: u32 = 0x400;

/// States of a line.
pub const EXCLUSIVE: u32 = 0;
pub const MODIFIED: u32 = 1;
pub const SHARED: u32 = 2;
pub const INVALID: u32 = 3;

pub const ROM: u32 = 0xFFE0_0000;
pub const NUMBER: u8 = 127;

#[derive(Clone, PartialEq, Eq)]
pub struct Board {
    pub unit: Unit,
    pub cells: Vec<u32>,
    pub ram: Vec<u32>,
    pub rom: Vec<u32>,
}

impl Board {
    /// After reset, with areas unmapped, local and cached. Each word of
    /// memory holds its own address.
    pub fn new(ram_words: u32, rom_words: u32) -> Board {
        let mut board = Board {
            unit: Unit::default(),
            cells: vec![0; 4096],
            ram: (0..ram_words).map(|n| 4 * n).collect(),
            rom: (0..rom_words).map(|n| ROM + 4 * n).collect(),
        };
        board.unit.reset(&mut board.cells, NUMBER).unwrap();
        board.set(SAPR, 0);
        board.set(UAPR, 0);
        board
    }

    /// User area mapped by the tables at 4000 (segments) and 6000 (pages).
    /// Address 00C05124 uses the descriptors at 400C and 6014 and stands at
    /// 0000A124.
    pub fn mapped() -> Board {
        let mut board = Board::new(16384, 4096);
        board.poke(0x400C, 0x6000 | V);
        board.poke(0x6014, 0xA000 | V);
        board.set(UAPR, 0x4000 | TE);
        board.set(SAPR, 0x4000 | TE);
        board
    }

    pub fn poke(&mut self, address: u32, word: u32) {
        self.ram[address as usize / 4] = word;
    }

    pub fn peek(&self, address: u32) -> u32 {
        self.ram[address as usize / 4]
    }

    pub fn set(&mut self, offset: u32, value: u32) -> u32 {
        self.unit.write_register(&mut self.cells, &mut self.ram, &self.rom, offset, value).unwrap()
    }

    pub fn get(&self, offset: u32) -> u32 {
        self.unit.read_register(offset).unwrap()
    }

    /// Writes SAR, then the command.
    pub fn command(&mut self, code: u32, address: u32) -> u32 {
        self.set(SAR, address);
        self.set(SCR, code)
    }

    pub fn access(&mut self, address: u32, kind: u32, enables: u32, word: u32) -> Answer {
        let access = Access::new(address, kind, enables, word);
        self.unit.access(&mut self.cells, &mut self.ram, &self.rom, &access).unwrap()
    }

    pub fn read(&mut self, address: u32) -> Answer {
        self.access(address, USER, 15, 0)
    }

    pub fn write(&mut self, address: u32, word: u32) -> Answer {
        self.access(address, WRITE, 15, word)
    }

    pub fn snoop(&mut self, address: u32, kind: u32) -> Snooped {
        self.unit.snoop(&mut self.cells, &mut self.ram, &Snoop::new(address, kind)).unwrap()
    }

    pub fn save(&self) -> Vec<u8> {
        let mut out = vec![0; IMAGE];
        self.unit.save(&self.cells, &mut out).unwrap();
        out
    }

    pub fn restore(&mut self, image: &[u8]) -> Result<(), u32> {
        self.unit.restore(&mut self.cells, image)
    }

    pub fn tag(&self, set: usize, line: usize) -> u32 {
        self.unit.lines[5 * set + line]
    }

    /// Puts a line into the cache by force, its words the given one.
    pub fn put_line(&mut self, set: usize, line: usize, page: u32, state: u32, word: u32) {
        self.unit.lines[5 * set + line] = page | state;
        self.cells[16 * set + 4 * line..][..4].fill(word);
    }

    pub fn line_words(&self, set: usize, line: usize) -> &[u32] {
        &self.cells[16 * set + 4 * line..][..4]
    }

    pub fn use_code(&self, set: usize) -> u32 {
        self.unit.lines[5 * set + 4]
    }

    /// Puts a PATC entry in by force.
    pub fn put_entry(&mut self, entry: usize, page: u32, frame: u32) {
        self.unit.patc[2 * entry] = page;
        self.unit.patc[2 * entry + 1] = frame;
    }

    pub fn entry(&self, entry: usize) -> (u32, u32) {
        (self.unit.patc[2 * entry], self.unit.patc[2 * entry + 1])
    }
}

/// A transaction by its letters: w write, g G, i IM, l LK, c CI.
pub fn transaction(letters: &str, address: u32, words: u32) -> Transaction {
    let signals = letters.chars().map(|letter| 1 << "wgilc".find(letter).unwrap()).sum();
    Transaction { signals, address, words }
}

/// Demands an outcome, a list of transactions, and the sum as word count.
#[track_caller]
pub fn expect(answer: &Answer, outcome: Outcome, list: &[Transaction]) {
    assert_eq!(answer.outcome, outcome);
    assert_eq!(answer.traffic.transactions(), list);
    assert_eq!(answer.traffic.words(), list.iter().map(|transaction| transaction.words).sum::<u32>());
}

pub fn fault(code: u32, address: u32) -> Outcome {
    Outcome::Fault(second::Fault::new(code, address))
}
