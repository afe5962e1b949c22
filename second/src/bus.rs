//! The memory that the host lends, and the bus on which an access reaches it.

use crate::answer::signal::{INTENT, WRITE};
use crate::answer::{Fault, Traffic, Transaction};

/// Where ROM begins.
pub const ROM_BASE: u32 = 0xFFE0_0000;

/// Nothing answered at the address.
#[derive(Clone, Copy, Debug, PartialEq, Eq)]
pub struct BusError;

/// The bits of a word that byte enables name.
pub fn enabled_bits(enables: u32) -> u32 {
    const BITS: [u32; 16] = bits();

    const fn bits() -> [u32; 16] {
        let mut table = [0; 16];
        let mut enables = 0;
        while enables < 16 {
            let mut byte = 0;
            while byte < 4 {
                if enables >> byte & 1 == 1 {
                    table[enables] |= 0xFF << (8 * byte);
                }
                byte += 1;
            }
            enables += 1;
        }
        table
    }

    BITS[(enables & 15) as usize]
}

/// The old word with the enabled bytes of the data.
pub fn merge(old: u32, data: u32, enables: u32) -> u32 {
    let bits = enabled_bits(enables);
    old & !bits | data & bits
}

/// The lent memory, both lengths tested.
pub struct Memory<'a> {
    ram: &'a mut [u32],
    rom: &'a [u32],
}

impl<'a> Memory<'a> {
    pub fn new(ram: &'a mut [u32], rom: &'a [u32]) -> Self {
        Memory { ram, rom }
    }

    pub fn read(&self, address: u32) -> Result<u32, BusError> {
        self.ram.get(ram_index(address)).or_else(|| self.rom.get(rom_index(address))).copied().ok_or(BusError)
    }

    pub fn write(&mut self, address: u32, data: u32, enables: u32) -> Result<(), BusError> {
        let word = self.ram.get_mut(ram_index(address)).ok_or(BusError)?;
        *word = merge(*word, data, enables);
        Ok(())
    }

    pub fn read_line(&self, address: u32) -> Result<&[u32; 4], BusError> {
        line_part(self.ram, self.rom, address).try_into().map_err(|_| BusError)
    }

    pub fn write_line(&mut self, address: u32, words: &[u32; 4]) -> Result<(), BusError> {
        let start = ram_index(address);
        let part = self.ram.get_mut(start..start + 4).ok_or(BusError)?;
        part.copy_from_slice(words);
        Ok(())
    }
}

/// The part of RAM or of ROM where a line stands, else an empty part.
pub fn line_part<'a>(ram: &'a [u32], rom: &'a [u32], address: u32) -> &'a [u32] {
    let (in_ram, in_rom) = (ram_index(address), rom_index(address));
    ram.get(in_ram..in_ram + 4).or_else(|| rom.get(in_rom..in_rom + 4)).unwrap_or(&[])
}

fn ram_index(address: u32) -> usize {
    (address >> 2) as usize
}

/// An address below ROM wraps round to an index past the longest ROM.
fn rom_index(address: u32) -> usize {
    (address.wrapping_sub(ROM_BASE) >> 2) as usize
}

/// The bus during one access: the memory and the list of what was done to it.
pub struct Bus<'a> {
    pub memory: Memory<'a>,
    pub traffic: Traffic,
}

impl<'a> Bus<'a> {
    pub fn new(memory: Memory<'a>) -> Self {
        Bus { memory, traffic: Traffic::default() }
    }

    pub fn read(&mut self, address: u32, signals: u32) -> Result<u32, Fault> {
        let word = self.memory.read(address);
        self.list(signals, address, word.map_or(0, |_| 1));
        word.map_err(|_| Fault::bus_error(address))
    }

    /// Writes the enabled bytes; a write intends to modify.
    pub fn write(&mut self, address: u32, data: u32, enables: u32, signals: u32) -> Result<(), Fault> {
        let done = self.memory.write(address, data, enables);
        self.list(signals | WRITE | INTENT, address, done.map_or(0, |_| 1));
        done.map_err(|_| Fault::bus_error(address))
    }

    pub fn read_line(&mut self, address: u32, signals: u32) -> Result<[u32; 4], Fault> {
        let words = self.memory.read_line(address).copied();
        self.list(signals, address, words.map_or(0, |_| 4));
        words.map_err(|_| Fault::bus_error(address))
    }

    /// Writes a whole line; a write intends to modify.
    pub fn write_line(&mut self, address: u32, words: &[u32; 4], signals: u32) -> Result<(), Fault> {
        let done = self.memory.write_line(address, words);
        self.list(signals | WRITE | INTENT, address, done.map_or(0, |_| 4));
        done.map_err(|_| Fault::bus_error(address))
    }

    fn list(&mut self, signals: u32, address: u32, words: u32) {
        self.traffic.list(Transaction { signals, address, words });
    }
}
