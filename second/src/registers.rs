//! The registers as the host and the processor see them.

use crate::bits::*;
use crate::bus::Memory;
use crate::refusal::{self, Cells};
use crate::unit::{Unit, BWP0, IDR, SAPR, SAR, SCR, SCTR, SSR, UAPR};

/// A register at an offset.
enum Register {
    /// A place in `Unit::regs` and its own bits.
    Unit(usize, u32),
    /// A place in `Unit::fault` and its own bits.
    Fault(usize, u32),
    /// A BATC write port.
    Port(usize),
    Command,
    Identity,
    Nothing,
}

fn register(offset: u32) -> Register {
    match offset {
        0x000 => Register::Identity,
        0x004 => Register::Command,
        0x008 => Register::Unit(SSR, SSR_OWN),
        0x00C => Register::Unit(SAR, u32::MAX),
        0x104 => Register::Unit(SCTR, SCTR_OWN),
        0x108 => Register::Fault(0, PFSR_OWN),
        0x10C => Register::Fault(1, u32::MAX),
        0x200 => Register::Unit(SAPR, AREA_OWN),
        0x204 => Register::Unit(UAPR, AREA_OWN),
        0x400..=0x41C => Register::Port(((offset - 0x400) as usize / 4) & 7),
        _ => Register::Nothing,
    }
}

impl Unit {
    pub fn read_register(&self, offset: u32) -> Result<u32, u32> {
        refusal::offset(offset)?;
        Ok(self.load_register(offset))
    }

    /// Answers the count of words that a command moved.
    pub fn write_register(
        &mut self,
        cells: &mut [u32],
        ram: &mut [u32],
        rom: &[u32],
        offset: u32,
        value: u32,
    ) -> Result<u32, u32> {
        refusal::ram(ram)?;
        refusal::rom(rom)?;
        let cells = refusal::cells_mut(cells)?;
        refusal::offset(offset)?;
        Ok(self.store_register(cells, &mut Memory::new(ram, rom), offset, value))
    }

    pub(crate) fn load_register(&self, offset: u32) -> u32 {
        match register(offset) {
            Register::Unit(place, own) => self.regs[place] & own,
            Register::Fault(place, own) => self.fault[place] & own,
            Register::Identity => self.regs[IDR] & IDR_OWN,
            Register::Command => self.regs[SCR] & SCR_OWN,
            Register::Port(_) | Register::Nothing => 0,
        }
    }

    pub(crate) fn store_register(
        &mut self,
        cells: &mut Cells,
        memory: &mut Memory,
        offset: u32,
        value: u32,
    ) -> u32 {
        match register(offset) {
            Register::Unit(place, own) => self.regs[place] = value & own,
            Register::Fault(place, own) => self.fault[place] = value & own,
            Register::Port(port) => self.regs[BWP0 + port] = value,
            Register::Command => {
                self.regs[SCR] = value & SCR_OWN;
                return self.command(cells, memory, value & SCR_OWN);
            }
            Register::Identity | Register::Nothing => {}
        }
        0
    }
}
