//! The proved implementation, called through its C functions.

use crate::check::machine::{Machine, Reply};
use crate::check::world::{Lend, World};

/// The fault pair as the C interface has it.
#[repr(C)]
struct Fault {
    status: u32,
    address: u32,
}

extern "C" {
    fn mc88200_reset(
        unit: *mut u32,
        fault: *mut Fault,
        patc: *mut u32,
        lines: *mut u32,
        cells: *mut u32,
        cells_len: usize,
        number: u8,
    ) -> u32;
    fn mc88200_access(
        unit: *mut u32,
        fault: *mut Fault,
        patc: *mut u32,
        lines: *mut u32,
        cells: *mut u32,
        cells_len: usize,
        ram: *mut u32,
        ram_len: usize,
        rom: *const u32,
        rom_len: usize,
        address: u32,
        kind: u32,
        enables: u32,
        word: u32,
        reply: *mut u32,
    ) -> u32;
    fn mc88200_snoop(
        unit: *mut u32,
        lines: *mut u32,
        cells: *mut u32,
        cells_len: usize,
        ram: *mut u32,
        ram_len: usize,
        address: u32,
        kind: u32,
        reply: *mut u32,
    ) -> u32;
    fn mc88200_read_register(unit: *const u32, fault: *const Fault, offset: u32, reply: *mut u32) -> u32;
    fn mc88200_write_register(
        unit: *mut u32,
        fault: *mut Fault,
        patc: *mut u32,
        lines: *mut u32,
        cells: *mut u32,
        cells_len: usize,
        ram: *mut u32,
        ram_len: usize,
        rom: *const u32,
        rom_len: usize,
        offset: u32,
        value: u32,
        reply: *mut u32,
    ) -> u32;
    fn mc88200_save(
        unit: *const u32,
        fault: *const Fault,
        patc: *const u32,
        lines: *const u32,
        cells: *const u32,
        cells_len: usize,
        out: *mut u8,
        out_len: usize,
    ) -> u32;
    fn mc88200_restore(
        unit: *mut u32,
        fault: *mut Fault,
        patc: *mut u32,
        lines: *mut u32,
        cells: *mut u32,
        cells_len: usize,
        image: *const u8,
        image_len: usize,
    ) -> u32;
}

#[derive(Clone, Copy, Debug, Default)]
pub struct Proved;

fn fault_mut(fault: &mut [u32; 2]) -> *mut Fault {
    fault.as_mut_ptr().cast()
}

fn fault_const(fault: &[u32; 2]) -> *const Fault {
    fault.as_ptr().cast()
}

// Every call passes pointers to the whole arrays of the world's unit, whose
// lengths are those of the interface, and slices with their own lengths. The
// parts of a world do not overlap. The fault pair is two words in a row.
impl Machine for Proved {
    fn name(&self) -> &'static str {
        "proved"
    }

    fn reset(&self, world: &mut World, cells: usize, number: u8) -> u32 {
        let unit = &mut world.unit;
        let cells = &mut world.cells[..cells];
        unsafe {
            mc88200_reset(
                unit.regs.as_mut_ptr(),
                fault_mut(&mut unit.fault),
                unit.patc.as_mut_ptr(),
                unit.lines.as_mut_ptr(),
                cells.as_mut_ptr(),
                cells.len(),
                number,
            )
        }
    }

    fn access(&self, world: &mut World, lend: Lend, access: [u32; 4], reply: &mut Reply) -> u32 {
        let World { unit, cells, ram, rom, .. } = world;
        let (cells, ram, rom) = (&mut cells[..lend.cells], &mut ram[..lend.ram], &rom[..lend.rom]);
        let [address, kind, enables, word] = access;
        unsafe {
            mc88200_access(
                unit.regs.as_mut_ptr(),
                fault_mut(&mut unit.fault),
                unit.patc.as_mut_ptr(),
                unit.lines.as_mut_ptr(),
                cells.as_mut_ptr(),
                cells.len(),
                ram.as_mut_ptr(),
                ram.len(),
                rom.as_ptr(),
                rom.len(),
                address,
                kind,
                enables,
                word,
                reply.as_mut_ptr(),
            )
        }
    }

    fn snoop(&self, world: &mut World, lend: Lend, snoop: [u32; 2], reply: &mut Reply) -> u32 {
        let World { unit, cells, ram, .. } = world;
        let (cells, ram) = (&mut cells[..lend.cells], &mut ram[..lend.ram]);
        let [address, kind] = snoop;
        unsafe {
            mc88200_snoop(
                unit.regs.as_mut_ptr(),
                unit.lines.as_mut_ptr(),
                cells.as_mut_ptr(),
                cells.len(),
                ram.as_mut_ptr(),
                ram.len(),
                address,
                kind,
                reply.as_mut_ptr(),
            )
        }
    }

    fn read_register(&self, world: &World, offset: u32, reply: &mut Reply) -> u32 {
        let unit = &world.unit;
        unsafe {
            mc88200_read_register(unit.regs.as_ptr(), fault_const(&unit.fault), offset, reply.as_mut_ptr())
        }
    }

    fn write_register(&self, world: &mut World, lend: Lend, write: [u32; 2], reply: &mut Reply) -> u32 {
        let World { unit, cells, ram, rom, .. } = world;
        let (cells, ram, rom) = (&mut cells[..lend.cells], &mut ram[..lend.ram], &rom[..lend.rom]);
        let [offset, value] = write;
        unsafe {
            mc88200_write_register(
                unit.regs.as_mut_ptr(),
                fault_mut(&mut unit.fault),
                unit.patc.as_mut_ptr(),
                unit.lines.as_mut_ptr(),
                cells.as_mut_ptr(),
                cells.len(),
                ram.as_mut_ptr(),
                ram.len(),
                rom.as_ptr(),
                rom.len(),
                offset,
                value,
                reply.as_mut_ptr(),
            )
        }
    }

    fn save(&self, world: &mut World, cells: usize, out: usize) -> u32 {
        let unit = &world.unit;
        let (cells, out) = (&world.cells[..cells], &mut world.out[..out]);
        unsafe {
            mc88200_save(
                unit.regs.as_ptr(),
                fault_const(&unit.fault),
                unit.patc.as_ptr(),
                unit.lines.as_ptr(),
                cells.as_ptr(),
                cells.len(),
                out.as_mut_ptr(),
                out.len(),
            )
        }
    }

    fn restore(&self, world: &mut World, cells: usize, image: &[u8]) -> u32 {
        let unit = &mut world.unit;
        let cells = &mut world.cells[..cells];
        unsafe {
            mc88200_restore(
                unit.regs.as_mut_ptr(),
                fault_mut(&mut unit.fault),
                unit.patc.as_mut_ptr(),
                unit.lines.as_mut_ptr(),
                cells.as_mut_ptr(),
                cells.len(),
                image.as_ptr(),
                image.len(),
            )
        }
    }
}
