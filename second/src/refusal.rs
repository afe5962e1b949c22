//! The numbers for malformed calls and the tests they stand for.

pub const RAM_LENGTH: u32 = 1;
pub const ROM_LENGTH: u32 = 2;
pub const CELLS_LENGTH: u32 = 3;
pub const ADDRESS: u32 = 4;
pub const ENABLES: u32 = 5;
pub const OFFSET: u32 = 6;
pub const IMAGE_LENGTH: u32 = 7;
pub const IMAGE_FIELD: u32 = 8;
pub const IMAGE_BITS: u32 = 9;
pub const IMAGE_DOUBLE: u32 = 10;
pub const OUTPUT_LENGTH: u32 = 11;

/// The longest RAM and ROM, in words.
pub const RAM_MOST: usize = 4_194_304;
pub const ROM_MOST: usize = 262_144;

/// The number of words of cache data.
pub const CELLS: usize = 4096;

/// The cache data of a call that has passed its test.
pub type Cells = [u32; CELLS];

pub fn ram(ram: &[u32]) -> Result<(), u32> {
    demand(ram.len().is_multiple_of(4) && ram.len() <= RAM_MOST, RAM_LENGTH)
}

pub fn rom(rom: &[u32]) -> Result<(), u32> {
    demand(rom.len().is_multiple_of(4) && rom.len() <= ROM_MOST, ROM_LENGTH)
}

pub fn cells(cells: &[u32]) -> Result<&Cells, u32> {
    cells.try_into().map_err(|_| CELLS_LENGTH)
}

pub fn cells_mut(cells: &mut [u32]) -> Result<&mut Cells, u32> {
    cells.try_into().map_err(|_| CELLS_LENGTH)
}

pub fn address(address: u32) -> Result<(), u32> {
    demand(address.is_multiple_of(4), ADDRESS)
}

pub fn enables(enables: u32) -> Result<(), u32> {
    demand(enables <= 15, ENABLES)
}

pub fn offset(offset: u32) -> Result<(), u32> {
    demand(offset <= 4092 && offset.is_multiple_of(4), OFFSET)
}

/// Refuses with the number unless the condition holds.
pub fn demand(holds: bool, number: u32) -> Result<(), u32> {
    if holds {
        Ok(())
    } else {
        Err(number)
    }
}
