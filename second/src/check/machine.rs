//! The calls of the C interface, and the model behind them.

use crate::check::world::{Call, Lend, World};
use crate::{Access, Snoop};

/// What a reply holds before a call; a refusal leaves it.
pub const UNTOUCHED: u32 = 0x5A5A_5A5A;

/// The reply of an access, the longest of all.
pub type Reply = [u32; 24];

/// What a call gives back: 0 or the refusal's number, and the reply.
#[derive(Clone, Copy, Debug, PartialEq, Eq)]
pub struct Given {
    pub refusal: u32,
    pub reply: Reply,
}

/// An implementation. Every call works on a world, of which it is given the
/// first words or bytes of each buffer.
pub trait Machine {
    fn name(&self) -> &'static str;

    fn reset(&self, world: &mut World, cells: usize, number: u8) -> u32;

    fn access(&self, world: &mut World, lend: Lend, access: [u32; 4], reply: &mut Reply) -> u32;

    fn snoop(&self, world: &mut World, lend: Lend, snoop: [u32; 2], reply: &mut Reply) -> u32;

    fn read_register(&self, world: &World, offset: u32, reply: &mut Reply) -> u32;

    fn write_register(&self, world: &mut World, lend: Lend, write: [u32; 2], reply: &mut Reply) -> u32;

    fn save(&self, world: &mut World, cells: usize, out: usize) -> u32;

    fn restore(&self, world: &mut World, cells: usize, image: &[u8]) -> u32;

    fn call(&self, world: &mut World, call: &Call) -> Given {
        let mut reply = [UNTOUCHED; 24];
        let refusal = match *call {
            Call::Reset { cells, number } => self.reset(world, cells, number),
            Call::Access { lend, address, kind, enables, word } => {
                self.access(world, lend, [address, kind, enables, word], &mut reply)
            }
            Call::Snoop { lend, address, kind } => self.snoop(world, lend, [address, kind], &mut reply),
            Call::ReadRegister { offset } => self.read_register(world, offset, &mut reply),
            Call::WriteRegister { lend, offset, value } => {
                self.write_register(world, lend, [offset, value], &mut reply)
            }
            Call::Save { cells, out } => self.save(world, cells, out),
            Call::Restore { cells, ref image } => self.restore(world, cells, image),
        };
        Given { refusal, reply }
    }
}

/// The model of this package.
#[derive(Clone, Copy, Debug, Default)]
pub struct Model;

impl Machine for Model {
    fn name(&self) -> &'static str {
        "second"
    }

    fn reset(&self, world: &mut World, cells: usize, number: u8) -> u32 {
        world.unit.reset(&mut world.cells[..cells], number).err().unwrap_or(0)
    }

    fn access(&self, world: &mut World, lend: Lend, access: [u32; 4], reply: &mut Reply) -> u32 {
        let [address, kind, enables, word] = access;
        let access = Access::new(address, kind, enables, word);
        let World { unit, cells, ram, rom, .. } = world;
        match &unit.access(&mut cells[..lend.cells], &mut ram[..lend.ram], &rom[..lend.rom], &access) {
            Ok(answer) => {
                answer.write_reply(reply);
                0
            }
            Err(number) => *number,
        }
    }

    fn snoop(&self, world: &mut World, lend: Lend, snoop: [u32; 2], reply: &mut Reply) -> u32 {
        let snoop = Snoop::new(snoop[0], snoop[1]);
        let World { unit, cells, ram, .. } = world;
        let answer = unit.snoop(&mut cells[..lend.cells], &mut ram[..lend.ram], &snoop);
        given(answer.map(|answer| answer.reply()), reply)
    }

    fn read_register(&self, world: &World, offset: u32, reply: &mut Reply) -> u32 {
        given(world.unit.read_register(offset), reply)
    }

    fn write_register(&self, world: &mut World, lend: Lend, write: [u32; 2], reply: &mut Reply) -> u32 {
        let [offset, value] = write;
        let World { unit, cells, ram, rom, .. } = world;
        let (cells, ram, rom) = (&mut cells[..lend.cells], &mut ram[..lend.ram], &rom[..lend.rom]);
        given(unit.write_register(cells, ram, rom, offset, value), reply)
    }

    fn save(&self, world: &mut World, cells: usize, out: usize) -> u32 {
        world.unit.save(&world.cells[..cells], &mut world.out[..out]).err().unwrap_or(0)
    }

    fn restore(&self, world: &mut World, cells: usize, image: &[u8]) -> u32 {
        world.unit.restore(&mut world.cells[..cells], image).err().unwrap_or(0)
    }
}

/// Puts an answer of one word into the reply.
fn given(answer: Result<u32, u32>, reply: &mut Reply) -> u32 {
    match answer {
        Ok(word) => {
            reply[0] = word;
            0
        }
        Err(number) => number,
    }
}
