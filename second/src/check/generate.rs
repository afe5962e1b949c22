//! Long sequences of calls by seed.

use std::collections::VecDeque;

use crate::bits::*;
use crate::check::random::Random;
use crate::check::world::{Call, Lend, Part, World, SPARE};
use crate::unit::{BWP0, CONTROL_SPACE, IDR, POINTER, SAPR, SAR, SCR, SCTR, SSR, UAPR};
use crate::IMAGE;

/// How a sequence begins.
#[derive(Clone, Copy, Debug, PartialEq, Eq)]
pub enum Start {
    /// With a reset; the state stays well formed.
    Reset,
    /// With any words in the state, and changes to it in between.
    MadeUp,
}

/// What happens next.
#[derive(Clone, Debug)]
pub enum Step {
    /// The host changes a word.
    Set(Part, usize, u32),
    Call(Call),
}

/// Offsets of the registers.
const OFFSETS: [u32; 17] = [
    0x000, 0x004, 0x008, 0x00C, 0x104, 0x108, 0x10C, 0x200, 0x204, 0x400, 0x404, 0x408, 0x40C, 0x410, 0x414,
    0x418, 0x41C,
];

/// The pools from which one sequence draws, small enough that accesses meet.
#[derive(Clone, Debug)]
struct Plan {
    start: Start,
    sets: Vec<u32>,
    physical: Vec<u32>,
    logical: Vec<u32>,
    /// How often, in percent, a descriptor has each of these.
    protected: usize,
    valid: usize,
    inhibited: usize,
    global: usize,
    through: usize,
    /// How often, in percent, an area is mapped and a port valid.
    mapped: usize,
    ported: usize,
}

pub struct Generator {
    random: Random,
    plan: Plan,
    pending: VecDeque<Step>,
    images: Vec<Vec<u8>>,
}

impl Generator {
    /// A generator and the world in which its sequence begins.
    pub fn new(seed: u64, start: Start) -> (Self, World) {
        let mut random = Random::new(seed);
        let ram = random.pick(&[0, 16, 256, 1024, 4096, 4096, 4096, 8192, 8192, 8192, 16384, 16384]);
        let rom = random.pick(&[0, 16, 1024, 4096, 4096]);
        Generator::with_memory(random, start, ram, rom)
    }

    /// The same with memory of the given lengths in words.
    pub fn with_memory(mut random: Random, start: Start, ram: usize, rom: usize) -> (Self, World) {
        let mut world = World::new(ram, rom);
        let plan = Plan::new(&mut random, start, ram as u32, rom as u32);
        let mut generator = Generator { random, plan, pending: VecDeque::new(), images: Vec::new() };
        generator.fill_memory(&mut world);
        generator.make_up(&mut world);
        if start == Start::Reset {
            generator.begin_with_reset();
        }
        (generator, world)
    }

    /// The next step, chosen with a view of the world as it is.
    pub fn next(&mut self, world: &World) -> Step {
        if let Some(step) = self.pending.pop_front() {
            return step;
        }
        if self.plan.start == Start::MadeUp && self.random.percent(25) {
            return self.disturb();
        }
        let call = match self.random.below(1000) {
            0..=619 => self.access(world),
            620..=699 => self.snoop(world),
            700..=739 => self.read_register(),
            740..=799 => self.write_register(world),
            800..=909 => return self.command(world),
            910..=985 => return self.change_memory(world),
            986..=990 => self.save(world),
            991..=997 => return self.restore(world),
            _ => return self.reset_or_remap(world),
        };
        Step::Call(self.with_lengths(call, world))
    }

    /// Only calls on images.
    pub fn next_image(&mut self, world: &World) -> Step {
        if let Some(step) = self.pending.pop_front() {
            return step;
        }
        if self.plan.start == Start::MadeUp && self.random.percent(25) {
            return self.disturb();
        }
        match self.random.below(10) {
            0..=1 => {
                let call = self.save(world);
                Step::Call(self.with_lengths(call, world))
            }
            2..=6 => self.restore(world),
            _ => {
                let call = self.access(world);
                Step::Call(call)
            }
        }
    }

    // ------------------------------------------------------------ begin

    fn fill_memory(&mut self, world: &mut World) {
        for index in 0..world.ram.len() {
            world.ram[index] = self.descriptor();
        }
        for index in 0..world.rom.len() {
            world.rom[index] = self.descriptor();
        }
    }

    /// Any word may stand anywhere, though many meet the pools.
    fn make_up(&mut self, world: &mut World) {
        for index in 0..16 {
            world.unit.regs[index] = self.any_register(index);
        }
        world.unit.fault = [self.random.word(), self.random.word()];
        let full = self.random.percent(50);
        for entry in 0..56 {
            world.unit.patc[2 * entry] = self.any_page_word() | u32::from(full);
            world.unit.patc[2 * entry + 1] = self.any_frame_word();
        }
        for word in &mut world.unit.lines {
            *word = self.random.word();
        }
        for set in self.plan.sets.clone() {
            for line in 0..5 {
                world.unit.lines[5 * set as usize + line] = self.any_line_word(line);
            }
        }
        for word in &mut world.cells {
            *word = self.random.word();
        }
    }

    fn begin_with_reset(&mut self) {
        let number = self.random.word() as u8;
        self.pending.push_back(Step::Call(Call::Reset { cells: 4096, number }));
        for index in [SCTR, SAPR, UAPR] {
            let value = self.any_register(index);
            self.push_register(index, value);
        }
        for port in 0..8 {
            if self.random.percent(50) {
                let value = self.any_register(BWP0 + port);
                self.push_register(BWP0 + port, value);
            }
        }
    }

    /// A register write after the steps pending; it needs no memory.
    fn push_register(&mut self, index: usize, value: u32) {
        let offset = match index {
            SCR => 0x004,
            SSR => 0x008,
            SAR => 0x00C,
            SCTR => 0x104,
            SAPR => 0x200,
            UAPR => 0x204,
            _ => 0x400 + 4 * (index - BWP0) as u32,
        };
        let lend = Lend { cells: 4096, ram: 0, rom: 0 };
        self.pending.push_back(Step::Call(Call::WriteRegister { lend, offset, value }));
    }

    // ------------------------------------------------------------ words

    fn any_register(&mut self, index: usize) -> u32 {
        let foreign = self.foreign();
        match index {
            SAR => self.sar_pool(),
            SCTR => self.random.word() & !SE | self.random.maybe(SE, 80),
            SAPR | UAPR => self.area() | foreign & !AREA_OWN,
            POINTER => match self.random.below(4) {
                0 => self.random.word(),
                1 => self.random.pick(&[54, 55, 56, 57, 63, 64, 0x100, 0x8000_0000]),
                _ => self.random.below(56) as u32,
            },
            BWP0..=15 => self.port(),
            _ => self.random.word(),
        }
    }

    fn any_page_word(&mut self) -> u32 {
        let page = self.random.pick(&self.plan.logical);
        let valid = self.random.maybe(PATC_V, 85);
        page | self.random.word() & PATC_S | valid | self.foreign() & !PATC_PAGE_OWN
    }

    fn any_frame_word(&mut self) -> u32 {
        self.descriptor() & PATC_FRAME_OWN | self.foreign() & !PATC_FRAME_OWN
    }

    /// A tag word for lines 0 to 3, a use code for 4.
    fn any_line_word(&mut self, line: usize) -> u32 {
        if line == 4 {
            return self.random.word() & USE_OWN | self.foreign() & !USE_OWN;
        }
        let page = if self.random.percent(90) {
            self.random.pick(&self.plan.physical)
        } else {
            self.random.word() & PAGE
        };
        let state = if self.random.percent(85) { self.random.below(3) as u32 } else { 3 };
        page | state | self.foreign() & !TAG_OWN
    }

    /// Bits that are not a word's own: often none.
    fn foreign(&mut self) -> u32 {
        if self.plan.start == Start::MadeUp && self.random.percent(50) {
            self.random.word()
        } else {
            0
        }
    }

    fn area(&mut self) -> u32 {
        let Plan { through, global, inhibited, mapped, .. } = self.plan;
        self.random.pick(&self.plan.physical)
            | self.random.maybe(WT, through)
            | self.random.maybe(G, global)
            | self.random.maybe(CI, inhibited / 2)
            | self.random.maybe(TE, mapped)
    }

    /// A word that can be a segment or a page descriptor.
    fn descriptor(&mut self) -> u32 {
        let Plan { protected, valid, inhibited, global, through, .. } = self.plan;
        self.random.pick(&self.plan.physical)
            | self.random.maybe(0xC22, 20)
            | self.random.maybe(WT, through)
            | self.random.maybe(SP, protected)
            | self.random.maybe(G, global)
            | self.random.maybe(CI, inhibited)
            | self.random.maybe(M, 40)
            | self.random.maybe(U, 60)
            | self.random.maybe(WP, protected)
            | self.random.maybe(V, valid)
    }

    fn port(&mut self) -> u32 {
        let Plan { protected, inhibited, global, through, ported, .. } = self.plan;
        let logical = self.random.pick(&self.plan.logical) & BLOCK;
        let physical = self.random.pick(&self.plan.physical) >> 13 & 0x0007_FFC0;
        logical
            | physical
            | self.random.word() & BATC_S
            | self.random.maybe(BATC_WT, through)
            | self.random.maybe(BATC_G, global)
            | self.random.maybe(BATC_CI, inhibited)
            | self.random.maybe(BATC_WP, protected)
            | self.random.maybe(BATC_V, ported)
    }

    fn sar_pool(&mut self) -> u32 {
        let page = if self.random.percent(50) {
            self.random.pick(&self.plan.physical)
        } else {
            self.random.pick(&self.plan.logical)
        };
        page | self.offset() | self.random.maybe(1, 10) | self.random.maybe(2, 10)
    }

    /// A word within a page, mostly in one of the chosen sets.
    fn offset(&mut self) -> u32 {
        if self.random.percent(3) {
            return self.random.word() & 0xFFC;
        }
        self.random.pick(&self.plan.sets) << 4 | self.random.word() & 0xC
    }

    // ------------------------------------------------------------ calls

    fn access(&mut self, world: &World) -> Call {
        let supervisor = self.random.percent(50);
        let kind = self.random.maybe(0x1F, 5)
            | u32::from(supervisor) << 7
            | self.random.maybe(1 << 6, 45)
            | self.random.maybe(1 << 5, 12);
        let mut enables = match self.random.below(20) {
            0 => 0,
            1..=7 => self.random.below(16) as u32,
            _ => 15,
        };
        let address = if supervisor && self.random.percent(8) {
            if self.random.percent(80) {
                enables = 15;
            }
            self.control_address(world)
        } else {
            self.logical_address(world, supervisor)
        };
        Call::Access { lend: world.lend, address, kind, enables, word: self.random.word() }
    }

    fn control_address(&mut self, world: &World) -> u32 {
        let number =
            if self.random.percent(85) { world.unit.regs[IDR] >> 24 } else { self.random.word() & 0xFF };
        CONTROL_SPACE | number << 12 | self.register_offset()
    }

    fn register_offset(&mut self) -> u32 {
        if self.random.percent(85) {
            self.random.pick(&OFFSETS)
        } else {
            self.random.word() & 0xFFC
        }
    }

    /// An address that the unit will find in the pools as it is set up now.
    fn logical_address(&mut self, world: &World, supervisor: bool) -> u32 {
        let mapped = world.unit.regs[if supervisor { SAPR } else { UAPR }] & TE != 0;
        let page = match self.random.below(20) {
            0 => self.random.word() & PAGE,
            1 => CONTROL_SPACE | self.random.word() & 0x000F_F000,
            2..=3 => world.unit.patc[2 * self.random.below(56)] & PAGE,
            _ if mapped => self.random.pick(&self.plan.logical),
            _ => self.random.pick(&self.plan.physical),
        };
        page | self.offset()
    }

    /// The address of a line that is in the cache, or one of the pool.
    fn line_address(&mut self, world: &World) -> u32 {
        let set = self.random.pick(&self.plan.sets);
        let tag = world.unit.lines[5 * set as usize + self.random.below(4)];
        if self.random.percent(75) {
            tag & PAGE | set << 4 | self.random.word() & 0xC
        } else {
            self.random.pick(&self.plan.physical) | self.offset()
        }
    }

    fn snoop(&mut self, world: &World) -> Call {
        let address = self.line_address(world);
        let kind = self.random.maybe(!3, 10) | self.random.maybe(1, 85) | self.random.word() & 2;
        Call::Snoop { lend: world.lend, address, kind }
    }

    fn read_register(&mut self) -> Call {
        Call::ReadRegister { offset: self.register_offset() }
    }

    /// A write to any register but SCR, which has its own kind of step.
    fn write_register(&mut self, world: &World) -> Call {
        let offset = match self.random.below(8) {
            0 => 0x200,
            1 => 0x204,
            2 => 0x104,
            3 => 0x400 + 4 * self.random.below(8) as u32,
            4 => self.random.word() & 0xFFC,
            _ => self.random.pick(&OFFSETS),
        };
        let value = match offset {
            0x00C => self.sar_pool(),
            0x104 => self.any_register(SCTR),
            0x200 | 0x204 => self.area(),
            0x400..=0x41C => self.port(),
            _ => self.random.word(),
        };
        Call::WriteRegister { lend: world.lend, offset, value }
    }

    /// Writes SAR, then SCR, by register calls or through control space.
    fn command(&mut self, world: &World) -> Step {
        let code = match self.random.below(10) {
            0..=2 => self.random.below(64) as u32,
            3..=5 => self.random.pick(&[0x14, 0x15, 0x18, 0x19, 0x1A, 0x1B, 0x1C, 0x1D, 0x1E, 0x1F]),
            6..=8 => self.random.pick(&[0x20, 0x24]),
            _ => self.random.pick(&[0x31, 0x32, 0x35, 0x36]),
        };
        let sar = if code >= 0x20 {
            match self.random.below(4) {
                0 => world.unit.patc[2 * self.random.below(56)] & PAGE | self.offset(),
                1 => self.sar_pool(),
                _ => self.random.pick(&self.plan.logical) | self.random.word() & 0xFFF,
            }
        } else {
            self.line_address(world) | self.random.word() & 3
        };
        let value = code | self.random.maybe(0xFFFF_FFC0, 20);
        let mut steps = [
            Call::WriteRegister { lend: world.lend, offset: 0x00C, value: sar },
            Call::WriteRegister { lend: world.lend, offset: 0x004, value },
        ];
        if self.random.percent(40) {
            let base = CONTROL_SPACE | world.unit.regs[IDR] >> 24 << 12;
            let kind = 0xC0 | self.random.maybe(1 << 5, 20);
            steps = [(0x00C, sar), (0x004, value)].map(|(offset, word)| Call::Access {
                lend: world.lend,
                address: base | offset,
                kind,
                enables: 15,
                word,
            });
        }
        let [first, second] = steps;
        let second = self.with_lengths(second, world);
        self.pending.push_back(Step::Call(second));
        Step::Call(first)
    }

    fn change_memory(&mut self, world: &World) -> Step {
        let word = self.descriptor();
        if self.random.percent(10) {
            return Step::Set(Part::Rom, self.random.below(world.rom.len()), word);
        }
        // Descriptors in use lie at few places in each page.
        let page = self.random.below(world.ram.len() / 1024 + 1) as u32 * 0x1000;
        let logical = self.random.pick(&self.plan.logical);
        let shift = self.random.pick(&[12, 22]);
        let address = page + 4 * (logical >> shift & 0x3FF);
        Step::Set(Part::Ram, address as usize / 4, word)
    }

    fn save(&mut self, world: &World) -> Call {
        self.keep_image(world);
        Call::Save { cells: 4096, out: IMAGE + self.random.below(SPARE + 1) }
    }

    fn keep_image(&mut self, world: &World) {
        let mut image = vec![0; IMAGE];
        if world.unit.save(&world.cells[..4096], &mut image).is_ok() {
            if self.images.len() >= 4 {
                let oldest = self.random.below(4);
                self.images.swap_remove(oldest);
            }
            self.images.push(image);
        }
    }

    fn restore(&mut self, world: &World) -> Step {
        if self.images.is_empty() || self.random.percent(20) {
            self.keep_image(world);
        }
        let which = self.random.below(self.images.len());
        let mut image = self.images[which].clone();
        if self.random.percent(70) {
            for _ in 0..1 + self.random.below(3) / 2 {
                self.mutate(&mut image);
            }
        }
        let call = Call::Restore { cells: 4096, image };
        Step::Call(self.with_lengths(call, world))
    }

    fn mutate(&mut self, image: &mut Vec<u8>) {
        const HEADS: [usize; 5] = [0, 43, 78, 529, 5652];
        const REGISTERS: usize = 3;
        const ENTRIES: usize = 81;
        const LINES: usize = 532;

        let random = &mut self.random;
        let set = if random.percent(50) { random.pick(&self.plan.sets) as usize } else { random.below(256) };
        let set_start = LINES + 20 * set;
        let line = set_start + 4 * random.below(4);
        let entry = ENTRIES + 8 * random.below(56);
        if image.len() < IMAGE {
            return;
        }
        match random.below(14) {
            0 => {
                let byte = random.below(image.len());
                image[byte] ^= 1 << random.below(8);
            }
            1 => {
                let length = random.below(image.len());
                image.truncate(random.pick(&[0, 3, IMAGE - 1, length]));
            }
            2 => image.extend([0; SPARE].iter().take(1 + random.below(SPARE))),
            3 => image[random.pick(&HEADS) + random.below(3)] ^= 1 << random.below(8),
            4 => image[REGISTERS + random.below(40)] ^= 1 << random.below(8),
            5 => image[entry + random.below(8)] ^= 1 << random.below(8),
            6 => image[line + random.below(4)] ^= 1 << random.below(8),
            7 => image[REGISTERS + 39] = random.pick(&[54, 55, 56, 57, 63, 64, 255]),
            8 => image[set_start + 19] = random.below(64) as u8,
            9 | 10 => {
                // The line's tag in another line of the set too.
                let other = set_start + 4 * random.below(4);
                image.copy_within(line..line + 4, other);
                let (one, two) = (random.below(4) as u8, random.below(3) as u8);
                image[line + 3] = image[line + 3] & !3 | one;
                image[other + 3] = image[other + 3] & !3 | two;
            }
            11 | 12 => {
                // The entry's page and space in another entry too.
                let other = ENTRIES + 8 * random.below(56);
                image.copy_within(entry..entry + 4, other);
                image[entry + 3] = image[entry + 3] & !1 | u8::from(random.percent(75));
                image[other + 3] |= 1;
            }
            _ => {
                // A state that the rules allow.
                image[line + 3] = image[line + 3] & !3 | random.below(4) as u8;
                image[entry + 3] ^= 2;
            }
        }
    }

    fn reset_or_remap(&mut self, world: &World) -> Step {
        if self.random.percent(50) {
            self.begin_with_reset();
            if let Some(Step::Call(reset)) = self.pending.pop_front() {
                return Step::Call(self.with_lengths(reset, world));
            }
        }
        for index in [SAPR, UAPR, BWP0, BWP0 + 7] {
            let value = self.any_register(index);
            self.push_register(index, value);
        }
        Step::Call(self.read_register())
    }

    /// Changes some words of the state.
    fn disturb(&mut self) -> Step {
        for _ in 0..self.random.below(4) {
            let step = self.disturbance();
            self.pending.push_back(step);
        }
        self.disturbance()
    }

    fn disturbance(&mut self) -> Step {
        match self.random.below(10) {
            0..=1 => {
                let index = self.random.below(16);
                Step::Set(Part::Registers, index, self.any_register(index))
            }
            2 => Step::Set(Part::Fault, self.random.below(2), self.random.word()),
            3..=4 => {
                let entry = self.random.below(56);
                let word = self.any_page_word();
                Step::Set(Part::Entries, 2 * entry, word)
            }
            5 => {
                let entry = self.random.below(56);
                let word = self.any_frame_word();
                Step::Set(Part::Entries, 2 * entry + 1, word)
            }
            _ => {
                let set = self.random.pick(&self.plan.sets) as usize;
                let line = self.random.below(5);
                Step::Set(Part::Lines, 5 * set + line, self.any_line_word(line))
            }
        }
    }

    // ---------------------------------------------------------- lengths

    /// Most calls as they are, some with shorter memory, some malformed in
    /// one way or in several.
    fn with_lengths(&mut self, mut call: Call, world: &World) -> Call {
        match self.random.below(100) {
            0..=4 => self.shorten(&mut call),
            5..=6 => self.spoil(&mut call, 50, world),
            7 => self.spoil(&mut call, 15, world),
            _ => {}
        }
        call
    }

    /// Lends less memory, still by the rules.
    fn shorten(&mut self, call: &mut Call) {
        if let Call::Access { lend, .. } | Call::Snoop { lend, .. } | Call::WriteRegister { lend, .. } = call
        {
            if self.random.percent(70) {
                lend.ram = self.random.below(lend.ram / 4 + 1) * 4;
            }
            if self.random.percent(50) {
                lend.rom = self.random.below(lend.rom / 4 + 1) * 4;
            }
        }
    }

    /// Breaks each rule of the call with the given chance.
    fn spoil(&mut self, call: &mut Call, rate: usize, world: &World) {
        let random = &mut self.random;
        let wrong_cells = [0, 1, 4092, 4095, 4097, 4096 + SPARE];
        if let Call::Access { lend, .. } | Call::Snoop { lend, .. } | Call::WriteRegister { lend, .. } = call
        {
            if random.percent(rate) {
                lend.ram = random.below(world.ram.len()) & !3 | (1 + random.below(3));
            }
            if random.percent(rate) {
                lend.rom = random.below(world.rom.len()) & !3 | (1 + random.below(3));
            }
            if random.percent(rate) {
                lend.cells = random.pick(&wrong_cells);
            }
        }
        match call {
            Call::Access { address, enables, .. } => {
                if random.percent(rate) {
                    *address |= 1 + random.below(3) as u32;
                }
                if random.percent(rate) {
                    *enables = random.word() | 16 << random.below(28);
                }
            }
            Call::Snoop { address, .. } => {
                if random.percent(rate) {
                    *address |= 1 + random.below(3) as u32;
                }
            }
            Call::ReadRegister { offset } | Call::WriteRegister { offset, .. } => {
                if random.percent(rate) {
                    *offset = match random.below(3) {
                        0 => *offset | (1 + random.below(3) as u32),
                        1 => 4096 + *offset,
                        _ => random.word() | 1 << (12 + random.below(20)),
                    };
                }
            }
            Call::Reset { cells, .. } => {
                if random.percent(rate) {
                    *cells = random.pick(&wrong_cells);
                }
            }
            Call::Save { cells, out } => {
                if random.percent(rate) {
                    *cells = random.pick(&wrong_cells);
                }
                if random.percent(rate) {
                    let short = random.below(IMAGE);
                    *out = random.pick(&[0, IMAGE - 1, short]);
                }
            }
            Call::Restore { cells, image } => {
                if random.percent(rate) {
                    *cells = random.pick(&wrong_cells);
                }
                if random.percent(rate) {
                    image.truncate(random.below(IMAGE));
                }
            }
        }
    }
}

impl Plan {
    fn new(random: &mut Random, start: Start, ram: u32, rom: u32) -> Plan {
        let sets = (0..1 + random.below(4)).map(|_| random.pick(&[0, 1, 18, 63, 128, 254, 255])).collect();

        let mut physical = Vec::new();
        let ram_pages = ram.div_ceil(1024).max(1);
        let rom_pages = rom.div_ceil(1024).max(1);
        // Often nearly all of it in RAM, so that most accesses end well.
        let outside = random.pick(&[1, 8, 20]);
        for _ in 0..6 + random.below(10) {
            let page = match random.below(100) {
                n if n >= 2 * outside => random.below(ram_pages as usize) as u32 * 0x1000,
                n if n >= outside / 2 => 0xFFE0_0000 + random.below(rom_pages as usize) as u32 * 0x1000,
                n if n % 2 == 0 => ram_pages * 0x1000,
                _ => random.pick(&[
                    0x00FF_F000,
                    0x0100_0000,
                    0x7FFF_F000,
                    0xFFDF_F000,
                    0xFFEF_F000,
                    0xFFF0_0000,
                ]),
            };
            physical.push(page);
        }

        let segments = [0, 1, 3, 0x200, 0x3FE, 0x3FF];
        let pages = [0, 1, 2, 3, 5, 0x80, 0x100, 0x37F, 0x3FE, 0x3FF];
        let logical = if random.percent(30) {
            // More pages than the PATC has entries.
            let segment = random.pick(&segments) << 22;
            (0..70).map(|page| segment | page << 12).collect()
        } else {
            (0..4 + random.below(16))
                .map(|_| random.pick(&segments) << 22 | random.pick(&pages) << 12)
                .collect()
        };

        Plan {
            start,
            sets,
            physical,
            logical,
            protected: random.pick(&[0, 2, 10, 30]),
            valid: random.pick(&[70, 95, 100, 100]),
            inhibited: random.pick(&[0, 5, 15, 30]),
            global: random.pick(&[0, 20, 50, 100]),
            through: random.pick(&[0, 15, 30, 60]),
            mapped: random.pick(&[30, 80, 95]),
            ported: random.pick(&[0, 10, 50]),
        }
    }
}
