//! The unit's state, its calls, and the path of an access.

use crate::answer::signal::{GLOBAL, INHIBIT, INTENT, LOCK};
use crate::answer::{Answer, Fault, Outcome, Snooped};
use crate::bits::*;
use crate::bus::{enabled_bits, Bus, Memory};
use crate::cache::{Cache, Place, EXCLUSIVE, INVALID, MODIFIED, SETS, SET_WORDS, SHARED};
use crate::refusal::{self, Cells};
use crate::translate::Translation;

/// Places of the registers in `Unit::regs`.
pub const IDR: usize = 0;
pub const SCR: usize = 1;
pub const SSR: usize = 2;
pub const SAR: usize = 3;
pub const SCTR: usize = 4;
pub const SAPR: usize = 5;
pub const UAPR: usize = 6;
pub const POINTER: usize = 7;
pub const BWP0: usize = 8;

pub const PATC_ENTRIES: usize = 56;

/// Supervisor addresses from here on are control space.
pub const CONTROL_SPACE: u32 = 0xFFF0_0000;

/// The component type in IDR.
const COMPONENT_TYPE: u32 = 0b101 << 21;

/// The state of one unit. Every word may hold any value: a pointer over 55
/// counts as 0, of the other words only their own bits count.
#[derive(Clone, Debug, PartialEq, Eq)]
pub struct Unit {
    /// IDR SCR SSR SAR SCTR SAPR UAPR, the PATC pointer, BWP0 to BWP7.
    pub regs: [u32; 16],
    /// PFSR and PFAR.
    pub fault: [u32; 2],
    /// 56 pairs: page word, frame word.
    pub patc: [u32; 2 * PATC_ENTRIES],
    /// For each set four tag words, then the use code.
    pub lines: [u32; SET_WORDS * SETS],
}

impl Default for Unit {
    /// A unit before its first reset: all words 0.
    fn default() -> Self {
        Unit { regs: [0; 16], fault: [0; 2], patc: [0; 2 * PATC_ENTRIES], lines: [0; SET_WORDS * SETS] }
    }
}

/// What the processor asks for.
#[derive(Clone, Copy, Debug, PartialEq, Eq)]
pub struct Access {
    pub address: u32,
    pub supervisor: bool,
    pub write: bool,
    pub locked: bool,
    pub enables: u32,
    pub word: u32,
}

impl Access {
    /// The kind's bits are 7 supervisor, 6 write, 5 lock; others are ignored.
    pub fn new(address: u32, kind: u32, enables: u32, word: u32) -> Self {
        Access {
            address,
            supervisor: kind & 1 << 7 != 0,
            write: kind & 1 << 6 != 0,
            locked: kind & 1 << 5 != 0,
            enables,
            word,
        }
    }

    fn is_control(&self) -> bool {
        self.supervisor && self.address >= CONTROL_SPACE
    }
}

/// Another master's transaction as it is seen on the bus.
#[derive(Clone, Copy, Debug, PartialEq, Eq)]
pub struct Snoop {
    pub address: u32,
    pub global: bool,
    pub intent: bool,
}

impl Snoop {
    /// The kind's bits are 0 G, 1 IM; others are ignored.
    pub fn new(address: u32, kind: u32) -> Self {
        Snoop { address, global: kind & 1 != 0, intent: kind & 2 != 0 }
    }
}

impl Unit {
    /// Brings unit and cache data into the state after reset.
    pub fn reset(&mut self, cells: &mut [u32], number: u8) -> Result<(), u32> {
        let cells = refusal::cells_mut(cells)?;
        cells.fill(0);
        *self = Unit::default();
        self.regs[IDR] = u32::from(number) << 24 | COMPONENT_TYPE;
        self.regs[SAPR] = CI;
        self.regs[UAPR] = CI;
        for set in self.lines.chunks_exact_mut(SET_WORDS) {
            set.copy_from_slice(&[INVALID, INVALID, INVALID, INVALID, USE_OWN]);
        }
        Ok(())
    }

    /// One access of the processor.
    pub fn access(
        &mut self,
        cells: &mut [u32],
        ram: &mut [u32],
        rom: &[u32],
        access: &Access,
    ) -> Result<Answer, u32> {
        refusal::ram(ram)?;
        refusal::rom(rom)?;
        let cells = refusal::cells_mut(cells)?;
        refusal::address(access.address)?;
        refusal::enables(access.enables)?;

        let mut bus = Bus::new(Memory::new(ram, rom));
        let outcome = self.run(cells, &mut bus, access).unwrap_or_else(|fault| {
            self.fault = [fault.code << 16, fault.address];
            Outcome::Fault(fault)
        });
        Ok(Answer { outcome, traffic: bus.traffic })
    }

    fn run(&mut self, cells: &mut Cells, bus: &mut Bus, access: &Access) -> Result<Outcome, Fault> {
        if access.enables == 0 {
            return Ok(Outcome::Idle);
        }
        if access.is_control() {
            return self.control(cells, bus, access);
        }
        let translation = self.translate(access, bus)?;
        let cache = Cache::new(&mut self.lines, cells);
        Path { cache, bus, access, translation }.run()
    }

    /// An access to control space: this unit's registers or a bus error.
    fn control(&mut self, cells: &mut Cells, bus: &mut Bus, access: &Access) -> Result<Outcome, Fault> {
        let number = self.regs[IDR] >> 24;
        if access.enables != 15 || access.address >> 12 & 0xFF != number {
            return Err(Fault::bus_error(access.address));
        }
        let offset = access.address & 0xFFF;
        if access.write {
            let words = self.store_register(cells, &mut bus.memory, offset, access.word);
            bus.traffic.add_unlisted(words);
            Ok(Outcome::Written)
        } else {
            Ok(Outcome::Word(self.load_register(offset)))
        }
    }

    /// Another master's transaction goes by.
    pub fn snoop(&mut self, cells: &mut [u32], ram: &mut [u32], snoop: &Snoop) -> Result<Snooped, u32> {
        refusal::ram(ram)?;
        let cells = refusal::cells_mut(cells)?;
        refusal::address(snoop.address)?;

        if self.regs[SCTR] & SE == 0 || !snoop.global {
            return Ok(Snooped::Clear);
        }
        let mut cache = Cache::new(&mut self.lines, cells);
        let Some(place) = cache.find(snoop.address) else {
            return Ok(Snooped::Clear);
        };
        let modified = cache.state(place) == MODIFIED;
        if modified {
            let mut memory = Memory::new(ram, &[]);
            if memory.write_line(cache.address(place), cache.words(place)).is_err() {
                self.regs[SSR] = self.regs[SSR] & SSR_OWN | CE;
                return Ok(Snooped::Failed);
            }
        }
        cache.set_state(place, if snoop.intent { INVALID } else { SHARED });
        Ok(if modified { Snooped::Retry } else { Snooped::Clear })
    }

    /// The PATC pointer; over 55 it counts as 0.
    pub(crate) fn pointer(&self) -> u32 {
        let pointer = self.regs[POINTER];
        if pointer < PATC_ENTRIES as u32 {
            pointer
        } else {
            0
        }
    }
}

/// A translated access on its way through cache and bus.
struct Path<'a, 'b, 'm> {
    cache: Cache<'a>,
    bus: &'b mut Bus<'m>,
    access: &'b Access,
    translation: Translation,
}

impl Path<'_, '_, '_> {
    fn run(&mut self) -> Result<Outcome, Fault> {
        if self.inhibited() {
            self.leave_cache()?;
            self.single_word()
        } else if self.access.write {
            self.cached_write()
        } else {
            self.cached_read()
        }
    }

    fn cached_read(&mut self) -> Result<Outcome, Fault> {
        let address = self.translation.address;
        let place = match self.cache.find(address) {
            Some(place) => place,
            None => self.fill()?,
        };
        self.cache.mark_used(place);
        let word = self.cache.word(place, address);
        Ok(Outcome::Word(word & enabled_bits(self.access.enables)))
    }

    fn cached_write(&mut self) -> Result<Outcome, Fault> {
        let through = self.translation.has(WT);
        match self.cache.find(self.translation.address) {
            Some(place) => {
                let once = self.translation.has(G) && self.cache.state(place) == SHARED;
                if through || once {
                    self.write_memory()?;
                }
                self.write_line_word(place);
                if !through {
                    self.cache.set_state(place, if once { EXCLUSIVE } else { MODIFIED });
                }
            }
            None => {
                let place = self.fill()?;
                self.write_memory()?;
                self.write_line_word(place);
                self.cache.set_state(place, if through { SHARED } else { EXCLUSIVE });
            }
        }
        Ok(Outcome::Written)
    }

    /// Puts the missing line into the cache, shared. A modified victim is
    /// copied back first; a failed fill leaves the line invalid.
    fn fill(&mut self) -> Result<Place, Fault> {
        let address = self.translation.address;
        let place = self.cache.victim(address);
        if self.cache.state(place) == MODIFIED {
            self.copy_back(place, self.signals() & !GLOBAL)?;
        }
        let intent = if self.access.write { INTENT } else { 0 };
        match self.bus.read_line(address & LINE, self.signals() | intent) {
            Ok(words) => {
                self.cache.fill(place, address, &words);
                Ok(place)
            }
            Err(fault) => {
                self.cache.set_state(place, INVALID);
                Err(fault)
            }
        }
    }

    /// Writes the access's bytes into a line that is thereby used.
    fn write_line_word(&mut self, place: Place) {
        let Access { enables, word, .. } = *self.access;
        self.cache.write_word(place, self.translation.address, word, enables);
        self.cache.mark_used(place);
    }

    /// Drops the line of an inhibited access, copied back if modified.
    fn leave_cache(&mut self) -> Result<(), Fault> {
        if let Some(place) = self.cache.find(self.translation.address) {
            if self.cache.state(place) == MODIFIED {
                self.copy_back(place, self.signals())?;
            }
            self.cache.set_state(place, INVALID);
        }
        Ok(())
    }

    fn copy_back(&mut self, place: Place, signals: u32) -> Result<(), Fault> {
        self.bus.write_line(self.cache.address(place), self.cache.words(place), signals)
    }

    /// The one word of an inhibited access.
    fn single_word(&mut self) -> Result<Outcome, Fault> {
        if self.access.write {
            self.write_memory()?;
            return Ok(Outcome::Written);
        }
        let lock = if self.access.locked { LOCK | INTENT } else { 0 };
        let word = self.bus.read(self.translation.address, self.signals() | lock)?;
        Ok(Outcome::Word(word & enabled_bits(self.access.enables)))
    }

    /// Writes the access's bytes into memory.
    fn write_memory(&mut self) -> Result<(), Fault> {
        let Access { enables, word, locked, .. } = *self.access;
        let lock = if locked { LOCK } else { 0 };
        self.bus.write(self.translation.address, word, enables, self.signals() | lock)
    }

    /// G and CI of the access's own transactions.
    fn signals(&self) -> u32 {
        let global = if self.translation.has(G) { GLOBAL } else { 0 };
        let inhibit = if self.inhibited() { INHIBIT } else { 0 };
        global | inhibit
    }

    /// Whether the access goes past the cache.
    fn inhibited(&self) -> bool {
        self.access.locked || self.translation.has(CI)
    }
}
