//! What a write to SCR runs: cache flushes, probes and clearing of the PATC.

use crate::answer::BUS_ERROR;
use crate::bits::*;
use crate::bus::Memory;
use crate::cache::{set_of, Cache, Place, EXCLUSIVE, INVALID, LINES, MODIFIED, SETS};
use crate::refusal::Cells;
use crate::translate::walk;
use crate::unit::{Unit, SAR, SSR};

/// The bits in which a line or an entry must agree with SAR to be covered:
/// those of a line, of a page, of a segment, or none.
fn range(code: u32) -> u32 {
    [LINE, PAGE, SEGMENT, 0][(code & 3) as usize]
}

/// What a probe finds out: the new SSR without CE, the new SAR, and how many
/// descriptors were read.
#[derive(Clone, Copy, Debug, PartialEq, Eq)]
pub struct Probe {
    pub status: u32,
    pub address: u32,
    pub words: u32,
}

impl Unit {
    /// Runs a command code and answers the count of words it moved.
    pub(crate) fn command(&mut self, cells: &mut Cells, memory: &mut Memory, code: u32) -> u32 {
        match code {
            0x14..=0x1F => self.flush(cells, memory, code),
            0x20 => self.probe(memory, false),
            0x24 => self.probe(memory, true),
            0x31..=0x33 => self.clear_entries(code, false),
            0x35..=0x37 => self.clear_entries(code, true),
            _ => 0,
        }
    }

    fn flush(&mut self, cells: &mut Cells, memory: &mut Memory, code: u32) -> u32 {
        let invalidate = code & 4 != 0;
        let copy_back = code & 8 != 0;
        let range = range(code);
        let sar = self.regs[SAR];
        let sets = if range == LINE { set_of(sar)..set_of(sar) + 1 } else { 0..SETS };

        self.regs[SSR] &= CE;
        let mut words = 0;
        let mut cache = Cache::new(&mut self.lines, cells);
        for place in sets.flat_map(|set| (0..LINES).map(move |line| Place { set, line })) {
            let state = cache.state(place);
            let address = cache.address(place);
            if state == INVALID || (address ^ sar) & range != 0 {
                continue;
            }
            if copy_back && state == MODIFIED {
                if memory.write_line(address, cache.words(place)).is_err() {
                    self.regs[SSR] |= BE;
                    self.regs[SAR] = address;
                    break;
                }
                words += 4;
                cache.set_state(place, EXCLUSIVE);
            }
            if invalidate {
                cache.set_state(place, INVALID);
            }
        }
        words
    }

    fn probe(&mut self, memory: &Memory, supervisor: bool) -> u32 {
        let probe = self.look_up(memory, self.regs[SAR], supervisor);
        self.regs[SSR] = self.regs[SSR] & CE | probe.status;
        self.regs[SAR] = probe.address;
        probe.words
    }

    /// A translation without control and protection tests, without changes.
    pub fn look_up(&self, memory: &Memory, address: u32, supervisor: bool) -> Probe {
        let found = |status, address, words| Probe { status: status | V, address, words };

        if let Some(unmapped) = self.unmapped(address, supervisor) {
            return found(unmapped.attributes, unmapped.address, 0);
        }
        if let Some(block) = self.block(address, supervisor) {
            return found(block.attributes | BH, block.address, 0);
        }
        if let Some(entry) = self.find_entry(address, supervisor) {
            let page = self.entry_translation(entry, address);
            return found(page.attributes | U, page.address, 0);
        }
        let mut words = 0;
        let end = walk(self.area(supervisor), address, |at| memory.read(at).inspect(|_| words += 1));
        match end {
            Ok(walk) => found(walk.translation.attributes, walk.translation.address, words),
            Err(fault) if fault.code == BUS_ERROR => Probe { status: BE, address: fault.address, words },
            Err(fault) => Probe { status: 0, address: fault.address, words },
        }
    }

    /// Clears V in the PATC entries of a space by page, segment or all.
    fn clear_entries(&mut self, code: u32, supervisor: bool) -> u32 {
        let range = range(code);
        let sar = self.regs[SAR];
        for pair in self.patc.chunks_exact_mut(2) {
            let word = pair[0];
            let same_space = (word & PATC_S != 0) == supervisor;
            if word & PATC_V != 0 && same_space && (word ^ sar) & range == 0 {
                pair[0] = word & (PATC_PAGE_OWN & !PATC_V);
            }
        }
        0
    }
}
