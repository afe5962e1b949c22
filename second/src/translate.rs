//! From logical to physical: unmapped areas, BATC, PATC and the table search.

use crate::answer::{signal, Fault, PAGE_FAULT, SEGMENT_FAULT, SUPERVISOR_VIOLATION, WRITE_VIOLATION};
use crate::bits::*;
use crate::bus::{Bus, BusError};
use crate::unit::{Access, Unit, BWP0, PATC_ENTRIES, POINTER, SAPR, UAPR};

/// A physical address with the attributes of its translation, which stand
/// where a page descriptor has them.
#[derive(Clone, Copy, Debug, PartialEq, Eq)]
pub struct Translation {
    pub address: u32,
    pub attributes: u32,
}

impl Translation {
    pub fn has(&self, attribute: u32) -> bool {
        self.attributes & attribute != 0
    }

    /// The protection tests: a user needs SP clear, then a write WP clear.
    fn permit(self, access: &Access) -> Result<Self, Fault> {
        if self.has(SP) && !access.supervisor {
            Err(Fault::new(SUPERVISOR_VIOLATION, self.address))
        } else if self.has(WP) && access.write {
            Err(Fault::new(WRITE_VIOLATION, self.address))
        } else {
            Ok(self)
        }
    }
}

/// What the tables say about an address.
#[derive(Clone, Copy, Debug)]
pub struct Walk {
    /// Where the page descriptor stands, and its word.
    pub descriptor_address: u32,
    pub descriptor: u32,
    /// The translation, with M and U as the page descriptor has them.
    pub translation: Translation,
}

/// Reads both descriptors of an address. Ends in fault 3, 4 or 5.
pub fn walk(
    area: u32,
    address: u32,
    mut read: impl FnMut(u32) -> Result<u32, BusError>,
) -> Result<Walk, Fault> {
    let mut read = |at| read(at).map_err(|_| Fault::bus_error(at));

    let segment_address = (area & PAGE) + 4 * (address >> 22);
    let segment = read(segment_address)?;
    if segment & V == 0 {
        return Err(Fault::new(SEGMENT_FAULT, segment_address));
    }

    let page_address = (segment & PAGE) + 4 * (address >> 12 & 0x3FF);
    let page = read(page_address)?;
    if page & V == 0 {
        return Err(Fault::new(PAGE_FAULT, page_address));
    }

    let attributes = (segment | page) & (SP | WP) | (area | segment | page) & (WT | G | CI) | page & (M | U);
    Ok(Walk {
        descriptor_address: page_address,
        descriptor: page,
        translation: Translation { address: page & PAGE | address & !PAGE, attributes },
    })
}

impl Unit {
    /// Translates an access that is not to control space.
    pub(crate) fn translate(&mut self, access: &Access, bus: &mut Bus) -> Result<Translation, Fault> {
        if let Some(unmapped) = self.unmapped(access.address, access.supervisor) {
            return Ok(unmapped);
        }
        if let Some(block) = self.block(access.address, access.supervisor) {
            return block.permit(access);
        }
        let Some(entry) = self.find_entry(access.address, access.supervisor) else {
            let (found, frame) = self.search(access, bus)?;
            self.load_entry(access, frame);
            return Ok(found);
        };
        let page = self.entry_translation(entry, access.address).permit(access)?;
        if access.write && !page.has(M) {
            let (found, frame) = self.search(access, bus)?;
            self.set_entry(entry, access, frame);
            return Ok(found);
        }
        Ok(page)
    }

    pub(crate) fn area(&self, supervisor: bool) -> u32 {
        self.regs[if supervisor { SAPR } else { UAPR }]
    }

    /// With TE clear the address stays, with the area's attributes.
    pub(crate) fn unmapped(&self, address: u32, supervisor: bool) -> Option<Translation> {
        let area = self.area(supervisor);
        (area & TE == 0).then_some(Translation { address, attributes: area & (WT | G | CI) })
    }

    /// The translation by the lowest BATC port that hits.
    pub(crate) fn block(&self, address: u32, supervisor: bool) -> Option<Translation> {
        let space = if supervisor { BATC_S } else { 0 };
        let key = address & BLOCK | space | BATC_V;
        let port = self.regs[BWP0..].iter().find(|&&port| port & (BLOCK | BATC_S | BATC_V) == key)?;
        let moved = |from: u32, to: u32| if port & from != 0 { to } else { 0 };
        Some(Translation {
            address: port << 13 & BLOCK | address & !BLOCK,
            attributes: moved(BATC_WT, WT) | moved(BATC_G, G) | moved(BATC_CI, CI) | moved(BATC_WP, WP),
        })
    }

    /// The lowest PATC entry that hits.
    pub(crate) fn find_entry(&self, address: u32, supervisor: bool) -> Option<usize> {
        let key = page_word(address, supervisor);
        (0..PATC_ENTRIES).find(|&entry| self.patc[2 * entry] & PATC_PAGE_OWN == key)
    }

    /// The translation by a PATC entry, U clear.
    pub(crate) fn entry_translation(&self, entry: usize, address: u32) -> Translation {
        let frame = self.patc[2 * entry + 1];
        Translation { address: frame & PAGE | address & !PAGE, attributes: frame & (PATC_FRAME_OWN & !PAGE) }
    }

    /// The table search of an access, with the update of the page descriptor.
    /// Answers the translation and the frame word of its entry.
    fn search(&self, access: &Access, bus: &mut Bus) -> Result<(Translation, u32), Fault> {
        let area = self.area(access.supervisor);
        let signals = if area & G != 0 { signal::GLOBAL } else { 0 };
        let found = walk(area, access.address, |at| bus.read(at, signals).map_err(|_| BusError))?;
        let translation = found.translation.permit(access)?;

        let wanted = if access.write { U | M } else { U };
        let updated = found.descriptor | wanted;
        if updated != found.descriptor {
            bus.write(found.descriptor_address, updated, 15, signals)?;
        }
        let attributes = translation.attributes | updated & M;
        let frame = (translation.address & PAGE | attributes) & PATC_FRAME_OWN;
        Ok((translation, frame))
    }

    /// Loads the lowest invalid entry, or else the one at the pointer.
    fn load_entry(&mut self, access: &Access, frame: u32) {
        let free = (!self.valid_entries()).trailing_zeros() as usize;
        if free < PATC_ENTRIES {
            return self.set_entry(free, access, frame);
        }
        let oldest = self.pointer();
        self.set_entry(oldest as usize, access, frame);
        self.regs[POINTER] = (oldest + 1) % PATC_ENTRIES as u32;
    }

    fn set_entry(&mut self, entry: usize, access: &Access, frame: u32) {
        self.patc[2 * entry] = page_word(access.address, access.supervisor);
        self.patc[2 * entry + 1] = frame;
    }

    /// The map of the valid entries, entry 0 at bit 0.
    fn valid_entries(&self) -> u64 {
        let entries = self.patc.chunks_exact(2).enumerate();
        entries.fold(0, |map, (entry, pair)| map | u64::from(pair[0] & PATC_V) << entry)
    }
}

/// The page word of a valid entry for an address.
fn page_word(address: u32, supervisor: bool) -> u32 {
    address & PAGE | if supervisor { PATC_S } else { 0 } | PATC_V
}
