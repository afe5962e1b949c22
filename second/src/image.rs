//! The saved image of a unit: five tagged fields of big-endian words.

use crate::bits::*;
use crate::cache::SET_WORDS;
use crate::order::UseOrder;
use crate::refusal::{self, demand};
use crate::unit::{Unit, BWP0, IDR, PATC_ENTRIES, POINTER, SAPR, SAR, SCR, SCTR, SSR, UAPR};

/// The length of an image in bytes.
pub const IMAGE: usize = 22_039;

/// A field: its tag, where its content begins, and the content's length.
#[derive(Clone, Copy)]
struct Field {
    tag: u8,
    start: usize,
    length: usize,
}

impl Field {
    const fn after(previous: usize, tag: u8, length: usize) -> Field {
        Field { tag, start: previous + HEAD, length }
    }

    const fn end(&self) -> usize {
        self.start + self.length
    }

    fn head(&self) -> [u8; HEAD] {
        let [high, low] = (self.length as u16).to_be_bytes();
        [self.tag, high, low]
    }
}

/// Bytes of a field before its content: a tag and a length of two bytes.
const HEAD: usize = 3;

const REGISTERS: Field = Field::after(0, 1, 40);
const PORTS: Field = Field::after(REGISTERS.end(), 2, 32);
const ENTRIES: Field = Field::after(PORTS.end(), 3, 448);
const LINES: Field = Field::after(ENTRIES.end(), 4, 5120);
const CELLS: Field = Field::after(LINES.end(), 5, 16_384);
const FIELDS: [Field; 5] = [REGISTERS, PORTS, ENTRIES, LINES, CELLS];

const _: () = assert!(CELLS.end() == IMAGE);

/// Own bits of the first field's words.
const REGISTERS_OWN: [u32; 10] =
    [IDR_OWN, SCR_OWN, SSR_OWN, u32::MAX, SCTR_OWN, PFSR_OWN, u32::MAX, AREA_OWN, AREA_OWN, u32::MAX];
const ENTRY_OWN: [u32; 2] = [PATC_PAGE_OWN, PATC_FRAME_OWN];
const SET_OWN: [u32; SET_WORDS] = [TAG_OWN, TAG_OWN, TAG_OWN, TAG_OWN, USE_OWN];

impl Unit {
    /// Writes the image; bytes past its length stay.
    pub fn save(&self, cells: &[u32], out: &mut [u8]) -> Result<(), u32> {
        let cells = refusal::cells(cells)?;
        let out = out.get_mut(..IMAGE).ok_or(refusal::OUTPUT_LENGTH)?;

        for field in FIELDS {
            out[field.start - HEAD..field.start].copy_from_slice(&field.head());
        }
        put(out, REGISTERS, &self.image_registers(), &REGISTERS_OWN);
        put(out, PORTS, &self.regs[BWP0..], &[u32::MAX]);
        put(out, ENTRIES, &self.patc, &ENTRY_OWN);
        put(out, LINES, &self.lines, &SET_OWN);
        put(out, CELLS, cells, &[u32::MAX]);
        Ok(())
    }

    fn image_registers(&self) -> [u32; 10] {
        let [status, address] = self.fault;
        [
            self.regs[IDR],
            self.regs[SCR],
            self.regs[SSR],
            self.regs[SAR],
            self.regs[SCTR],
            status,
            address,
            self.regs[SAPR],
            self.regs[UAPR],
            self.pointer(),
        ]
    }

    /// Reads an image, or refuses it and changes nothing.
    pub fn restore(&mut self, cells: &mut [u32], image: &[u8]) -> Result<(), u32> {
        let cells = refusal::cells_mut(cells)?;
        demand(image.len() == IMAGE, refusal::IMAGE_LENGTH)?;
        demand(fields_in_place(image), refusal::IMAGE_FIELD)?;

        let mut registers = [0; 10];
        let mut unit = Unit::default();
        get(image, REGISTERS, &mut registers);
        get(image, PORTS, &mut unit.regs[BWP0..]);
        get(image, ENTRIES, &mut unit.patc);
        get(image, LINES, &mut unit.lines);
        unit.set_image_registers(registers);

        demand(only_own_bits(&registers, &REGISTERS_OWN), refusal::IMAGE_BITS)?;
        demand(unit.bits_in_order(), refusal::IMAGE_BITS)?;
        demand(!unit.has_doubles(), refusal::IMAGE_DOUBLE)?;

        get(image, CELLS, cells);
        *self = unit;
        Ok(())
    }

    fn set_image_registers(&mut self, registers: [u32; 10]) {
        let [idr, scr, ssr, sar, sctr, pfsr, pfar, sapr, uapr, pointer] = registers;
        self.regs[IDR] = idr;
        self.regs[SCR] = scr;
        self.regs[SSR] = ssr;
        self.regs[SAR] = sar;
        self.regs[SCTR] = sctr;
        self.regs[SAPR] = sapr;
        self.regs[UAPR] = uapr;
        self.regs[POINTER] = pointer;
        self.fault = [pfsr, pfar];
    }

    /// No foreign bit in entries and lines, the pointer within the entries,
    /// every use code an order.
    fn bits_in_order(&self) -> bool {
        self.regs[POINTER] < PATC_ENTRIES as u32
            && only_own_bits(&self.patc, &ENTRY_OWN)
            && only_own_bits(&self.lines, &SET_OWN)
            && self.lines.chunks_exact(SET_WORDS).all(|set| UseOrder::new(set[4]).is_order())
    }

    /// Two valid lines of a set with one tag, or two valid entries with one
    /// page and space.
    fn has_doubles(&self) -> bool {
        let valid_page = |word: u32| (word & PATC_V != 0).then_some(word);
        let valid_tag = |word: u32| (word & 3 != 3).then_some(word & PAGE);
        has_double(self.patc.chunks_exact(2).map(|pair| valid_page(pair[0])))
            || self
                .lines
                .chunks_exact(SET_WORDS)
                .any(|set| has_double(set[..4].iter().map(|&word| valid_tag(word))))
    }
}

/// Whether two of the keys that are there are equal.
fn has_double(mut keys: impl Iterator<Item = Option<u32>> + Clone) -> bool {
    while let Some(key) = keys.next() {
        if key.is_some() && keys.clone().any(|other| other == key) {
            return true;
        }
    }
    false
}

fn fields_in_place(image: &[u8]) -> bool {
    FIELDS.iter().all(|field| image[field.start - HEAD..field.start] == field.head())
}

/// Whether no word has a bit outside the own bits, taken in turn.
fn only_own_bits(words: &[u32], own: &[u32]) -> bool {
    words.chunks_exact(own.len()).flat_map(|row| row.iter().zip(own)).all(|(word, own)| word & !own == 0)
}

/// Writes words with their own bits, taken in turn, as a field's content.
fn put(out: &mut [u8], field: Field, words: &[u32], own: &[u32]) {
    let masked =
        words.chunks_exact(own.len()).flat_map(|row| row.iter().zip(own)).map(|(word, own)| word & own);
    for (bytes, word) in out[field.start..field.end()].chunks_exact_mut(4).zip(masked) {
        bytes.copy_from_slice(&word.to_be_bytes());
    }
}

/// Reads words from a field's content.
fn get(image: &[u8], field: Field, words: &mut [u32]) {
    for (bytes, word) in image[field.start..field.end()].chunks_exact(4).zip(words) {
        *word = u32::from_be_bytes([bytes[0], bytes[1], bytes[2], bytes[3]]);
    }
}
