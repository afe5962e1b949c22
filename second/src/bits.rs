//! Bit positions and the own bits of every word of the state.

/// Bits shared by area pointers, descriptors, PATC frame words and SSR.
pub const WT: u32 = 1 << 9;
pub const SP: u32 = 1 << 8;
pub const G: u32 = 1 << 7;
pub const CI: u32 = 1 << 6;
pub const M: u32 = 1 << 4;
pub const U: u32 = 1 << 3;
pub const WP: u32 = 1 << 2;
pub const V: u32 = 1 << 0;

/// Translation enable of an area pointer.
pub const TE: u32 = 1 << 0;

/// Bits of SSR alone.
pub const CE: u32 = 1 << 15;
pub const BE: u32 = 1 << 14;
pub const BH: u32 = 1 << 1;

/// Snoop enable in SCTR.
pub const SE: u32 = 1 << 14;

/// Bits of a BATC port.
pub const BATC_S: u32 = 1 << 5;
pub const BATC_WT: u32 = 1 << 4;
pub const BATC_G: u32 = 1 << 3;
pub const BATC_CI: u32 = 1 << 2;
pub const BATC_WP: u32 = 1 << 1;
pub const BATC_V: u32 = 1 << 0;

/// Bits of a PATC page word.
pub const PATC_S: u32 = 1 << 1;
pub const PATC_V: u32 = 1 << 0;

/// The parts of an address.
pub const BLOCK: u32 = 0xFFF8_0000;
pub const SEGMENT: u32 = 0xFFC0_0000;
pub const PAGE: u32 = 0xFFFF_F000;
pub const LINE: u32 = 0xFFFF_FFF0;

/// Own bits of the words of the state; all other bits are foreign to it.
pub const IDR_OWN: u32 = 0xFFFF_0000;
pub const SCR_OWN: u32 = 0x3F;
pub const SSR_OWN: u32 = CE | BE | WT | SP | G | CI | M | U | WP | BH | V;
pub const SCTR_OWN: u32 = 0xE000;
pub const AREA_OWN: u32 = PAGE | WT | G | CI | TE;
pub const PFSR_OWN: u32 = 7 << 16;
pub const PATC_PAGE_OWN: u32 = PAGE | PATC_S | PATC_V;
pub const PATC_FRAME_OWN: u32 = PAGE | WT | SP | G | CI | M | WP;
pub const TAG_OWN: u32 = PAGE | 3;
pub const USE_OWN: u32 = 0x3F;
