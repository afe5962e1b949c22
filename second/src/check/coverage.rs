//! Counts of the situations that a run has met.

use crate::answer::{BUS_ERROR, PAGE_FAULT, SEGMENT_FAULT, SUPERVISOR_VIOLATION, WRITE_VIOLATION};
use crate::bits::*;
use crate::bus::Memory;
use crate::cache::{set_of, EXCLUSIVE, INVALID, MODIFIED};
use crate::check::machine::Given;
use crate::check::world::{own_value, Call, Lend, Part, World};
use crate::order::UseOrder;
use crate::translate::walk;
use crate::unit::{Access, BWP0, CONTROL_SPACE, IDR, POINTER, SAPR, SCTR, SSR, UAPR};

macro_rules! situations {
    ($($name:ident),* $(,)?) => {
        /// What can happen in a call.
        #[derive(Clone, Copy, Debug, PartialEq, Eq)]
        pub enum Situation { $($name),* }

        impl Situation {
            pub const ALL: &'static [Situation] = &[$(Situation::$name),*];
        }
    };
}

situations! {
    // Before translation.
    Idle,
    ControlRead,
    ControlWrite,
    ControlCommandMovesWords,
    ControlOfAnotherNumber,
    ControlWithPartEnables,
    UserAboveControlSpace,
    // Translation.
    Unmapped,
    BlockHit,
    BlockHitBehindAnother,
    BlockWriteViolation,
    EntryHit,
    EntryHitLate,
    EntrySupervisorViolation,
    EntryWriteViolation,
    EntryRenewed,
    EntryRenewedWithoutUpdate,
    EntryRenewalFault,
    SearchUpdatesU,
    SearchUpdatesM,
    SearchWithoutUpdate,
    SearchSegmentBusError,
    SearchSegmentFault,
    SearchPageBusError,
    SearchPageFault,
    SearchSupervisorViolation,
    SearchWriteViolation,
    SearchUpdateBusError,
    LoadedFreeEntry,
    LoadedAtPointer,
    PointerWraps,
    PointerOver55,
    // Cached accesses.
    ReadHitExclusive,
    ReadHitModified,
    ReadHitShared,
    ReadMissInvalidVictim,
    ReadMissCleanVictim,
    ReadMissModifiedVictim,
    ReadVictimCopybackFailed,
    ReadFillFailedInvalidVictim,
    ReadFillFailedCleanVictim,
    ReadFillFailedAfterCopyback,
    WriteMissInvalidVictim,
    WriteMissCleanVictim,
    WriteMissModifiedVictim,
    WriteMissThrough,
    WriteMissGlobal,
    WriteVictimCopybackFailed,
    WriteFillFailedInvalidVictim,
    WriteFillFailedCleanVictim,
    WriteFillFailedAfterCopyback,
    WriteMissWordFailed,
    WriteHitLocalExclusive,
    WriteHitLocalModified,
    WriteHitLocalShared,
    WriteHitGlobalExclusive,
    WriteHitGlobalModified,
    WriteHitGlobalShared,
    WriteHitThroughExclusive,
    WriteHitThroughModified,
    WriteHitThroughShared,
    WriteHitThroughFailed,
    WriteHitGlobalFailed,
    PartReadHit,
    PartWrite,
    // Inhibited accesses.
    InhibitedReadMiss,
    InhibitedReadDropsClean,
    InhibitedReadDropsModified,
    InhibitedReadCopybackFailed,
    InhibitedReadWordFailed,
    InhibitedWriteMiss,
    InhibitedWriteDropsClean,
    InhibitedWriteDropsModified,
    InhibitedWriteCopybackFailed,
    InhibitedWriteWordFailed,
    LockedRead,
    LockedWrite,
    LockedDropsModified,
    LockedSearch,
    // Longest lists.
    SixTransactions,
    TwelveWords,
    // Made-up states.
    DoubleLineHit,
    DoubleEntryHit,
    VictimWithoutOrder,
    ForeignBits,
    // Commands.
    FlushCopies,
    FlushInvalidatesModified,
    FlushFailsAtOnce,
    FlushFailsLater,
    ProbeUnmapped,
    ProbeBlock,
    ProbeEntry,
    ProbeSearch,
    ProbeInvalidSegment,
    ProbeInvalidPage,
    ProbeSegmentBusError,
    ProbePageBusError,
    EntriesCleared,
    // Snoops.
    SnoopDisabled,
    SnoopLocal,
    SnoopMiss,
    SnoopClean,
    SnoopCleanIntent,
    SnoopModified,
    SnoopModifiedIntent,
    SnoopFailed,
    // Images.
    ResetDone,
    SaveDone,
    SaveLeavesBytes,
    RestoreDone,
    // Refusals.
    RefusalOfSeveral,
}

use Situation::*;

#[derive(Clone, Debug)]
pub struct Coverage {
    counts: Vec<u64>,
    /// Command codes run by register writes and through control space.
    commands: [[u64; 64]; 2],
    /// Register offsets read and written.
    offsets: [Vec<u64>; 2],
    /// Fault codes.
    faults: [u64; 8],
    /// Refusals by call and number.
    refusals: [[u64; 12]; Call::KINDS],
    pub calls: u64,
}

impl Default for Coverage {
    fn default() -> Self {
        Coverage {
            counts: vec![0; Situation::ALL.len()],
            commands: [[0; 64]; 2],
            offsets: [vec![0; 1024], vec![0; 1024]],
            faults: [0; 8],
            refusals: [[0; 12]; Call::KINDS],
            calls: 0,
        }
    }
}

/// The numbers with which each call can be refused.
pub const REFUSALS: [&[usize]; Call::KINDS] =
    [&[3], &[1, 2, 3, 4, 5], &[1, 3, 4], &[6], &[1, 2, 3, 6], &[3, 11], &[3, 7, 8, 9, 10]];

/// Which rules of its number up to 7, or 11, a call breaks, in rising order.
pub fn broken_rules(call: &Call) -> Vec<u32> {
    let ram = |lend: &Lend| !lend.ram.is_multiple_of(4) || lend.ram > 4_194_304;
    let rom = |lend: &Lend| !lend.rom.is_multiple_of(4) || lend.rom > 262_144;
    let tests: Vec<(u32, bool)> = match call {
        Call::Reset { cells, .. } => vec![(3, *cells != 4096)],
        Call::Access { lend, address, enables, .. } => vec![
            (1, ram(lend)),
            (2, rom(lend)),
            (3, lend.cells != 4096),
            (4, address & 3 != 0),
            (5, *enables > 15),
        ],
        Call::Snoop { lend, address, .. } => {
            vec![(1, ram(lend)), (3, lend.cells != 4096), (4, address & 3 != 0)]
        }
        Call::ReadRegister { offset } => vec![(6, *offset > 4092 || offset & 3 != 0)],
        Call::WriteRegister { lend, offset, .. } => vec![
            (1, ram(lend)),
            (2, rom(lend)),
            (3, lend.cells != 4096),
            (6, *offset > 4092 || offset & 3 != 0),
        ],
        Call::Save { cells, out } => vec![(3, *cells != 4096), (11, *out < crate::IMAGE)],
        Call::Restore { cells, image } => vec![(3, *cells != 4096), (7, image.len() != crate::IMAGE)],
    };
    tests.into_iter().filter(|test| test.1).map(|test| test.0).collect()
}

/// Where an access's translation comes from.
#[derive(Clone, Copy, Debug, PartialEq, Eq)]
enum Source {
    Unmapped,
    Block,
    Entry,
    Renewal,
    Search,
}

/// What is known of a call before it runs.
pub struct Before {
    access: Option<AccessBefore>,
    snoop_hits: bool,
    pointer: u32,
    entries_full: bool,
    valid_entries: u32,
    modified_lines: usize,
    foreign: bool,
}

/// What is known of an access before it runs.
struct AccessBefore {
    access: Access,
    source: Source,
    behind: bool,
    entry: Option<usize>,
    double_entry: bool,
    /// The physical address and attributes, if the translation gets there.
    target: Option<(u32, u32)>,
    update: bool,
    hit: Option<u32>,
    double_line: bool,
    victim: u32,
    victim_without_order: bool,
}

impl Before {
    /// Looks at the world before a well-formed call.
    pub fn new(world: &mut World, call: &Call) -> Before {
        let access = match *call {
            Call::Access { lend, address, kind, enables, word } => {
                let access = Access::new(address, kind, enables, word);
                let control = access.supervisor && address >= CONTROL_SPACE;
                (!control).then(|| AccessBefore::new(world, lend, access))
            }
            _ => None,
        };
        let snoop_hits = match *call {
            Call::Snoop { address, .. } => find_line(world, address).is_some(),
            _ => false,
        };
        let valid_entries = world.unit.patc.iter().step_by(2).map(|word| word & PATC_V).sum();
        let is_command = matches!(call, Call::WriteRegister { offset: 4, .. });
        Before {
            access,
            snoop_hits,
            pointer: world.unit.regs[POINTER],
            entries_full: valid_entries == 56,
            valid_entries,
            modified_lines: if is_command { modified_lines(world) } else { 0 },
            foreign: (0..112).any(|n| own_value(Part::Entries, n, world.unit.patc[n]) != world.unit.patc[n]),
        }
    }
}

fn modified_lines(world: &World) -> usize {
    let tags = world.unit.lines.chunks_exact(5).flat_map(|set| &set[..4]);
    tags.filter(|&tag| tag & 3 == MODIFIED).count()
}

/// The state of the line that hits, and whether another one would too.
fn find_line(world: &World, address: u32) -> Option<(u32, bool)> {
    let set = set_of(address);
    let mut hits = (0..4).filter(|line| {
        let word = world.unit.lines[5 * set + line];
        word & 3 != INVALID && (word ^ address) & PAGE == 0
    });
    let line = hits.next()?;
    Some((world.unit.lines[5 * set + line] & 3, hits.next().is_some()))
}

impl AccessBefore {
    fn new(world: &mut World, lend: Lend, access: Access) -> AccessBefore {
        let Access { address, supervisor, write, .. } = access;
        let World { unit, ram, rom, .. } = &mut *world;
        let (ram, rom) = (&mut ram[..lend.ram], &rom[..lend.rom]);
        let memory = Memory::new(ram, rom);
        let probe = unit.look_up(&memory, address, supervisor);
        let found = probe.status & V != 0;

        let page_key = address & PAGE | if supervisor { PATC_S } else { 0 } | PATC_V;
        let mut entries = (0..56).filter(|n| unit.patc[2 * n] & PATC_PAGE_OWN == page_key);
        let entry = entries.next();
        let double_entry = entries.next().is_some();

        let area = unit.regs[if supervisor { SAPR } else { UAPR }];
        let refused = !supervisor && probe.status & SP != 0 || write && probe.status & WP != 0;
        let source = if area & TE == 0 {
            Source::Unmapped
        } else if probe.status & BH != 0 {
            Source::Block
        } else if entry.is_none() {
            Source::Search
        } else if write && probe.status & M == 0 && !refused {
            Source::Renewal
        } else {
            Source::Entry
        };
        let block_key = address & BLOCK | if supervisor { BATC_S } else { 0 } | BATC_V;
        let hits = |port: u32| port & (BLOCK | BATC_S | BATC_V) == block_key;
        let behind = unit.regs[BWP0] & BATC_V != 0 && !hits(unit.regs[BWP0]);

        let mut target = found.then_some((probe.address, probe.status));
        let mut update = false;
        if matches!(source, Source::Renewal | Source::Search) {
            let walked = walk(area, address, |at| memory.read(at));
            let wanted = if write { U | M } else { U };
            update = walked.is_ok_and(|walked| walked.descriptor & wanted != wanted);
            target = walked.ok().map(|walked| (walked.translation.address, walked.translation.attributes));
        }

        let (mut hit, mut double_line, mut victim, mut victim_without_order) = (None, false, INVALID, false);
        if let Some((physical, _)) = target {
            let line = find_line(world, physical);
            hit = line.map(|line| line.0);
            double_line = line.is_some_and(|line| line.1);
            let set = &world.unit.lines[5 * set_of(physical)..][..5];
            if set[..4].iter().all(|tag| tag & 3 != INVALID) {
                let earliest = UseOrder::new(set[4]).earliest();
                victim_without_order = earliest.is_none();
                victim = set[earliest.unwrap_or(0)] & 3;
            }
        }
        AccessBefore {
            access,
            source,
            behind,
            entry,
            double_entry,
            target,
            update,
            hit,
            double_line,
            victim,
            victim_without_order,
        }
    }
}

impl Coverage {
    pub fn count(&mut self, situation: Situation) {
        self.counts[situation as usize] += 1;
    }

    fn count_if(&mut self, holds: bool, situation: Situation) {
        if holds {
            self.count(situation);
        }
    }

    /// Notes a call that was refused.
    pub fn refused(&mut self, call: &Call, number: u32) {
        self.calls += 1;
        self.refusals[call.kind()][number as usize % 12] += 1;
        self.count_if(broken_rules(call).len() > 1, RefusalOfSeveral);
    }

    /// Notes a call that was done.
    pub fn done(&mut self, before: &Before, call: &Call, given: &Given, after: &World) {
        self.calls += 1;
        let moved = given.reply[0];
        match *call {
            Call::Reset { .. } => self.count(ResetDone),
            Call::Access { address, kind, enables, word, .. } => match &before.access {
                Some(access) => self.access(before, access, given, after),
                None => self.control(Access::new(address, kind, enables, word), before, given, after),
            },
            Call::Snoop { kind, .. } => self.snoop(before, kind, given, after),
            Call::ReadRegister { offset } => self.offsets[0][offset as usize / 4] += 1,
            Call::WriteRegister { offset, value, .. } => {
                self.offsets[1][offset as usize / 4] += 1;
                if offset == 0x004 {
                    self.commands[0][(value & 0x3F) as usize] += 1;
                    self.command(before, value & 0x3F, moved, after);
                }
            }
            Call::Save { out, .. } => {
                self.count(SaveDone);
                self.count_if(out > crate::IMAGE, SaveLeavesBytes);
            }
            Call::Restore { .. } => self.count(RestoreDone),
        }
    }

    fn control(&mut self, access: Access, before: &Before, given: &Given, after: &World) {
        let [outcome, code, _, words, ..] = given.reply;
        if outcome == 3 {
            self.faults[code as usize & 7] += 1;
        }
        let number = after.unit.regs[IDR] >> 24;
        match outcome {
            0 => self.count(Idle),
            1 => self.count(ControlRead),
            2 => {
                self.count(ControlWrite);
                self.count_if(words > 0, ControlCommandMovesWords);
                if access.address & 0xFFF == 4 {
                    self.commands[1][(access.word & 0x3F) as usize] += 1;
                    self.command(before, access.word & 0x3F, words, after);
                }
            }
            _ if access.address >> 12 & 0xFF != number => self.count(ControlOfAnotherNumber),
            _ => self.count(ControlWithPartEnables),
        }
    }

    fn access(&mut self, before: &Before, access: &AccessBefore, given: &Given, after: &World) {
        let [outcome, code, _, words, listed, ..] = given.reply;
        if outcome == 0 {
            return self.count(Idle);
        }
        self.count_if(access.access.address >= CONTROL_SPACE, UserAboveControlSpace);
        self.count_if(listed == 6, SixTransactions);
        self.count_if(words == 12, TwelveWords);
        self.count_if(before.foreign, ForeignBits);
        if outcome == 3 {
            self.faults[code as usize & 7] += 1;
        }
        let Some(searched) = self.translation(before, access, given, after) else {
            return;
        };
        // What was listed after the search, and whether the last one failed.
        let rest = listed.saturating_sub(searched);
        self.path(access, rest, outcome == 3);
    }

    /// Notes the translation. Answers the length of the search's list, unless
    /// the translation ended the access.
    fn translation(
        &mut self,
        before: &Before,
        access: &AccessBefore,
        given: &Given,
        after: &World,
    ) -> Option<u32> {
        let [outcome, code, _, _, listed, ..] = given.reply;
        let violation = outcome == 3 && code >= SUPERVISOR_VIOLATION;
        let write_violation = violation && code == WRITE_VIOLATION;
        self.count_if(access.access.locked && access.source == Source::Search, LockedSearch);
        match access.source {
            Source::Unmapped => self.count(Unmapped),
            Source::Block => {
                self.count(if write_violation { BlockWriteViolation } else { BlockHit });
                self.count_if(access.behind, BlockHitBehindAnother);
            }
            Source::Entry => {
                self.count_if(access.double_entry, DoubleEntryHit);
                if violation {
                    self.count(if write_violation { EntryWriteViolation } else { EntrySupervisorViolation });
                } else {
                    self.count(EntryHit);
                    self.count_if(access.entry.is_some_and(|entry| entry >= 40), EntryHitLate);
                }
            }
            Source::Renewal | Source::Search => return self.search(before, access, given, after),
        }
        (!violation && (outcome != 3 || listed > 0)).then_some(0)
    }

    fn search(
        &mut self,
        before: &Before,
        access: &AccessBefore,
        given: &Given,
        after: &World,
    ) -> Option<u32> {
        let [outcome, code, _, _, listed, ..] = given.reply;
        let searched = 2 + u32::from(access.update);
        let renewal = access.source == Source::Renewal;
        let last_failed = outcome == 3 && code == BUS_ERROR;
        let ended = match code {
            _ if outcome != 3 => None,
            SEGMENT_FAULT => Some(SearchSegmentFault),
            PAGE_FAULT => Some(SearchPageFault),
            SUPERVISOR_VIOLATION => Some(SearchSupervisorViolation),
            WRITE_VIOLATION => Some(SearchWriteViolation),
            _ if last_failed && listed == 1 => Some(SearchSegmentBusError),
            _ if last_failed && listed == 2 && access.target.is_none() => Some(SearchPageBusError),
            _ if last_failed && listed == 3 && access.update => Some(SearchUpdateBusError),
            _ => None,
        };
        if let Some(situation) = ended {
            self.count(situation);
            self.count_if(renewal, EntryRenewalFault);
            return None;
        }
        if renewal {
            self.count(if access.update { EntryRenewed } else { EntryRenewedWithoutUpdate });
            return Some(searched);
        }
        self.count(match (access.update, access.access.write) {
            (false, _) => SearchWithoutUpdate,
            (true, false) => SearchUpdatesU,
            (true, true) => SearchUpdatesM,
        });
        if before.entries_full {
            self.count(LoadedAtPointer);
            self.count_if(before.pointer == 55 && after.unit.regs[POINTER] == 0, PointerWraps);
            self.count_if(before.pointer > 55, PointerOver55);
        } else {
            self.count(LoadedFreeEntry);
        }
        Some(searched)
    }

    /// Notes the way through cache and bus: how many transactions it listed,
    /// and whether the last of them failed.
    fn path(&mut self, access: &AccessBefore, listed: u32, failed: bool) {
        let Some((_, attributes)) = access.target else {
            return;
        };
        self.count_if(access.double_line, DoubleLineHit);
        let Access { write, locked, enables, .. } = access.access;
        if locked || attributes & CI != 0 {
            return self.inhibited(access, listed, failed);
        }
        self.count_if(enables != 15 && write && !failed, PartWrite);
        let through = attributes & WT != 0;
        let global = attributes & G != 0;
        match access.hit {
            Some(state) if !write => {
                self.count_if(enables != 15, PartReadHit);
                self.count(match state {
                    EXCLUSIVE => ReadHitExclusive,
                    MODIFIED => ReadHitModified,
                    _ => ReadHitShared,
                });
            }
            Some(_) if failed => {
                self.count(if through { WriteHitThroughFailed } else { WriteHitGlobalFailed })
            }
            Some(state) => self.count(match (through, global, state) {
                (true, _, EXCLUSIVE) => WriteHitThroughExclusive,
                (true, _, MODIFIED) => WriteHitThroughModified,
                (true, _, _) => WriteHitThroughShared,
                (_, true, EXCLUSIVE) => WriteHitGlobalExclusive,
                (_, true, MODIFIED) => WriteHitGlobalModified,
                (_, true, _) => WriteHitGlobalShared,
                (_, _, EXCLUSIVE) => WriteHitLocalExclusive,
                (_, _, MODIFIED) => WriteHitLocalModified,
                _ => WriteHitLocalShared,
            }),
            None => self.miss(access, listed, failed, through, global),
        }
    }

    fn miss(&mut self, access: &AccessBefore, listed: u32, failed: bool, through: bool, global: bool) {
        let write = access.access.write;
        let modified = access.victim == MODIFIED;
        self.count_if(access.victim_without_order, VictimWithoutOrder);
        let fill = if modified { 2 } else { 1 };
        let situation = match (access.victim, write) {
            _ if failed && modified && listed == 1 && write => WriteVictimCopybackFailed,
            _ if failed && modified && listed == 1 => ReadVictimCopybackFailed,
            (MODIFIED, true) if failed && listed == fill => WriteFillFailedAfterCopyback,
            (INVALID, true) if failed && listed == fill => WriteFillFailedInvalidVictim,
            (_, true) if failed && listed == fill => WriteFillFailedCleanVictim,
            (MODIFIED, false) if failed => ReadFillFailedAfterCopyback,
            (INVALID, false) if failed => ReadFillFailedInvalidVictim,
            (_, false) if failed => ReadFillFailedCleanVictim,
            _ if failed => WriteMissWordFailed,
            (MODIFIED, true) => WriteMissModifiedVictim,
            (INVALID, true) => WriteMissInvalidVictim,
            (_, true) => WriteMissCleanVictim,
            (MODIFIED, false) => ReadMissModifiedVictim,
            (INVALID, false) => ReadMissInvalidVictim,
            (_, false) => ReadMissCleanVictim,
        };
        self.count(situation);
        self.count_if(write && !failed && through, WriteMissThrough);
        self.count_if(write && !failed && global && !through, WriteMissGlobal);
    }

    fn inhibited(&mut self, access: &AccessBefore, listed: u32, failed: bool) {
        let Access { write, locked, .. } = access.access;
        let modified = access.hit == Some(MODIFIED);
        let either = |read, written| if write { written } else { read };
        let situation = match access.hit {
            _ if failed && modified && listed == 1 => {
                either(InhibitedReadCopybackFailed, InhibitedWriteCopybackFailed)
            }
            _ if failed => either(InhibitedReadWordFailed, InhibitedWriteWordFailed),
            None => either(InhibitedReadMiss, InhibitedWriteMiss),
            Some(MODIFIED) => either(InhibitedReadDropsModified, InhibitedWriteDropsModified),
            Some(_) => either(InhibitedReadDropsClean, InhibitedWriteDropsClean),
        };
        self.count(situation);
        self.count_if(locked && !failed, either(LockedRead, LockedWrite));
        self.count_if(locked && !failed && modified, LockedDropsModified);
    }

    fn command(&mut self, before: &Before, code: u32, words: u32, after: &World) {
        let status = after.unit.regs[SSR];
        match code {
            0x14..=0x1F => {
                self.count_if(words > 0, FlushCopies);
                self.count_if(status & BE != 0 && words == 0, FlushFailsAtOnce);
                self.count_if(status & BE != 0 && words > 0, FlushFailsLater);
                let dropped = before.modified_lines > modified_lines(after);
                self.count_if(code <= 0x17 && dropped, FlushInvalidatesModified);
            }
            0x20 | 0x24 => self.count(match (status & V != 0, status & BE != 0, words) {
                (true, _, 2) => ProbeSearch,
                (true, _, _) if status & BH != 0 => ProbeBlock,
                (true, _, _) if status & U != 0 => ProbeEntry,
                (true, _, _) => ProbeUnmapped,
                (_, true, 0) => ProbeSegmentBusError,
                (_, true, _) => ProbePageBusError,
                (_, _, 1) => ProbeInvalidSegment,
                _ => ProbeInvalidPage,
            }),
            0x31..=0x33 | 0x35..=0x37 => {
                let valid: u32 = after.unit.patc.iter().step_by(2).map(|word| word & PATC_V).sum();
                self.count_if(valid < before.valid_entries, EntriesCleared);
            }
            _ => {}
        }
    }

    fn snoop(&mut self, before: &Before, kind: u32, given: &Given, after: &World) {
        let intent = kind & 2 != 0;
        self.count(match given.reply[0] {
            2 => SnoopFailed,
            1 if intent => SnoopModifiedIntent,
            1 => SnoopModified,
            _ if after.unit.regs[SCTR] & SE == 0 => SnoopDisabled,
            _ if kind & 1 == 0 => SnoopLocal,
            _ if !before.snoop_hits => SnoopMiss,
            _ if intent => SnoopCleanIntent,
            _ => SnoopClean,
        });
    }

    /// What the run has not met.
    pub fn missing(&self) -> Vec<String> {
        let mut missing = Vec::new();
        for &situation in Situation::ALL {
            if self.counts[situation as usize] == 0 {
                missing.push(format!("{situation:?}"));
            }
        }
        for (way, commands) in self.commands.iter().enumerate() {
            for code in (0..64).filter(|&code| commands[code] == 0) {
                let way = ["register", "control"][way];
                missing.push(format!("command {code:02X} by {way}"));
            }
        }
        for (way, offsets) in self.offsets.iter().enumerate() {
            for offset in (0..1024).filter(|&offset| offsets[offset] == 0) {
                let way = ["read", "write"][way];
                missing.push(format!("{way} at offset {:03X}", 4 * offset));
            }
        }
        for code in (3..8).filter(|&code| self.faults[code] == 0) {
            missing.push(format!("fault {code}"));
        }
        for (call, numbers) in REFUSALS.iter().enumerate() {
            for &number in numbers.iter().filter(|&&number| self.refusals[call][number] == 0) {
                missing.push(format!("refusal {number} of call {call}"));
            }
        }
        missing
    }

    /// The counts, one line each.
    pub fn summary(&self) -> String {
        let mut lines = vec![format!("{:>10} calls", self.calls)];
        for &situation in Situation::ALL {
            lines.push(format!("{:>10} {situation:?}", self.counts[situation as usize]));
        }
        for (call, numbers) in REFUSALS.iter().enumerate() {
            for &number in *numbers {
                lines.push(format!("{:>10} refusal {number} of call {call}", self.refusals[call][number]));
            }
        }
        for (code, count) in self.faults.iter().enumerate().skip(3) {
            lines.push(format!("{count:>10} fault {code}"));
        }
        lines.join("\n")
    }

    /// Nothing outside its list may refuse a call.
    pub fn unexpected_refusals(&self) -> Vec<String> {
        let mut unexpected = Vec::new();
        for (call, counts) in self.refusals.iter().enumerate() {
            for (number, &count) in counts.iter().enumerate() {
                if count > 0 && !REFUSALS[call].contains(&number) {
                    unexpected.push(format!("refusal {number} of call {call}"));
                }
            }
        }
        unexpected
    }
}
