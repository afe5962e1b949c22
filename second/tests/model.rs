//! The model against document 01, part by part.

mod common;

use common::*;
use second::order::UseOrder;
use second::{Access, Outcome, Snoop, Snooped, Unit, IMAGE};

// ---------------------------------------------------------------- reset

#[test]
fn reset_sets_every_word() {
    let mut unit = Unit { regs: [!0; 16], fault: [!0; 2], patc: [!0; 112], lines: [!0; 1280] };
    let mut cells = vec![!0; 4096];
    assert_eq!(unit.reset(&mut cells[..4095], 1), Err(3));
    assert!(unit.regs == [!0; 16] && cells == vec![!0; 4096]);

    unit.reset(&mut cells, 0x81).unwrap();
    assert_eq!(unit.regs, [0x81A0_0000, 0, 0, 0, 0, 0x40, 0x40, 0, 0, 0, 0, 0, 0, 0, 0, 0]);
    assert_eq!(unit.fault, [0, 0]);
    assert_eq!(unit.patc, [0; 112]);
    assert!(unit.lines.chunks(5).all(|set| set == [3, 3, 3, 3, 63]));
    assert!(cells.iter().all(|&cell| cell == 0));
}

// ------------------------------------------------------------ registers

#[test]
fn every_offset_reads_and_writes_as_named() {
    let own = |offset: u32| match offset {
        SCR => 0x3F,
        SSR => 0xC3DF,
        SAR | PFAR => u32::MAX,
        SCTR => 0xE000,
        PFSR => 0x0007_0000,
        SAPR | UAPR => 0xFFFF_F2C1,
        _ => 0,
    };
    for offset in (0..4096).step_by(4) {
        for value in [0, 0xFFFF_FFFF, 0x5555_5555, 0xAAAA_AAAA] {
            let mut board = Board::new(16, 0);
            let before = board.unit.clone();
            board.set(offset, value);
            let expected = if offset == IDR { 0x7FA0_0000 } else { value & own(offset) };
            assert_eq!(board.get(offset), expected, "offset {offset:03X}");
            if (0x400..=0x41C).contains(&offset) {
                assert_eq!(board.unit.regs[8 + (offset as usize - 0x400) / 4], value);
            } else if own(offset) == 0 {
                assert!(board.unit == before, "offset {offset:03X}");
            }
        }
    }
}

#[test]
fn foreign_bits_of_registers_read_as_0() {
    let unit = Unit { regs: [!0; 16], fault: [!0; 2], patc: [!0; 112], lines: [!0; 1280] };
    let read = |offset| unit.read_register(offset).unwrap();
    assert_eq!(read(IDR), 0xFFFF_0000);
    assert_eq!(read(SCR), 0x3F);
    assert_eq!(read(SSR), 0xC3DF);
    assert_eq!(read(SCTR), 0xE000);
    assert_eq!(read(PFSR), 0x0007_0000);
    assert_eq!(read(SAPR), 0xFFFF_F2C1);
    assert_eq!(read(UAPR), 0xFFFF_F2C1);
    assert_eq!(read(BWP0), 0);
}

// ------------------------------------------------------------- refusals

/// The lowest of the numbers whose bit is set.
fn lowest(numbers: &[u32], bad: u32) -> Option<u32> {
    numbers.iter().enumerate().find(|(n, _)| bad >> n & 1 == 1).map(|(_, &number)| number)
}

fn lengths(board: &Board, bad_cells: bool, bad_ram: bool, bad_rom: bool) -> (Vec<u32>, Vec<u32>, Vec<u32>) {
    let cells = if bad_cells { vec![7; 4092] } else { board.cells.clone() };
    let ram = if bad_ram { vec![7; 18] } else { board.ram.clone() };
    let rom = if bad_rom { vec![7; 3] } else { board.rom.clone() };
    (cells, ram, rom)
}

#[test]
fn access_refuses_in_rising_order() {
    for bad in 0..32 {
        for kind in [USER, WRITE, SUPERVISOR | WRITE] {
            let mut board = Board::new(64, 16);
            let (mut cells, mut ram, rom) = lengths(&board, bad & 4 != 0, bad & 1 != 0, bad & 2 != 0);
            let before = (board.unit.clone(), cells.clone(), ram.clone());
            let address = if bad & 8 != 0 { 0x12 } else { 0x10 };
            let enables = if bad & 16 != 0 { 16 } else { 15 };
            let access = Access::new(address, kind, enables, 1);
            let answer = board.unit.access(&mut cells, &mut ram, &rom, &access);
            assert_eq!(answer.err(), lowest(&[1, 2, 3, 4, 5], bad));
            if bad != 0 {
                assert!((board.unit, cells, ram) == before);
            }
        }
    }
}

#[test]
fn snoop_refuses_in_rising_order() {
    for bad in 0..8 {
        let mut board = Board::new(64, 0);
        board.put_line(1, 0, 0, MODIFIED, 5);
        board.set(SCTR, 0x4000);
        let (mut cells, mut ram, _) = lengths(&board, bad & 2 != 0, bad & 1 != 0, false);
        let before = (board.unit.clone(), cells.clone(), ram.clone());
        let address = if bad & 4 != 0 { 0x11 } else { 0x10 };
        let answer = board.unit.snoop(&mut cells, &mut ram, &Snoop::new(address, 3));
        assert_eq!(answer.err(), lowest(&[1, 3, 4], bad));
        if bad != 0 {
            assert!((board.unit, cells, ram) == before);
        }
    }
}

#[test]
fn register_calls_refuse_in_rising_order() {
    for bad in 0..16 {
        for (bad_offset, good_offset) in [(4096, SCR), (6, SAR), (u32::MAX, SAPR), (4093, 4092)] {
            let mut board = Board::new(64, 16);
            board.put_line(1, 0, 0, MODIFIED, 5);
            let (mut cells, mut ram, rom) = lengths(&board, bad & 4 != 0, bad & 1 != 0, bad & 2 != 0);
            let before = (board.unit.clone(), cells.clone(), ram.clone());
            let offset = if bad & 8 != 0 { bad_offset } else { good_offset };
            let answer = board.unit.write_register(&mut cells, &mut ram, &rom, offset, 0x1F);
            assert_eq!(answer.err(), lowest(&[1, 2, 3, 6], bad));
            assert_eq!(board.unit.read_register(offset).err(), lowest(&[6], bad >> 3));
            if bad != 0 {
                assert!((board.unit, cells, ram) == before);
            }
        }
    }
}

#[test]
fn memory_lengths_have_limits() {
    let mut unit = Unit::default();
    let mut cells = vec![0; 4096];
    let read = Access::new(0, USER, 15, 0);
    for (length, number) in [(4_194_304, None), (4_194_308, Some(1)), (4_194_303, Some(1)), (0, None)] {
        let mut ram = vec![0; length];
        assert_eq!(unit.access(&mut cells, &mut ram, &[], &read).err(), number);
    }
    for (length, number) in [(262_144, None), (262_148, Some(2)), (262_143, Some(2)), (0, None)] {
        let rom = vec![0; length];
        assert_eq!(unit.access(&mut cells, &mut [], &rom, &read).err(), number);
    }
    for (length, number) in [(4096, None), (4095, Some(3)), (4100, Some(3)), (0, Some(3))] {
        let mut cells = vec![0; length];
        assert_eq!(unit.access(&mut cells, &mut [], &[], &read).err(), number);
    }
}

#[test]
fn save_and_restore_refuse_in_rising_order() {
    let mut board = Board::new(16, 0);
    let mut image = board.save();
    image.push(0);
    let before = board.clone();
    let mut out = vec![9; IMAGE + 3];
    assert_eq!(board.unit.save(&board.cells[..4000], &mut out[..5]), Err(3));
    assert_eq!(board.unit.save(&board.cells, &mut out[..IMAGE - 1]), Err(11));
    assert_eq!(board.unit.save(&board.cells, &mut []), Err(11));
    assert_eq!(out, vec![9; IMAGE + 3]);
    assert_eq!(board.unit.save(&board.cells, &mut out), Ok(()));
    assert_eq!(out[IMAGE..], [9; 3]);

    let mut few = vec![5; 4000];
    assert_eq!(board.unit.restore(&mut few, &image), Err(3));
    assert_eq!(board.restore(&image), Err(7));
    assert_eq!(board.restore(&[]), Err(7));
    assert_eq!(board.restore(&image[..IMAGE - 1]), Err(7));
    assert!(board == before);
}

// ---------------------------------------------------- idle and control

#[test]
fn no_enables_is_idle() {
    let mut board = Board::mapped();
    for kind in [USER, WRITE, LOCK, SUPERVISOR, SUPERVISOR | WRITE] {
        for address in [0, 0x00C0_5124, 0xFFF7_F004, 0xFFFF_FFFC] {
            let before = board.clone();
            expect(&board.access(address, kind, 0, 0x1F), Outcome::Idle, &[]);
            assert!(board == before);
        }
    }
}

#[test]
fn control_space_is_the_units_page_or_a_bus_error() {
    let mut board = Board::new(64, 0);
    let registers = 0xFFF7_F000;
    expect(&board.access(registers + SAR, SUPERVISOR | WRITE, 15, 0x1234), Outcome::Written, &[]);
    expect(&board.access(registers + SAR, SUPERVISOR, 15, 0), Outcome::Word(0x1234), &[]);
    for (address, enables) in [(registers, 14), (0xFFF7_E000, 15), (0xFFFF_F000, 15), (0xFFF0_0000, 15)] {
        for kind in [SUPERVISOR, SUPERVISOR | WRITE, SUPERVISOR | LOCK] {
            expect(&board.access(address, kind, enables, 0), fault(3, address), &[]);
            assert_eq!(board.unit.fault, [3 << 16, address]);
        }
    }
    expect(&board.read(registers), fault(3, registers), &[transaction("", registers, 0)]);
    expect(
        &board.access(0xFFEF_FFFC, SUPERVISOR, 15, 0),
        fault(3, 0xFFEF_FFF0),
        &[transaction("", 0xFFEF_FFF0, 0)],
    );
}

#[test]
fn control_space_counts_the_words_of_a_command() {
    let mut board = Board::new(64, 0);
    board.put_line(1, 0, 0, MODIFIED, 5);
    board.put_line(2, 2, 0, MODIFIED, 6);
    let answer = board.access(0xFFF7_F004, SUPERVISOR | WRITE, 15, 0xFFFF_FFDB);
    assert_eq!(answer.outcome, Outcome::Written);
    assert_eq!((answer.traffic.words(), answer.traffic.transactions().len()), (8, 0));
    assert_eq!(board.get(SCR), 0x1B);
    assert_eq!(board.peek(0x1C), 5);
    assert_eq!(board.peek(0x2C), 6);
}

#[test]
fn control_space_can_write_the_fault_pair() {
    let mut board = Board::new(0, 0);
    board.access(0xFFF7_F000 + PFSR, SUPERVISOR | WRITE, 15, !0);
    board.access(0xFFF7_F000 + PFAR, SUPERVISOR | WRITE, 15, !0);
    assert_eq!(board.unit.fault, [0x0007_0000, !0]);
}

// ---------------------------------------------------------- translation

#[test]
fn unmapped_comes_before_the_batc() {
    let mut board = Board::new(64, 0);
    board.set(BWP0, 0x0008_0003);
    assert_eq!(board.write(0x10, 1).outcome, Outcome::Written);
    board.set(UAPR, TE);
    board.set(BWP0, 0x0000_0003);
    expect(&board.write(0x10, 1), fault(7, 0x10), &[]);
}

#[test]
fn unmapped_takes_the_attributes_of_the_area() {
    let mut board = Board::new(64, 0);
    board.set(UAPR, WT | G);
    expect(
        &board.write(0x10, 1),
        Outcome::Written,
        &[transaction("gi", 0x10, 4), transaction("wgi", 0x10, 1)],
    );
    assert_eq!(board.tag(1, 0), SHARED);
    board.set(SAPR, CI);
    expect(&board.access(0x20, SUPERVISOR, 15, 0), Outcome::Word(0x20), &[transaction("c", 0x20, 1)]);
}

#[test]
fn lowest_port_comes_first() {
    let mut board = Board::new(64, 16);
    board.set(UAPR, TE);
    // Port 6 leads to RAM, port 3 to ROM.
    board.set(BWP0 + 24, 0x0010_0001);
    assert_eq!(board.read(0x0010_0010).outcome, Outcome::Word(0x10));
    board.set(BWP0 + 12, 0x0010_0001 | (ROM >> 13) & 0x0007_FFC0);
    assert_eq!(board.read(0x0010_0010).outcome, Outcome::Word(ROM + 0x10));
}

#[test]
fn port_attributes_reach_the_bus() {
    for (bits, letters) in [(0, ""), (8, "g"), (16, ""), (4, "c"), (12, "gc")] {
        let mut board = Board::new(64, 0);
        board.set(UAPR, TE | G | CI | WT);
        board.set(BWP0, 1 | bits);
        let words = if bits & 4 != 0 { 1 } else { 4 };
        expect(&board.read(0x10), Outcome::Word(0x10), &[transaction(letters, 0x10, words)]);
    }
}

#[test]
fn search_accumulates_the_attributes() {
    for bit in [WT, G, CI, SP, WP] {
        for place in 0..3 {
            if place == 0 && (bit == SP || bit == WP) {
                continue;
            }
            let mut board = Board::mapped();
            match place {
                0 => drop(board.set(SAPR, 0x4000 | TE | bit)),
                1 => board.poke(0x400C, board.peek(0x400C) | bit),
                _ => board.poke(0x6014, board.peek(0x6014) | bit),
            }
            let answer = board.access(0x00C0_5124, SUPERVISOR, 15, 0);
            assert!(matches!(answer.outcome, Outcome::Word(0xA124)));
            assert_eq!(board.entry(0), (0x00C0_5003, 0xA000 | bit));
            let global = if place == 0 && bit == G { 2 } else { 0 };
            assert_eq!(answer.traffic.transactions()[0].signals, global);
        }
    }
}

#[test]
fn search_updates_u_and_m() {
    // Write, old U and M, new U and M, whether a write goes out.
    let cases = [
        (false, 0, U, true),
        (false, U, U, false),
        (false, M, U | M, true),
        (false, U | M, U | M, false),
        (true, 0, U | M, true),
        (true, U, U | M, true),
        (true, M, U | M, true),
        (true, U | M, U | M, false),
    ];
    for (write, old, new, goes_out) in cases {
        let mut board = Board::mapped();
        board.poke(0x6014, 0xA000 | V | 0xC22 | old);
        let answer = board.access(0x00C0_5124, if write { WRITE } else { USER }, 15, 0);
        assert_eq!(board.peek(0x6014), 0xA000 | V | 0xC22 | new);
        assert_eq!(board.entry(0), (0x00C0_5001, 0xA000 | WT & 0xC22 | new & M));
        let list = answer.traffic.transactions();
        assert_eq!(list[2].signals & 1 != 0 && list[2].address == 0x6014, goes_out);
    }
}

#[test]
fn entries_fill_the_lowest_place_and_then_the_pointers() {
    let mut board = Board::mapped();
    for page in 0..120 {
        board.poke(0x6000 + 4 * page, 0xA000 | V | U);
    }
    for page in 0..60 {
        assert!(matches!(board.read(0x00C0_0000 + 0x1000 * page).outcome, Outcome::Word(_)));
    }
    assert_eq!(board.unit.regs[7], 4);
    for entry in 0..56 {
        let page = if entry < 4 { 56 + entry } else { entry };
        assert_eq!(board.entry(entry as usize).0, 0x00C0_0001 + 0x1000 * page);
    }
    // A free entry is taken before the pointer's, which stays.
    board.command(0x31, 0x00C0_0000 + 0x1000 * 20);
    board.read(0x00C0_0000 + 0x1000 * 61);
    assert_eq!(board.entry(20).0, 0x00C0_0001 + 0x1000 * 61);
    assert_eq!(board.unit.regs[7], 4);
    board.unit.regs[7] = 55;
    board.read(0x00C0_0000 + 0x1000 * 62);
    assert_eq!(board.entry(55).0, 0x00C0_0001 + 0x1000 * 62);
    assert_eq!(board.unit.regs[7], 0);
}

#[test]
fn entries_are_tested_before_they_are_used() {
    let mut board = Board::mapped();
    board.put_entry(7, 0x00C0_5001, 0xB000 | SP | WP);
    expect(&board.read(0x00C0_5124), fault(6, 0xB124), &[]);
    board.put_entry(7, 0x00C0_5001, 0xB000 | WP);
    expect(&board.write(0x00C0_5124, 0), fault(7, 0xB124), &[]);
    expect(&board.read(0x00C0_5124), Outcome::Word(0xB124), &[transaction("", 0xB120, 4)]);
    board.put_entry(7, 0x00C0_5003, 0xB000 | SP | WP);
    assert_eq!(board.access(0x00C0_5124, SUPERVISOR, 15, 0).outcome, Outcome::Word(0xB124));
    expect(&board.access(0x00C0_5124, SUPERVISOR | WRITE, 15, 0), fault(7, 0xB124), &[]);
}

#[test]
fn renewal_takes_the_tables_as_they_are_now() {
    let mut board = Board::mapped();
    board.put_entry(3, 0x00C0_5001, 0xB000);
    board.put_entry(9, 0x00C0_5001, 0xC000 | M);
    board.poke(0x6014, 0xD000 | V | U | M | G);
    let answer = board.write(0x00C0_5124, 1);
    expect(
        &answer,
        Outcome::Written,
        &[
            transaction("", 0x400C, 1),
            transaction("", 0x6014, 1),
            transaction("gi", 0xD120, 4),
            transaction("wgi", 0xD124, 1),
        ],
    );
    assert_eq!(board.entry(3), (0x00C0_5001, 0xD000 | G | M));
    assert_eq!(board.entry(9), (0x00C0_5001, 0xC000 | M));

    board.put_entry(3, 0x00C0_5001, 0xB000);
    board.poke(0x6014, 0xD000 | V | WP);
    let answer = board.write(0x00C0_5124, 1);
    expect(&answer, fault(7, 0xD124), &[transaction("", 0x400C, 1), transaction("", 0x6014, 1)]);
    assert_eq!(board.entry(3), (0x00C0_5001, 0xB000));
}

#[test]
fn locked_read_is_no_write_for_protection() {
    let mut board = Board::mapped();
    board.poke(0x6014, 0xA000 | V | WP | U);
    let answer = board.access(0x00C0_5124, LOCK, 15, 0);
    expect(
        &answer,
        Outcome::Word(0xA124),
        &[transaction("", 0x400C, 1), transaction("", 0x6014, 1), transaction("ilc", 0xA124, 1)],
    );
    assert_eq!(board.peek(0x6014), 0xA000 | V | WP | U);
}

// ------------------------------------------------------------ the cache

#[test]
fn use_codes_follow_the_pairs() {
    const PAIRS: [(usize, usize); 6] = [(0, 1), (0, 2), (1, 2), (0, 3), (1, 3), (2, 3)];
    for code in 0..64u32 {
        for line in 0..4 {
            let next = UseOrder::new(code).using(line).code();
            for (bit, (low, high)) in PAIRS.into_iter().enumerate() {
                let expected = if line == high {
                    1
                } else if line == low {
                    0
                } else {
                    code >> bit & 1
                };
                assert_eq!(next >> bit & 1, expected);
            }
        }
        let earlier = |a: usize, b: usize| {
            let bit = PAIRS.iter().position(|&pair| pair == (a.min(b), a.max(b))).unwrap();
            (code >> bit & 1 == 1) == (b > a)
        };
        let earliest = (0..4).find(|&a| (0..4).all(|b| a == b || earlier(a, b)));
        assert_eq!(UseOrder::new(code).earliest(), earliest);
        let cyclic = (0..4).any(|a| {
            (0..4).any(|b| {
                (0..4).any(|c| a != b && b != c && a != c && earlier(a, b) && earlier(b, c) && earlier(c, a))
            })
        });
        assert_eq!(UseOrder::new(code).is_order(), !cyclic);
    }
    assert_eq!((0..64).filter(|&code| UseOrder::new(code).is_order()).count(), 24);
}

#[test]
fn read_hit_in_every_state() {
    for state in [EXCLUSIVE, MODIFIED, SHARED] {
        let mut board = Board::new(64, 0);
        board.put_line(1, 2, 0, state, 0xABCD);
        expect(&board.read(0x18), Outcome::Word(0xABCD), &[]);
        assert_eq!(board.tag(1, 2), state);
        assert_eq!(board.use_code(1), UseOrder::new(63).using(2).code());
    }
}

#[test]
fn write_hit_in_every_state_and_mode() {
    // Area bits, old state, new state, whether memory is written.
    let cases = [
        (0, EXCLUSIVE, MODIFIED, false),
        (0, MODIFIED, MODIFIED, false),
        (0, SHARED, MODIFIED, false),
        (G, EXCLUSIVE, MODIFIED, false),
        (G, MODIFIED, MODIFIED, false),
        (G, SHARED, EXCLUSIVE, true),
        (WT, EXCLUSIVE, EXCLUSIVE, true),
        (WT, MODIFIED, MODIFIED, true),
        (WT, SHARED, SHARED, true),
        (WT | G, EXCLUSIVE, EXCLUSIVE, true),
        (WT | G, MODIFIED, MODIFIED, true),
        (WT | G, SHARED, SHARED, true),
    ];
    for (area, old, new, goes_out) in cases {
        let mut board = Board::new(64, 0);
        board.set(UAPR, area);
        board.put_line(1, 2, 0, old, 0x1111_1111);
        board.poke(0x18, 0x2222_2222);
        let letters = if area & G != 0 { "wgi" } else { "wi" };
        let list = [transaction(letters, 0x18, 1)];
        let answer = board.access(0x18, WRITE, 3, 0xAABB_CCDD);
        expect(&answer, Outcome::Written, if goes_out { &list } else { &[] });
        assert_eq!(board.tag(1, 2), new);
        assert_eq!(board.line_words(1, 2), [0x1111_1111, 0x1111_1111, 0x1111_CCDD, 0x1111_1111]);
        assert_eq!(board.peek(0x18), if goes_out { 0x2222_CCDD } else { 0x2222_2222 });
        assert_eq!(board.use_code(1), UseOrder::new(63).using(2).code());
    }
}

#[test]
fn misses_fill_the_victim() {
    for write in [false, true] {
        for area in [0, G, WT, WT | G] {
            for line in 0..4 {
                let mut board = Board::new(16384, 0);
                board.set(UAPR, area);
                for other in 0..4 {
                    board.put_line(2, other, 0x1000 * (other as u32 + 1), MODIFIED, other as u32);
                }
                // The line becomes the earliest.
                let order = (0..4).filter(|&other| other != line);
                let code = order.fold(UseOrder::new(63).using(line), |order, other| order.using(other));
                board.unit.lines[14] = code.code();

                let answer = board.access(0x28, if write { WRITE } else { USER }, 15, 77);
                let g = if area & G != 0 { "g" } else { "" };
                let i = if write { "i" } else { "" };
                let back = transaction("wi", 0x1000 * (line as u32 + 1) + 0x20, 4);
                let fill = transaction(&format!("{g}{i}"), 0x20, 4);
                let out = transaction(&format!("w{g}i"), 0x28, 1);
                if write {
                    expect(&answer, Outcome::Written, &[back, fill, out]);
                    assert_eq!(board.tag(2, line), if area & WT != 0 { SHARED } else { EXCLUSIVE });
                    assert_eq!(board.peek(0x28), 77);
                    assert_eq!(board.line_words(2, line), [0x20, 0x24, 77, 0x2C]);
                } else {
                    expect(&answer, Outcome::Word(0x28), &[back, fill]);
                    assert_eq!(board.tag(2, line), SHARED);
                    assert_eq!(board.line_words(2, line), [0x20, 0x24, 0x28, 0x2C]);
                }
                assert_eq!(board.peek(0x1000 * (line as u32 + 1) + 0x2C), line as u32);
                assert_eq!(board.use_code(2), code.using(line).code());
            }
        }
    }
}

#[test]
fn lowest_invalid_line_is_filled_first() {
    let mut board = Board::new(16384, 0);
    for line in [0, 1, 3] {
        board.put_line(0, line, 0x1000 * (line as u32 + 1), MODIFIED, 0);
    }
    expect(&board.read(0), Outcome::Word(0), &[transaction("", 0, 4)]);
    assert_eq!(board.tag(0, 2), SHARED);
}

#[test]
fn inhibited_accesses_drop_their_line() {
    for (area, lock) in [(CI, 0), (0, LOCK), (CI | G, 0), (G, LOCK), (CI | WT, LOCK)] {
        for write in [0, WRITE] {
            for state in [EXCLUSIVE, MODIFIED, SHARED, INVALID] {
                let mut board = Board::new(64, 0);
                board.set(UAPR, area);
                board.put_line(1, 3, 0, state, 0x55);
                let answer = board.access(0x18, lock | write, 15, 0x99);
                let g = if area & G != 0 { "g" } else { "" };
                let l = if lock != 0 { "l" } else { "" };
                let back = transaction(&format!("w{g}ic"), 0x10, 4);
                let single = match (write, lock) {
                    (0, 0) => transaction(&format!("{g}c"), 0x18, 1),
                    (0, _) => transaction(&format!("{g}ilc"), 0x18, 1),
                    _ => transaction(&format!("w{g}i{l}c"), 0x18, 1),
                };
                let in_memory = if state == MODIFIED { 0x55 } else { 0x18 };
                let outcome = if write == 0 { Outcome::Word(in_memory) } else { Outcome::Written };
                if state == MODIFIED {
                    expect(&answer, outcome, &[back, single]);
                    assert_eq!(board.peek(0x1C), 0x55);
                } else {
                    expect(&answer, outcome, &[single]);
                    assert_eq!(board.peek(0x1C), 0x1C);
                }
                assert_eq!(board.peek(0x18), if write == 0 { in_memory } else { 0x99 });
                assert_eq!(board.tag(1, 3), INVALID);
                assert_eq!(board.line_words(1, 3), [0x55; 4]);
                assert_eq!(board.use_code(1), 63);
            }
        }
    }
}

#[test]
fn longest_access_lists_six_transactions_and_moves_twelve_words() {
    let mut board = Board::mapped();
    for line in 0..4 {
        board.put_line(18, line, 0x1000 * (line as u32 + 8), MODIFIED, 3);
    }
    board.poke(0x6014, 0xC000 | V);
    let answer = board.write(0x00C0_5124, 1);
    expect(
        &answer,
        Outcome::Written,
        &[
            transaction("", 0x400C, 1),
            transaction("", 0x6014, 1),
            transaction("wi", 0x6014, 1),
            transaction("wi", 0x8120, 4),
            transaction("i", 0xC120, 4),
            transaction("wi", 0xC124, 1),
        ],
    );
    assert_eq!(answer.traffic.words(), 12);
    let reply = answer.reply();
    assert_eq!(reply[..8], [2, 0, 0, 12, 6, 0, 0x400C, 1]);
    assert_eq!(reply[20..], [5, 0xC124, 1, 0]);
}

// ----------------------------------------------------------- bus errors

/// Runs an access that fails, and demands that nothing but the fault pair and
/// what the change names is different afterwards.
#[track_caller]
fn fails(
    mut board: Board,
    (address, kind): (u32, u32),
    code_and_address: (u32, u32),
    list: &[second::Transaction],
    change: impl FnOnce(&mut Board),
) {
    let mut expected = board.clone();
    let (code, at) = code_and_address;
    expected.unit.fault = [code << 16, at];
    change(&mut expected);
    let answer = board.access(address, kind, 15, 0x0BAD_0BAD);
    expect(&answer, fault(code, at), list);
    assert!(board == expected);
}

#[test]
fn bus_error_at_the_segment_descriptor() {
    let mut board = Board::mapped();
    board.set(UAPR, 0x0010_0000 | TE | G);
    fails(board, (0x00C0_5124, USER), (3, 0x0010_000C), &[transaction("g", 0x0010_000C, 0)], |_| ());
}

#[test]
fn bus_error_at_the_page_descriptor() {
    let mut board = Board::mapped();
    board.poke(0x400C, 0x0010_0000 | V);
    let list = [transaction("", 0x400C, 1), transaction("", 0x0010_0014, 0)];
    fails(board, (0x00C0_5124, WRITE), (3, 0x0010_0014), &list, |_| ());
}

#[test]
fn bus_error_at_the_descriptor_update() {
    for kind in [USER, WRITE] {
        let mut board = Board::mapped();
        board.poke(0x400C, ROM | V);
        board.rom[5] = 0xA000 | V | if kind == WRITE { U } else { 0 };
        let list =
            [transaction("", 0x400C, 1), transaction("", ROM + 0x14, 1), transaction("wi", ROM + 0x14, 0)];
        fails(board, (0x00C0_5124, kind), (3, ROM + 0x14), &list, |_| ());
    }
}

#[test]
fn descriptors_in_rom_serve_while_they_need_no_update() {
    let mut board = Board::mapped();
    board.poke(0x400C, ROM | V);
    board.rom[5] = 0xA000 | V | U | M;
    assert_eq!(board.write(0x00C0_5124, 4).outcome, Outcome::Written);
    assert_eq!(board.peek(0xA124), 4);
}

#[test]
fn bus_error_when_renewing_leaves_the_entry() {
    let mut board = Board::mapped();
    board.put_entry(0, 0x00C0_5001, 0xA000);
    board.poke(0x400C, ROM | V);
    board.rom[5] = 0xA000 | V | U;
    let list = [transaction("", 0x400C, 1), transaction("", ROM + 0x14, 1), transaction("wi", ROM + 0x14, 0)];
    fails(board, (0x00C0_5124, WRITE), (3, ROM + 0x14), &list, |_| ());
}

fn full_set(page: u32) -> Board {
    let mut board = Board::new(16384, 64);
    for line in 0..4 {
        board.put_line(2, line, page + 0x1000 * line as u32, MODIFIED, 0x77);
    }
    board
}

#[test]
fn bus_error_at_the_victims_copyback() {
    for kind in [USER, WRITE] {
        let list = [transaction("wi", 0x0010_0020, 0)];
        fails(full_set(0x0010_0000), (0x28, kind), (3, 0x0010_0020), &list, |_| ());
        let list = [transaction("wi", ROM + 0x20, 0)];
        fails(full_set(ROM), (0x28, kind), (3, ROM + 0x20), &list, |_| ());
    }
}

#[test]
fn bus_error_at_the_fill() {
    for (kind, letters) in [(USER, ""), (WRITE, "i")] {
        let back = transaction("wi", 0x1020, 4);
        let fill = transaction(letters, 0x0020_0020, 0);
        fails(full_set(0x1000), (0x0020_0028, kind), (3, 0x0020_0020), &[back, fill], |board| {
            board.unit.lines[10] = 0x1000 | INVALID;
            board.ram[0x1020 / 4..][..4].fill(0x77);
        });
        // A victim that is already invalid stays as it is.
        let mut board = full_set(0x1000);
        board.put_line(2, 1, 0x9000, INVALID, 0x66);
        fails(board, (0x0020_0028, kind), (3, 0x0020_0020), &[fill], |_| ());
        // A clean victim becomes invalid without a copyback.
        let mut board = full_set(0x1000);
        board.put_line(2, 0, 0x9000, SHARED, 0x66);
        fails(board, (0x0020_0028, kind), (3, 0x0020_0020), &[fill], |board| {
            board.unit.lines[10] = 0x9000 | INVALID;
        });
    }
}

#[test]
fn bus_error_at_the_word_after_a_fill() {
    for area in [0, WT, G] {
        let mut board = Board::new(64, 64);
        board.set(UAPR, area);
        let g = if area & G != 0 { "g" } else { "" };
        let list =
            [transaction(&format!("{g}i"), ROM + 0x20, 4), transaction(&format!("w{g}i"), ROM + 0x28, 0)];
        fails(board, (ROM + 0x28, WRITE), (3, ROM + 0x28), &list, |board| {
            board.unit.lines[10] = ROM | SHARED;
            board.cells[32..36].copy_from_slice(&[ROM + 0x20, ROM + 0x24, ROM + 0x28, ROM + 0x2C]);
        });
    }
}

#[test]
fn bus_error_at_the_word_of_a_write_hit() {
    for (area, state, letters) in
        [(WT, EXCLUSIVE, "wi"), (WT, MODIFIED, "wi"), (WT | G, SHARED, "wgi"), (G, SHARED, "wgi")]
    {
        let mut board = Board::new(64, 64);
        board.set(UAPR, area);
        board.put_line(2, 1, ROM, state, 0x77);
        fails(board, (ROM + 0x24, WRITE), (3, ROM + 0x24), &[transaction(letters, ROM + 0x24, 0)], |_| ());
    }
}

#[test]
fn bus_error_at_an_inhibited_access() {
    for (kind, l) in [(USER, ""), (LOCK, "l")] {
        for write in [0, WRITE] {
            // At the copyback.
            let mut board = Board::new(64, 64);
            board.set(UAPR, CI);
            board.put_line(2, 1, ROM, MODIFIED, 0x77);
            let list = [transaction("wic", ROM + 0x20, 0)];
            fails(board, (ROM + 0x24, kind | write), (3, ROM + 0x20), &list, |_| ());

            // At the word, the line already dropped.
            let mut board = Board::new(64, 0);
            board.set(UAPR, CI);
            board.put_line(2, 1, ROM, SHARED, 0x77);
            let i = if write != 0 {
                "wi"
            } else if kind == LOCK {
                "i"
            } else {
                ""
            };
            let list = [transaction(&format!("{i}{l}c"), ROM + 0x24, 0)];
            fails(board, (ROM + 0x24, kind | write), (3, ROM + 0x24), &list, |board| {
                board.unit.lines[11] = ROM | INVALID;
            });
        }
    }
}

#[test]
fn bus_error_at_a_flush_stops_it() {
    for code in [0x1B, 0x1F] {
        let mut board = Board::new(16384, 64);
        board.put_line(1, 0, 0x1000, MODIFIED, 1);
        board.put_line(1, 1, 0x2000, SHARED, 2);
        board.put_line(4, 3, ROM, MODIFIED, 3);
        board.put_line(5, 0, 0x1000, MODIFIED, 4);
        board.set(SSR, CE | V | WT);
        let fault_pair = board.unit.fault;
        assert_eq!(board.command(code, 0), 4);
        let invalidate = code == 0x1F;
        assert_eq!(board.tag(1, 0), 0x1000 | if invalidate { INVALID } else { EXCLUSIVE });
        assert_eq!(board.tag(1, 1), 0x2000 | if invalidate { INVALID } else { SHARED });
        assert_eq!(board.tag(4, 3), ROM | MODIFIED);
        assert_eq!(board.tag(5, 0), 0x1000 | MODIFIED);
        assert_eq!((board.get(SSR), board.get(SAR)), (CE | BE, ROM + 0x40));
        assert_eq!((board.peek(0x101C), board.peek(0x105C)), (1, 0x105C));
        assert_eq!(board.unit.fault, fault_pair);
    }
}

#[test]
fn bus_error_at_a_snoop_sets_ce() {
    for kind in [1, 3] {
        let mut board = Board::new(64, 64);
        board.set(SCTR, 1 << 14);
        board.set(SSR, V);
        board.put_line(2, 1, ROM, MODIFIED, 0x77);
        let mut expected = board.clone();
        assert_eq!(board.snoop(ROM + 0x2C, kind), Snooped::Failed);
        expected.unit.regs[2] = CE | V;
        assert!(board == expected);
    }
}

// ------------------------------------------------------------- commands

/// A unit with lines and entries in several segments and pages.
fn busy() -> Board {
    let mut board = Board::new(16384, 64);
    for set in 0..256 {
        for line in 0..4 {
            let pages = [0x1000, 0x2000, 0x0040_1000, 0x3000];
            let state = (set as u32 + line as u32) % 4;
            board.put_line(set, line, pages[line], state, (16 * set + line) as u32);
        }
    }
    for set in 0..256 {
        // A modified line outside RAM would end a flush.
        if board.tag(set, 2) & 3 == MODIFIED {
            board.put_line(set, 2, 0x0040_1000, SHARED, 0);
        }
    }
    for entry in 0..56u32 {
        let page = [0x1000, 0x2000, 0x0040_1000][entry as usize % 3];
        board.put_entry(entry as usize, page | (entry / 3 % 4), 0x5000 | M);
    }
    board.set(SSR, CE | BE | V);
    board
}

#[test]
fn every_command_code() {
    for code in 0..64u32 {
        for sar in [0x1234, 0x0040_1018, 0x2FF0] {
            let mut board = busy();
            let mut expected = board.clone();
            expected.unit.regs[1] = code;
            expected.unit.regs[3] = sar;
            let mut words = 0;
            match code {
                0x14..=0x1F => {
                    expected.unit.regs[2] = CE;
                    for set in 0..256usize {
                        for line in 0..4 {
                            let tag = expected.tag(set, line);
                            let address = tag & 0xFFFF_F000 | (set as u32) << 4;
                            let covered = match code & 3 {
                                0 => address == sar & 0xFFFF_FFF0,
                                1 => address >> 12 == sar >> 12,
                                2 => address >> 22 == sar >> 22,
                                _ => true,
                            };
                            if !covered || tag & 3 == INVALID {
                                continue;
                            }
                            if code >= 0x18 && tag & 3 == MODIFIED {
                                let data = expected.line_words(set, line)[0];
                                expected.ram[address as usize / 4..][..4].fill(data);
                                expected.unit.lines[5 * set + line] = tag & !3;
                                words += 4;
                            }
                            if code <= 0x17 || code >= 0x1C {
                                expected.unit.lines[5 * set + line] = tag | 3;
                            }
                        }
                    }
                }
                0x20 | 0x24 => {
                    // Both areas are unmapped.
                    expected.unit.regs[2] = CE | V;
                }
                0x31..=0x33 | 0x35..=0x37 => {
                    for entry in 0..56 {
                        let page = expected.unit.patc[2 * entry];
                        let covered = match code & 3 {
                            1 => page >> 12 == sar >> 12,
                            2 => page >> 22 == sar >> 22,
                            _ => true,
                        };
                        if covered && page >> 1 & 1 == code >> 2 & 1 {
                            expected.unit.patc[2 * entry] = page & !1;
                        }
                    }
                }
                _ => {}
            }
            assert_eq!(board.command(code, sar), words, "code {code:02X}");
            assert!(board == expected, "code {code:02X} with SAR {sar:08X}");
        }
    }
}

#[test]
fn probe_reports_each_kind_of_translation() {
    // Unmapped.
    let mut board = Board::new(64, 0);
    board.set(UAPR, 0x7000 | WT | G | CI);
    assert_eq!(board.command(0x20, 0x1237), 0);
    assert_eq!((board.get(SSR), board.get(SAR)), (V | WT | G | CI, 0x1237));

    // BATC, with protection that would end an access.
    let mut board = Board::mapped();
    board.set(BWP0, 0x0008_0080 | 16 | 8 | 4 | 2 | 1);
    assert_eq!(board.command(0x20, 0x0008_1233), 0);
    assert_eq!((board.get(SSR), board.get(SAR)), (V | BH | WT | G | CI | WP, 0x0010_1233));

    // PATC.
    for (frame, status) in
        [(0xB000, U | V), (0xB000 | WT | SP | G | CI | M | WP, V | U | WT | SP | G | CI | M | WP)]
    {
        board.put_entry(40, 0x00C0_5001, frame);
        assert_eq!(board.command(0x20, 0x00C0_5FFF), 0);
        assert_eq!((board.get(SSR), board.get(SAR)), (status, 0xBFFF));
    }

    // Search: nothing written, nothing loaded.
    for bits in [0, U, M, U | M, SP | WP | G] {
        let mut board = Board::mapped();
        board.set(SAPR, 0x4000 | TE | WT);
        board.poke(0x6014, 0xA000 | V | bits);
        let before = board.clone();
        assert_eq!(board.command(0x24, 0x00C0_5123), 2);
        assert_eq!((board.get(SSR), board.get(SAR)), (V | WT | bits, 0xA123));
        assert!(board.ram == before.ram && board.unit.patc == before.unit.patc);
    }
}

#[test]
fn probe_has_no_control_space() {
    let mut board = Board::mapped();
    board.poke(0x4FFC, 0x6000 | V);
    board.poke(0x6000 + 4 * 0x37F, 0xC000 | V | U);
    board.command(0x24, 0xFFF7_F004);
    assert_eq!((board.get(SSR), board.get(SAR)), (V | U, 0xC004));
}

#[test]
fn probe_that_finds_nothing() {
    let mut board = Board::mapped();
    board.poke(0x400C, 0x6000);
    assert_eq!(board.command(0x20, 0x00C0_5123), 1);
    assert_eq!((board.get(SSR), board.get(SAR)), (0, 0x400C));
    board.poke(0x400C, 0x6000 | V);
    board.poke(0x6014, 0xA000);
    assert_eq!(board.command(0x20, 0x00C0_5123), 2);
    assert_eq!((board.get(SSR), board.get(SAR)), (0, 0x6014));
    board.poke(0x400C, 0x0020_0000 | V);
    assert_eq!(board.command(0x20, 0x00C0_5123), 1);
    assert_eq!((board.get(SSR), board.get(SAR)), (BE, 0x0020_0014));
    board.set(UAPR, 0x0020_0000 | TE);
    assert_eq!(board.command(0x20, 0x00C0_5123), 0);
    assert_eq!((board.get(SSR), board.get(SAR)), (BE, 0x0020_000C));
    assert_eq!(board.unit.fault, [0, 0]);
}

#[test]
fn flush_covers_doubles() {
    let mut board = Board::new(64, 0);
    board.put_line(1, 1, 0, MODIFIED, 11);
    board.put_line(1, 3, 0, MODIFIED, 33);
    assert_eq!(board.command(0x1C, 0x14), 8);
    assert_eq!((board.tag(1, 1), board.tag(1, 3)), (INVALID, INVALID));
    assert_eq!(board.peek(0x10), 33);
}

// --------------------------------------------------------------- snoops

#[test]
fn snoops_in_every_state() {
    for state in [EXCLUSIVE, MODIFIED, SHARED, INVALID] {
        for kind in 0..8 {
            for enabled in [false, true] {
                let mut board = Board::new(64, 0);
                board.set(SCTR, if enabled { 0x4000 } else { 0xA000 });
                board.put_line(2, 1, 0, state, 0x77);
                let mut expected = board.clone();
                let acts = enabled && kind & 1 != 0 && state != INVALID;
                if acts {
                    expected.unit.lines[11] = if kind & 2 != 0 { INVALID } else { SHARED };
                }
                let retry = acts && state == MODIFIED;
                if retry {
                    expected.ram[8..12].fill(0x77);
                }
                let answer = board.snoop(0x24, kind);
                assert_eq!(answer, if retry { Snooped::Retry } else { Snooped::Clear });
                assert!(board == expected);
            }
        }
    }
}

#[test]
fn snoop_of_another_line_is_clear() {
    let mut board = Board::new(16384, 0);
    board.set(SCTR, 0x4000);
    board.put_line(2, 1, 0, MODIFIED, 0x77);
    let before = board.clone();
    for address in [0x14, 0x30, 0x1024, 0xFFFF_F024] {
        assert_eq!(board.snoop(address, 3), Snooped::Clear);
    }
    assert!(board == before);
}

// --------------------------------------------------------------- images

/// Where the contents of the five fields begin.
const CONTENTS: [usize; 5] = [3, 46, 81, 532, 5655];

#[test]
fn image_has_its_layout() {
    let mut board = busy();
    board.set(PFAR, 0x1234_5678);
    board.unit.regs[7] = 55;
    board.set(BWP0 + 28, 0xCAFE_F00D);
    let image = board.save();
    let word = |at: usize| u32::from_be_bytes(image[at..at + 4].try_into().unwrap());
    for (start, (tag, length)) in
        CONTENTS.into_iter().zip([(1, 40), (2, 32), (3, 448), (4, 5120), (5, 16384)])
    {
        assert_eq!(word(start - 3) >> 24, tag);
        assert_eq!(word(start - 3) >> 8 & 0xFFFF, length);
    }
    assert_eq!(word(3), 0x7FA0_0000);
    assert_eq!(word(3 + 8), CE | BE | V);
    assert_eq!(word(3 + 24), 0x1234_5678);
    assert_eq!(word(3 + 36), 55);
    assert_eq!(word(46 + 28), 0xCAFE_F00D);
    assert_eq!(word(81 + 8), board.unit.patc[2]);
    assert_eq!(word(532 + 4 * 1279), 63);
    assert_eq!(word(5655 + 4 * 4095), board.cells[4095]);
}

#[test]
fn image_brings_everything_back() {
    let mut board = Board::mapped();
    for n in 0..2000u32 {
        board.access(0x00C0_5000 | (n * 52) & 0xFFC, (n * 64) & 0x40 | (n * 7) & 0x80, 15, n);
        board.write(n * 4, n);
    }
    board.set(BWP0 + 8, 0xDEAD_BEEF);
    board.read(0x0100_0000);
    let image = board.save();
    let mut other = Board::new(16, 0);
    assert_eq!(other.restore(&image), Ok(()));
    assert!(other.unit == board.unit && other.cells == board.cells);
    assert_eq!(other.save(), image);
}

#[test]
fn image_of_a_made_up_state_has_own_bits_only() {
    let unit = Unit { regs: [!0; 16], fault: [!0; 2], patc: [!0; 112], lines: [!0; 1280] };
    let mut image = vec![0; IMAGE];
    unit.save(&[1; 4096], &mut image).unwrap();
    let word = |at: usize| u32::from_be_bytes(image[at..at + 4].try_into().unwrap());
    let registers: Vec<u32> = (0..10).map(|n| word(3 + 4 * n)).collect();
    assert_eq!(
        registers,
        [0xFFFF_0000, 0x3F, 0xC3DF, !0, 0xE000, 0x0007_0000, !0, 0xFFFF_F2C1, 0xFFFF_F2C1, 0]
    );
    assert_eq!((word(81), word(85)), (0xFFFF_F003, 0xFFFF_F3D4));
    assert_eq!((word(532), word(532 + 16)), (0xFFFF_F003, 0x3F));
}

#[test]
fn image_with_a_wrong_head_is_refused() {
    let mut board = Board::new(16, 0);
    let good = board.save();
    let before = board.clone();
    for start in CONTENTS {
        for at in start - 3..start {
            for bit in 0..8 {
                let mut image = good.clone();
                image[at] ^= 1 << bit;
                // A foreign bit beside it comes later in the order.
                image[6] |= 1;
                assert_eq!(board.restore(&image), Err(8));
                assert_eq!(board.restore(&image[..IMAGE - 1]), Err(7));
            }
        }
    }
    assert!(board == before);
}

#[test]
fn image_with_a_foreign_bit_is_refused() {
    let mut own: Vec<u32> =
        vec![0xFFFF_0000, 0x3F, 0xC3DF, !0, 0xE000, 0x0007_0000, !0, 0xFFFF_F2C1, 0xFFFF_F2C1, 0x3F];
    own.extend([!0; 8]);
    own.extend([0xFFFF_F003, 0xFFFF_F3D4].repeat(56));
    own.extend([0xFFFF_F003, 0xFFFF_F003, 0xFFFF_F003, 0xFFFF_F003, 0x3F].repeat(256));
    let places = (0..10)
        .map(|n| 3 + 4 * n)
        .chain((0..8).map(|n| 46 + 4 * n))
        .chain((0..112).map(|n| 81 + 4 * n))
        .chain((0..1280).map(|n| 532 + 4 * n));
    let mut board = Board::new(16, 0);
    let good = board.save();
    for (at, own) in places.zip(own) {
        for bit in [0u32, 1, 2, 3, 4, 5, 6, 7, 8, 9, 10, 11, 12, 13, 15, 16, 18, 19, 24, 31] {
            let mut image = good.clone();
            image[at + 3 - bit as usize / 8] |= 1 << (bit % 8);
            let expected = if own >> bit & 1 == 1 { Ok(()) } else { Err(9) };
            assert_eq!(board.restore(&image), expected, "byte {at}, bit {bit}");
        }
    }
}

#[test]
fn image_with_a_wrong_pointer_or_code_is_refused() {
    let mut board = Board::new(16, 0);
    let good = board.save();
    for pointer in 0..64 {
        let mut image = good.clone();
        image[3 + 39] = pointer;
        assert_eq!(board.restore(&image), if pointer < 56 { Ok(()) } else { Err(9) });
    }
    for set in [0, 100, 255] {
        for code in 0..64 {
            let mut image = good.clone();
            image[532 + 20 * set + 19] = code;
            let expected = if UseOrder::new(code.into()).is_order() { Ok(()) } else { Err(9) };
            assert_eq!(board.restore(&image), expected);
        }
    }
}

#[test]
fn image_with_doubles_is_refused() {
    let base = Board::new(16, 0);
    let restored = |board: &Board| Board::new(16, 0).restore(&board.save());

    for (first, second) in [(0, 1), (1, 3), (2, 3)] {
        for (one, other) in
            [(EXCLUSIVE, EXCLUSIVE), (MODIFIED, SHARED), (SHARED, INVALID), (INVALID, INVALID)]
        {
            let mut board = base.clone();
            board.put_line(77, first, 0x5000, one, 0);
            board.put_line(77, second, 0x5000, other, 0);
            let double = one != INVALID && other != INVALID;
            assert_eq!(restored(&board), if double { Err(10) } else { Ok(()) });
            // In two sets it is no double.
            board.put_line(77, second, 0x6000, other, 0);
            board.put_line(78, second, 0x5000, other, 0);
            assert_eq!(restored(&board), Ok(()));
        }
    }
    for (one, other, expected) in [
        (0x5001, 0x5001, Err(10)),
        (0x5003, 0x5003, Err(10)),
        (0x5003, 0x5001, Ok(())),
        (0x5000, 0x5001, Ok(())),
        (0x5000, 0x5000, Ok(())),
        (0x6001, 0x5001, Ok(())),
    ] {
        let mut board = base.clone();
        board.put_entry(0, one, 0x1000);
        board.put_entry(55, other, 0x2000);
        assert_eq!(restored(&board), expected);
        // Wrong bits come before doubles.
        let mut image = board.save();
        image[532 + 2] |= 8;
        assert_eq!(Board::new(16, 0).restore(&image), Err(9));
    }
}

// ------------------------------------------------------- made-up states

#[test]
fn foreign_bits_do_not_count() {
    let mut board = Board::mapped();
    board.unit.regs[6] |= 0xD3E & !TE; // UAPR
    board.put_entry(2, 0x00C0_5001 | 0xFFC, 0xA000 | 0xC2B);
    board.put_line(18, 1, 0xA000 | 0xFFC, SHARED, 5);
    board.unit.lines[18 * 5 + 4] = 63 | 0xFFFF_FFC0;
    expect(&board.read(0x00C0_5124), Outcome::Word(5), &[]);
    // The use code is written with its own bits; the rest was not written.
    assert_eq!(board.use_code(18), 43);
    assert_eq!(board.tag(18, 1), 0xA000 | 0xFFC | SHARED);
    assert_eq!(board.entry(2), (0x00C0_5001 | 0xFFC, 0xA000 | 0xC2B));

    // A new state is written with the tag's own bits.
    board.put_entry(2, 0x00C0_5001, 0xA000 | M);
    board.write(0x00C0_5124, 6);
    assert_eq!(board.tag(18, 1), 0xA000 | MODIFIED);
}

#[test]
fn pointer_over_55_counts_as_0() {
    for pointer in [56, 63, 64, 0x100, u32::MAX] {
        let mut board = Board::mapped();
        for entry in 0..56 {
            board.put_entry(entry, 0xFF00_0001 + 0x1000 * entry as u32, 0);
        }
        board.unit.regs[7] = pointer;
        board.read(0x00C0_5124);
        assert_eq!(board.entry(0), (0x00C0_5001, 0xA000));
        assert_eq!(board.unit.regs[7], 1);
    }
}

#[test]
fn code_that_is_no_order_may_give_line_0() {
    for code in 0..64 {
        let mut board = Board::new(16384, 0);
        for line in 0..4 {
            board.put_line(0, line, 0x2000 * (line as u32 + 1), SHARED, 0);
        }
        board.unit.lines[4] = code | 0xABC0;
        let victim = UseOrder::new(code).earliest().unwrap_or(0);
        board.read(0);
        assert_eq!(board.tag(0, victim), SHARED);
        assert_eq!(board.use_code(0), UseOrder::new(code).using(victim).code());
    }
}

#[test]
fn doubles_count_by_the_lowest() {
    let mut board = Board::mapped();
    board.put_entry(8, 0x00C0_5001, 0xB000 | M);
    board.put_entry(9, 0x00C0_5001, 0xC000 | M);
    board.put_line(18, 1, 0xB000, SHARED, 1);
    board.put_line(18, 3, 0xB000, MODIFIED, 3);
    expect(&board.read(0x00C0_5124), Outcome::Word(1), &[]);
    board.set(SCTR, 0x4000);
    assert_eq!(board.snoop(0xB124, 3), Snooped::Clear);
    expect(&board.read(0x00C0_5124), Outcome::Word(3), &[]);
    board.set(UAPR, TE | 0x4000);
    expect(
        &board.access(0x00C0_5124, LOCK, 15, 0),
        Outcome::Word(3),
        &[transaction("wic", 0xB120, 4), transaction("ilc", 0xB124, 1)],
    );
}
