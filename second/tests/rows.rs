//! The twelve rows, and the errors that look right.

mod common;

use common::*;
use second::order::UseOrder;
use second::Outcome;

#[test]
fn row_1_segment_descriptor() {
    let mut board = Board::new(16384, 0);
    board.set(SAPR, 0x4000 | TE);
    board.poke(0x400C, 0);
    let answer = board.access(0x00C0_5124, SUPERVISOR, 15, 0);
    expect(&answer, fault(4, 0x400C), &[transaction("", 0x400C, 1)]);
}

#[test]
fn row_2_page_descriptor() {
    let mut board = Board::mapped();
    board.poke(0x6014, 0);
    let answer = board.access(0x00C0_5124, SUPERVISOR, 15, 0);
    expect(&answer, fault(5, 0x6014), &[transaction("", 0x400C, 1), transaction("", 0x6014, 1)]);
}

#[test]
fn row_3_physical_address() {
    let mut board = Board::mapped();
    let answer = board.access(0x00C0_5124, SUPERVISOR, 15, 0);
    assert_eq!(answer.outcome, Outcome::Word(0xA124));
    assert_eq!(board.tag(18, 0), 0xA000 | SHARED);
    assert_eq!(board.line_words(18, 0)[1], 0xA124);
}

#[test]
fn row_4_block_hit() {
    let mut board = Board::mapped();
    board.set(BWP0, 0x0008_0089);
    let answer = board.read(0x0008_1230);
    expect(&answer, fault(3, 0x0010_1230), &[transaction("g", 0x0010_1230, 0)]);
}

#[test]
fn row_5_block_of_the_other_space() {
    let mut board = Board::mapped();
    board.set(BWP0, 0x0008_0089);
    board.poke(0x4000, 0);
    let answer = board.access(0x0008_1230, SUPERVISOR, 15, 0);
    expect(&answer, fault(4, 0x4000), &[transaction("", 0x4000, 1)]);
}

#[test]
fn row_6_registers_in_control_space() {
    let mut board = Board::mapped();
    let answer = board.access(0xFFF7_F000, SUPERVISOR, 15, 0);
    expect(&answer, Outcome::Word(0x7FA0_0000), &[]);
}

#[test]
fn row_7_use_code() {
    assert_eq!(UseOrder::new(63).using(1).code(), 43);
}

#[test]
fn row_8_victim() {
    assert_eq!(UseOrder::new(43).earliest(), Some(0));
    let mut board = Board::new(16384, 0);
    for line in 0..4 {
        board.put_line(0, line, 0x2000 * (line as u32 + 1), SHARED, 0);
    }
    board.unit.lines[4] = 43;
    board.read(0);
    assert_eq!(board.tag(0, 0), SHARED);
}

#[test]
fn row_9_merged_word() {
    let mut board = Board::new(16, 0);
    board.poke(0x3C, 0x1122_3344);
    board.access(0x3C, WRITE, 6, 0xAABB_CCDD);
    assert_eq!(board.peek(0x3C), 0x11BB_CC44);
    assert_eq!(board.line_words(3, 0)[3], 0x11BB_CC44);
}

#[test]
fn row_10_bytes_not_enabled() {
    let mut board = Board::new(16, 0);
    board.poke(0x3C, 0x1122_3344);
    assert_eq!(board.access(0x3C, USER, 8, 0).outcome, Outcome::Word(0x1100_0000));
    assert_eq!(board.access(0x3C, LOCK, 8, 0).outcome, Outcome::Word(0x1100_0000));
    assert_eq!(board.access(0x3C, USER, 5, 0).outcome, Outcome::Word(0x0022_0044));
}

#[test]
fn row_11_end_of_memory() {
    let mut board = Board::new(16, 0);
    assert_eq!(board.read(0x3C).outcome, Outcome::Word(0x3C));
    expect(&board.read(0x40), fault(3, 0x40), &[transaction("", 0x40, 0)]);
}

#[test]
fn row_12_write_protection_in_the_segment() {
    let mut board = Board::mapped();
    board.poke(0x400C, 0x6000 | WP | V);
    let answer = board.write(0x00C0_5124, 1);
    expect(&answer, fault(7, 0xA124), &[transaction("", 0x400C, 1), transaction("", 0x6014, 1)]);
    assert!(matches!(board.read(0x00C0_5124).outcome, Outcome::Word(0xA124)));
}

#[test]
fn failed_probe_leaves_neither_v_nor_the_given_address() {
    let mut board = Board::mapped();
    board.set(SSR, 0xFFFF_FFFF);
    board.poke(0x6014, 0xA000);
    board.command(0x20, 0x00C0_5126);
    assert_eq!((board.get(SSR), board.get(SAR)), (CE, 0x6014));

    board.poke(0x400C, 0x00F0_0000 | V);
    board.command(0x20, 0x00C0_5126);
    assert_eq!((board.get(SSR), board.get(SAR)), (CE | BE, 0x00F0_0014));

    board.set(SSR, V);
    board.set(UAPR, 0x00E0_0000 | TE);
    board.command(0x20, 0x00C0_5126);
    assert_eq!((board.get(SSR), board.get(SAR)), (BE, 0x00E0_000C));
}

#[test]
fn violations_leave_u_and_m_alone() {
    for (protection, kind, code) in [(SP, USER, 6), (SP | WP, WRITE, 6), (WP, WRITE, 7)] {
        for place in [0x400C, 0x6014] {
            let mut board = Board::mapped();
            board.poke(place, board.peek(place) | protection);
            let before = board.clone();
            let answer = board.access(0x00C0_5124, kind, 15, 0);
            expect(&answer, fault(code, 0xA124), &[transaction("", 0x400C, 1), transaction("", 0x6014, 1)]);
            assert_eq!(board.unit.fault, [code << 16, 0xA124]);
            board.unit.fault = before.unit.fault;
            assert!(board == before);
        }
    }
}

#[test]
fn write_hit_with_m_clear_searches_again() {
    let mut board = Board::mapped();
    board.read(0x00C0_5120);
    assert_eq!(board.entry(0), (0x00C0_5001, 0xA000));
    assert_eq!(board.peek(0x6014), 0xA000 | U | V);

    let answer = board.write(0x00C0_5124, 9);
    let search = [transaction("", 0x400C, 1), transaction("", 0x6014, 1), transaction("wi", 0x6014, 1)];
    expect(&answer, Outcome::Written, &search);
    assert_eq!(board.entry(0), (0x00C0_5001, 0xA000 | M));
    assert_eq!(board.entry(1), (0, 0));
    assert_eq!(board.peek(0x6014), 0xA000 | U | M | V);
    expect(&board.write(0x00C0_5128, 9), Outcome::Written, &[]);
}

#[test]
fn global_write_to_a_shared_line_goes_out_once() {
    let mut board = Board::new(64, 0);
    board.set(UAPR, G);
    board.read(0x10);
    expect(&board.write(0x14, 7), Outcome::Written, &[transaction("wgi", 0x14, 1)]);
    assert_eq!(board.tag(1, 0), EXCLUSIVE);
    assert_eq!(board.peek(0x14), 7);
    expect(&board.write(0x14, 8), Outcome::Written, &[]);
    assert_eq!(board.tag(1, 0), MODIFIED);
    assert_eq!(board.peek(0x14), 7);
}

#[test]
fn clean_lines_are_not_copied_back() {
    for state in [EXCLUSIVE, SHARED] {
        let mut board = Board::new(16384, 0);
        for line in 0..4 {
            board.put_line(0, line, 0x2000 * (line as u32 + 1), state, 0xDEAD);
        }
        let before = board.ram.clone();
        expect(&board.read(0), Outcome::Word(0), &[transaction("", 0, 4)]);
        assert_eq!(board.command(0x1B, 0), 0);
        board.access(0x4000, LOCK, 15, 0);
        board.set(SCTR, 1 << 14);
        assert_eq!(board.snoop(0x6000, 3), second::Snooped::Clear);
        assert_eq!(board.command(0x1F, 0), 0);
        assert_eq!(board.ram, before);
    }
}
