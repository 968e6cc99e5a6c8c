//! The numbers of document 01 and its small stories, played on the engine.

use second::codes::Refusal;
use second::engine::{Engine, Record};
use second::numbers::*;

#[test]
fn the_thirteen_marked_examples() {
    let classes = [(1, 16), (2, 15), (3, 15), (32_767, 2), (32_768, 1), (65_535, 1), (65_536, 0)];
    for (share, class) in classes {
        assert_eq!(class_of(share), Some(class), "class of {share}");
    }
    let starts = [(0, 0, 1), (3, 1, 4), (4, 2, 8), (65_535, 16, 65_536)];
    for (clock, class, start) in starts {
        assert_eq!(next_start(class, clock), start, "next start of class {class} above {clock}");
    }
    let credits = [(24_576, 100, 9_830_400, 150, 0), (65_535, 64, 8_388_480, 127, 65_408)];
    for (share, largest, parts, whole_bytes, rest) in credits {
        assert_eq!(credit(share, largest), Parts(parts), "credit of {share} with L {largest}");
        assert_eq!((parts / PARTS_PER_BYTE, parts % PARTS_PER_BYTE), (whole_bytes, rest));
    }
    assert_eq!(classes.len() + starts.len() + credits.len(), 13);
}

#[test]
fn every_share_has_the_one_class_of_the_power_rule() {
    for share in 1..=WHOLE_LINE {
        let ruled: Vec<usize> = (0..=16).filter(|k| 1 << (16 - k) <= share && share < 1 << (17 - k)).collect();
        assert_eq!(ruled, [class_of(share).unwrap()], "share {share}");
    }
    assert_eq!(class_of(0), None);
}

#[test]
fn a_credit_is_at_least_l_bytes_and_less_than_2l() {
    for share in 1..=WHOLE_LINE {
        for largest in [64, 100, 2_048] {
            let credit = credit(share, largest);
            assert!(
                Bytes(largest.into()).in_parts() <= credit && credit < Bytes(2 * u64::from(largest)).in_parts(),
                "share {share}"
            );
        }
    }
}

#[test]
fn the_next_start_is_the_smallest_multiple_above() {
    for class in 0..CLASSES {
        for clock in [0, 1, 2, 3, 7, 8, 65_535, 65_536, 65_537, CLOCK_END - 1, CLOCK_END] {
            let start = next_start(class, clock);
            assert!(
                start.is_multiple_of(interval(class)) && start > clock && start - clock <= interval(class),
                "class {class}, clock {clock}"
            );
        }
    }
}

fn record(number: u32, length: u16) -> Record {
    Record { number, length }
}

fn slot_clocks(engine: &mut Engine, serves: usize) -> Vec<u64> {
    (0..serves).map(|_| engine.serve().unwrap().clock).collect()
}

/// Eight blocks wait at clock 8; four are emptied and closed at 12. Their shares are held until 16.
#[test]
fn a_closed_share_is_held_until_the_next_start_of_its_class() {
    let mut engine = Engine::make(100).unwrap();
    for block in 1..=8 {
        engine.open(block, 8_192).unwrap();
        engine.record(block, record(block, 100)).unwrap();
    }
    for block in 5..=8 {
        engine.record(block, record(10 + block, 100)).unwrap();
    }
    assert_eq!(slot_clocks(&mut engine, 4), [8, 9, 10, 11]);
    for block in 1..=4 {
        engine.close(block).unwrap();
    }
    assert_eq!(engine.clock, 12);
    assert_eq!(engine.open(9, 32_768), Err(Refusal::ShareNotFree));
    assert_eq!(slot_clocks(&mut engine, 3), [12, 13, 14]);
    assert_eq!(engine.open(9, 1), Err(Refusal::ShareNotFree));
    assert_eq!(slot_clocks(&mut engine, 1), [15]);
    assert_eq!(engine.clock, 16);
    assert!(engine.any_waits());
    assert_eq!(engine.open(9, 32_769), Err(Refusal::ShareNotFree));
    assert_eq!(engine.open(9, 32_768), Ok(()));
}

#[test]
fn a_share_closed_exactly_on_a_start_is_held_for_the_whole_interval() {
    let mut engine = Engine::make(100).unwrap();
    engine.open(1, 32_768).unwrap();
    engine.open(2, 16_384).unwrap();
    for number in 1..=3 {
        engine.record(2, record(number, 100)).unwrap();
    }
    engine.record(1, record(4, 100)).unwrap();
    assert_eq!(slot_clocks(&mut engine, 1), [2]);
    engine.record(1, record(5, 100)).unwrap();
    assert_eq!(slot_clocks(&mut engine, 2), [4, 5]);
    assert_eq!(engine.clock, 6, "a start of class 1");
    engine.close(1).unwrap();
    assert_eq!(engine.open(3, 32_768), Err(Refusal::ShareNotFree));
    assert_eq!(slot_clocks(&mut engine, 1), [8]);
    assert!(engine.any_waits());
    assert_eq!(engine.open(3, 32_768), Ok(()));
}

#[test]
fn nothing_is_held_if_no_block_waits() {
    let mut engine = Engine::make(100).unwrap();
    engine.open(1, 65_536).unwrap();
    engine.close(1).unwrap();
    assert_eq!(engine.open(2, 65_536), Ok(()));
    engine.close(2).unwrap();
    engine.open(3, 32_768).unwrap();
    engine.open(4, 16_384).unwrap();
    engine.record(3, record(1, 100)).unwrap();
    engine.close(4).unwrap();
    assert_eq!(engine.open(5, 32_768), Err(Refusal::ShareNotFree));
    engine.serve().unwrap();
    assert_eq!(engine.clock, 3, "the share of class 2 would be held until 4");
    assert_eq!(engine.open(5, 32_768), Ok(()), "but the last lane is empty");
}

/// The fraction of the credit is kept: 128 bytes are sent in the second slot.
#[test]
fn share_65_535_with_l_64_keeps_its_fraction() {
    let mut engine = Engine::make(64).unwrap();
    engine.open(9, 65_535).unwrap();
    for (number, length) in [(1, 64), (2, 63), (3, 64), (4, 64)] {
        engine.record(9, record(number, length)).unwrap();
    }
    assert_eq!(slot_clocks(&mut engine, 4), [2, 2, 4, 4]);
}

#[test]
fn a_record_for_the_open_slots_block_only_lengthens_its_lane() {
    let mut engine = Engine::make(100).unwrap();
    engine.open(1, 49_152).unwrap();
    engine.record(1, record(1, 50)).unwrap();
    engine.record(1, record(2, 50)).unwrap();
    assert_eq!(slot_clocks(&mut engine, 1), [2]);
    engine.record(1, record(3, 50)).unwrap();
    assert_eq!(slot_clocks(&mut engine, 2), [2, 2], "150 bytes of credit pay for all three");
    assert_eq!(engine.clock, 3);
}

#[test]
fn the_lowest_pending_class_goes_first_and_an_order_is_kept() {
    let mut engine = Engine::make(100).unwrap();
    for (block, share) in [(1, 8_192), (2, 8_192), (3, 16_384), (4, 32_768)] {
        engine.open(block, share).unwrap();
        engine.record(block, record(block, 100)).unwrap();
    }
    engine.record(4, record(5, 100)).unwrap();
    let sent: Vec<(u32, u64)> = (0..5).map(|_| engine.serve().unwrap()).map(|sent| (sent.block, sent.clock)).collect();
    // Class 1 at 2 and 4, class 2 pending since 4 at 5, then class 3 from its start 8 on, in the order of joining.
    assert_eq!(sent, [(4, 2), (4, 4), (3, 5), (1, 8), (2, 9)]);
}
