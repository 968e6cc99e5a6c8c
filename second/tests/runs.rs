//! Long random runs: nothing is lost, a burst is that many serves, a refusal leaves everything, no board of a run is
//! spoilt.

use std::collections::{BTreeMap, VecDeque};

use second::board::{Board, Tables};
use second::calls::Lent;
use second::codes::{code_of, Refusal, DONE};
use second::convert::write_back;
use second::engine::{Engine, Record};
use second::maker::random::Random;
use second::maker::traffic::{Call, Habits, Traffic};
use second::numbers::Bytes;

const LARGESTS: [u32; 3] = [64, 100, 2_048];

fn traffic(seed: u64) -> Traffic {
    let mut random = Random::new(seed);
    let largest = random.pick(&LARGESTS);
    Traffic::new(random, largest)
}

fn habits(seed: u64) -> Habits {
    let mixed = Habits { burst: 3, out_of_range: 5, ..Habits::mixed() };
    match seed % 4 {
        0 => mixed,
        1 => Habits { open: 20, close: 20, lowest_class: 0, ..mixed },
        2 => Habits { record: 90, numbers: 6, lowest_class: 2, ..mixed },
        _ => Habits { open: 40, close: 3, numbers: 100, lowest_class: 7, ..mixed },
    }
}

/// The records that should stand in each open block's lane, kept from the answers alone.
type Lanes = BTreeMap<u32, VecDeque<(u32, u16)>>;

fn take_and_keep_lanes(engine: &mut Engine, lanes: &mut Lanes, call: Call) {
    match call {
        Call::Open { block, share } => {
            if engine.open(block, share).is_ok() {
                assert!(lanes.insert(block, VecDeque::new()).is_none());
            }
        }
        Call::Rename { old, new } => {
            if engine.rename(old, new).is_ok() {
                let lane = lanes.remove(&old).expect("the old number was open");
                assert!(lanes.insert(new, lane).is_none());
            }
        }
        Call::Close { block } => {
            if engine.close(block).is_ok() {
                assert_eq!(lanes.remove(&block), Some(VecDeque::new()));
            }
        }
        Call::Record { block, number, length } => {
            if engine.record(block, Record { number, length }).is_ok() {
                lanes.get_mut(&block).expect("it is open").push_back((number, length));
            }
        }
        Call::Serve | Call::Burst { .. } => match engine.serve() {
            Ok(sent) => {
                let front = lanes.get_mut(&sent.block).and_then(VecDeque::pop_front);
                assert_eq!(front, Some((sent.record, sent.length)), "in its block's order, under its name of now");
            }
            Err(refusal) => {
                assert_eq!(refusal, Refusal::NoBlockWaits);
                assert!(lanes.values().all(VecDeque::is_empty));
            }
        },
    }
}

#[test]
fn each_record_taken_in_is_sent_once_in_order_or_still_stands_in_its_lane() {
    for seed in 0..200 {
        let mut traffic = traffic(seed);
        let mut lanes = Lanes::new();
        for _ in 0..1_500 {
            let call = traffic.any_call(&habits(seed));
            take_and_keep_lanes(&mut traffic.engine, &mut lanes, call);
        }
        let standing: Lanes = traffic
            .engine
            .places
            .iter()
            .flatten()
            .map(|block| (block.number, block.lane.iter().map(|record| (record.number, record.length)).collect()))
            .collect();
        assert_eq!(standing, lanes, "seed {seed}");
        while traffic.engine.any_waits() {
            take_and_keep_lanes(&mut traffic.engine, &mut lanes, Call::Serve);
        }
        assert!(lanes.values().all(VecDeque::is_empty), "seed {seed}");
    }
}

/// The burst against single serves on a copy, and its stop against what the next serve would do.
fn burst_is_that_many_serves(engine: &Engine, budget: u64, room: usize) -> Refusal {
    let (mut by_burst, mut one_by_one) = (engine.clone(), engine.clone());
    let mut list = vec![u32::MAX; room];
    let burst = by_burst.burst(Bytes(budget), &mut list);
    let sent: Vec<_> = (0..burst.count).map(|_| one_by_one.serve().unwrap()).collect();
    assert_eq!(by_burst, one_by_one);
    assert_eq!(burst.bytes.0, sent.iter().map(|sent| u64::from(sent.length)).sum::<u64>());
    let numbers: Vec<u32> = sent.iter().map(|sent| sent.record).collect();
    assert_eq!(list[..burst.count], numbers);
    assert!(list[burst.count..].iter().all(|&entry| entry == u32::MAX));
    let stop = match one_by_one.serve() {
        Err(refusal) => refusal,
        Ok(_) if burst.count == room => Refusal::ListFull,
        Ok(sent) => {
            assert!(u64::from(sent.length) > budget - burst.bytes.0);
            Refusal::RecordOverBudget
        }
    };
    assert_eq!(burst.stopped_by, stop);
    stop
}

#[test]
fn a_burst_is_that_many_single_serves() {
    let mut stops = BTreeMap::new();
    for seed in 0..60 {
        let mut traffic = traffic(seed);
        for turn in 0..1_200 {
            let call = traffic.any_call(&habits(seed));
            traffic.play(call);
            if turn % 10 == 0 {
                let budget = traffic.random.between(0, 3_000);
                let room = traffic.random.between(0, 20) as usize;
                *stops.entry(burst_is_that_many_serves(&traffic.engine, budget, room)).or_insert(0) += 1;
            }
        }
    }
    for stop in [Refusal::NoBlockWaits, Refusal::ListFull, Refusal::RecordOverBudget] {
        assert!(stops[&stop] > 100, "{stops:?}");
    }
}

fn play_on_lent(lent: &mut Lent, call: Call) -> u32 {
    match call {
        Call::Open { block, share } => code_of(&lent.open(block, share)),
        Call::Rename { old, new } => code_of(&lent.rename(old, new)),
        Call::Close { block } => code_of(&lent.close(block)),
        Call::Record { block, number, length } => code_of(&lent.record(block, Record { number, length })),
        Call::Serve => code_of(&lent.serve()),
        Call::Burst { bytes, room } => lent.burst(Bytes(bytes), &mut vec![0; room.into()]).stopped_by.code(),
    }
}

fn entries_changed(before: &Lent, after: &Lent) -> usize {
    let pairs = |lent: &Lent| -> Vec<(u32, u16)> {
        lent.tables.numbers.iter().copied().zip(lent.tables.lengths.iter().copied()).collect()
    };
    pairs(before).iter().zip(&pairs(after)).filter(|(before, after)| before != after).count()
}

/// The board is taken apart and written back at each call; the engine beside goes on. Both must say the same all the
/// way, so all that the engine keeps is in the board's value, the release of a held share too.
#[test]
fn a_run_on_the_boards_value_is_the_run_of_the_engine() {
    for seed in 0..60 {
        let mut traffic = traffic(seed);
        let mut lent = Lent::all_zeros();
        lent.make(traffic.engine.largest).unwrap();
        for _ in 0..800 {
            let call = traffic.any_call(&habits(seed));
            let before = lent.clone();
            let code = play_on_lent(&mut lent, call);
            assert_eq!(code, traffic.play(call), "seed {seed}, {call:?}");
            assert_eq!(write_back(&traffic.engine, &mut lent.tables.clone()), lent.board, "seed {seed}, {call:?}");
            assert_eq!(lent.check(), Ok(()), "seed {seed}, {call:?}");
            match call {
                Call::Burst { .. } | Call::Serve => assert_eq!(before.tables, lent.tables),
                Call::Record { .. } if code == DONE => assert!(entries_changed(&before, &lent) <= 1),
                _ if code == DONE => assert_eq!(before.tables, lent.tables),
                _ => assert_eq!(before, lent, "seed {seed}: a refusal changed something, {call:?}"),
            }
            if call == Call::Serve && code != DONE {
                assert_eq!(before, lent, "seed {seed}: a refused serve changed something");
            }
        }
    }
}

#[test]
fn a_done_making_clears_both_tables_and_a_refused_one_leaves_them() {
    let mut lent = Lent::all_zeros();
    lent.make(100).unwrap();
    lent.open(1, 1).unwrap();
    lent.record(1, Record { number: 7, length: 9 }).unwrap();
    let tables = lent.tables.clone();
    assert_ne!(tables, Tables::all_zeros());
    assert_eq!(lent.make(63), Err(Refusal::OutOfRange));
    assert_eq!(lent, Lent { board: Board::all_zeros(), tables });
    assert_eq!(lent.make(64), Ok(()));
    assert_eq!(lent, Lent { board: Board { largest: 64, ..Board::all_zeros() }, tables: Tables::all_zeros() });
    lent.tables.numbers.push(5);
    let tables = lent.tables.clone();
    assert_eq!(lent.make(64), Err(Refusal::TableLength));
    assert_eq!(lent, Lent { board: Board::all_zeros(), tables });
}
