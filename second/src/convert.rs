//! From a board's value to the plain engine and back.

use std::collections::VecDeque;

use crate::board::{link_to, Board, Tables};
use crate::engine::{Block, Engine, Hold, Record, Slot, Turn};
use crate::numbers::*;
use crate::spoilt::{spell, Spelled};

/// The plain engine of a board that is not spoilt.
pub fn engine_of(board: &Board, tables: &Tables) -> Engine {
    let spelled = spell(board, tables).expect("a board that is not spoilt spells its orders");
    let mut engine = Engine::fresh(board.largest);
    engine.clock = board.clock;
    for place in spelled.open_places() {
        engine.seat(place, block_of(&spelled, place));
    }
    for (class, order) in spelled.orders.iter().enumerate() {
        engine.orders[class] = order.iter().map(|&place| Turn { place, ready: board.ready[place] }).collect();
    }
    engine.slot = spelled.slot.map(|place| Slot { place, left: Parts(board.left) });
    engine.holds = holds_of(board);
    engine
}

fn block_of(spelled: &Spelled, place: usize) -> Block {
    let board = spelled.board;
    let record = |j| {
        let entry = spelled.entry(place, j);
        Record { number: spelled.tables.numbers[entry], length: spelled.tables.lengths[entry] }
    };
    Block {
        deficit: Parts(board.deficits[place]),
        start: board.starts[place].into(),
        lane: (0..usize::from(board.counts[place])).map(record).collect(),
        ..Block::new(board.numbers[place], board.shares[place], board.largest)
    }
}

/// All shares held in one class have one release, the class's next start: one closed before the last start would be
/// free by now.
fn holds_of(board: &Board) -> Vec<Hold> {
    let hold = |class: usize| Hold { class, share: board.held[class], release: next_start(class, board.clock) };
    (0..CLASSES).map(hold).filter(|hold| hold.share != 0).collect()
}

/// The value of an engine's board. Waiting records are written to their entries of the tables; no other entry changes.
pub fn write_back(engine: &Engine, tables: &mut Tables) -> Board {
    let mut board = Board::all_zeros();
    board.largest = engine.largest;
    board.clock = engine.clock;
    for (place, block) in engine.places.iter().enumerate() {
        if let Some(block) = block {
            write_block(block, place, &mut board, tables);
        }
    }
    for (class, order) in engine.orders.iter().enumerate() {
        write_order(order, class, &mut board);
    }
    for hold in &engine.holds {
        board.held[hold.class] += hold.share;
    }
    if let Some(slot) = engine.slot {
        board.slot = link_to(slot.place);
        board.left = slot.left.0;
    }
    let spelled = spell(&board, tables).expect("written orders can be read");
    let (active, pending) = (spelled.active_set(), spelled.pending_set());
    board.active = active;
    board.pending = pending;
    board
}

fn write_block(block: &Block, place: usize, board: &mut Board, tables: &mut Tables) {
    board.numbers[place] = block.number;
    board.shares[place] = block.share;
    board.deficits[place] = block.deficit.0;
    board.starts[place] = block.start as u16;
    board.counts[place] = block.lane.len() as u16;
    for (j, record) in block.lane.iter().enumerate() {
        let entry = lane_entry(place, block.start, j);
        tables.numbers[entry] = record.number;
        tables.lengths[entry] = record.length;
    }
}

fn write_order(order: &VecDeque<Turn>, class: usize, board: &mut Board) {
    board.heads[class] = order.front().map_or(0, |turn| link_to(turn.place));
    board.tails[class] = order.back().map_or(0, |turn| link_to(turn.place));
    for (index, turn) in order.iter().enumerate() {
        board.ready[turn.place] = turn.ready;
        board.next[turn.place] = order.get(index + 1).map_or(0, |behind| link_to(behind.place));
    }
}
