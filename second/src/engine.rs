//! The plain engine: the rules of document 01 over queues, vectors and a map.
//!
//! A lane is a queue of records, a class's order is a queue of turns. There are no links between places and no class
//! sets.

use std::collections::{BTreeMap, VecDeque};

use crate::codes::Refusal;
use crate::numbers::*;
#[cfg(test)]
use crate::slips::Slips;

#[derive(Clone, Copy, Debug, PartialEq, Eq)]
pub struct Record {
    pub number: u32,
    pub length: u16,
}

/// An open block and its lane. Class and credit follow from the share and are kept beside it.
#[derive(Clone, Debug, PartialEq, Eq)]
pub struct Block {
    pub number: u32,
    pub share: u32,
    pub class: usize,
    pub credit: Parts,
    pub deficit: Parts,
    /// Where the front record stands in the ring of the place's table entries.
    pub start: usize,
    pub lane: VecDeque<Record>,
}

impl Block {
    /// A block as it is opened, with a share that is in range.
    pub fn new(number: u32, share: u32, largest: u32) -> Block {
        Block {
            number,
            share,
            class: class_of(share).expect("a share in range has a class"),
            credit: credit(share, largest),
            deficit: Parts(0),
            start: 0,
            lane: VecDeque::new(),
        }
    }

    pub fn waits(&self) -> bool {
        !self.lane.is_empty()
    }
}

/// A waiting block's place in its class's order.
#[derive(Clone, Copy, Debug, PartialEq, Eq)]
pub struct Turn {
    pub place: usize,
    pub ready: u64,
}

/// The open slot. It began at the clock of the board: the clock stands still until the slot ends.
#[derive(Clone, Copy, Debug, PartialEq, Eq)]
pub struct Slot {
    pub place: usize,
    pub left: Parts,
}

/// A closed block's share, not free again before its release.
#[derive(Clone, Copy, Debug, PartialEq, Eq)]
pub struct Hold {
    pub class: usize,
    pub share: u32,
    pub release: u64,
}

/// What a serving call that is done answers.
#[derive(Clone, Copy, Debug, PartialEq, Eq)]
pub struct Sent {
    pub block: u32,
    pub record: u32,
    pub length: u16,
    pub clock: u64,
}

/// What a send tells beside its answer, for whoever keeps the accounts of blocks.
#[derive(Clone, Copy, Debug, PartialEq, Eq)]
pub struct Told {
    /// The credit of the slot, if it began with this send.
    pub credit_given: Option<Parts>,
    pub bytes: Bytes,
    /// What is left of the slot after this send.
    pub left: Parts,
    pub lane_is_empty: bool,
}

#[derive(Clone, Copy, Debug, PartialEq, Eq)]
pub struct Burst {
    pub count: usize,
    pub bytes: Bytes,
    pub stopped_by: Refusal,
}

/// Where the next record would come from.
enum Next {
    OpenSlot(Slot),
    NewSlot { class: usize, clock: u64 },
}

#[derive(Clone, Debug, PartialEq, Eq)]
pub struct Engine {
    pub largest: u32,
    pub clock: u64,
    pub places: Vec<Option<Block>>,
    pub orders: Vec<VecDeque<Turn>>,
    pub slot: Option<Slot>,
    pub holds: Vec<Hold>,
    place_of: BTreeMap<u32, usize>,
    #[cfg(test)]
    pub(crate) slips: Slips,
}

impl Engine {
    pub fn make(largest: u32) -> Result<Engine, Refusal> {
        if !largest_in_range(largest) {
            return Err(Refusal::OutOfRange);
        }
        Ok(Engine::fresh(largest))
    }

    /// A board without blocks, for an L that is known to be in range.
    pub fn fresh(largest: u32) -> Engine {
        Engine {
            largest,
            clock: 0,
            places: vec![None; PLACES],
            orders: vec![VecDeque::new(); CLASSES],
            slot: None,
            holds: Vec::new(),
            place_of: BTreeMap::new(),
            #[cfg(test)]
            slips: Slips::default(),
        }
    }

    pub fn open(&mut self, number: u32, share: u32) -> Result<(), Refusal> {
        if !number_in_range(number) || !share_in_range(share) {
            return Err(Refusal::OutOfRange);
        }
        if self.place_of.contains_key(&number) {
            return Err(Refusal::NumberIsOpen);
        }
        let Some(place) = self.places.iter().position(Option::is_none) else {
            return Err(Refusal::NoFreePlace);
        };
        if share > self.free_share() {
            return Err(Refusal::ShareNotFree);
        }
        let block = Block::new(number, share, self.largest);
        #[cfg(test)]
        let block = self.slips.opened(place, block);
        self.seat(place, block);
        Ok(())
    }

    /// Puts a block on a free place.
    pub fn seat(&mut self, place: usize, block: Block) {
        self.place_of.insert(block.number, place);
        self.places[place] = Some(block);
    }

    pub fn rename(&mut self, old: u32, new: u32) -> Result<(), Refusal> {
        if !number_in_range(new) {
            return Err(Refusal::OutOfRange);
        }
        let place = self.find(old)?;
        if self.place_of.contains_key(&new) {
            return Err(Refusal::NumberIsOpen);
        }
        self.place_of.remove(&old);
        self.place_of.insert(new, place);
        self.block_mut(place).number = new;
        #[cfg(test)]
        self.slips.renamed(place, &mut self.orders);
        Ok(())
    }

    pub fn close(&mut self, number: u32) -> Result<(), Refusal> {
        let place = self.find(number)?;
        if self.block(place).waits() {
            return Err(Refusal::LaneNotEmpty);
        }
        let Block { share, class, .. } = *self.block(place);
        if self.any_waits() {
            self.holds.push(Hold { class, share, release: next_start(class, self.clock) });
        }
        #[cfg(test)]
        self.slips.closed(place, self.block(place).deficit);
        self.place_of.remove(&number);
        self.places[place] = None;
        Ok(())
    }

    /// Rule 1: a record comes.
    pub fn record(&mut self, number: u32, record: Record) -> Result<(), Refusal> {
        if !number_in_range(number) || !length_in_range(record.length, self.largest) {
            return Err(Refusal::OutOfRange);
        }
        let place = self.find(number)?;
        let block = self.block_mut(place);
        if block.lane.len() == LANE_DEPTH {
            return Err(Refusal::LaneFull);
        }
        let was_empty = block.lane.is_empty();
        let class = block.class;
        block.lane.push_back(record);
        if was_empty {
            let ready = next_start(class, self.clock);
            #[cfg(test)]
            let ready = self.slips.ready_of_filled_lane(ready, class, self.clock);
            self.orders[class].push_back(Turn { place, ready });
        }
        Ok(())
    }

    pub fn serve(&mut self) -> Result<Sent, Refusal> {
        let (sent, _) = self.serve_and_tell()?;
        Ok(sent)
    }

    pub fn serve_and_tell(&mut self) -> Result<(Sent, Told), Refusal> {
        let next = self.next()?;
        Ok(self.send(next))
    }

    /// Serves as long as the next record is within the bytes that remain and the list has room.
    pub fn burst(&mut self, budget: Bytes, list: &mut [u32]) -> Burst {
        let mut count = 0;
        let mut bytes = Bytes(0);
        let stopped_by = loop {
            let next = match self.next() {
                Ok(next) => next,
                Err(refusal) => break refusal,
            };
            if count == list.len() {
                break Refusal::ListFull;
            }
            if charged_bytes(self.front_of(&next).length) > budget - bytes {
                break Refusal::RecordOverBudget;
            }
            let (sent, _) = self.send(next);
            list[count] = sent.record;
            count += 1;
            bytes = bytes + charged_bytes(sent.length);
        };
        Burst { count, bytes, stopped_by }
    }

    /// Rules 2 and 3, looked at without changing anything: where the next record would come from, or code 1 or 11.
    fn next(&self) -> Result<Next, Refusal> {
        if let Some(slot) = self.slot {
            return Ok(Next::OpenSlot(slot));
        }
        let Some(least_ready) = self.least_ready() else {
            return Err(Refusal::NoBlockWaits);
        };
        let clock = self.clock.max(least_ready);
        #[cfg(test)]
        let clock = self.slips.clock_of_new_slot(clock, self.clock, &self.orders);
        if clock >= CLOCK_END {
            return Err(Refusal::ClockSpent);
        }
        let class = self.lowest_pending(clock).expect("the block with the least ready time is pending at that clock");
        Ok(Next::NewSlot { class, clock })
    }

    /// Ready times never fall along an order, so the first turns hold the least.
    fn least_ready(&self) -> Option<u64> {
        self.orders.iter().filter_map(|order| order.front()).map(|turn| turn.ready).min()
    }

    fn lowest_pending(&self, clock: u64) -> Option<usize> {
        self.orders.iter().position(|order| order.front().is_some_and(|turn| turn.ready <= clock))
    }

    fn front_of(&self, next: &Next) -> Record {
        let place = match *next {
            Next::OpenSlot(slot) => slot.place,
            Next::NewSlot { class, .. } => {
                self.orders[class].front().expect("a class with a slot to begin has a first turn").place
            }
        };
        *self.block(place).lane.front().expect("the block of a turn or a slot waits")
    }

    fn send(&mut self, next: Next) -> (Sent, Told) {
        match next {
            Next::OpenSlot(slot) => self.send_front(slot, None),
            Next::NewSlot { class, clock } => {
                let slot = self.begin_slot(class, clock);
                self.send_front(slot, Some(self.block(slot.place).credit))
            }
        }
    }

    /// Rule 3: the first block of the class leaves its order, and its slot begins at this clock.
    fn begin_slot(&mut self, class: usize, clock: u64) -> Slot {
        self.move_clock(clock);
        let turn = self.orders[class].pop_front().expect("a class with a slot to begin has a first turn");
        let block = self.block_mut(turn.place);
        let left = block.deficit + block.credit;
        block.deficit = Parts(0);
        Slot { place: turn.place, left }
    }

    /// Rules 2 and 4: sends the front record of the slot's block, then ends the slot or leaves it open.
    fn send_front(&mut self, slot: Slot, credit_given: Option<Parts>) -> (Sent, Told) {
        let clock = self.clock;
        let block = self.block_mut(slot.place);
        let record = block.lane.pop_front().expect("a slot's block waits");
        block.start = (block.start + 1) % LANE_DEPTH;
        let sent = Sent { block: block.number, record: record.number, length: record.length, clock };
        let left = slot.left - charge(record.length);
        let lane_is_empty = block.lane.is_empty();
        match block.lane.front() {
            None => {
                let deficit = Parts(0);
                #[cfg(test)]
                let deficit = self.slips.deficit_of_emptied_lane(deficit, left);
                self.end_slot(slot.place, deficit);
            }
            Some(front) if charge(front.length) > left => self.end_slot(slot.place, left),
            Some(_) => self.slot = Some(Slot { left, ..slot }),
        }
        (sent, Told { credit_given, bytes: charged_bytes(record.length), left, lane_is_empty })
    }

    /// Rule 5: the clock moves on by one, and a block that still waits joins its order anew.
    fn end_slot(&mut self, place: usize, deficit: Parts) {
        let began = self.clock;
        self.slot = None;
        self.move_clock(began + 1);
        let block = self.block_mut(place);
        block.deficit = deficit;
        let class = block.class;
        if block.waits() {
            self.orders[class].push_back(Turn { place, ready: next_start(class, began) });
        }
        if !self.any_waits() {
            self.holds.clear();
        }
    }

    /// Held shares whose release the clock reaches are free again.
    fn move_clock(&mut self, clock: u64) {
        self.clock = clock;
        self.holds.retain(|hold| hold.release > clock);
    }

    fn free_share(&self) -> u32 {
        let open: u32 = self.places.iter().flatten().map(|block| block.share).sum();
        let held: u32 = self.holds.iter().map(|hold| hold.share).sum();
        WHOLE_LINE - open - held
    }

    /// A waiting block is in an order or in the open slot.
    pub fn any_waits(&self) -> bool {
        self.slot.is_some() || self.orders.iter().any(|order| !order.is_empty())
    }

    pub fn waiting_records(&self) -> usize {
        self.places.iter().flatten().map(|block| block.lane.len()).sum()
    }

    /// The place of the open block with this number.
    pub fn find(&self, number: u32) -> Result<usize, Refusal> {
        self.place_of.get(&number).copied().ok_or(Refusal::UnknownBlock)
    }

    fn block(&self, place: usize) -> &Block {
        self.places[place].as_ref().expect("this place has an open block")
    }

    fn block_mut(&mut self, place: usize) -> &mut Block {
        self.places[place].as_mut().expect("this place has an open block")
    }
}
