//! When a board is spoilt: the value doesn't spell a board, or it breaks one of the clauses, in document 01's order.

use crate::board::{link_to, Board, Tables};
use crate::numbers::*;

#[derive(Clone, Copy, Debug, PartialEq, Eq)]
pub enum Clause {
    Spelling,
    Largest,
    Clock,
    Numbers,
    Shares,
    StartAndCount,
    Lengths,
    Deficits,
    NotInUse,
    TotalShare,
    HeldShares,
    Orders,
    ReadyTimes,
    Slot,
    ClassSets,
}

type Keeps = fn(&Spelled) -> bool;

/// The clauses after the spelling, each with the function that tells if a board keeps it.
const CLAUSES: [(Clause, Keeps); 14] = [
    (Clause::Largest, largest_is_in_range),
    (Clause::Clock, clock_is_in_range),
    (Clause::Numbers, open_numbers_are_distinct),
    (Clause::Shares, shares_are_in_range),
    (Clause::StartAndCount, starts_and_counts_are_in_range),
    (Clause::Lengths, waiting_lengths_are_in_range),
    (Clause::Deficits, deficits_are_in_range),
    (Clause::NotInUse, all_not_in_use_is_zero),
    (Clause::TotalShare, open_and_held_shares_fit_the_line),
    (Clause::HeldShares, nothing_is_held_if_none_waits),
    (Clause::Orders, waiting_blocks_and_no_others_are_in_order),
    (Clause::ReadyTimes, ready_times_are_right),
    (Clause::Slot, open_slot_is_right),
    (Clause::ClassSets, class_sets_are_right),
];

/// The clauses that a board breaks; none for a board that isn't spoilt. Both tables have 2,048 entries.
pub fn broken_clauses(board: &Board, tables: &Tables) -> Vec<Clause> {
    match spell(board, tables) {
        Err(DoesNotSpell) => vec![Clause::Spelling],
        Ok(spelled) => CLAUSES.iter().filter(|(_, keeps)| !keeps(&spelled)).map(|(clause, _)| *clause).collect(),
    }
}

/// A value whose links spell seventeen orders, read as rows of places.
pub struct Spelled<'a> {
    pub board: &'a Board,
    pub tables: &'a Tables,
    pub orders: Vec<Vec<usize>>,
    pub slot: Option<usize>,
}

/// The links don't make orders.
#[derive(Debug)]
pub struct DoesNotSpell;

/// Follows every link once. Each place stands in at most one order, once, and the link of a place in no order is 0.
pub fn spell<'a>(board: &'a Board, tables: &'a Tables) -> Result<Spelled<'a>, DoesNotSpell> {
    let mut orders = Vec::new();
    let mut in_an_order = [false; PLACES];
    for class in 0..CLASSES {
        let order = read_order(board, class)?;
        for &place in &order {
            if in_an_order[place] {
                return Err(DoesNotSpell);
            }
            in_an_order[place] = true;
        }
        orders.push(order);
    }
    if (0..PLACES).any(|place| !in_an_order[place] && board.next[place] != 0) {
        return Err(DoesNotSpell);
    }
    Ok(Spelled { board, tables, orders, slot: place_of_link(board.slot)? })
}

fn read_order(board: &Board, class: usize) -> Result<Vec<usize>, DoesNotSpell> {
    let mut order = Vec::new();
    let mut link = board.heads[class];
    while let Some(place) = place_of_link(link)? {
        if order.len() == PLACES {
            return Err(DoesNotSpell);
        }
        order.push(place);
        link = board.next[place];
    }
    let last = order.last().map_or(0, |&place| link_to(place));
    if board.tails[class] == last {
        Ok(order)
    } else {
        Err(DoesNotSpell)
    }
}

fn place_of_link(link: u8) -> Result<Option<usize>, DoesNotSpell> {
    match usize::from(link) {
        0 => Ok(None),
        link if link <= PLACES => Ok(Some(link - 1)),
        _ => Err(DoesNotSpell),
    }
}

impl Spelled<'_> {
    pub fn is_open(&self, place: usize) -> bool {
        number_in_range(self.board.numbers[place])
    }

    pub fn open_places(&self) -> impl Iterator<Item = usize> + '_ {
        (0..PLACES).filter(|&place| self.is_open(place))
    }

    fn waits(&self, place: usize) -> bool {
        self.is_open(place) && self.board.counts[place] != 0
    }

    fn waiting_places(&self) -> impl Iterator<Item = usize> + '_ {
        (0..PLACES).filter(|&place| self.waits(place))
    }

    fn is_in_an_order(&self, place: usize) -> bool {
        self.orders.iter().any(|order| order.contains(&place))
    }

    /// The table entry of the j-th record from the front.
    pub fn entry(&self, place: usize, j: usize) -> usize {
        lane_entry(place, self.board.starts[place].into(), j)
    }

    fn held(&self) -> u64 {
        self.board.held.iter().map(|&share| u64::from(share)).sum()
    }

    /// Bit k is set exactly when a block of class k waits, an open slot's included.
    pub fn active_set(&self) -> u32 {
        self.waiting_places()
            .filter_map(|place| class_of(self.board.shares[place]))
            .fold(0, |set, class| set | 1 << class)
    }

    /// Bit k is set exactly when a block in the order of class k is ready.
    pub fn pending_set(&self) -> u32 {
        let is_pending =
            |class: &usize| self.orders[*class].iter().any(|&place| self.board.ready[place] <= self.board.clock);
        (0..CLASSES).filter(is_pending).fold(0, |set, class| set | 1 << class)
    }
}

fn largest_is_in_range(spelled: &Spelled) -> bool {
    largest_in_range(spelled.board.largest)
}

fn clock_is_in_range(spelled: &Spelled) -> bool {
    spelled.board.clock <= CLOCK_END
}

/// A place with number 0 is free, so every open block's number is in range.
fn open_numbers_are_distinct(spelled: &Spelled) -> bool {
    let numbers = &spelled.board.numbers;
    spelled.open_places().all(|place| !numbers[..place].contains(&numbers[place]))
}

fn shares_are_in_range(spelled: &Spelled) -> bool {
    spelled.open_places().all(|place| share_in_range(spelled.board.shares[place]))
}

fn starts_and_counts_are_in_range(spelled: &Spelled) -> bool {
    let board = spelled.board;
    spelled
        .open_places()
        .all(|place| usize::from(board.starts[place]) < LANE_DEPTH && usize::from(board.counts[place]) <= LANE_DEPTH)
}

fn waiting_lengths_are_in_range(spelled: &Spelled) -> bool {
    let in_range = |place, j| length_in_range(spelled.tables.lengths[spelled.entry(place, j)], spelled.board.largest);
    spelled.waiting_places().all(|place| (0..usize::from(spelled.board.counts[place])).all(|j| in_range(place, j)))
}

fn deficits_are_in_range(spelled: &Spelled) -> bool {
    let board = spelled.board;
    spelled.open_places().all(|place| {
        let must_be_zero = !spelled.waits(place) || spelled.slot == Some(place);
        let deficit = Parts(board.deficits[place]);
        deficit < deficit_limit(board.largest) && (!must_be_zero || deficit == Parts(0))
    })
}

fn all_not_in_use_is_zero(spelled: &Spelled) -> bool {
    let board = spelled.board;
    let free_places = (0..PLACES).filter(|&place| !spelled.is_open(place)).all(|place| {
        board.shares[place] == 0 && board.deficits[place] == 0 && board.starts[place] == 0 && board.counts[place] == 0
    });
    let ready_times = (0..PLACES).all(|place| spelled.is_in_an_order(place) || board.ready[place] == 0);
    let no_slot = spelled.slot.is_some() || board.left == 0;
    free_places && ready_times && no_slot
}

fn open_and_held_shares_fit_the_line(spelled: &Spelled) -> bool {
    let open: u64 = spelled.open_places().map(|place| u64::from(spelled.board.shares[place])).sum();
    open + spelled.held() <= u64::from(WHOLE_LINE)
}

fn nothing_is_held_if_none_waits(spelled: &Spelled) -> bool {
    spelled.waiting_places().next().is_some() || spelled.held() == 0
}

/// Whether the slot's own block waits is asked by the clause on the slot.
fn waiting_blocks_and_no_others_are_in_order(spelled: &Spelled) -> bool {
    let all_are_there =
        spelled.waiting_places().all(|place| (spelled.slot == Some(place)) != spelled.is_in_an_order(place));
    let no_others_are_there = (0..CLASSES).all(|class| {
        let belongs = |&place: &usize| spelled.waits(place) && class_of(spelled.board.shares[place]) == Some(class);
        spelled.orders[class].iter().all(belongs)
    });
    all_are_there && no_others_are_there
}

fn ready_times_are_right(spelled: &Spelled) -> bool {
    (0..CLASSES).all(|class| {
        let ready: Vec<u64> = spelled.orders[class].iter().map(|&place| spelled.board.ready[place]).collect();
        let multiples = ready.iter().all(|time| time % interval(class) == 0);
        let never_falling = ready.windows(2).all(|pair| pair[0] <= pair[1]);
        let none_above = ready.iter().all(|&time| time <= next_start(class, spelled.board.clock));
        multiples && never_falling && none_above
    })
}

fn open_slot_is_right(spelled: &Spelled) -> bool {
    let Some(place) = spelled.slot else {
        return true;
    };
    let left = Parts(spelled.board.left);
    let front = spelled.tables.lengths[spelled.entry(place, 0)];
    spelled.waits(place)
        && charge(front) <= left
        && left < slot_limit(spelled.board.largest)
        && spelled.board.clock < CLOCK_END
}

fn class_sets_are_right(spelled: &Spelled) -> bool {
    spelled.board.active == spelled.active_set() && spelled.board.pending == spelled.pending_set()
}
