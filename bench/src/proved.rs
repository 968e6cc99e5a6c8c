//! The proved box behind its C functions: a board is one pointer, and so is each table.

use second::board;
use second::engine::Sent;
use second::numbers::{CLASSES, LANE_DEPTH, PLACES};

type Ids = [u32; PLACES * LANE_DEPTH];
type Lens = [u16; PLACES * LANE_DEPTH];

/// The box's board, as C lays it out; the second program's has the same fields.
#[repr(C)]
#[derive(Clone)]
pub struct Board {
    numbers: [u32; PLACES],
    shares: [u32; PLACES],
    deficits: [u64; PLACES],
    starts: [u16; PLACES],
    counts: [u16; PLACES],
    ready: [u64; PLACES],
    next: [u8; PLACES],
    heads: [u8; CLASSES],
    tails: [u8; CLASSES],
    held: [u32; CLASSES],
    largest: u32,
    clock: u64,
    active: u32,
    pending: u32,
    slot: u8,
    left: u64,
}

// A board of one side as the other's.
#[rustfmt::skip]
macro_rules! same_fields {
    ($from:path => $to:path) => {
        impl From<$from> for $to {
            fn from(board: $from) -> $to {
                let $from { numbers, shares, deficits, starts, counts, ready, next, heads, tails, held, .. } = board;
                let $from { largest, clock, active, pending, slot, left, .. } = board;
                $to {
                    numbers, shares, deficits, starts, counts, ready, next, heads, tails, held,
                    largest, clock, active, pending, slot, left,
                }
            }
        }
    };
}

same_fields!(board::Board => Board);
same_fields!(Board => board::Board);

/// What a serve sent.
#[repr(C)]
#[derive(Default)]
struct Told {
    block: u32,
    number: u32,
    length: u16,
    clock: u64,
}

/// How many records a burst sent, and their bytes.
#[repr(C)]
#[derive(Default)]
pub struct Total {
    pub count: usize,
    pub bytes: u64,
}

/// What stands between two fragments of a log; all zeros are where it begins.
#[repr(C)]
struct Feeder {
    board: Board,
    at: u64,
    sent: u64,
    came: usize,
    kept: [u8; 13],
    made: u8,
    over: u8,
}

/// How many bytes of a fragment were taken, and how many were written.
#[repr(C)]
#[derive(Default)]
struct Fed {
    taken: usize,
    used: usize,
}

// A slice goes to C as its first element's address and its length.
extern "C" {
    fn box_listing(
        log: *const u8,
        log_len: usize,
        piece: *mut u8,
        piece_len: usize,
        out: *mut u8,
        out_len: usize,
    ) -> usize;
    fn box_feed(
        feeder: &mut Feeder,
        ids: &mut Ids,
        lens: &mut Lens,
        fragment: *const u8,
        fragment_len: usize,
        out: *mut u8,
        out_len: usize,
        fed: &mut Fed,
    ) -> u8;
    fn box_finish(feeder: &mut Feeder, ids: &Ids, lens: &Lens, out: *mut u8, out_len: usize, fed: &mut Fed) -> u8;
    fn box_record(b: &mut Board, ids: &mut Ids, lens: &mut Lens, block: u32, id: u32, length: u16) -> u8;
    fn box_serve(b: &mut Board, ids: &Ids, lens: &Lens, sent: &mut Told) -> u8;
    fn box_burst(
        b: &mut Board,
        ids: &Ids,
        lens: &Lens,
        bytes: u64,
        list: *mut u32,
        list_len: usize,
        total: &mut Total,
    ) -> u8;
}

/// Writes a log's listing to the front of a buffer, by pieces that go through another, and gives its length.
pub fn listing(log: &[u8], piece: &mut [u8], out: &mut [u8]) -> usize {
    unsafe { box_listing(log.as_ptr(), log.len(), piece.as_mut_ptr(), piece.len(), out.as_mut_ptr(), out.len()) }
}

/// A log that is fed to the box, fragment by fragment.
pub struct Feeding {
    feeder: Feeder,
    ids: Ids,
    lens: Lens,
}

impl Feeding {
    pub fn new() -> Feeding {
        // Every field is a number, or numbers.
        Feeding { feeder: unsafe { std::mem::zeroed() }, ids: [0; PLACES * LANE_DEPTH], lens: [0; PLACES * LANE_DEPTH] }
    }

    /// Feeds a whole fragment; what is written goes through a buffer to the end of the text.
    pub fn feed(&mut self, mut fragment: &[u8], out: &mut [u8], text: &mut Vec<u8>) {
        while !fragment.is_empty() {
            let (from, to, mut fed) = (fragment.as_ptr(), out.as_mut_ptr(), Fed::default());
            let Feeding { feeder, ids, lens } = self;
            let code = unsafe { box_feed(feeder, ids, lens, from, fragment.len(), to, out.len(), &mut fed) };
            assert_eq!(code, 0, "no feeding is refused");
            text.extend_from_slice(&out[..fed.used]);
            fragment = &fragment[fed.taken..];
        }
    }

    pub fn finish(&mut self, out: &mut [u8], text: &mut Vec<u8>) {
        let mut fed = Fed::default();
        let Feeding { feeder, ids, lens } = self;
        let code = unsafe { box_finish(feeder, ids, lens, out.as_mut_ptr(), out.len(), &mut fed) };
        assert_eq!(code, 0, "no end is refused");
        text.extend_from_slice(&out[..fed.used]);
    }
}

pub fn record(board: &mut Board, ids: &mut [u32], lens: &mut [u16], block: u32, number: u32, length: u16) -> u8 {
    let (ids, lens) = (ids.try_into().expect("2,048 numbers"), lens.try_into().expect("2,048 lengths"));
    unsafe { box_record(board, ids, lens, block, number, length) }
}

/// The code, and what was sent, which is all zeros after a refusal.
pub fn serve(board: &mut Board, ids: &[u32], lens: &[u16]) -> (u8, Sent) {
    let (ids, lens) = (ids.try_into().expect("2,048 numbers"), lens.try_into().expect("2,048 lengths"));
    let mut told = Told::default();
    let code = unsafe { box_serve(board, ids, lens, &mut told) };
    (code, Sent { block: told.block, record: told.number, length: told.length, clock: told.clock })
}

/// The code that stopped a burst, and what it sent.
pub fn burst(board: &mut Board, ids: &[u32], lens: &[u16], budget: u64, list: &mut [u32]) -> (u8, Total) {
    let (ids, lens) = (ids.try_into().expect("2,048 numbers"), lens.try_into().expect("2,048 lengths"));
    let mut total = Total::default();
    let code = unsafe { box_burst(board, ids, lens, budget, list.as_mut_ptr(), list.len(), &mut total) };
    (code, total)
}
