//! The shapes of case files.

use super::boards::trials;
use super::random::Random;
use super::traffic::{renaming_story, Call, Habits, Traffic, STORY_LARGEST};
use crate::case_text::{largest_value, raw_line, Cases};
use crate::codes::Refusal;
use crate::engine::Engine;
use crate::numbers::CLOCK_END;

pub type CaseShape = fn(u64) -> String;

pub const CASE_SHAPES: [(&str, CaseShape); 6] =
    [("codes", codes), ("spoilt", spoilt), ("renames", renames), ("run", run), ("late", late), ("changed", changed)];

/// A case file under way, with the board that its calls give.
struct CaseMaker {
    traffic: Traffic,
    text: String,
}

impl CaseMaker {
    fn new(seed: u64) -> CaseMaker {
        CaseMaker { traffic: Traffic::new(Random::new(seed), 64), text: String::new() }
    }

    fn random(&mut self) -> &mut Random {
        &mut self.traffic.random
    }

    /// Begins a case with a done making.
    fn begin(&mut self, name: &str, largest: u32) {
        self.text += &format!("case {name}\nmake {largest}\n");
        self.traffic.engine = Engine::fresh(largest);
    }

    fn any_largest(&mut self) -> u32 {
        let any = self.random().between(64, 2_048) as u32;
        self.random().pick(&[64, 100, 2_048, any])
    }

    /// On a board without records only: ready times would have to go with the clock.
    fn set_clock(&mut self, clock: u64) {
        self.text += &raw_line("clock", None, clock);
        self.traffic.engine.clock = clock;
    }

    fn take(&mut self, call: Call) {
        self.text += &line_of(call);
        self.traffic.play(call);
    }

    fn calls(&mut self, count: usize, habits: &Habits) {
        for _ in 0..count {
            let call = self.traffic.any_call(habits);
            self.take(call);
        }
    }
}

fn line_of(call: Call) -> String {
    match call {
        Call::Open { block, share } => format!("open {block} {share}\n"),
        Call::Rename { old, new } => format!("rename {old} {new}\n"),
        Call::Close { block } => format!("close {block}\n"),
        Call::Record { block, number, length } => format!("record {block} {number} {length}\n"),
        Call::Serve => "serve\n".to_string(),
        Call::Burst { bytes, room } => format!("burst {bytes} {room}\n"),
    }
}

/// Every call with every code, written by hand.
fn codes(_seed: u64) -> String {
    include_str!("../../cases/codes.txt").to_string()
}

/// The boards of every clause. The calls after the spoilt test are refused on a spoilt board and done on most others.
fn spoilt(_seed: u64) -> String {
    let mut text = String::new();
    for (index, trial) in trials().iter().enumerate() {
        let verb = if trial.broken.is_empty() { "keeps" } else { "breaks" };
        text += &format!("case {verb}-{:?}-{}\n", trial.clause, index + 1);
        text += &trial.lines;
        text += "spoilt\nserve\nburst 150 3\nopen 900 1\nrecord 11 77 50\nrename 11 901\nclose 900\nserve\nspoilt\n";
    }
    text
}

fn renames(seed: u64) -> String {
    let mut maker = CaseMaker::new(seed);
    maker.begin("renamed", STORY_LARGEST);
    for call in renaming_story(seed) {
        maker.take(call);
    }
    maker.text
}

/// Ways to use the box that each reach something else: a crowd fills the places, a fill the lanes, a sale exhausts the
/// shares.
fn all_habits() -> [Habits; 5] {
    let mixed = Habits { record: 60, serve: 24, burst: 3, out_of_range: 3, ..Habits::mixed() };
    [
        mixed,
        Habits { open: 40, close: 4, numbers: 120, lowest_class: 8, ..mixed },
        Habits { record: 120, numbers: 8, lowest_class: 2, ..mixed },
        Habits { open: 30, close: 30, lowest_class: 0, ..mixed },
        Habits { record: 12, serve: 30, burst: 12, ..mixed },
    ]
}

/// Five long runs from a fresh making, some thousand calls in all.
fn run(seed: u64) -> String {
    let mut maker = CaseMaker::new(seed);
    for (index, habits) in all_habits().iter().enumerate() {
        let largest = maker.any_largest();
        maker.begin(&format!("run-{}", index + 1), largest);
        maker.calls(500, habits);
        for _ in 0..4 {
            let habits = maker.random().pick(&all_habits());
            maker.calls(75, &habits);
        }
        maker.text += "spoilt\nshow\n";
    }
    maker.text
}

/// Runs that begin shortly before the clock's end.
fn late(seed: u64) -> String {
    let mut maker = CaseMaker::new(seed);
    for (index, before) in [0, 1, 2, 5, 9, 30, 70, 300, 1_000, 5_000, 70_000, 300_000].into_iter().enumerate() {
        let largest = maker.any_largest();
        maker.begin(&format!("late-{}", index + 1), largest);
        let clock = CLOCK_END - maker.random().between(before / 2, before);
        maker.set_clock(clock);
        let habits = maker.random().pick(&all_habits());
        maker.calls(100, &habits);
        maker.calls(30, &Habits::mixed());
        maker.text += "spoilt\n";
    }
    maker.text
}

/// Runs in which one field of the board after another is changed, tried and put back.
fn changed(seed: u64) -> String {
    let mut maker = CaseMaker::new(seed);
    let mut cases = Cases::new();
    let mut read = 0;
    for (index, habits) in all_habits().iter().enumerate() {
        let largest = maker.any_largest();
        maker.begin(&format!("changed-{}", index + 1), largest);
        for _ in 0..60 {
            maker.calls(3, habits);
            take_lines(&mut cases, &maker.text[read..]);
            for _ in 0..3 {
                change_a_field(&mut maker, &mut cases, habits);
            }
            read = maker.text.len();
        }
    }
    maker.text
}

/// Changes one field, tries the spoilt test and, if the board is spoilt, one call; then puts the field back.
fn change_a_field(maker: &mut CaseMaker, cases: &mut Cases, habits: &Habits) {
    let (written, index, value) = pick_field(maker.random(), cases);
    let most = largest_value(written).expect("every field of the board has a word");
    let any = maker.random().between(0, most);
    let small = maker.random().between(0, most.min(70));
    let values = [value.saturating_add(1).min(most), value.saturating_sub(1), value ^ 1, 0, small, small, most, any];
    let change = raw_line(written, index, maker.traffic.random.pick(&values).min(most));
    take_lines(cases, &change);
    maker.text += &change;
    maker.text += "spoilt\n";
    if cases.lent.check() == Err(Refusal::Spoilt) {
        maker.text += &line_of(maker.traffic.any_call(habits));
    }
    let put_back = raw_line(written, index, value);
    take_lines(cases, &put_back);
    maker.text += &put_back;
}

/// A field of the board, more often one that is not 0.
fn pick_field(random: &mut Random, cases: &Cases) -> (&'static str, Option<usize>, u64) {
    let mut fields = Vec::new();
    let all = random.percent(30);
    cases.lent.board.each_field(|written, index, value| {
        if all || value != 0 {
            fields.push((written, index, value));
        }
    });
    random.pick(&fields)
}

fn take_lines(cases: &mut Cases, text: &str) {
    cases.play(text, |_, _| ()).expect("the maker writes lines that can be read");
}
