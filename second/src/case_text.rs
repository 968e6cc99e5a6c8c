//! The case text: boards given field by field and calls on them, with an answer line for each call.
//!
//! A line is read into steps, one for each raw line; only `order` and `sets` stand for more than one. A step has a byte
//! form too.

use crate::board::{link_to, Board};
use crate::calls::Lent;
use crate::codes::{code_of, Refusal, DONE};
use crate::digest::digest;
use crate::engine::Record;
use crate::numbers::*;
use crate::spoilt::spell;
use crate::words::{number, word_lines};

/// The word of a step. Its number is the step's first byte in the byte form.
#[derive(Clone, Copy, Debug, PartialEq, Eq)]
pub enum Word {
    Case = 1,
    Tables = 2,
    Largest = 3,
    Clock = 4,
    Active = 5,
    Pending = 6,
    Slot = 7,
    Left = 8,
    Number = 9,
    Share = 10,
    Deficit = 11,
    Start = 12,
    Count = 13,
    Ready = 14,
    Next = 15,
    Head = 16,
    Tail = 17,
    Held = 18,
    Entry = 19,
    Make = 20,
    Open = 21,
    Rename = 22,
    Close = 23,
    Record = 24,
    Serve = 25,
    Burst = 26,
    Spoilt = 27,
    Show = 28,
}

/// What each operand may be at most.
const PLACE: u64 = PLACES as u64 - 1;
const CLASS: u64 = CLASSES as u64 - 1;
const U8: u64 = u8::MAX as u64;
const U16: u64 = u16::MAX as u64;
const U32: u64 = u32::MAX as u64;
const U64: u64 = u64::MAX;
/// Entries of a lent table or list: few enough for a driving program to hold them all.
const ENTRIES: u64 = 4_096;

/// A step's word, how it is written, and the largest value of each operand.
struct Rule {
    word: Word,
    written: &'static str,
    operands: &'static [u64],
}

const fn rule(word: Word, written: &'static str, operands: &'static [u64]) -> Rule {
    Rule { word, written, operands }
}

/// Every step that is written as it is carried. `case` is not among them: it is written with a name and carried with a
/// number.
const RULES: [Rule; 27] = [
    rule(Word::Tables, "tables", &[ENTRIES, ENTRIES]),
    rule(Word::Largest, "largest", &[U32]),
    rule(Word::Clock, "clock", &[U64]),
    rule(Word::Active, "active", &[U32]),
    rule(Word::Pending, "pending", &[U32]),
    rule(Word::Slot, "slot", &[U8]),
    rule(Word::Left, "left", &[U64]),
    rule(Word::Number, "number", &[PLACE, U32]),
    rule(Word::Share, "share", &[PLACE, U32]),
    rule(Word::Deficit, "deficit", &[PLACE, U64]),
    rule(Word::Start, "start", &[PLACE, U16]),
    rule(Word::Count, "count", &[PLACE, U16]),
    rule(Word::Ready, "ready", &[PLACE, U64]),
    rule(Word::Next, "next", &[PLACE, U8]),
    rule(Word::Head, "head", &[CLASS, U8]),
    rule(Word::Tail, "tail", &[CLASS, U8]),
    rule(Word::Held, "held", &[CLASS, U32]),
    rule(Word::Entry, "entry", &[ENTRIES - 1, U32, U16]),
    rule(Word::Make, "make", &[U32]),
    rule(Word::Open, "open", &[U32, U32]),
    rule(Word::Rename, "rename", &[U32, U32]),
    rule(Word::Close, "close", &[U32]),
    rule(Word::Record, "record", &[U32, U32, U16]),
    rule(Word::Serve, "serve", &[]),
    rule(Word::Burst, "burst", &[U64, ENTRIES]),
    rule(Word::Spoilt, "spoilt", &[]),
    rule(Word::Show, "show", &[]),
];

fn rule_of(written: &str) -> Option<&'static Rule> {
    RULES.iter().find(|rule| rule.written == written)
}

/// The largest value that the last operand of a line may have: for a field of the board, what the field can hold.
pub fn largest_value(written: &str) -> Option<u64> {
    rule_of(written)?.operands.last().copied()
}

#[derive(Clone, Debug, PartialEq, Eq)]
pub struct Step {
    pub word: Word,
    pub operands: Vec<u64>,
}

fn step(word: Word, operands: &[u64]) -> Step {
    Step { word, operands: operands.to_vec() }
}

impl Step {
    /// One byte for the word, then eight for each operand, high byte first.
    pub fn bytes(&self) -> Vec<u8> {
        let mut bytes = vec![self.word as u8];
        self.operands.iter().for_each(|operand| bytes.extend_from_slice(&operand.to_be_bytes()));
        bytes
    }
}

/// The entries of a burst's list before the call.
const LIST_FILL: u32 = u32::MAX;

/// What the cases read so far have left.
pub struct Cases {
    pub lent: Lent,
    cases_begun: u64,
}

impl Cases {
    pub fn new() -> Cases {
        Cases { lent: Lent::all_zeros(), cases_begun: 0 }
    }

    /// Plays the lines and shows every step with its answer. A line that can't be read refuses the rest, with a
    /// message.
    pub fn play(&mut self, text: &str, mut show: impl FnMut(&Step, Option<String>)) -> Result<(), String> {
        for line in word_lines(text) {
            let steps = self.steps(&line.words).map_err(|message| format!("line {}: {message}", line.number))?;
            for step in steps {
                let answer = self.take(&step);
                show(&step, answer);
            }
        }
        Ok(())
    }

    /// The steps that a line stands for on the board as it is now.
    fn steps(&self, words: &[&str]) -> Result<Vec<Step>, String> {
        match *words {
            ["case", _] => Ok(vec![step(Word::Case, &[self.cases_begun + 1])]),
            ["case", ..] => Err("case takes one name".to_string()),
            _ if self.cases_begun == 0 => Err("no case has begun".to_string()),
            ["order", class, ref places @ ..] => steps_of_order(class, places),
            ["sets"] => self.steps_of_sets(),
            [written, ref operands @ ..] => Ok(vec![step_of_rule(written, operands)?]),
            [] => Ok(Vec::new()),
        }
    }

    fn steps_of_sets(&self) -> Result<Vec<Step>, String> {
        match spell(&self.lent.board, &self.lent.tables) {
            Ok(spelled) => Ok(vec![
                step(Word::Active, &[spelled.active_set().into()]),
                step(Word::Pending, &[spelled.pending_set().into()]),
            ]),
            Err(_) => Err("the links do not spell orders".to_string()),
        }
    }

    /// Takes one step and gives its answer, if it is a call or begins a case.
    fn take(&mut self, step: &Step) -> Option<String> {
        let answer = match (step.word, step.operands.as_slice()) {
            (Word::Case, &[number]) => self.begin_case(number),
            (Word::Make, &[largest]) => self.done_or_refused("make", |lent| lent.make(largest as u32)),
            (Word::Open, &[block, share]) => self.done_or_refused("open", |lent| lent.open(block as u32, share as u32)),
            (Word::Rename, &[old, new]) => self.done_or_refused("rename", |lent| lent.rename(old as u32, new as u32)),
            (Word::Close, &[block]) => self.done_or_refused("close", |lent| lent.close(block as u32)),
            (Word::Record, &[block, number, length]) => {
                let record = Record { number: number as u32, length: length as u16 };
                self.done_or_refused("record", |lent| lent.record(block as u32, record))
            }
            (Word::Serve, _) => self.serve(),
            (Word::Burst, &[bytes, room]) => self.burst(Bytes(bytes), room as usize),
            (Word::Spoilt, _) => self.spoilt(),
            (Word::Show, _) => self.show(),
            (word, operands) => {
                self.set(word, operands);
                return None;
            }
        };
        Some(answer)
    }

    /// Writes one raw line. The operands have been held against the rule, so every value fits its field.
    fn set(&mut self, word: Word, operands: &[u64]) {
        match (word, operands) {
            (Word::Tables, &[numbers, lengths]) => self.set_table_lengths(numbers as usize, lengths as usize),
            (Word::Entry, &[entry, number, length]) => self.set_entry(entry as usize, number as u32, length as u16),
            _ => set_field(&mut self.lent.board, word, operands),
        }
    }

    fn begin_case(&mut self, number: u64) -> String {
        self.lent = Lent::all_zeros();
        self.cases_begun = number;
        format!("case {number}\n")
    }

    fn set_table_lengths(&mut self, numbers: usize, lengths: usize) {
        self.lent.tables.numbers.resize(numbers, 0);
        self.lent.tables.lengths.resize(lengths, 0);
    }

    /// A table that is too short for the entry is left as it is.
    fn set_entry(&mut self, entry: usize, number: u32, length: u16) {
        if let Some(place) = self.lent.tables.numbers.get_mut(entry) {
            *place = number;
        }
        if let Some(place) = self.lent.tables.lengths.get_mut(entry) {
            *place = length;
        }
    }

    fn digest(&self, list: Option<&[u32]>) -> u64 {
        digest(&self.lent.board, &self.lent.tables, list)
    }

    fn done_or_refused(&mut self, written: &str, call: impl FnOnce(&mut Lent) -> Result<(), Refusal>) -> String {
        let code = code_of(&call(&mut self.lent));
        format!("{written} {code} #{}\n", self.digest(None))
    }

    fn serve(&mut self) -> String {
        let answer = match self.lent.serve() {
            Ok(sent) => format!("{DONE} {} {} {} {}", sent.block, sent.record, sent.length, sent.clock),
            Err(refusal) => refusal.code().to_string(),
        };
        format!("serve {answer} #{}\n", self.digest(None))
    }

    fn burst(&mut self, budget: Bytes, room: usize) -> String {
        let mut list = vec![LIST_FILL; room];
        let burst = self.lent.burst(budget, &mut list);
        format!("burst {} {} {} #{}\n", burst.count, burst.bytes.0, burst.stopped_by.code(), self.digest(Some(&list)))
    }

    /// 0 not spoilt, 1 spoilt, 3 a table of wrong length.
    fn spoilt(&self) -> String {
        let answer = match self.lent.check() {
            Ok(()) => 0,
            Err(Refusal::Spoilt) => 1,
            Err(refusal) => refusal.code(),
        };
        format!("spoilt {answer} #{}\n", self.digest(None))
    }

    /// All that is not 0, as raw lines that can be read again.
    fn show(&self) -> String {
        let mut lines = String::new();
        self.lent.board.each_field(|written, index, value| {
            if value != 0 {
                lines.push_str(&raw_line(written, index, value));
            }
        });
        let (numbers, lengths) = (&self.lent.tables.numbers, &self.lent.tables.lengths);
        lines.push_str(&format!("tables {} {}\n", numbers.len(), lengths.len()));
        for entry in 0..numbers.len().max(lengths.len()) {
            let number = numbers.get(entry).copied().unwrap_or(0);
            let length = lengths.get(entry).copied().unwrap_or(0);
            if number != 0 || length != 0 {
                lines.push_str(&format!("entry {entry} {number} {length}\n"));
            }
        }
        lines + &format!("show #{}\n", self.digest(None))
    }
}

impl Default for Cases {
    fn default() -> Cases {
        Cases::new()
    }
}

/// A raw line that sets one field of the board.
pub fn raw_line(written: &str, index: Option<usize>, value: u64) -> String {
    match index {
        Some(index) => format!("{written} {index} {value}\n"),
        None => format!("{written} {value}\n"),
    }
}

fn set_field(board: &mut Board, word: Word, operands: &[u64]) {
    match (word, operands) {
        (Word::Largest, &[value]) => board.largest = value as u32,
        (Word::Clock, &[value]) => board.clock = value,
        (Word::Active, &[value]) => board.active = value as u32,
        (Word::Pending, &[value]) => board.pending = value as u32,
        (Word::Slot, &[value]) => board.slot = value as u8,
        (Word::Left, &[value]) => board.left = value,
        (Word::Number, &[place, value]) => board.numbers[place as usize] = value as u32,
        (Word::Share, &[place, value]) => board.shares[place as usize] = value as u32,
        (Word::Deficit, &[place, value]) => board.deficits[place as usize] = value,
        (Word::Start, &[place, value]) => board.starts[place as usize] = value as u16,
        (Word::Count, &[place, value]) => board.counts[place as usize] = value as u16,
        (Word::Ready, &[place, value]) => board.ready[place as usize] = value,
        (Word::Next, &[place, value]) => board.next[place as usize] = value as u8,
        (Word::Head, &[class, value]) => board.heads[class as usize] = value as u8,
        (Word::Tail, &[class, value]) => board.tails[class as usize] = value as u8,
        (Word::Held, &[class, value]) => board.held[class as usize] = value as u32,
        _ => unreachable!("{word:?} is not a field of the board"),
    }
}

fn step_of_rule(written: &str, operands: &[&str]) -> Result<Step, String> {
    let Some(rule) = rule_of(written) else {
        return Err(format!("{written} is not a word of the case text"));
    };
    if operands.len() != rule.operands.len() {
        return Err(format!("{written} takes {} numbers", rule.operands.len()));
    }
    let operands: Result<Vec<u64>, String> =
        operands.iter().zip(rule.operands).map(|(word, &largest)| number(word, largest)).collect();
    Ok(Step { word: rule.word, operands: operands? })
}

/// Head, tail and the links of the places, in this order. Places that are not named keep their links.
fn steps_of_order(class: &str, places: &[&str]) -> Result<Vec<Step>, String> {
    let class = number(class, CLASS)?;
    let places: Result<Vec<u64>, String> = places.iter().map(|word| number(word, PLACE)).collect();
    let links: Vec<u64> = places?.iter().map(|&place| u64::from(link_to(place as usize))).collect();
    let mut steps = vec![
        step(Word::Head, &[class, links.first().copied().unwrap_or(0)]),
        step(Word::Tail, &[class, links.last().copied().unwrap_or(0)]),
    ];
    for (index, link) in links.iter().enumerate() {
        let behind = links.get(index + 1).copied().unwrap_or(0);
        steps.push(step(Word::Next, &[link - 1, behind]));
    }
    Ok(steps)
}

/// The answers to a case file.
pub fn answers(text: &str) -> Result<String, String> {
    let mut answers = String::new();
    Cases::new().play(text, |_, answer| answers.extend(answer))?;
    Ok(answers)
}

/// The byte form of a case file.
pub fn byte_form(text: &str) -> Result<Vec<u8>, String> {
    let mut bytes = Vec::new();
    Cases::new().play(text, |step, _| bytes.extend(step.bytes()))?;
    Ok(bytes)
}
