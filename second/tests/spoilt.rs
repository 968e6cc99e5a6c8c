//! Every clause of 'spoilt': boards that break just that clause, and their neighbours on the allowed side.

use second::calls::Lent;
use second::case_text::Cases;
use second::codes::Refusal;
use second::engine::Record;
use second::maker::boards::trials;
use second::numbers::Bytes;
use second::spoilt::{broken_clauses, Clause};

const ALL_CLAUSES: [Clause; 15] = [
    Clause::Spelling,
    Clause::Largest,
    Clause::Clock,
    Clause::Numbers,
    Clause::Shares,
    Clause::StartAndCount,
    Clause::Lengths,
    Clause::Deficits,
    Clause::NotInUse,
    Clause::TotalShare,
    Clause::HeldShares,
    Clause::Orders,
    Clause::ReadyTimes,
    Clause::Slot,
    Clause::ClassSets,
];

fn board_of(lines: &str) -> Lent {
    let mut cases = Cases::new();
    cases.play(&format!("case board\n{lines}"), |_, _| ()).unwrap();
    cases.lent
}

#[test]
fn each_board_breaks_just_the_clauses_it_is_made_for() {
    for trial in trials() {
        let lent = board_of(&trial.lines);
        assert_eq!(broken_clauses(&lent.board, &lent.tables), trial.broken, "{:?}:\n{}", trial.clause, trial.lines);
    }
}

#[test]
fn each_clause_has_boards_on_both_sides() {
    let trials = trials();
    assert!(trials.len() >= 60);
    for clause in ALL_CLAUSES {
        let of_clause = || trials.iter().filter(|trial| trial.clause == clause);
        assert!(of_clause().any(|trial| trial.broken == [clause]), "{clause:?} is never broken alone");
        assert!(of_clause().any(|trial| trial.broken.is_empty()), "{clause:?} has no neighbour");
    }
}

#[test]
fn a_board_that_breaks_two_clauses_tells_both_in_order() {
    let lent = board_of("largest 63\nclock 4611686018427387905\nactive 1\n");
    assert_eq!(broken_clauses(&lent.board, &lent.tables), [Clause::Largest, Clause::Clock, Clause::ClassSets]);
}

#[test]
fn the_board_of_all_zeros_is_spoilt_by_its_l_alone() {
    let lent = Lent::all_zeros();
    assert_eq!(broken_clauses(&lent.board, &lent.tables), [Clause::Largest]);
}

#[test]
fn every_call_but_making_is_refused_on_every_spoilt_board_and_leaves_it() {
    for trial in trials().iter().filter(|trial| !trial.broken.is_empty()) {
        let before = board_of(&trial.lines);
        let mut lent = before.clone();
        let mut list = [7; 4];
        assert_eq!(lent.open(1, 1), Err(Refusal::Spoilt));
        assert_eq!(lent.rename(1, 2), Err(Refusal::Spoilt));
        assert_eq!(lent.close(1), Err(Refusal::Spoilt));
        assert_eq!(lent.record(11, Record { number: 1, length: 1 }), Err(Refusal::Spoilt));
        assert_eq!(lent.serve(), Err(Refusal::Spoilt));
        let burst = lent.burst(Bytes(1_000), &mut list);
        assert_eq!((burst.count, burst.bytes.0, burst.stopped_by), (0, 0, Refusal::Spoilt));
        assert_eq!((lent, list), (before, [7; 4]), "{}", trial.lines);
    }
}

#[test]
fn no_call_spoils_an_allowed_board() {
    for trial in trials().iter().filter(|trial| trial.broken.is_empty()) {
        let mut lent = board_of(&trial.lines);
        for number in 1..200 {
            let sent = lent.serve();
            assert_ne!(sent, Err(Refusal::Spoilt), "{}", trial.lines);
            if number % 3 == 0 {
                assert_ne!(lent.record(11, Record { number, length: 60 }), Err(Refusal::Spoilt), "{}", trial.lines);
            }
        }
        assert_eq!(lent.check(), Ok(()), "{}", trial.lines);
    }
}
