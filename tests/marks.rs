//! Claims that are marked on a sheet: right in every form, changed, short of a step, and of a sheet without solution. Which right
//! claims are long, is in a file of its own.
mod acts;
mod exercises;
mod face;
mod grammar;
mod ledger;
mod random;
mod reference;
mod sheet;
mod shown;
mod spelling;

use acts::{add, answer, answered, entering, expect, full_size_system, last, mark, open, outcomes};
use acts::{random_solvable, random_unsolvable, Tally};
use face::LONGEST_WORDS;
use random::Random;
use reference::{Answer, System};
use sheet::{Act, Outcome};

#[test]
fn claims_that_are_right_in_another_form_pass_or_are_long() {
    let mut random = Random::new();
    let (mut longest, mut passed, mut long) = (0, 0, 0);
    for _ in 0..2_000 {
        let (system, answer) = random_solvable(&mut random);
        let claim = exercises::right_claim(&mut random, system.m, &answer);
        longest = longest.max(claim.len());
        match last(&[entering(&system), vec![mark(&claim)]].concat()) {
            Outcome::Pass => passed += 1,
            Outcome::Long => long += 1,
            other => panic!("{system:?}: {claim:?}: {other:?} (seed {})", random.seed),
        }
    }
    assert!(longest > 8 && passed > 500 && long > 500, "{passed} passed, {long} long, up to {longest} vectors");
}

#[test]
fn a_claim_may_have_steps_of_zeros_up_to_head_17_and_is_then_long() {
    let mut random = Random::new();
    for _ in 0..100 {
        let (system, answer) = random_solvable(&mut random);
        let mut claim = ledger::vectors_of(&answer);
        claim.resize(17, vec![0; system.n]);
        let mut longer = claim.clone();
        longer.push(vec![0; system.n]);
        let acts = [entering(&system), vec![mark(&claim), mark(&longer)]].concat();
        let found = outcomes(&acts);
        assert_eq!(found[found.len() - 2..], [Outcome::Long, Outcome::Refused(1)], "{system:?} (seed {})", random.seed);
    }
}

#[test]
fn a_claim_that_is_one_step_short_fails_unless_the_others_lead_there() {
    let mut random = Random::new();
    let (mut right, mut failed) = (0, 0);
    while failed < 500 {
        let (system, answer) = random_solvable(&mut random);
        for place in 0..answer.steps.len() {
            let mut claim = ledger::vectors_of(&answer);
            claim.remove(1 + place);
            match last(&[entering(&system), vec![mark(&claim)]].concat()) {
                Outcome::Pass | Outcome::Long => right += 1,
                outcome => {
                    assert_eq!(outcome, Outcome::Fail, "{system:?}: {claim:?} (seed {})", random.seed);
                    failed += 1;
                }
            }
        }
    }
    assert!(right > 0, "{right} right, {failed} failed");
    // twice 2 1 is 0 2, while 0 2 leads to nothing with a 2 in front
    let acts = [open(4, 2), add(&[1, 2, 0])];
    let marks = [mark(&[vec![0, 0], vec![2, 1]]), mark(&[vec![0, 0], vec![0, 2]])];
    assert_eq!(outcomes(&[&acts[..], &marks].concat())[2..], [Outcome::Pass, Outcome::Fail]);
}

#[test]
fn claims_changed_in_one_place_are_marked_by_what_they_then_describe() {
    let mut random = Random::new();
    let (mut passed, mut long, mut failed) = (0, 0, 0);
    for _ in 0..2_000 {
        let (system, answer) = random_solvable(&mut random);
        let right = exercises::right_claim(&mut random, system.m, &answer);
        let claim = exercises::changed_claim(&mut random, system.m, &right);
        match last(&[entering(&system), vec![mark(&claim)]].concat()) {
            Outcome::Pass => passed += 1,
            Outcome::Long => long += 1,
            Outcome::Fail => failed += 1,
            other => panic!("{system:?}: {claim:?}: {other:?} (seed {})", random.seed),
        }
    }
    assert!(passed > 100 && long > 100 && failed > 100, "{passed} passed, {long} long, {failed} failed");
}

#[test]
fn without_solution_head_0_alone_passes() {
    let mut random = Random::new();
    for _ in 0..200 {
        let system = random_unsolvable(&mut random);
        let other = loop {
            let claim = exercises::any_claim(&mut random, system.m, system.n);
            if !claim.is_empty() {
                break claim;
            }
        };
        let found = outcomes(&[entering(&system), vec![mark(&[]), mark(&other)]].concat());
        let expected = [Outcome::Pass, Outcome::Fail];
        assert_eq!(found[found.len() - 2..], expected, "{system:?}: {other:?} (seed {})", random.seed);
    }
    let (system, _) = random_solvable(&mut random);
    assert_eq!(last(&[entering(&system), vec![mark(&[])]].concat()), Outcome::Fail, "{system:?}");
}

#[test]
fn the_block_that_an_answer_wrote_passes_or_is_long_where_there_is_a_solution() {
    let mut random = Random::new();
    let (mut passed, mut long) = (0, 0);
    for _ in 0..1_500 {
        let (system, found) = random_solvable(&mut random);
        let length = 1 + (1 + found.steps.len()) * system.n;
        for extra in [0, 1, 5] {
            let acts = [entering(&system), vec![answer(length + extra), Act::MarkBlock]].concat();
            // as trying every combination of its steps says
            let superfluous = ledger::superfluous(system.m, &ledger::vectors_of(&found)).is_some();
            let marked = if superfluous { Outcome::Long } else { Outcome::Pass };
            let outcomes = outcomes(&acts);
            let expected = [Outcome::Wrote(length), marked];
            assert_eq!(outcomes[outcomes.len() - 2..], expected, "{system:?} (seed {})", random.seed);
            *(if superfluous { &mut long } else { &mut passed }) += 1;
        }
    }
    assert!(passed > 1_000 && long > 30, "{passed} passed, {long} long");
}

#[test]
fn the_block_of_a_sheet_without_solution_is_no_claim() {
    let mut random = Random::new();
    for _ in 0..200 {
        let system = random_unsolvable(&mut random);
        let length = 1 + system.equations.len();
        let outcomes = outcomes(&[entering(&system), vec![answer(length), Act::MarkBlock, mark(&[])]].concat());
        let expected = [Outcome::Wrote(length), Outcome::Refused(1), Outcome::Pass];
        assert_eq!(outcomes[outcomes.len() - 3..], expected, "{system:?} (seed {})", random.seed);
    }
}

/// The answer that a sheet with these equations writes.
fn answer_of(system: &System, seed: u64) -> Answer {
    let replies = expect(&[entering(system), vec![answer(LONGEST_WORDS)]].concat(), seed, &mut Tally::new());
    let block = answered(replies.last().unwrap());
    let mut vectors = block[1..].chunks(system.n).map(|v| v.to_vec());
    Answer { start: vectors.next().unwrap(), steps: vectors.collect() }
}

#[test]
fn full_size_claims_are_right_in_another_form_and_fail_where_they_miss_something() {
    let mut random = Random::new();
    let (mut elsewhere, mut short, mut passed, mut long) = (0, 0, 0, 0);
    for _ in 0..150 {
        let (system, seed) = (full_size_system(&mut random, true), random.seed);
        let found = answer_of(&system, seed);
        let marked = |claim: &[Vec<u32>]| last(&[entering(&system), vec![mark(claim)]].concat());
        let right = exercises::right_claim(&mut random, system.m, &found);
        match marked(&right) {
            Outcome::Pass => passed += 1,
            Outcome::Long => long += 1,
            other => panic!("{system:?}: {right:?}: {other:?} (seed {seed})"),
        }
        let mut claim = right.clone();
        claim[0][system.n - 1] = random.below(system.m as u64) as u32;
        if !system.solved_by(&claim[0]) {
            assert_eq!(marked(&claim), Outcome::Fail, "{system:?}: {claim:?} (seed {seed})");
            elsewhere += 1;
        }
        // where m is prime, no step follows from the others
        if [2, 3, 65_521, 65_537, 4_294_967_291].contains(&system.m) && !found.steps.is_empty() {
            let mut claim = ledger::vectors_of(&found);
            claim.remove(1 + found.steps.len() / 2);
            assert_eq!(marked(&claim), Outcome::Fail, "{system:?}: {claim:?} (seed {seed})");
            short += 1;
        }
    }
    assert!(elsewhere > 50 && short > 20, "{elsewhere} with another start, {short} a step short");
    assert!(passed > 20 && long > 20, "{passed} passed, {long} long");
}
