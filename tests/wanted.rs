//! A sheet for a wanted answer: the vectors that solve the equations of milebadger_sheet_for are those that the claim describes. Every
//! claim of a few vectors, and random ones, where all vectors are tried; claims of up to 16 steps in 16 unknowns with moduli of up to 32
//! bits, also some of which the equations are known, because the claims are made from them; and every refusal alone and with others.
//! What is made is added to a sheet, by calls and by tape, and the claim is marked there. Which equations are made, is left free.
mod acts;
mod exercises;
mod face;
mod grammar;
mod ledger;
mod planted;
mod random;
mod reference;
mod sheet;
mod shown;
mod spelling;
mod tape;

use acts::{answer, entered, full_size_system, open, random_system, WIDE};
use exercises::{chance, pick, plus, right_claim};
use face::{silent, untouched, Reply, LONGEST_WORDS};
use ledger::{claim, equation, sheet_room, word, Reason, COEFFICIENT, ENTRY, HEAD, MINUS_RIGHT, OWN_MODULUS, RIGHT, TOP};
use planted::{any_divisor, any_vector, planted, times};
use random::Random;
use reference::{front, joined, written, System};
use sheet::{Act, Desk, Outcome};
use std::collections::{BTreeMap, BTreeSet};

/// A start and steps, or nothing for "no solution".
type Vectors = Vec<Vec<u32>>;

/// Equations that were made, and the words of each as they lie.
#[derive(Clone, Debug)]
struct Made {
    system: System,
    words: Vec<Vec<u32>>,
}

impl Made {
    /// The coefficients of each equation, behind zeros: as steps of a claim, they lead to all that follows from them.
    fn combinations(&self) -> Vectors {
        let n = self.system.n;
        let coefficients = self.system.equations.iter().map(|line| line.numbers[..n].iter().map(|&a| a as u32).collect());
        [vec![0; n]].into_iter().chain(coefficients).collect()
    }
}

/// The equations of a reply, or why it has none: "at most n equations", each of n words of kind 3 and one of kind 4 with residues, and a
/// word of kind 13 in front "only for numbers of 2^28 or more"; and "words past them keep their content".
fn read(m: u32, n: usize, reply: &Reply) -> Result<Made, String> {
    if !(0..=n as i64).contains(&reply.result) {
        return Err(format!("the result is {}", reply.result));
    }
    let (mut made, mut rest) = (Made { system: System::empty(m, n), words: vec![] }, &reply.memory[..]);
    for place in 1..=reply.result {
        let (own, behind) = rest.split_at(front(rest, n + 1));
        let numbers: Vec<i64> = joined(own).iter().map(|word| word.number as i64).collect();
        if numbers.len() != n + 1 || own != equation(&numbers) {
            return Err(format!("equation {place} has the words {own:x?}"));
        }
        if numbers.iter().any(|&number| number >= m as i64) {
            return Err(format!("equation {place} has the numbers {numbers:?}"));
        }
        made.system.add(m, numbers);
        made.words.push(own.to_vec());
        rest = behind;
    }
    if !untouched(reply.memory.len()).ends_with(rest) {
        return Err("something is written behind the equations".to_string());
    }
    Ok(made)
}

/// The same for a claim of these vectors, or why it is not so: the "solutions are the vectors that the claim describes, and 0 = 1 as the
/// single line where none is claimed". Where not all vectors can be tried, this is seen by plugging in.
fn right(m: u32, n: usize, vectors: &[Vec<u32>], reply: &Reply) -> Result<Made, String> {
    let made = read(m, n, reply)?;
    let good = if vectors.is_empty() {
        made.system == System::plain(m, n, vec![[vec![0; n], vec![1]].concat()])
    } else if ledger::can_try(m, n) {
        ledger::solutions(&made.system) == ledger::described(m, vectors)
    } else {
        matches!(shown::reason(&made.system, vectors), None | Some(Reason::Superfluous { .. }))
    };
    good.then_some(made.clone()).ok_or(format!("these have other solutions: {:?}", made.system.equations))
}

/// The mark of the claim on a sheet of m and n to which all that was made is added as it lies. On a tape it is the same.
fn marked(made: &Made, vectors: &[Vec<u32>]) -> Outcome {
    let (m, n, words) = (made.system.m, made.system.n as u32, claim(vectors));
    let mut desk = Desk::fresh();
    desk.act(&open(m, n)).unwrap();
    let mut lines = format!("open {m} {n}\n");
    for (own, held) in made.words.iter().zip(1..) {
        assert_eq!(desk.act(&Act::Add(own.clone())).unwrap().outcome, Outcome::Holds(held), "{own:x?} mod {m}");
        lines += &format!("added {held}\n");
    }
    let mark = desk.act(&Act::Mark(words.clone())).unwrap().outcome;
    lines += match mark {
        Outcome::Pass => "pass\n",
        Outcome::Long => "long\n",
        other => panic!("{other:?} for {vectors:?} about {:?}", made.system),
    };
    let tape = tape::bytes(&[ledger::opening(m, n), made.words.concat(), words].concat());
    let printed = face::tape(&tape, lines.len());
    assert_eq!((printed.result, &printed.memory[..]), (lines.len() as i64, lines.as_bytes()), "{vectors:?}: {:?}", made.system);
    mark
}

/// The equations that are made for a claim of these vectors, in a buffer that is just long enough or longer, are right.
fn wanted(m: u32, n: usize, vectors: &[Vec<u32>], more: usize, seed: u64) -> Made {
    let reply = face::sheet_for(m, n as u32, &claim(vectors), sheet_room(n) + more);
    right(m, n, vectors, &reply).unwrap_or_else(|why| panic!("{vectors:?} mod {m}: {why} (seed {seed})"))
}

/// They are right, and on a sheet with them the claim passes, or is long where a step is superfluous.
fn expect(m: u32, n: usize, vectors: &[Vec<u32>], seed: u64) -> (Made, Outcome) {
    let made = wanted(m, n, vectors, vectors.len() % 4, seed);
    let superfluous = match ledger::can_try(m, n) {
        true => ledger::superfluous(m, vectors),
        false => shown::superfluous(m, vectors),
    };
    let mark = marked(&made, vectors);
    let expected = if superfluous.is_some() { Outcome::Long } else { Outcome::Pass };
    assert_eq!(mark, expected, "{vectors:?} mod {m}: {:?} (seed {seed})", made.system);
    (made, mark)
}

/// Vectors as a table has them.
fn listed(vectors: &[&[u32]]) -> Vectors {
    vectors.iter().map(|v| v.to_vec()).collect()
}

/// A step for each unknown, which leads to all residues of it.
fn units(n: usize) -> Vectors {
    (0..n).map(|i| (0..n).map(|j| (i == j) as u32).collect()).collect()
}

/// The words of these equations, each of n coefficients and a right side.
fn equations<T: AsRef<[u32]>>(all: &[T]) -> Vec<u32> {
    let whole = |numbers: &T| numbers.as_ref().iter().map(|&x| x as i64).collect::<Vec<i64>>();
    all.iter().flat_map(|numbers| equation(&whole(numbers))).collect()
}

#[test]
fn the_values_of_the_request() {
    // mod 4, from 0 0, step 2 3: "a unit times x + 2y = 0"
    let (made, mark) = expect(4, 2, &listed(&[&[0, 0], &[2, 3]]), 0);
    assert_eq!(mark, Outcome::Pass);
    let ones = [equations(&[[1, 2, 0]]), equations(&[[3, 2, 0]])];
    assert!(made.words.len() == 1 && ones.contains(&made.words[0]), "{:x?}", made.words);
    // mod 6, from 1, step 2: 3x = 3, in the room of four words
    let reply = face::sheet_for(6, 1, &claim(&listed(&[&[1], &[2]])), 4);
    assert_eq!(reply, Reply { result: 1, memory: [&equations(&[[3, 3]])[..], &untouched(4)[2..]].concat() });
    // superfluous steps, and zeros, are no fault
    for steps in [&[&[2u32][..], &[4]][..], &[&[2], &[2]], &[&[0], &[2]], &[&[4], &[0], &[0], &[2]]] {
        let vectors = listed(&[&[&[1u32][..]], steps].concat());
        assert_eq!(face::sheet_for(6, 1, &claim(&vectors), 4), reply, "{vectors:?}");
        assert_eq!(expect(6, 1, &vectors, 0).1, Outcome::Long, "{vectors:?}");
    }
    for m in [2, 12, 1 << 28, u32::MAX] {
        for n in 1..=16 {
            // all unit steps, from anywhere: no equation
            let vectors = [vec![vec![m - 1; n]], units(n)].concat();
            let reply = face::sheet_for(m, n as u32, &claim(&vectors), sheet_room(n) + 3);
            assert_eq!(reply, silent(0, sheet_room(n) + 3), "{n} unknowns mod {m}");
            assert_eq!(marked(&read(m, n, &reply).unwrap(), &vectors), Outcome::Pass, "{n} unknowns mod {m}");
            // none is claimed: 0 = 1
            let (made, mark) = expect(m, n, &[], 0);
            let line = equations(&[[vec![0; n], vec![1]].concat()]);
            assert_eq!((made.words, mark), (vec![line], Outcome::Pass), "{n} unknowns mod {m}");
        }
    }
}

/// Each equation of the one list is a combination of the other's, so that what solves these solves it; both have this solution.
fn follows(known: &[Vec<u32>], made: &Made, solution: &[u32]) -> bool {
    let (m, n) = (made.system.m, made.system.n);
    let combinations = made.combinations();
    System::of(m, n, known).solved_by(solution)
        && made.system.solved_by(solution)
        && known.iter().all(|line| shown::describes(m, &combinations, &line[..n]))
}

#[test]
fn claims_whose_equations_were_worked_out_by_hand() {
    const P: u32 = 4_294_967_291;
    const M: u32 = u32::MAX;
    // m, the vectors, and equations with just these solutions
    let rows: [(u32, &[&[u32]], &[&[u32]]); 24] = [
        (12, &[&[2], &[3]], &[&[4, 8]]),
        (12, &[&[11]], &[&[1, 11]]),
        (12, &[&[7], &[4], &[6]], &[&[6, 6]]),
        (12, &[&[7], &[5]], &[]),
        (2, &[&[1]], &[&[1, 1]]),
        (12, &[&[1, 1], &[3, 2]], &[&[2, 3, 5]]),
        (12, &[&[4, 3], &[9, 6], &[0, 8]], &[&[2, 3, 5]]),
        (12, &[&[1, 2], &[4, 0], &[0, 3]], &[&[3, 0, 3], &[0, 4, 8]]),
        (12, &[&[1, 2, 2], &[6, 4, 3]], &[&[1, 0, 2, 5], &[0, 3, 0, 6], &[0, 0, 4, 8]]),
        (5, &[&[1, 0, 3], &[0, 1, 0]], &[&[1, 0, 0, 1], &[0, 0, 1, 3]]),
        (7, &[&[1, 2, 3], &[1, 1, 1]], &[&[1, 0, 6, 5], &[0, 1, 6, 6]]),
        (2, &[&[0, 1], &[1, 1]], &[&[1, 1, 1]]),
        (4, &[&[1, 1], &[2, 0], &[0, 2]], &[&[2, 0, 2], &[0, 2, 2]]),
        (8, &[&[5, 5], &[2, 4]], &[&[2, 3, 1], &[4, 0, 4]]),
        (9, &[&[0, 0], &[3, 6]], &[&[1, 1, 0], &[3, 0, 0]]),
        // no multiple of 2 1 is 2 0 mod 4, but mod 6 three times 2 1 is 0 3
        (4, &[&[0, 0], &[2, 1]], &[&[1, 2, 0]]),
        (6, &[&[0, 0], &[2, 1]], &[&[1, 4, 0]]),
        // 1,431,655,765 is a third of the largest modulus
        (M, &[&[2], &[1_431_655_765]], &[&[3, 6]]),
        (M, &[&[M - 1]], &[&[1, M - 1]]),
        (M, &[&[7], &[3]], &[&[1_431_655_765, 1_431_655_765]]),
        (P, &[&[0, 3_681_400_535], &[1, 2_882_838_452]], &[&[3_000_000_000, P - 7, 1]]),
        (P, &[&[881_061_504, 1_804_705_920]], &[&[1, 0, 881_061_504], &[0, 1, 1_804_705_920]]),
        (1 << 28, &[&[5, 0], &[1, 1 << 27]], &[&[1 << 27, 1, 1 << 27]]),
        (1 << 31, &[&[1 << 30], &[1 << 30]], &[&[2, 0]]),
    ];
    for (m, vectors, known) in rows {
        let (n, vectors, known) = (vectors[0].len(), listed(vectors), listed(known));
        let (made, _) = expect(m, n, &vectors, 0);
        assert!(follows(&known, &made, &vectors[0]), "{known:?} from {:?} mod {m}", made.system.equations);
        let by_hand = Made { system: System::of(m, n, &known), words: vec![] };
        let back: Vectors = made.system.lines().chunks(n + 1).map(|line| line.to_vec()).collect();
        assert!(follows(&back, &by_hand, &vectors[0]), "{back:?} from {known:?} mod {m}");
    }
}

/// A reply with this result, and with these words in front of what memory held.
fn wrote(n: usize, result: i64, words: &[u32]) -> Reply {
    let length = sheet_room(n).max(words.len()) + 2;
    Reply { result, memory: [words, &untouched(length)[words.len()..]].concat() }
}

#[test]
fn replies_made_by_hand_are_taken_where_they_are_right_and_no_others() {
    let made = |all: &[[u32; 3]]| wrote(2, all.len() as i64, &equations(all));
    // from 0 0, step 2 3 mod 4: also twice the equation, and 0 = 0
    let vectors = listed(&[&[0, 0], &[2, 3]]);
    for good in [&[[1, 2, 0]][..], &[[3, 2, 0]], &[[1, 2, 0], [2, 0, 0]], &[[0, 0, 0], [3, 2, 0]]] {
        assert!(right(4, 2, &vectors, &made(good)).is_ok(), "{good:?}");
    }
    for bad in [
        // none, one that lacks something, and one too many; another right side, other coefficients
        &[][..],
        &[[2, 0, 0]],
        &[[0, 0, 0]],
        &[[0, 0, 1]],
        &[[1, 2, 0], [0, 2, 0]],
        &[[1, 2, 0], [0, 0, 1]],
        &[[1, 2, 0], [2, 0, 0], [0, 0, 0]],
        &[[1, 2, 2]],
        &[[1, 2, 1]],
        &[[1, 0, 0]],
        &[[0, 1, 0]],
        &[[2, 1, 0]],
        &[[2, 3, 0]],
        &[[1, 1, 0]],
        // the equation, but with numbers that are no residues
        &[[5, 2, 0]],
        &[[1, 6, 0]],
        &[[1, 2, 4]],
        &[[1, 2, 268_435_456]],
    ] {
        assert!(right(4, 2, &vectors, &made(bad)).is_err(), "{bad:?}");
    }
    // the right words, with another result; not at the front; with more behind them
    let words = equations(&[[1, 2, 0]]);
    for result in [-8, -6, -1, 0, 2, 3, 4] {
        assert!(right(4, 2, &vectors, &wrote(2, result, &words)).is_err(), "the result {result}");
    }
    let zeros = equations(&[[0, 0, 0]]);
    for more in [[&untouched(1)[..], &words].concat(), [&words[..], &[0]].concat(), [&words[..], &zeros].concat()] {
        assert!(right(4, 2, &vectors, &wrote(2, 1, &more)).is_err(), "{more:x?}");
    }
    // and behind all that may be written
    let mut last = wrote(2, 1, &words);
    *last.memory.last_mut().unwrap() += 1;
    assert!(right(4, 2, &vectors, &last).is_err());
    // words of other kinds that say the same, words in another order, and one too few
    for bad in [
        [&[word(OWN_MODULUS, 4)][..], &words].concat(),
        vec![words[0], words[1], word(MINUS_RIGHT, 0)],
        vec![words[0], words[1], word(COEFFICIENT, 0)],
        vec![words[0], word(RIGHT, 2), words[2]],
        vec![word(ENTRY, 1), words[1], words[2]],
        vec![words[1], words[0], words[2]],
        vec![words[2], words[0], words[1]],
        vec![words[0], words[1]],
        // a word of kind 13 without top bits
        [&[word(TOP, 0)][..], &words].concat(),
        [&words[..2], &[word(TOP, 0), words[2]]].concat(),
    ] {
        assert!(right(4, 2, &vectors, &wrote(2, 1, &bad)).is_err(), "{bad:x?}");
    }
    // a right side of 0 where the start has another, and minus it
    let vectors = listed(&[&[1, 1], &[3, 2]]);
    for good in [&[[2, 3, 5]][..], &[[2, 9, 11]], &[[2, 3, 5], [0, 6, 6]]] {
        assert!(right(12, 2, &vectors, &made(good)).is_ok(), "{good:?}");
    }
    for bad in [&[[2, 3, 0]][..], &[[2, 3, 7]], &[[2, 3, 5], [0, 6, 0]], &[[0, 6, 6]], &[[2, 9, 5]], &[[3, 2, 5]]] {
        assert!(right(12, 2, &vectors, &made(bad)).is_err(), "{bad:?}");
    }
    // no solution: 0 = 1 and nothing else
    assert!(right(4, 2, &[], &made(&[[0, 0, 1]])).is_ok());
    for bad in [&[][..], &[[0, 0, 0]], &[[0, 0, 3]], &[[0, 0, 2]], &[[2, 0, 1]], &[[0, 0, 1], [0, 0, 0]]] {
        assert!(right(4, 2, &[], &made(bad)).is_err(), "{bad:?}");
    }
}

#[test]
fn replies_of_full_size_made_by_hand_are_taken_where_they_are_right_and_no_others() {
    // one equation, whose numbers have two words
    const P: u32 = 4_294_967_291;
    let vectors = listed(&[&[0, 3_681_400_535], &[1, 2_882_838_452]]);
    let made = |line: [u32; 3]| wrote(2, 1, &equations(&[line]));
    let line = [3_000_000_000, P - 7, 1];
    assert!(right(P, 2, &vectors, &made(line)).is_ok());
    for place in 0..3 {
        for other in [0, 7, 1 << 28, P - 1, P, u32::MAX] {
            let mut line = line;
            line[place] = other;
            assert!(right(P, 2, &vectors, &made(line)).is_err(), "{line:?}");
        }
    }
    assert!(right(P, 2, &vectors, &wrote(2, 0, &[])).is_err());
    // without the top bits, and with other ones
    let words = equations(&[line]);
    for bad in [
        vec![words[1], words[3], words[4]],
        [&[words[0] + 1], &words[1..]].concat(),
        [&words[..4], &[word(TOP, 0), words[4]]].concat(),
    ] {
        assert!(right(P, 2, &vectors, &wrote(2, 1, &bad)).is_err(), "{bad:x?}");
    }
    // 16 unknowns, each with its number
    let (m, start) = (u32::MAX, (0..16).map(|i| 4_000_000_000 + 1_000 * i).collect::<Vec<u32>>());
    let lines: Vectors = units(16).iter().zip(&start).map(|(unit, &x)| [&unit[..], &[x]].concat()).collect();
    let sheet = |lines: &[Vec<u32>]| wrote(16, lines.len() as i64, &equations(lines));
    let wanted = [start.clone()];
    assert!(right(m, 16, &wanted, &sheet(&lines)).is_ok());
    for i in 0..16 {
        assert!(right(m, 16, &wanted, &sheet(&reference::without(&lines, i))).is_err(), "without {i}");
        let with = |line: Vec<u32>| [&lines[..i], &[line], &lines[i + 1..]].concat();
        // twice the line has its solutions, and three times the line has others too
        assert!(right(m, 16, &wanted, &sheet(&with(times(m, 2, &lines[i])))).is_ok(), "twice {i}");
        assert!(right(m, 16, &wanted, &sheet(&with(times(m, 3, &lines[i])))).is_err(), "three times {i}");
        let mut other = lines[i].clone();
        other[16] -= 1;
        assert!(right(m, 16, &wanted, &sheet(&with(other))).is_err(), "another right side of {i}");
        // a step that leads from the start, and one that does not
        let step = [start.clone(), times(m, 3, &units(16)[i])];
        assert!(right(m, 16, &step, &sheet(&lines)).is_err(), "{i} of two");
        assert!(right(m, 16, &step, &sheet(&with(times(m, m / 3, &lines[i])))).is_ok(), "a third of {i}");
        assert!(right(m, 16, &step, &sheet(&with(times(m, m / 5, &lines[i])))).is_err(), "a fifth of {i}");
    }
}

/// All claims of at most so many vectors.
fn every_claim(m: u32, n: usize, most: usize) -> impl Iterator<Item = Vectors> {
    (0..=most)
        .flat_map(move |head| reference::vectors(m, head * n))
        .map(move |entries| entries.chunks(n).map(|v| v.to_vec()).collect())
}

/// How many of all vectors a claim describes.
fn extent(m: u32, n: usize, vectors: &[Vec<u32>]) -> &'static str {
    match ledger::described(m, vectors).len() {
        0 => "none",
        1 => "one",
        all if all == (m as usize).pow(n as u32) => "all",
        _ => "some",
    }
}

#[test]
fn every_claim_of_a_few_vectors() {
    let mut seen: BTreeMap<(usize, &str, bool), usize> = BTreeMap::new();
    let small = (2..=4).flat_map(|m| [(m, 1, 3), (m, 2, 3)]);
    let one = [(2, 5), (6, 4), (8, 4), (9, 3), (12, 3), (30, 2)].map(|(m, most)| (m, 1, most));
    let two = [(2, 5), (3, 4), (5, 2), (6, 2)].map(|(m, most)| (m, 2, most));
    let three = [(2, 4), (3, 3)].map(|(m, most)| (m, 3, most));
    for (m, n, most) in small.chain(one).chain(two).chain(three) {
        for vectors in every_claim(m, n, most) {
            let (_, mark) = expect(m, n, &vectors, 0);
            *seen.entry((n, extent(m, n, &vectors), mark == Outcome::Long)).or_insert(0) += 1;
        }
    }
    let few = (1..=2).flat_map(|n| ["one", "some", "all"].map(|extent| [(n, extent, false), (n, extent, true)]).concat());
    assert!(few.clone().all(|one| seen.get(&one).is_some_and(|&times| times > 50)), "{seen:?}");
}

/// A claim of so many vectors, of which steps may be zeros, there before, multiplied, or combinations of others; some share a divisor
/// with m.
fn any_wanted(random: &mut Random, m: u32, n: usize, head: usize) -> Vectors {
    let mut vectors: Vectors = vec![];
    let shared = [any_divisor(random, m), 1][chance(random, 3) as usize];
    let shared = if shared < m { shared } else { 1 };
    for place in 0..head {
        let earlier = if place > 1 { vectors[1 + random.below(place as u64 - 1) as usize].clone() } else { vec![0; n] };
        let any = any_vector(random, m, n);
        let step = match random.below(9) {
            0 => vec![0; n],
            1 => earlier,
            2 => times(m, random.below(m as u64) as u32, &earlier),
            3 => vectors.iter().skip(1).fold(vec![0; n], |sum, step| plus(m, &sum, random.below(m as u64), step)),
            4 => times(m, any_divisor(random, m), &any),
            // few entries other than 0
            5 => any.iter().map(|&x| if chance(random, 3) { x } else { 0 }).collect(),
            _ => times(m, shared, &any),
        };
        vectors.push(if place == 0 { any } else { step });
    }
    vectors
}

/// Head 0 and the largest as often as all others, and few vectors more often than many.
fn any_head(random: &mut Random) -> usize {
    let (few, any) = (random.below(4) as usize, random.below(18) as usize);
    pick(random, &[0, few, few + 1, few + 1, few + 2, any, any, 17])
}

#[test]
fn random_claims_where_all_vectors_are_tried() {
    let mut random = Random::new();
    let (mut heads, mut marks, mut extents) = (BTreeSet::new(), [0; 2], BTreeMap::new());
    for round in 0..10_000 {
        // m up to 12 in up to three unknowns; now and then others
        let (m, n) = match round % 4 {
            0 => exercises::small_shape(&mut random),
            _ => (2 + random.below(11) as u32, 1 + random.below(3) as u32),
        };
        // more vectors are tried for each step
        let large = (m as u64).pow(n) > 300;
        let head = if large { random.below(4) as usize } else { any_head(&mut random) };
        let vectors = any_wanted(&mut random, m, n as usize, head);
        let (_, mark) = expect(m, n as usize, &vectors, random.seed);
        heads.insert(head);
        marks[(mark == Outcome::Long) as usize] += 1;
        *extents.entry((n.min(3), extent(m, n as usize, &vectors))).or_insert(0) += 1;
    }
    assert!(heads.len() == 18 && marks.iter().all(|&times| times > 500), "{heads:?}, {marks:?} passed and long");
    assert!(extents.len() == 12 && extents.values().all(|&times| times > 100), "{extents:?}");
}

#[test]
fn the_longest_claims_where_all_vectors_are_tried() {
    let mut random = Random::new();
    for round in 0..200 {
        let (m, n) = pick(&mut random, &[(12, 3), (10, 3), (9, 3), (4, 4), (6, 4), (3, 6), (2, 11), (60, 2), (1_000, 1)]);
        let vectors = any_wanted(&mut random, m, n, if round % 2 == 0 { 17 } else { 5 });
        marked(&wanted(m, n, &vectors, 0, random.seed), &vectors);
    }
}

/// Moduli of all sizes: small, around 2^16 and 2^28, primes, with many divisors, and the largest.
fn any_modulus(random: &mut Random) -> u32 {
    let wide = pick(random, &WIDE);
    let any = (1 << 27) + random.below((1 << 32) - (1 << 27)) as u32;
    pick(random, &[2, 3, 4, 12, 60, 30_030, 32_768, 65_521, 65_535, wide, wide, wide, wide, wide, wide, any, any])
}

#[test]
fn random_claims_of_full_size() {
    let mut random = Random::new();
    let (mut marks, mut heads, mut tops, mut sixteen) = ([0; 2], BTreeSet::new(), 0, 0);
    for _ in 0..2_500 {
        let (m, n) = (any_modulus(&mut random), pick(&mut random, &[2, 3, 5, 8, 15, 16, 16, 16]));
        let head = any_head(&mut random);
        let vectors = any_wanted(&mut random, m, n, head);
        let (made, mark) = expect(m, n, &vectors, random.seed);
        marks[(mark == Outcome::Long) as usize] += 1;
        heads.insert(head);
        tops += made.words.iter().flatten().filter(|&&place| place >> 28 == TOP).count();
        sixteen += (n == 16 && head == 17) as usize;
    }
    assert!(marks.iter().all(|&times| times > 100) && heads.len() == 18, "{marks:?} passed and long, heads {heads:?}");
    assert!(tops > 1_000 && sixteen > 20, "{tops} numbers of two words, {sixteen} claims of full size");
}

#[test]
fn claims_of_full_size_that_are_made_from_their_equations() {
    let mut random = Random::new();
    let (mut known, mut sixteen) = (0, 0);
    for round in 0..2_000 {
        let (m, n) = (any_modulus(&mut random), pick(&mut random, &[1, 2, 5, 8, 15, 16, 16, 16]));
        // a step for each divisor above 1, and for m one that leads everywhere
        let least = if round % 4 == 0 { exercises::divisor(&mut random, m) } else { 1 };
        let divisors: Vec<u32> = (0..n).map(|_| least * any_divisor(&mut random, m / least)).collect();
        let (system, solved) = planted(&mut random, m, &divisors, true);
        let vectors = if round % 3 == 0 { ledger::vectors_of(&solved) } else { right_claim(&mut random, m, &solved) };
        let (made, _) = expect(m, n, &vectors, random.seed);
        let lines: Vectors = system.lines().chunks(n + 1).map(|line| line.to_vec()).collect();
        assert!(follows(&lines, &made, &vectors[0]), "{vectors:?}: {lines:?} from {:?} (seed {})", made.system, random.seed);
        known += lines.len();
        sixteen += (vectors.len() == 17 && n == 16) as usize;
    }
    assert!(known > 2_000 && sixteen > 20, "{known} equations, {sixteen} claims of full size");
}

#[test]
fn an_answer_as_a_claim_gives_a_sheet_with_that_answer() {
    let mut random = Random::new();
    let (mut solvable, mut none) = (0, 0);
    for round in 0..4_000 {
        let system = match round % 2 {
            0 => random_system(&mut random),
            _ => full_size_system(&mut random, round % 4 == 1),
        };
        let (m, n) = (system.m, system.n);
        let mut desk = entered(&system);
        desk.act(&answer(LONGEST_WORDS)).unwrap();
        let block = desk.block().to_vec();
        // "as a claim, take the head alone"
        let wanted = if block[0] == word(HEAD, 0) { &block[..1] } else { &block[..] };
        let reply = face::sheet_for(m, n as u32, wanted, sheet_room(n));
        let made = read(m, n, &reply).unwrap_or_else(|why| panic!("{block:x?} mod {m}: {why} (seed {})", random.seed));
        let mut again = entered(&made.system);
        again.act(&answer(LONGEST_WORDS)).unwrap();
        let same = if wanted.len() > 1 { again.block() == block } else { again.block()[0] == word(HEAD, 0) };
        assert!(same, "{:x?} in place of {block:x?}, {system:?} (seed {})", again.block(), random.seed);
        *(if wanted.len() > 1 { &mut solvable } else { &mut none }) += 1;
    }
    assert!(solvable > 500 && none > 200, "{solvable} with solutions, {none} without");
}

/// Moduli around 2^28: which numbers take two words is decided by these alone.
const AROUND: [u32; 6] = [2, (1 << 28) - 1, 1 << 28, (1 << 28) + 1, (1 << 28) + 2, u32::MAX];

#[test]
fn numbers_of_every_length_are_written_as_they_should_be() {
    for x in random::boundaries() {
        for m in [x.max(1).saturating_add(1), u32::MAX].into_iter().filter(|&m| x < m) {
            // x1 = x: some unit times it
            let (made, _) = expect(m, 1, &[vec![x]], 0);
            let [a, b] = made.system.equations[0].numbers[..] else { panic!("{made:?}") };
            assert_eq!(made.words, [[written(COEFFICIENT, a as u32), written(RIGHT, b as u32)].concat()], "{x} mod {m}");
            expect(m, 2, &[vec![x, m - 1], vec![m - 1, x]], 0);
        }
    }
}

#[test]
fn a_buffer_is_asked_for_whatever_is_written() {
    for n in 1..=16 {
        let room = sheet_room(n);
        for m in AROUND {
            let claims = [
                vec![],
                vec![vec![0; n]],
                vec![vec![m - 1; n]],
                vec![vec![m - 1; n], vec![0; n]],
                [vec![vec![0; n]], units(n)].concat(),
                [vec![vec![1; n]], vec![vec![m - 1; n]; 16]].concat(),
            ];
            for vectors in claims {
                let words = claim(&vectors);
                for len in [0, 1, n + 1, room / 2, room - 1] {
                    assert_eq!(face::sheet_for(m, n as u32, &words, len), silent(-8, len), "{n} unknowns mod {m}, {vectors:?}");
                }
                for more in [0, 1, 2, room] {
                    wanted(m, n, &vectors, more, 0);
                }
            }
        }
    }
}

#[test]
fn nothing_is_read_or_written_beside_what_is_lent() {
    let mut random = Random::new();
    for n in 1..=16 {
        for (m, head) in AROUND.into_iter().flat_map(|m| [0, 1, 2, 17].map(|head| (m, head))) {
            let vectors = any_wanted(&mut random, m, n, head);
            let words = claim(&vectors).into_boxed_slice();
            let reply = face::sheet_for(m, n as u32, &words, sheet_room(n));
            let made = read(m, n, &reply).unwrap_or_else(|why| panic!("{vectors:?} mod {m}: {why} (seed {})", random.seed));
            let length = made.words.concat().len();
            // whatever the buffer holds
            for old in [0, u32::MAX] {
                let mut out = vec![old; sheet_room(n)].into_boxed_slice();
                assert_eq!(face::sheet_for_bare(m, n as u32, &words, &mut out), reply.result);
                assert_eq!((&out[..length], &out[length..]), (&reply.memory[..length], &vec![old; out.len() - length][..]));
            }
            // a claim that breaks off, one whose last word is of kind 13 with nothing behind it, and none at all
            let mut out = vec![7; sheet_room(n)].into_boxed_slice();
            for count in 1..joined(&words).len().min(4) {
                let cut = words[..front(&words, count)].to_vec().into_boxed_slice();
                assert_eq!(face::sheet_for_bare(m, n as u32, &cut, &mut out), -1, "{cut:x?}");
            }
            let top = [&words[..words.len() - 1], &[word(TOP, 1)]].concat().into_boxed_slice();
            assert_eq!(face::sheet_for_bare(m, n as u32, &top, &mut out), -17, "{top:x?}");
            assert_eq!(face::sheet_for_bare(m, n as u32, &words[..0], &mut out), -1);
            // no buffer, and one that is too short
            assert_eq!(face::sheet_for_bare(m, n as u32, &words, &mut out[..0]), -8);
            assert_eq!(face::sheet_for_bare(m, n as u32, &words, &mut out[1..]), -8);
            assert_eq!(out[..], vec![7; sheet_room(n)]);
        }
    }
}

#[test]
fn every_question_refuses_with_its_number() {
    let vectors = listed(&[&[1, 2, 0], &[3, 4, 1]]);
    let good = claim(&vectors);
    let call = |m: u32, n: u32, words: &[u32]| face::sheet_for(m, n, words, 24);
    assert!(right(5, 3, &vectors, &call(5, 3, &good)).is_ok());
    for m in [0, 1] {
        assert_eq!(call(m, 3, &claim(&[])), silent(-2, 24));
    }
    for m in [2, 65_535, 65_536, 1 << 28, 1 << 31, u32::MAX] {
        assert_eq!(call(m, 3, &claim(&[])).result, 1, "mod {m}");
    }
    // twice n times n + 1 is 0 or small in 32 bits for some of these
    for n in [0, 17, 18, 32, 257, 65_535, 65_536, 65_537, 1 << 28, 1 << 31, u32::MAX - 1, u32::MAX] {
        for len in [0, 24, 1_000] {
            assert_eq!(face::sheet_for(5, n, &claim(&[]), len), silent(-3, len), "{n} unknowns");
        }
    }
    // a word of kind 13 that is none: with 0 or above 15 in whatever place; or the last one; or before one of another kind
    for place in 0..good.len() {
        for number in [0, 16, 17, 1 << 27, (1 << 28) - 1] {
            let inside = [&good[..place], &[word(TOP, number)], &good[place + 1..]].concat();
            let before = [&good[..place], &[word(TOP, number)], &good[place..]].concat();
            assert_eq!(call(5, 3, &inside), silent(-17, 24), "{inside:x?}");
            assert_eq!(call(5, 3, &before), silent(-17, 24), "{before:x?}");
        }
        for kind in 0..16 {
            let words = [&good[..place], &[word(TOP, 1), word(kind, 0)], &good[place + 1..]].concat();
            // a good one makes an entry larger, or is a word of another kind
            let number = match kind {
                ENTRY if place > 0 => -6,
                1 | 3 | 4 | 6 | 7 | 10 | 11 | 12 => -1,
                _ => -17,
            };
            assert_eq!(call(5, 3, &words), silent(number, 24), "{words:x?}");
        }
        for kind in (0..16).filter(|&kind| kind != good[place] >> 28 && kind != TOP) {
            let words = [&good[..place], &[word(kind, 1)], &good[place + 1..]].concat();
            assert_eq!(call(5, 3, &words), silent(-1, 24), "{words:x?}");
        }
        let fewer = [&good[..place], &good[place + 1..]].concat();
        assert_eq!(call(5, 3, &fewer), silent(-1, 24), "{fewer:x?}");
        assert_eq!(call(5, 3, &good[..place]), silent(-1, 24), "{place} words");
    }
    assert_eq!(call(5, 3, &[&good[..], &[word(TOP, 1)]].concat()), silent(-17, 24));
    // a word too many, and other heads
    assert_eq!(call(5, 3, &[&good[..], &[word(ENTRY, 0)]].concat()), silent(-1, 24));
    assert_eq!(call(5, 3, &[claim(&[]), claim(&[])].concat()), silent(-1, 24));
    for head in [0, 1, 3, 16, 17, 18, 65_538, 1 << 27, (1 << 28) - 1] {
        assert_eq!(call(5, 3, &[&[word(HEAD, head)], &good[1..]].concat()), silent(-1, 24), "head {head}");
    }
    for head in [17, 18, 19] {
        let words = claim(&vec![vec![0; 3]; head]);
        assert_eq!(call(5, 3, &words).result, if head == 17 { 3 } else { -1 }, "head {head}");
    }
    // a vector of another number of unknowns
    assert_eq!(face::sheet_for(5, 2, &good, 24), silent(-1, 24));
    assert_eq!(face::sheet_for(5, 6, &good, 84), silent(-1, 84));
    for (vector, entry) in (0..2).flat_map(|vector| (0..3).map(move |entry| (vector, entry))) {
        for number in [5, 6, 65_541, (1 << 28) - 1, 1 << 28, (1 << 28) + 4, u32::MAX] {
            let mut other = vectors.clone();
            other[vector][entry] = number;
            assert_eq!(call(5, 3, &claim(&other)), silent(-6, 24), "{other:?}");
            // and it is below one more
            if number < u32::MAX {
                let reply = call(number + 1, 3, &claim(&other));
                assert!(right(number + 1, 3, &other, &reply).is_ok(), "{other:?}: {reply:x?}");
            }
        }
    }
    for len in 0..24 {
        assert_eq!(face::sheet_for(5, 3, &good, len), silent(-8, len));
    }
}

/// The questions in their order.
const QUESTIONS: [u32; 6] = [2, 3, 17, 1, 6, 8];

/// Arguments that just these questions turn away: m, n, the words of a claim, and the length of the buffer.
fn faulty(random: &mut Random, faults: &[u32]) -> (u32, u32, Vec<u32>, usize) {
    let (m, n) = (any_modulus(random), 1 + random.below(16) as usize);
    let head = 1 + random.below(17) as usize;
    let mut vectors = any_wanted(random, m, n, head);
    let place = random.below((head * n) as u64) as usize;
    if faults.contains(&6) {
        vectors[place / n][place % n] = pick(random, &[m, m.saturating_add(1), m.saturating_add(1 << 28), u32::MAX]);
    }
    // the places of each word, of which the first is the head
    let mut words: Vec<Vec<u32>> =
        [vec![word(HEAD, head as u32)]].into_iter().chain(vectors.iter().flatten().map(|&x| written(ENTRY, x))).collect();
    if faults.contains(&1) {
        // the entry that is not below m stays, and is not the last one left
        let other = 1 + (place + 1) % (head * n);
        match random.below(5) {
            0 => words.push(written(ENTRY, 0)),
            1 => words[0] = vec![word(HEAD, pick(random, &[18, 19, 65_536, (1 << 28) - 1]))],
            2 => words[0] = vec![word(pick(random, &[0, 1, 2, 3, 4, 6, 7, 8, 9, 10, 11, 12, 14, 15]), head as u32)],
            3 if head * n > 1 => words[other] = vec![word(pick(random, &[0, 1, 2, 3, 4, 5, 7, 8, 9, 10, 11, 12, 14, 15]), 0)],
            4 if head * n > 1 => drop(words.remove(other)),
            _ => words[0] = vec![word(HEAD, 0)],
        }
    }
    if faults.contains(&17) {
        let place = random.below(words.len() as u64 + 1) as usize;
        match random.below(3) {
            0 => words.insert(place, vec![exercises::bad_top(random)]),
            1 => words.push(vec![exercises::top(random)]),
            _ => words.insert(place, vec![exercises::top(random), exercises::bad_top(random)]),
        }
    }
    let room = sheet_room(n);
    let short = pick(random, &[0, 1, room / 2, room - 1]);
    let long = room + pick(random, &[0, 0, 1, 40]);
    let (bad_m, bad_n) = (pick(random, &[0, 1]), pick(random, &[0, 17, 18, 65_536, 1 << 31, u32::MAX]));
    (
        if faults.contains(&2) { bad_m } else { m },
        if faults.contains(&3) { bad_n } else { n as u32 },
        words.concat(),
        if faults.contains(&8) { short } else { long },
    )
}

#[test]
fn the_first_of_several_questions_refuses() {
    let mut random = Random::new();
    // every question alone, every pair, and all other sets of them
    for set in 0..1 << QUESTIONS.len() {
        let faults: Vec<u32> = (0..QUESTIONS.len()).filter(|i| set >> i & 1 == 1).map(|i| QUESTIONS[i]).collect();
        for _ in 0..300 {
            let (m, n, words, len) = faulty(&mut random, &faults);
            let first = faults.first().copied();
            assert_eq!(ledger::sheet_for_refusal(m, n, &words, len), first, "{words:x?}, {n} mod {m} (seed {})", random.seed);
            let reply = face::sheet_for(m, n, &words, len);
            match first {
                Some(number) => {
                    let expected = silent(-(number as i64), len);
                    assert_eq!(reply, expected, "{faults:?}: {words:x?}, {n} mod {m} (seed {})", random.seed);
                }
                None => assert!(read(m, n as usize, &reply).is_ok(), "{words:x?}, {n} mod {m} (seed {})", random.seed),
            }
        }
    }
}

#[test]
fn any_arguments_get_an_answer() {
    let mut random = Random::new();
    let mut refused: BTreeMap<Option<u32>, usize> = BTreeMap::new();
    for _ in 0..40_000 {
        let (m, n) = exercises::small_shape(&mut random);
        let head = if chance(&mut random, 4) { any_head(&mut random) } else { random.below(4) as usize };
        let mut words = claim(&any_wanted(&mut random, m, n as usize, head));
        if chance(&mut random, 2) {
            words = exercises::spoiled(&mut random, words, m);
        }
        let (any_m, any_n) = (random.any_length(), random.any_length());
        let (m, n) = (pick(&mut random, &[m, m, m, m, m, m, m, any_m]), pick(&mut random, &[n, n, n, n, n, n, n, any_n]));
        let room = sheet_room(n.min(40) as usize);
        let (less, more) = (random.below(room as u64 + 1) as usize, random.below(9) as usize);
        let len = pick(&mut random, &[room, room, room + more, less]);
        let reply = face::sheet_for(m, n, &words, len);
        let first = ledger::sheet_for_refusal(m, n, &words, len);
        match first {
            Some(number) => assert_eq!(reply, silent(-(number as i64), len), "{words:x?}, {n} mod {m} (seed {})", random.seed),
            None => {
                let vectors = ledger::vectors_in(n as usize, &words);
                let found = right(m, n as usize, &vectors, &reply);
                assert!(found.is_ok(), "{found:?} for {vectors:?}, {n} mod {m} (seed {})", random.seed);
            }
        }
        *refused.entry(first).or_insert(0) += 1;
    }
    assert!(refused.len() == 7 && refused.values().all(|&times| times > 50), "{refused:?}");
}
