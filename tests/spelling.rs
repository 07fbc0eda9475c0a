//! Random trees, and texts that mean them: with spaces, with brackets that are needed and some that are not, and with zeros in front.
#![allow(dead_code)]

use crate::exercises::{chance, pick};
use crate::grammar::{Part, Tree, Typed};
use crate::random::Random;
use std::rc::Rc;

/// Up to 99,999, and as often small as large.
fn number(random: &mut Random) -> u32 {
    let most = pick(random, &[1, 2, 10, 100, 1_000, 100_000]);
    random.below(most) as u32
}

/// A tree with so many numbers and unknowns, of which it has x1 to xn, or none for n = 0. It is linear, unless it may be bent.
pub fn tree(random: &mut Random, leaves: usize, n: usize, bent: bool) -> Rc<Tree> {
    if chance(random, 6) {
        return Rc::new(Tree::Minus(tree(random, leaves, n, bent)));
    }
    if leaves == 1 {
        let unknown = n > 0 && !chance(random, 3);
        return Rc::new(if unknown { Tree::Unknown(1 + random.below(n as u64) as usize) } else { Tree::Number(number(random)) });
    }
    // just one side of a product has unknowns, unless it may be bent
    let (first, sign, plain) = (1 + random.below(leaves as u64 - 1) as usize, random.below(3), random.below(2));
    let unknowns = |side: u64| if sign == 0 && !bent && side == plain { 0 } else { n };
    let left = tree(random, first, unknowns(0), bent);
    let right = tree(random, leaves - first, unknowns(1), bent);
    Rc::new(match sign {
        0 => Tree::Product(left, right),
        1 => Tree::Sum(left, right),
        _ => Tree::Difference(left, right),
    })
}

/// Two trees with at most so many numbers and unknowns each.
pub fn typed(random: &mut Random, most: usize, n: usize, bent: bool) -> Typed {
    let leaves = [1 + random.below(most as u64) as usize, 1 + random.below(most as u64) as usize];
    Typed { left: tree(random, leaves[0], n, bent), right: tree(random, leaves[1], n, bent) }
}

/// The parts of a text that stands for this tree in a place where such a part is asked for.
fn parts(random: &mut Random, tree: &Tree, place: Part) -> Vec<String> {
    let own = match tree {
        Tree::Sum(_, _) | Tree::Difference(_, _) => Part::Expression,
        Tree::Product(_, _) => Part::Term,
        Tree::Number(_) | Tree::Unknown(_) | Tree::Minus(_) => Part::Factor,
    };
    let sign = |sign: &str| vec![sign.to_string()];
    if own < place || chance(random, 8) {
        return [sign("("), parts(random, tree, Part::Expression), sign(")")].concat();
    }
    match tree {
        Tree::Number(number) => {
            let digits = if chance(random, 4) { 1 + random.below(5) as usize } else { 1 };
            vec![format!("{number:0digits$}")]
        }
        Tree::Unknown(j) => vec![format!("x{j}")],
        Tree::Minus(tree) => [sign("-"), parts(random, tree, Part::Factor)].concat(),
        Tree::Sum(left, right) => [parts(random, left, Part::Expression), sign("+"), parts(random, right, Part::Term)].concat(),
        Tree::Difference(left, right) => {
            [parts(random, left, Part::Expression), sign("-"), parts(random, right, Part::Term)].concat()
        }
        Tree::Product(left, right) => [parts(random, left, Part::Term), sign("*"), parts(random, right, Part::Factor)].concat(),
    }
}

/// A text that says this. It may be too long.
pub fn spelled(random: &mut Random, typed: &Typed) -> Vec<u8> {
    let left = parts(random, &typed.left, Part::Expression);
    let right = parts(random, &typed.right, Part::Expression);
    let most = pick(random, &[0, 0, 1, 1, 3]);
    let mut text = String::new();
    for part in [left, vec!["=".to_string()], right, vec![String::new()]].concat() {
        text += &" ".repeat(random.below(most + 1) as usize);
        text += &part;
    }
    text.into_bytes()
}

/// The bytes of which texts are made.
pub const ALPHABET: &[u8] = b"x0123456789=+-*() ";

/// A byte of a text in most cases, or any.
fn byte(random: &mut Random) -> u8 {
    if chance(random, 8) {
        random.bits() as u8
    } else {
        pick(random, ALPHABET)
    }
}

/// A text with one byte deleted, inserted or replaced, or two neighbours or any two swapped.
pub fn one_off(random: &mut Random, text: &[u8]) -> Vec<u8> {
    let (count, mut text) = (text.len(), text.to_vec());
    let [place, other] = [random.below(count as u64) as usize, random.below(count as u64) as usize];
    let another = byte(random);
    match random.below(5) {
        0 => drop(text.remove(place)),
        1 => text.insert(place, another),
        2 => text[place] = another,
        3 => text.swap(place, (place + 1) % count),
        _ => text.swap(place, other),
    }
    text
}

/// A text for a sheet with n unknowns, accepted in most cases; in the others it may have unknowns beyond n, not be linear, or both,
/// or it is one byte off, or nothing but bytes.
pub fn text(random: &mut Random, n: usize) -> Vec<u8> {
    let choice = random.below(12);
    let (beyond, bent) = ([0, 1].contains(&choice), [1, 2].contains(&choice));
    let typed = typed(random, 4, if beyond { 16 } else { n }, bent);
    let text = spelled(random, &typed);
    match choice {
        3 => one_off(random, &text),
        4 => (0..random.below(9)).map(|_| byte(random)).collect(),
        _ => text,
    }
}
