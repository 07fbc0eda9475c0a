//! Typed equations once more in plain Rust: a text is a tree, and which one is found by cutting the text in every way there is. It is
//! slow, and shares no code with the product.
#![allow(dead_code)]

use std::collections::{BTreeSet, HashMap};
use std::rc::Rc;

/// "At most 256 bytes."
pub const LONGEST_TEXT: usize = 256;

/// "Unknowns are x1 to x16."
const NAMES: [&str; 16] = ["x1", "x2", "x3", "x4", "x5", "x6", "x7", "x8", "x9", "x10", "x11", "x12", "x13", "x14", "x15", "x16"];

/// An expression without its brackets, spaces and zeros in front.
#[derive(Debug, PartialEq)]
pub enum Tree {
    Number(u32),
    /// x1 is 1.
    Unknown(usize),
    Minus(Rc<Tree>),
    Sum(Rc<Tree>, Rc<Tree>),
    Difference(Rc<Tree>, Rc<Tree>),
    Product(Rc<Tree>, Rc<Tree>),
}

impl Tree {
    /// Those that stand in it.
    pub fn unknowns(&self) -> BTreeSet<usize> {
        match self {
            Tree::Number(_) => BTreeSet::new(),
            Tree::Unknown(j) => BTreeSet::from([*j]),
            Tree::Minus(tree) => tree.unknowns(),
            Tree::Sum(left, right) | Tree::Difference(left, right) | Tree::Product(left, right) => {
                left.unknowns().union(&right.unknowns()).copied().collect()
            }
        }
    }

    /// "A product with an unknown on both sides isn't linear, even if a coefficient becomes 0."
    pub fn linear(&self) -> bool {
        match self {
            Tree::Number(_) | Tree::Unknown(_) => true,
            Tree::Minus(tree) => tree.linear(),
            Tree::Sum(left, right) | Tree::Difference(left, right) => left.linear() && right.linear(),
            Tree::Product(left, right) => {
                let one_side = left.unknowns().is_empty() || right.unknowns().is_empty();
                one_side && left.linear() && right.linear()
            }
        }
    }

    /// Its value mod m where the unknowns have these values.
    pub fn value(&self, m: u32, vector: &[u32]) -> i64 {
        let of = |tree: &Tree| tree.value(m, vector) as i128;
        let whole: i128 = match self {
            Tree::Number(number) => *number as i128,
            Tree::Unknown(j) => vector[j - 1] as i128,
            Tree::Minus(tree) => -of(tree),
            Tree::Sum(left, right) => of(left) + of(right),
            Tree::Difference(left, right) => of(left) - of(right),
            Tree::Product(left, right) => of(left) * of(right),
        };
        whole.rem_euclid(m as i128) as i64
    }
}

/// "One equals sign, with an expression on each side."
#[derive(Clone, Debug, PartialEq)]
pub struct Typed {
    pub left: Rc<Tree>,
    pub right: Rc<Tree>,
}

impl Typed {
    pub fn unknowns(&self) -> BTreeSet<usize> {
        self.left.unknowns().union(&self.right.unknowns()).copied().collect()
    }

    pub fn linear(&self) -> bool {
        self.left.linear() && self.right.linear()
    }

    /// What the left side is more than the right side, mod m.
    fn difference(&self, m: u32, vector: &[u32]) -> i64 {
        (self.left.value(m, vector) - self.right.value(m, vector)).rem_euclid(m as i64)
    }

    /// Both sides have the same value mod m.
    pub fn holds(&self, m: u32, vector: &[u32]) -> bool {
        self.difference(m, vector) == 0
    }

    /// "The unknowns' coefficients, brought to the left, and the plain numbers, brought to the right, all mod m": where all unknowns
    /// are 0 just the plain numbers are left, and where one of them is 1, its coefficient besides. For linear texts.
    pub fn numbers(&self, m: u32, n: usize) -> Vec<u32> {
        let plain = self.difference(m, &vec![0; n]);
        let unit = |place: usize| (0..n).map(|j| (j == place) as u32).collect::<Vec<u32>>();
        let coefficients = (0..n).map(|place| self.difference(m, &unit(place)) - plain);
        coefficients.chain([-plain]).map(|number| number.rem_euclid(m as i64) as u32).collect()
    }
}

/// What a stretch of a text may be; each one is also all that stand before it.
#[derive(Clone, Copy, Debug, Eq, Hash, PartialEq, PartialOrd)]
pub enum Part {
    Expression,
    Term,
    Factor,
}

/// A text, and the trees of those stretches that were looked at.
struct Cuts<'a> {
    text: &'a [u8],
    known: HashMap<(Part, usize, usize), Vec<Rc<Tree>>>,
}

impl Cuts<'_> {
    /// All trees that the bytes from start up to end have as such a part, without the spaces at both ends.
    fn trees(&mut self, part: Part, mut start: usize, mut end: usize) -> Vec<Rc<Tree>> {
        while start < end && self.text[start] == 0x20 {
            start += 1;
        }
        while start < end && self.text[end - 1] == 0x20 {
            end -= 1;
        }
        if let Some(trees) = self.known.get(&(part, start, end)) {
            return trees.clone();
        }
        let trees = match part {
            Part::Expression => self.joined(b"+-", Part::Expression, Part::Term, start, end),
            Part::Term => self.joined(b"*", Part::Term, Part::Factor, start, end),
            Part::Factor => self.factors(start, end),
        };
        self.known.insert((part, start, end), trees.clone());
        trees
    }

    /// The second part alone, or one of these signs between the first and the second, wherever it stands.
    fn joined(&mut self, signs: &[u8], first: Part, second: Part, start: usize, end: usize) -> Vec<Rc<Tree>> {
        let mut all = self.trees(second, start, end);
        for place in (start..end).filter(|&place| signs.contains(&self.text[place])).collect::<Vec<usize>>() {
            for left in self.trees(first, start, place) {
                for right in self.trees(second, place + 1, end) {
                    all.push(Rc::new(match self.text[place] {
                        b'+' => Tree::Sum(left.clone(), right),
                        b'-' => Tree::Difference(left.clone(), right),
                        _ => Tree::Product(left.clone(), right),
                    }));
                }
            }
        }
        all
    }

    fn factors(&mut self, start: usize, end: usize) -> Vec<Rc<Tree>> {
        let bytes = &self.text[start..end];
        let mut all = vec![];
        if (1..=5).contains(&bytes.len()) && bytes.iter().all(u8::is_ascii_digit) {
            all.push(Rc::new(Tree::Number(std::str::from_utf8(bytes).unwrap().parse().unwrap())));
        }
        if let Some(place) = NAMES.iter().position(|name| name.as_bytes() == bytes) {
            all.push(Rc::new(Tree::Unknown(place + 1)));
        }
        if let [b'(', .., b')'] = bytes {
            all.extend(self.trees(Part::Expression, start + 1, end - 1));
        }
        if let [b'-', ..] = bytes {
            all.extend(self.trees(Part::Factor, start + 1, end).into_iter().map(|tree| Rc::new(Tree::Minus(tree))));
        }
        all
    }
}

/// What the text says, where it is in the grammar and not too long. No text says two things.
pub fn read(text: &[u8]) -> Option<Typed> {
    if text.len() > LONGEST_TEXT {
        return None;
    }
    let mut cuts = Cuts { text, known: HashMap::new() };
    let mut all = vec![];
    for place in (0..text.len()).filter(|&place| text[place] == b'=') {
        for left in cuts.trees(Part::Expression, 0, place) {
            for right in cuts.trees(Part::Expression, place + 1, text.len()) {
                all.push(Typed { left: left.clone(), right });
            }
        }
    }
    assert!(all.len() <= 1, "{} can be read in {} ways", text.escape_ascii(), all.len());
    all.pop()
}

/// Texts on a sheet mod m with n unknowns, and the coefficients and the right side that they add, worked out by hand.
pub const ADDED: [(u32, usize, &str, &[i64]); 14] = [
    (12, 3, "3*(x1 - 2*x2) + x3 = 5 - x1", &[4, 6, 1, 5]),
    (7, 3, "3*(x1 - 2*x2) + x3 = 5 - x1", &[4, 1, 1, 5]),
    (5, 1, "2*-x1 = --3", &[3, 3]),
    (7, 1, "99999=0", &[0, 3]),
    (7, 1, "x1*2*3=1-(x1)", &[0, 1]),
    (7, 1, "x1=x1", &[0, 0]),
    (7, 1, "00001=1", &[0, 0]),
    (9, 1, "--3=0", &[0, 6]),
    (9, 1, "- x1=0", &[8, 0]),
    (9, 1, "1--2=0", &[0, 6]),
    (9, 1, "(x1)*2=0", &[2, 0]),
    (9, 1, "10-4-3=x1", &[8, 6]),
    (9, 2, "1-x1-x2-2*3+4=x2*5", &[8, 3, 1]),
    (65_535, 16, "x16=99999*x10", &[0, 0, 0, 0, 0, 0, 0, 0, 0, 31_071, 0, 0, 0, 0, 0, 1, 0]),
];

/// Texts that no opened sheet takes.
pub const OUTSIDE: [&str; 38] = [
    "", " ", "=", "1", "x1", "1=", "=1", "1=1=1", "1==1", "+1=1", "1=+1", "1-=1", "1+-=1", "1*=1", "*1=1", "1**1=1", "2x1=1",
    "x1 2=1", "2(x1)=1", "(x1)2=1", "(1)(1)=1", "x 1=0", "1 2=3", "x=0", "x0=0", "x17=0", "x01=0", "x100=0", "X1=0", "000001=1",
    "100000=1", "\t1=1", "1\t=1", "1=1\n", "()=0", "(1=1", "1)=1", "(1=1)",
];

/// Texts that a sheet with 3 unknowns refuses with this number, also where it is full.
pub const REFUSED: [(u32, &str); 10] = [
    (12, "x16=0"),
    (12, "x9*x9=0"),
    (12, "0*x4=0"),
    (12, "x1*x2=x4"),
    (12, "x1*(x4-x4)=0"),
    (13, "(x1-x1)*x2=0"),
    (13, "0*x1*x2=0"),
    (13, "x1*(x2-x2)=0"),
    (13, "0=x3*2*x3"),
    (13, "1=-(x1*-(x2))"),
];
