//! Cables files of many shapes.

use crate::rng::Rng;

pub type Pairs = Vec<(usize, usize)>;

/// Whether a case is to be stored in a corpus or may be of any size.
#[derive(Debug, Clone, Copy, PartialEq)]
pub enum Size {
    Small,
    Full,
}

#[derive(Debug, Clone)]
pub struct Plan {
    pub n: usize,
    pub m: usize,
    pub cables: Pairs,
}

impl Plan {
    pub fn bytes(&self) -> Vec<u8> {
        let count = self.cables.len() as u16;
        let mut bytes = vec![1, self.n as u8, self.m as u8];
        bytes.extend(count.to_be_bytes());
        for &(a, b) in &self.cables {
            bytes.extend([a as u8, b as u8]);
        }
        bytes
    }
}

pub fn star(n: usize) -> Pairs {
    (1..n).map(|s| (s, 0)).collect()
}

pub fn line(n: usize) -> Pairs {
    (1..n).map(|s| (s - 1, s)).collect()
}

pub fn ring(n: usize) -> Pairs {
    (0..n).map(|s| (s, (s + 1) % n)).collect()
}

/// Numbered row by row; the cables of rows first, then of columns.
pub fn grid(rows: usize, columns: usize) -> Pairs {
    let at = |row: usize, column: usize| row * columns + column;
    let along = (0..rows).flat_map(|r| (1..columns).map(move |c| (at(r, c - 1), at(r, c))));
    let down = (0..columns).flat_map(|c| (1..rows).map(move |r| (at(r - 1, c), at(r, c))));
    along.chain(down).collect()
}

/// A grid whose rows and columns close to rings (at least 3 by 3).
fn torus(rows: usize, columns: usize) -> Pairs {
    let at = |row: usize, column: usize| row % rows * columns + column % columns;
    let cells = (0..rows).flat_map(|r| (0..columns).map(move |c| (r, c)));
    cells
        .flat_map(|(r, c)| [(at(r, c), at(r, c + 1)), (at(r, c), at(r + 1, c))])
        .collect()
}

fn tree(rng: &mut Rng, n: usize) -> Pairs {
    (1..n).map(|s| (rng.below(s), s)).collect()
}

fn complete(n: usize) -> Pairs {
    (0..n)
        .flat_map(|a| (a + 1..n).map(move |b| (a, b)))
        .collect()
}

/// Two stars at the ends of a line.
fn dumbbell(n: usize) -> Pairs {
    let line = n / 3 + 1;
    (1..n)
        .map(|s| {
            if s < line {
                (s - 1, s)
            } else {
                (if s % 2 == 0 { 0 } else { line - 1 }, s)
            }
        })
        .collect()
}

/// Cables between any two different switches.
fn any_cables(rng: &mut Rng, n: usize, count: usize) -> Pairs {
    let one = |rng: &mut Rng| {
        let a = rng.below(n);
        (a, (a + 1 + rng.below(n - 1)) % n)
    };
    (0..count).map(|_| one(rng)).collect()
}

/// A tree and further cables, some beside others.
pub fn joined(rng: &mut Rng, n: usize, count: usize) -> Pairs {
    let mut pairs = tree(rng, n);
    while pairs.len() < count {
        let pair = if rng.one_in(4) {
            rng.pick(&pairs)
        } else {
            any_cables(rng, n, 1)[0]
        };
        pairs.push(pair);
    }
    pairs
}

pub fn plan(rng: &mut Rng, size: Size) -> Plan {
    let (n, mut cables) = match size {
        Size::Small => small_shape(rng),
        Size::Full => full_shape(rng),
    };
    let m = store(rng);
    if rng.one_in(2) {
        renumber(rng, n, &mut cables);
    }
    if rng.one_in(24) {
        spoil(rng, n, &mut cables);
    }
    Plan { n, m, cables }
}

/// A line about the length at which waits become too long.
pub fn long_line(rng: &mut Rng) -> Plan {
    let n = rng.between(36, 42);
    let mut cables = line(n);
    if rng.one_in(4) {
        renumber(rng, n, &mut cables);
    }
    Plan {
        n,
        m: rng.pick(&[1, 1, 2, 3, 16, 32]),
        cables,
    }
}

fn store(rng: &mut Rng) -> usize {
    match rng.below(16) {
        0 => rng.pick(&[0, 33, 255]),
        1 => 32,
        2..=4 => rng.between(1, 32),
        _ => rng.between(1, 4),
    }
}

fn full_shape(rng: &mut Rng) -> (usize, Pairs) {
    let n = if rng.one_in(8) {
        64
    } else {
        rng.between(2, 64)
    };
    match rng.below(16) {
        0 => (n, star(n)),
        1 => {
            let n = rng.between(2, 30);
            (n, line(n))
        }
        2 => {
            let n = n.max(3);
            (n, ring(n))
        }
        3 => (n, tree(rng, n)),
        4 => {
            let (rows, columns) = (rng.between(2, 8), rng.between(2, 8));
            (rows * columns, grid(rows, columns))
        }
        5 => {
            let (rows, columns) = (rng.between(3, 8), rng.between(3, 8));
            (rows * columns, torus(rows, columns))
        }
        6 => (1, Vec::new()),
        7 => {
            let count = rng.between(63, 128);
            (64, joined(rng, 64, count))
        }
        8 => apart(rng, n),
        9 => {
            let n = rng.between(2, 16);
            (n, complete(n))
        }
        10 => {
            let (n, count) = (rng.between(2, 5), rng.between(4, 128));
            (n, joined(rng, n, count))
        }
        11 => {
            let count = rng.pick(&[127, 128, 128, 129, 130, 300]);
            (n, joined(rng, n, count))
        }
        12 => (n, dumbbell(n)),
        13 => {
            let n = rng.between(2, 9);
            let count = rng.between(n, 3 * n);
            (n, joined(rng, n, count))
        }
        _ => {
            let count = rng.between(n, (2 * n + 4).min(128));
            (n, joined(rng, n, count))
        }
    }
}

fn small_shape(rng: &mut Rng) -> (usize, Pairs) {
    let n = rng.between(2, 9);
    match rng.below(12) {
        0 => (n, star(n)),
        1 => (n, line(n)),
        2 => {
            let n = n.max(3);
            (n, ring(n))
        }
        3 => (n, tree(rng, n)),
        4 => {
            let (rows, columns) = (rng.between(2, 3), rng.between(2, 4));
            (rows * columns, grid(rows, columns))
        }
        5 => (1, Vec::new()),
        6 => apart(rng, n),
        7 => {
            let n = rng.between(2, 5);
            (n, complete(n))
        }
        8 => {
            let (n, count) = (rng.between(2, 4), rng.between(4, 12));
            (n, joined(rng, n, count))
        }
        9 => (n, dumbbell(n)),
        _ => {
            let count = rng.between(n, (2 * n).min(17));
            (n, joined(rng, n, count))
        }
    }
}

/// Mostly not all joined.
fn apart(rng: &mut Rng, n: usize) -> (usize, Pairs) {
    if rng.one_in(4) {
        return (n, Vec::new());
    }
    if rng.one_in(2) {
        let count = rng.below(n);
        return (n, any_cables(rng, n, count));
    }
    let mut cables = tree(rng, n);
    cables.remove(rng.below(n - 1));
    (n, cables)
}

/// Other numbers for the switches, other order and ends of the cables.
fn renumber(rng: &mut Rng, n: usize, cables: &mut Pairs) {
    let number = rng.order(n);
    for pair in cables.iter_mut() {
        *pair = (number[pair.0], number[pair.1]);
        if rng.one_in(2) {
            *pair = (pair.1, pair.0);
        }
    }
    rng.shuffle(cables);
}

/// One cable that is not allowed.
fn spoil(rng: &mut Rng, n: usize, cables: &mut Pairs) {
    let bad = match rng.below(4) {
        0 => (rng.below(n), n),
        1 => (n, rng.below(n)),
        2 => (n, n),
        _ => {
            let s = rng.below(n);
            (s, s)
        }
    };
    cables.insert(rng.below(cables.len() + 1), bad);
}
