//! Input files for benchmark jobs.

use crate::lay;
use crate::rng::Rng;
use crate::round::{Block, Fabric};
use crate::scripts::Writer;
use crate::shapes::{Plan, grid, joined, star};
use crate::tables;

/// Blocks that wait at each door before each round: more than can leave a door
/// of the grid in one round (one handed over, and one over each of 4 links).
const KEPT: usize = 16;

pub fn grid_cables(m: usize) -> Vec<u8> {
    Plan {
        n: 64,
        m,
        cables: grid(8, 8),
    }
    .bytes()
}

pub fn star_cables(m: usize) -> Vec<u8> {
    Plan {
        n: 64,
        m,
        cables: star(64),
    }
    .bytes()
}

/// 64 switches and 128 cables; the first from this seed that is accepted.
pub fn random_cables(m: usize, seed: u64) -> Vec<u8> {
    let mut rng = Rng::new(seed);
    loop {
        let bytes = Plan {
            n: 64,
            m,
            cables: joined(&mut rng, 64, 128),
        }
        .bytes();
        if lay::lay(&bytes).is_ok() {
            return bytes;
        }
    }
}

/// Rounds on the grid with no door ever empty; plays along to know how many
/// blocks have left each door.
pub fn saturated_script(m: usize, rounds: usize, seed: u64) -> Vec<u8> {
    let laid = lay::lay(&grid_cables(m)).expect("the grid is accepted");
    let mut rng = Rng::new(seed);
    let mut fabric = Fabric::new(&laid);
    let mut w = Writer::new(64);
    for _ in 0..rounds {
        for door in 0..64 {
            for _ in fabric.waiting(door)..KEPT {
                let place = rng.below(64);
                w.block(door, place);
                fabric.let_in(Block {
                    door,
                    place,
                    name: 0,
                });
            }
        }
        w.round();
        fabric.play();
    }
    w.bytes
}

pub fn ringless_table(seed: u64) -> Vec<u8> {
    tables::acyclic(&mut Rng::new(seed), 320, 64).bytes()
}

/// The only ring has 256 members.
pub fn long_ring_table(seed: u64) -> Vec<u8> {
    tables::long_ring(&mut Rng::new(seed), 320, 64, 256).bytes()
}

/// Cables of one switch, a script of nothing, a table of nothing.
pub fn smallest() -> [Vec<u8>; 3] {
    [vec![1, 1, 1, 0, 0], Vec::new(), vec![4, 0, 0, 0]]
}
