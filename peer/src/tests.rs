//! A few cases counted by hand.

use crate::corpus::{digest, hex, unhex};
use crate::fault::{Fault, Stop};
use crate::lay::{self, Lay};
use crate::rings::{self, Finding};
use crate::script;
use crate::shapes::{Pairs, Plan, grid, line, ring, star};
use crate::table::road;

fn try_lay(n: usize, m: usize, cables: Pairs) -> Result<Lay, Fault> {
    lay::lay(&Plan { n, m, cables }.bytes())
}

fn laid(n: usize, m: usize, cables: Pairs) -> Lay {
    try_lay(n, m, cables).expect("accepted")
}

/// What is printed, and the fault's number and offset.
fn played(lay: &Lay, bytes: &[u8]) -> (String, Option<(u8, usize)>) {
    let mut out = Vec::new();
    let fault = match script::play(lay, bytes, &mut out) {
        Ok(()) => None,
        Err(Stop::Fault(fault)) => Some((fault.number, fault.offset)),
        Err(Stop::Output(error)) => panic!("{error}"),
    };
    (String::from_utf8(out).expect("text"), fault)
}

fn fault_of<T>(result: Result<T, Fault>) -> Option<(u8, usize)> {
    result.err().map(|fault| (fault.number, fault.offset))
}

#[test]
fn one_switch() {
    let lay = laid(1, 1, vec![]);
    assert_eq!(lay.waits.wait, [[1]]);
}

#[test]
fn two_switches() {
    let lay = laid(2, 2, vec![(0, 1)]);
    assert_eq!(lay.tree.root, 0);
    assert_eq!(lay.tree.up, [false, true]);
    assert_eq!(lay.waits.patience, [1, 1, 1, 1]);
    assert_eq!(lay.waits.wait[0][1], 3);
}

#[test]
fn star_of_four() {
    let lay = laid(4, 2, star(4));
    assert_eq!(lay.waits.patience, [3, 1, 3, 1, 3, 1, 3, 3, 3, 3]);
    assert_eq!(lay.waits.wait[1][2], 11);
}

#[test]
fn ring_of_four() {
    let lay = laid(4, 1, ring(4));
    assert_eq!(lay.tree.root, 0);
    assert_eq!(lay.tree.level, [0, 1, 2, 1]);
    assert_eq!(road(&lay.cables, &lay.table, 1, 3), [1, 7]);
}

#[test]
fn grid_of_eight() {
    let lay = laid(64, 2, grid(8, 8));
    assert_eq!(lay.tree.root, 27);
    assert_eq!(lay.waits.wait.iter().flatten().max(), Some(&154_818_404));
}

#[test]
fn long_lines() {
    assert!(try_lay(40, 1, line(40)).is_ok());
    for (n, m) in [(40, 2), (40, 32), (41, 1), (41, 2), (64, 1)] {
        assert_eq!(fault_of(try_lay(n, m, line(n))), Some((5, 5 + 2 * (n - 1))));
    }
}

#[test]
fn refused_cables() {
    let refused = |bytes: &[u8]| fault_of(lay::lay(bytes));
    assert_eq!(refused(&[]), Some((1, 0)));
    assert_eq!(refused(&[2, 0, 0, 0, 0]), Some((1, 0)));
    assert_eq!(refused(&[1, 65, 1, 0, 0]), Some((2, 0)));
    assert_eq!(refused(&[1, 2, 33, 0, 1, 0, 1]), Some((2, 0)));
    assert_eq!(refused(&[1, 2, 1, 0, 129]), Some((2, 0)));
    assert_eq!(refused(&[1, 2, 1, 0, 2, 0, 1, 2, 2]), Some((2, 7)));
    assert_eq!(refused(&[1, 2, 1, 0, 2, 0, 1, 1, 1]), Some((3, 7)));
    assert_eq!(refused(&[1, 2, 1, 0, 2, 0, 1, 1]), Some((1, 7)));
    assert_eq!(refused(&[1, 2, 1, 0, 0, 9]), Some((1, 5)));
    let apart = lay::lay(&[1, 4, 1, 0, 2, 0, 1, 3, 2]).expect_err("not joined");
    assert_eq!(
        apart.line(),
        "refused 4 at byte 9 of cables: switch 2 cannot be reached from switch 0"
    );
}

#[test]
fn a_short_run() {
    let lay = laid(2, 1, vec![(0, 1)]);
    let script = [
        2, 0, 1, 0, 0, 0, 0, 2, 0, 1, 0, 0, 0, 7, 5, 6, 5, 2, 0, 0, 0, 0, 0, 7,
    ];
    let shown = "show 1\nstore 0 free 0 turn 3 blocks 0:0:1\nstore 1 free 1 turn 0 blocks none\n\
                 door 0 waiting 1\ndoor 1 waiting 0\ncame 2 place 1 door 0 name 0\n";
    assert_eq!(played(&lay, &script), (shown.to_string(), Some((7, 17))));
}

#[test]
fn refused_things() {
    let lay = laid(2, 1, vec![(0, 1)]);
    let fault = |bytes: &[u8]| played(&lay, bytes).1;
    assert_eq!(fault(&[5, 1]), Some((1, 1)));
    assert_eq!(fault(&[2, 9, 0, 0, 0, 0]), Some((1, 0)));
    assert_eq!(fault(&[2, 2, 0, 0, 0, 0, 0]), Some((6, 0)));
    assert_eq!(fault(&[2, 0, 2, 0, 0, 0, 0]), Some((6, 0)));
    assert_eq!(fault(&[6, 3, 0, 0]), Some((9, 1)));
    assert_eq!(
        fault(&[2, 0, 0, 255, 255, 255, 255, 5, 2, 0, 0, 255, 255, 255, 255]),
        Some((7, 8))
    );
}

#[test]
fn full_door() {
    let lay = laid(1, 1, vec![]);
    let mut script = Vec::new();
    for name in 0..4097u32 {
        script.extend([2, 0, 0]);
        script.extend(name.to_be_bytes());
    }
    assert_eq!(played(&lay, &script).1, Some((8, 7 * 4096)));
    script.insert(7, 5);
    assert_eq!(played(&lay, &script).1, None);
}

#[test]
fn rings_and_ranks() {
    let find = |bytes: &[u8]| rings::find(&rings::read(bytes).expect("whole"));
    assert_eq!(find(&[4, 0, 0, 0]), Finding::Ranks(vec![]));
    assert_eq!(
        find(&[4, 0, 3, 1, 0, 0, 0, 1, 0, 2]),
        Finding::Ranks(vec![2, 1, 0])
    );
    assert_eq!(
        find(&[4, 0, 3, 1, 0, 2, 0, 3, 0, 1]),
        Finding::Ring(vec![0, 1, 2])
    );
    // 0 2 1 and 0 3 1 are as short; then one of two.
    let four = [4, 0, 4, 2, 0, 4, 0, 3, 0, 1, 0, 0, 0, 2, 0, 0, 0, 2, 0, 0];
    assert_eq!(find(&four), Finding::Ring(vec![0, 2, 1]));
    let two = [4, 0, 4, 2, 0, 4, 0, 3, 0, 1, 0, 3, 0, 2, 0, 0, 0, 2, 0, 0];
    assert_eq!(find(&two), Finding::Ring(vec![1, 2]));
    assert_eq!(fault_of(rings::read(&[4, 1, 65, 0])), Some((10, 0)));
    assert_eq!(fault_of(rings::read(&[4, 0, 1, 1, 0, 2])), Some((10, 4)));
    assert_eq!(fault_of(rings::read(&[4, 0, 1, 1, 0])), Some((1, 4)));
    assert_eq!(fault_of(rings::read(&[4, 0, 1, 1, 0, 1, 0])), Some((1, 6)));
}

#[test]
fn digests_and_hex() {
    assert_eq!(digest(b""), 0xcbf2_9ce4_8422_2325);
    assert_eq!(digest(b"a"), 0xaf63_dc4c_8601_ec8c);
    assert_eq!(hex(&[]), "-");
    assert_eq!(unhex(&hex(&[0, 171, 9])), Some(vec![0, 171, 9]));
    assert_eq!(unhex("abc"), None);
}
