//! Foreign tables: the smallest ring, or ranks.

use crate::fault::Fault;
use std::collections::{BTreeSet, VecDeque};
use std::io::{self, Write};

pub const MOST_CHANNELS: usize = 320;
pub const MOST_PLACES: usize = 64;
const HEAD: usize = 4;

/// To which channels each channel hands blocks, rising.
pub type Hands = Vec<BTreeSet<usize>>;

#[derive(Debug, PartialEq)]
pub enum Finding {
    Ring(Vec<usize>),
    Ranks(Vec<usize>),
}

fn fault(number: u8, offset: usize, cause: &str) -> Fault {
    Fault::new("table", number, offset, cause)
}

pub fn read(bytes: &[u8]) -> Result<Hands, Fault> {
    let (channels, places) = read_head(bytes)?;
    let mut hands = vec![BTreeSet::new(); channels];
    let mut offset = HEAD;
    for given in &mut hands {
        for _ in 0..places {
            if let Some(next) = read_entry(bytes, offset, channels)? {
                given.insert(next);
            }
            offset += 2;
        }
    }
    if bytes.len() > offset {
        return Err(fault(1, offset, "a byte after the last entry"));
    }
    Ok(hands)
}

fn read_head(bytes: &[u8]) -> Result<(usize, usize), Fault> {
    if bytes.len() < HEAD {
        return Err(fault(1, 0, "the head is cut"));
    }
    if bytes[0] != 4 {
        return Err(fault(1, 0, "not a foreign table"));
    }
    let channels = usize::from(u16::from_be_bytes([bytes[1], bytes[2]]));
    let places = usize::from(bytes[3]);
    if channels > MOST_CHANNELS {
        return Err(fault(10, 0, "more than 320 channels"));
    }
    if places > MOST_PLACES {
        return Err(fault(10, 0, "more than 64 places"));
    }
    Ok((channels, places))
}

/// None for here.
fn read_entry(bytes: &[u8], offset: usize, channels: usize) -> Result<Option<usize>, Fault> {
    let Some(&[high, low]) = bytes.get(offset..offset + 2) else {
        return Err(fault(1, offset, "an entry is cut or missing"));
    };
    let value = usize::from(u16::from_be_bytes([high, low]));
    if value > channels {
        return Err(fault(10, offset, "a channel that isn't there"));
    }
    Ok(value.checked_sub(1))
}

pub fn find(hands: &Hands) -> Finding {
    match smallest_ring(hands) {
        Some(ring) => Finding::Ring(ring),
        None => Finding::Ranks(ranks(hands)),
    }
}

/// For each lowest member, rising, the first of the shortest rings; of these
/// the first that is shorter than all before it.
fn smallest_ring(hands: &Hands) -> Option<Vec<usize>> {
    let mut best: Option<Vec<usize>> = None;
    for lowest in 0..hands.len() {
        if let Some(ring) = ring_from(hands, lowest)
            && best.as_ref().is_none_or(|b| ring.len() < b.len())
        {
            best = Some(ring);
        }
    }
    best
}

/// The first in order of the shortest rings with this lowest member.
fn ring_from(hands: &Hands, lowest: usize) -> Option<Vec<usize>> {
    let back = steps_back(hands, lowest);
    let steps = |c: usize| if c >= lowest { back[c] } else { None };
    let mut left = hands[lowest].iter().filter_map(|&c| steps(c)).min()?;
    let mut ring = vec![lowest];
    let mut at = lowest;
    // Each member is the lowest from which the way back is as short as can be.
    loop {
        at = *hands[at]
            .iter()
            .find(|&&c| steps(c) == Some(left))
            .expect("a way back goes on");
        if left == 0 {
            return Some(ring);
        }
        ring.push(at);
        left -= 1;
    }
}

/// Steps from each channel to `lowest`, over channels not below it.
fn steps_back(hands: &Hands, lowest: usize) -> Vec<Option<usize>> {
    let mut givers = vec![Vec::new(); hands.len()];
    for (c, given) in hands.iter().enumerate().skip(lowest) {
        for &next in given.range(lowest..) {
            givers[next].push(c);
        }
    }
    let mut steps = vec![None; hands.len()];
    let mut open = VecDeque::from([(lowest, 0)]);
    steps[lowest] = Some(0);
    while let Some((c, far)) = open.pop_front() {
        for &giver in &givers[c] {
            if steps[giver].is_none() {
                steps[giver] = Some(far + 1);
                open.push_back((giver, far + 1));
            }
        }
    }
    steps
}

/// By recursion to those that hand blocks to a channel, which ends without a ring.
fn ranks(hands: &Hands) -> Vec<usize> {
    let mut known = vec![None; hands.len()];
    (0..hands.len())
        .map(|c| rank(hands, &mut known, c))
        .collect()
}

fn rank(hands: &Hands, known: &mut Vec<Option<usize>>, channel: usize) -> usize {
    if let Some(rank) = known[channel] {
        return rank;
    }
    let mut highest = 0;
    for giver in 0..hands.len() {
        if hands[giver].contains(&channel) {
            highest = highest.max(1 + rank(hands, known, giver));
        }
    }
    known[channel] = Some(highest);
    highest
}

pub fn print(finding: &Finding, out: &mut impl Write) -> io::Result<()> {
    match finding {
        Finding::Ring(members) => {
            write!(out, "ring")?;
            for member in members {
                write!(out, " {member}")?;
            }
            writeln!(out)
        }
        Finding::Ranks(ranks) => {
            writeln!(out, "no ring")?;
            for (channel, rank) in ranks.iter().enumerate() {
                writeln!(out, "rank {channel} {rank}")?;
            }
            Ok(())
        }
    }
}
