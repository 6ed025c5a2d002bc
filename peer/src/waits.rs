//! Feeders, patience and waits.

use crate::cables::Cables;
use crate::table::{Entry, Table, road};

pub const LIMIT: u64 = 1 << 40;

#[derive(Debug, Clone)]
pub struct Waits {
    /// Of each channel.
    pub patience: Vec<u64>,
    /// With nothing before, by door and place.
    pub wait: Vec<Vec<u64>>,
}

/// None if a patience or a wait is above the limit.
pub fn count(cables: &Cables, table: &Table) -> Option<Waits> {
    let feeders = feeders(cables, table);
    let mut known = vec![None; cables.channels()];
    for channel in 0..cables.channels() {
        patience(table, &feeders, &mut known, channel)?;
    }
    let patience: Vec<u64> = known
        .into_iter()
        .map(|p| p.expect("counted above"))
        .collect();
    let wait = all_waits(cables, table, &patience)?;
    Some(Waits { patience, wait })
}

/// How many channels hand blocks to each link.
fn feeders(cables: &Cables, table: &Table) -> Vec<u64> {
    let feeds = |row: &Vec<Entry>, link: usize| row.contains(&Entry::Link(link));
    let count = |link| table.iter().filter(|row| feeds(row, link)).count() as u64;
    (0..cables.links.len()).map(count).collect()
}

/// By recursion along the table, which rises in rank and so ends.
fn patience(
    table: &Table,
    feeders: &[u64],
    known: &mut [Option<u64>],
    channel: usize,
) -> Option<u64> {
    if known[channel].is_some() {
        return known[channel];
    }
    let mut largest = 1;
    for entry in &table[channel] {
        if let Entry::Link(link) = *entry {
            let onward = patience(table, feeders, known, link)?;
            largest = largest.max(bounded(feeders[link].checked_mul(onward)?)?);
        }
    }
    known[channel] = Some(largest);
    known[channel]
}

fn bounded(value: u64) -> Option<u64> {
    (value <= LIMIT).then_some(value)
}

fn all_waits(cables: &Cables, table: &Table, patience: &[u64]) -> Option<Vec<Vec<u64>>> {
    let from = |switch| {
        (0..cables.n)
            .map(|place| wait(cables, table, patience, switch, place))
            .collect()
    };
    (0..cables.n).map(from).collect()
}

fn wait(
    cables: &Cables,
    table: &Table,
    patience: &[u64],
    switch: usize,
    place: usize,
) -> Option<u64> {
    let mut sum = patience[cables.door(switch)];
    for link in road(cables, table, switch, place) {
        sum = bounded(sum.checked_add(patience[link].checked_mul(cables.m as u64)?)?)?;
    }
    Some(sum)
}
