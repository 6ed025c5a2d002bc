//! Legal roads and the table made of them.

use crate::cables::Cables;
use crate::tree::Tree;
use std::collections::VecDeque;

#[derive(Debug, Clone, Copy, PartialEq)]
pub enum Entry {
    Here,
    Link(usize),
}

/// By channel, then by place.
pub type Table = Vec<Vec<Entry>>;

/// Where a block stands: whether it may still go up, and its switch.
type Stand = (bool, usize);

/// Shortest legal lengths to each switch, by stand.
struct Lengths {
    n: usize,
    by_stand: Vec<Vec<Option<usize>>>,
}

impl Lengths {
    fn measure(cables: &Cables, tree: &Tree) -> Lengths {
        let stands = (0..2 * cables.n).map(|i| (i >= cables.n, i % cables.n));
        let by_stand = stands
            .map(|stand| lengths_from(cables, tree, stand))
            .collect();
        Lengths {
            n: cables.n,
            by_stand,
        }
    }

    fn get(&self, (may_up, switch): Stand, place: usize) -> Option<usize> {
        let row = if may_up { self.n + switch } else { switch };
        self.by_stand[row][place]
    }
}

/// The stand after going over a link, if that is legal.
fn step(cables: &Cables, tree: &Tree, (may_up, switch): Stand, link: usize) -> Option<Stand> {
    let legal = cables.links[link].from == switch && (may_up || !tree.up[link]);
    legal.then_some((tree.up[link], cables.links[link].to))
}

fn lengths_from(cables: &Cables, tree: &Tree, start: Stand) -> Vec<Option<usize>> {
    let mut shortest = vec![None; cables.n];
    let mut seen = vec![[false; 2]; cables.n];
    let mut open = VecDeque::from([(start, 0)]);
    seen[start.1][usize::from(start.0)] = true;
    while let Some((stand, length)) = open.pop_front() {
        shortest[stand.1].get_or_insert(length);
        for link in 0..cables.links.len() {
            let Some(next) = step(cables, tree, stand, link) else {
                continue;
            };
            let mark = &mut seen[next.1][usize::from(next.0)];
            if !*mark {
                *mark = true;
                open.push_back((next, length + 1));
            }
        }
    }
    shortest
}

pub fn make(cables: &Cables, tree: &Tree) -> Table {
    let whole = all_entries(cables, tree);
    keep_met(cables, &whole)
}

fn all_entries(cables: &Cables, tree: &Tree) -> Table {
    let lengths = Lengths::measure(cables, tree);
    let row = |channel: usize| {
        // A door or a link up leaves all open; after a link down only links down.
        let may_up = tree.up.get(channel).copied().unwrap_or(true);
        let stand = (may_up, cables.end(channel));
        (0..cables.n)
            .map(|place| entry(cables, tree, &lengths, stand, place))
            .collect()
    };
    (0..cables.channels()).map(row).collect()
}

/// Here too where no legal road leads on; such entries are never met.
fn entry(cables: &Cables, tree: &Tree, lengths: &Lengths, stand: Stand, place: usize) -> Entry {
    if stand.1 == place {
        return Entry::Here;
    }
    let Some(length) = lengths.get(stand, place) else {
        return Entry::Here;
    };
    let begins = |link: &usize| match step(cables, tree, stand, *link) {
        Some(next) => lengths.get(next, place) == Some(length - 1),
        None => false,
    };
    let first = (0..cables.links.len())
        .find(begins)
        .expect("a road has a first link");
    Entry::Link(first)
}

fn keep_met(cables: &Cables, whole: &Table) -> Table {
    let mut kept = vec![vec![Entry::Here; cables.n]; cables.channels()];
    for switch in 0..cables.n {
        for place in 0..cables.n {
            let mut channel = cables.door(switch);
            while let Entry::Link(link) = whole[channel][place] {
                kept[channel][place] = Entry::Link(link);
                channel = link;
            }
        }
    }
    kept
}

/// The links that a block from a door takes to a place.
pub fn road(cables: &Cables, table: &Table, switch: usize, place: usize) -> Vec<usize> {
    let mut links = Vec::new();
    let mut channel = cables.door(switch);
    while let Entry::Link(link) = table[channel][place] {
        links.push(link);
        channel = link;
    }
    links
}
