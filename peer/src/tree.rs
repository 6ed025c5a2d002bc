//! Distances, the root, levels, which links go up, and ranks.

use crate::cables::{Cables, Link};
use std::collections::VecDeque;

#[derive(Debug, Clone)]
pub struct Tree {
    pub root: usize,
    /// Of each switch.
    pub level: Vec<usize>,
    /// Of each link.
    pub up: Vec<bool>,
    /// Of each link.
    pub rank: Vec<usize>,
}

/// Least numbers of cables from one switch to each; none where there is no way.
pub fn distances(cables: &Cables, start: usize) -> Vec<Option<usize>> {
    let mut found = vec![None; cables.n];
    let mut open = VecDeque::from([start]);
    found[start] = Some(0);
    while let Some(here) = open.pop_front() {
        for link in cables.links.iter().filter(|link| link.from == here) {
            if found[link.to].is_none() {
                found[link.to] = found[here].map(|d| d + 1);
                open.push_back(link.to);
            }
        }
    }
    found
}

/// The lowest switch that can't be reached from switch 0.
pub fn unreached(cables: &Cables) -> Option<usize> {
    distances(cables, 0).iter().position(|d| d.is_none())
}

/// For switches that are all joined.
pub fn grow(cables: &Cables) -> Tree {
    let root = find_root(cables);
    let level = joined_distances(cables, root);
    let up: Vec<bool> = cables
        .links
        .iter()
        .map(|link| is_above(&level, link.to, link.from))
        .collect();
    let rank = cables
        .links
        .iter()
        .zip(&up)
        .map(|(link, &up)| rank(cables.n, &level, link, up))
        .collect();
    Tree {
        root,
        level,
        up,
        rank,
    }
}

fn joined_distances(cables: &Cables, start: usize) -> Vec<usize> {
    distances(cables, start)
        .into_iter()
        .map(|d| d.expect("all switches are joined"))
        .collect()
}

fn find_root(cables: &Cables) -> usize {
    let greatest = |s: &usize| joined_distances(cables, *s).into_iter().max();
    // `min_by_key` keeps the first among equals.
    (0..cables.n)
        .min_by_key(greatest)
        .expect("at least one switch")
}

fn is_above(level: &[usize], a: usize, b: usize) -> bool {
    level[a] < level[b] || (level[a] == level[b] && a < b)
}

fn rank(n: usize, level: &[usize], link: &Link, up: bool) -> usize {
    let number = level[link.to] * n + link.to;
    if up {
        n * n + n - number
    } else {
        n * n + n + 1 + number
    }
}
