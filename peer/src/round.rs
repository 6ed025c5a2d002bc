//! What is stored and waits, and one round of it.

use crate::lay::Lay;
use crate::table::Entry;
use std::cmp::Reverse;
use std::collections::VecDeque;
use std::io::{self, Write};

pub const MOST_WAITING: usize = 4096;

#[derive(Debug, Clone, Copy, PartialEq)]
pub struct Block {
    pub door: usize,
    pub place: usize,
    pub name: u32,
}

pub struct Fabric<'a> {
    lay: &'a Lay,
    /// Of each channel, the oldest block first.
    queue: Vec<VecDeque<Block>>,
    /// Of each link.
    free: Vec<usize>,
    turn: Vec<usize>,
    /// Links as they are served.
    order: Vec<usize>,
    pub rounds: u64,
}

impl<'a> Fabric<'a> {
    pub fn new(lay: &'a Lay) -> Fabric<'a> {
        let links = lay.cables.links.len();
        let mut order: Vec<usize> = (0..links).collect();
        order.sort_by_key(|&link| (Reverse(lay.tree.rank[link]), link));
        Fabric {
            lay,
            queue: vec![VecDeque::new(); lay.cables.channels()],
            free: vec![lay.cables.m; links],
            turn: vec![0; links],
            order,
            rounds: 0,
        }
    }

    pub fn waiting(&self, switch: usize) -> usize {
        self.queue[self.lay.cables.door(switch)].len()
    }

    /// Puts a block behind what waits at its door.
    pub fn let_in(&mut self, block: Block) {
        self.queue[self.lay.cables.door(block.door)].push_back(block);
    }

    /// Plays a round and gives the blocks handed over, in order.
    pub fn play(&mut self) -> Vec<Block> {
        self.rounds += 1;
        let came = self.hand_over();
        for i in 0..self.order.len() {
            self.serve(self.order[i]);
        }
        came
    }

    /// What the table says for the first block of a channel.
    fn wish(&self, channel: usize) -> Option<Entry> {
        self.queue[channel]
            .front()
            .map(|block| self.lay.table[channel][block.place])
    }

    fn hand_over(&mut self) -> Vec<Block> {
        let mut came = Vec::new();
        for channel in 0..self.queue.len() {
            if self.wish(channel) == Some(Entry::Here) {
                came.push(self.leave(channel));
            }
        }
        came
    }

    /// Takes the first block out; a store then has a free place more.
    fn leave(&mut self, channel: usize) -> Block {
        if let Some(free) = self.free.get_mut(channel) {
            *free += 1;
        }
        self.queue[channel].pop_front().expect("a first block")
    }

    fn serve(&mut self, link: usize) {
        if self.free[link] == 0 {
            return;
        }
        if let Some(channel) = self.look_round(link) {
            let block = self.leave(channel);
            self.queue[link].push_back(block);
            self.free[link] -= 1;
            self.turn[link] = (channel + 1) % self.queue.len();
        }
    }

    /// The first channel, from the link's turn on, whose first block wants it.
    fn look_round(&self, link: usize) -> Option<usize> {
        let turn = self.turn[link];
        let mut round = (turn..self.queue.len()).chain(0..turn);
        round.find(|&channel| self.wish(channel) == Some(Entry::Link(link)))
    }

    pub fn show(&self, out: &mut impl Write) -> io::Result<()> {
        writeln!(out, "show {}", self.rounds)?;
        for link in 0..self.free.len() {
            write!(
                out,
                "store {link} free {} turn {} blocks",
                self.free[link], self.turn[link]
            )?;
            if self.queue[link].is_empty() {
                write!(out, " none")?;
            }
            for block in &self.queue[link] {
                write!(out, " {}:{}:{}", block.door, block.name, block.place)?;
            }
            writeln!(out)?;
        }
        for switch in 0..self.lay.cables.n {
            writeln!(out, "door {switch} waiting {}", self.waiting(switch))?;
        }
        Ok(())
    }
}
