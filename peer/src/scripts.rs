//! Scripts, light and saturating, with and without faults.

use crate::rng::Rng;
use crate::shapes::Size;

pub struct Writer {
    pub bytes: Vec<u8>,
    /// The next name of each door; none when the last one is used.
    next: Vec<Option<u32>>,
}

impl Writer {
    pub fn new(doors: usize) -> Writer {
        Writer {
            bytes: Vec::new(),
            next: vec![Some(0); doors],
        }
    }

    fn doors(&self) -> usize {
        self.next.len()
    }

    pub fn raw_block(&mut self, door: usize, place: usize, name: u32) {
        self.bytes.extend([2, door as u8, place as u8]);
        self.bytes.extend(name.to_be_bytes());
    }

    /// With the door's next name; nothing once the names are used up.
    pub fn block(&mut self, door: usize, place: usize) {
        if let Some(name) = self.next[door] {
            self.named_block(door, place, name);
        }
    }

    fn named_block(&mut self, door: usize, place: usize, name: u32) {
        self.raw_block(door, place, name);
        self.next[door] = name.checked_add(1);
    }

    /// From any door to any place, at times with a leap of names.
    fn any_block(&mut self, rng: &mut Rng) {
        let (door, place) = (rng.below(self.doors()), rng.below(self.doors()));
        match self.next[door] {
            Some(next) if rng.one_in(10) => {
                let leap = rng.pick(&[1, 255, 65_536, 1 << 24, u32::MAX]);
                self.named_block(door, place, next.saturating_add(leap));
            }
            _ => self.block(door, place),
        }
    }

    fn word(&mut self, link: usize) {
        self.bytes.push(3);
        self.bytes.extend((link as u16).to_be_bytes());
    }

    pub fn round(&mut self) {
        self.bytes.push(5);
    }

    fn rounds(&mut self, count: usize) {
        for _ in 0..count {
            self.round();
        }
    }

    fn show(&mut self) {
        self.bytes.push(6);
    }
}

/// A script for so many doors.
pub fn script(rng: &mut Rng, doors: usize, links: usize, size: Size) -> Vec<u8> {
    let mut w = Writer::new(doors.clamp(1, 64));
    match size {
        Size::Small => small_style(rng, &mut w),
        Size::Full => full_style(rng, &mut w),
    }
    if rng.one_in(3) {
        add_fault(rng, &mut w, links);
        light(rng, &mut w, 6);
    }
    w.bytes
}

fn small_style(rng: &mut Rng, w: &mut Writer) {
    match rng.below(8) {
        0 => idle(rng, w),
        1 | 2 => {
            let things = rng.between(1, 40);
            light(rng, w, things);
        }
        3 => {
            let hot = Some(rng.below(w.doors()));
            burst(rng, w, 22, hot);
        }
        4 => press(rng, w, 3, None),
        _ => burst(rng, w, 26, None),
    }
}

fn full_style(rng: &mut Rng, w: &mut Writer) {
    match rng.below(16) {
        0 => idle(rng, w),
        1..=4 => {
            let things = rng.between(1, 400);
            light(rng, w, things);
        }
        5..=7 => {
            let blocks = rng.between(1, 800);
            burst(rng, w, blocks, None);
        }
        8 | 9 => {
            let (blocks, hot) = (rng.between(1, 400), Some(rng.below(w.doors())));
            burst(rng, w, blocks, hot);
        }
        10 => fill(rng, w),
        11 => {
            let (rounds, hot) = (rng.between(1, 60), Some(rng.below(w.doors())));
            press(rng, w, rounds, hot);
        }
        12 => press(rng, w, 200, None),
        _ => {
            let rounds = rng.between(1, 60);
            press(rng, w, rounds, None);
        }
    }
}

/// Rounds and shows with no blocks, or nothing at all.
fn idle(rng: &mut Rng, w: &mut Writer) {
    for _ in 0..rng.below(5) {
        if rng.one_in(2) { w.round() } else { w.show() }
    }
}

fn light(rng: &mut Rng, w: &mut Writer, things: usize) {
    for _ in 0..things {
        match rng.below(12) {
            0 => w.show(),
            1..=6 => w.round(),
            _ => w.any_block(rng),
        }
    }
    if rng.one_in(2) {
        w.show();
    }
}

/// Many blocks at once, then rounds with shows between.
fn burst(rng: &mut Rng, w: &mut Writer, blocks: usize, hot: Option<usize>) {
    for _ in 0..blocks {
        let (door, place) = (rng.below(w.doors()), rng.below(w.doors()));
        w.block(door, hot.unwrap_or(place));
    }
    let rounds = rng.between(1, blocks + 8);
    for _ in 0..rounds {
        w.round();
        if rng.one_in(rounds / 3 + 1) {
            w.show();
        }
    }
    w.show();
}

/// New blocks at all doors in each round, then at times rounds to drain.
fn press(rng: &mut Rng, w: &mut Writer, rounds: usize, hot: Option<usize>) {
    let most = rng.between(1, 3);
    for _ in 0..rounds {
        for door in 0..w.doors() {
            for _ in 0..rng.between(0, most) {
                let place = rng.below(w.doors());
                w.block(door, hot.unwrap_or(place));
            }
        }
        w.round();
        if rng.one_in(rounds) {
            w.show();
        }
    }
    if rng.one_in(2) {
        w.rounds(3 * rounds);
    }
    w.show();
}

/// About as many blocks at one door as may wait there.
fn fill(rng: &mut Rng, w: &mut Writer) {
    let door = rng.below(w.doors());
    let same = rng.one_in(2).then(|| rng.below(w.doors()));
    let add = |rng: &mut Rng, w: &mut Writer, count: usize| {
        for _ in 0..count {
            let place = rng.below(w.doors());
            w.block(door, same.unwrap_or(place));
        }
    };
    let first = rng.pick(&[4090, 4095, 4096, 4096, 4096, 4097]);
    add(rng, w, first);
    if rng.one_in(2) {
        let (rounds, more) = (rng.between(1, 8), rng.between(1, 16));
        w.rounds(rounds);
        add(rng, w, more);
    }
    // A full door and a worse fault.
    match rng.below(6) {
        0 => w.raw_block(door, w.doors(), u32::MAX),
        1 => w.raw_block(door, 0, 0),
        _ => {}
    }
    w.round();
    w.show();
}

/// One thing that is refused, or at times a cut one at the end.
fn add_fault(rng: &mut Rng, w: &mut Writer, links: usize) {
    let doors = w.doors();
    let (door, place) = (rng.below(doors), rng.below(doors));
    let beyond = rng.pick(&[doors, doors + 1, 64, 255]).max(doors);
    match rng.below(13) {
        0 => w.raw_block(beyond, place, u32::MAX),
        1 => w.raw_block(door, beyond, u32::MAX),
        2 => w.raw_block(beyond, beyond, 0),
        3 | 4 => {
            let low = rng.pick(&[0, 1, w.next[door].unwrap_or(u32::MAX).saturating_sub(1)]);
            w.raw_block(door, place, low);
        }
        5 => w.raw_block(door, beyond, 0),
        6 | 7 => last_name(rng, w, door, place),
        8 => {
            let link = rng.pick(&[0, 1, links, links + 1, 320, 65_535]);
            w.word(link);
        }
        9 => {
            if links > 0 {
                w.word(rng.below(links));
            } else {
                w.word(0);
            }
        }
        10 | 11 => w.bytes.push(rng.pick(&[0, 1, 4, 7, 8, 53, 255])),
        _ => {
            let cut: &[u8] = rng.pick(&[
                &[2],
                &[2, 255],
                &[2, 0, 0, 0, 0, 0],
                &[3],
                &[3, 0],
                &[2, 0, 255, 9],
            ]);
            w.bytes.extend(cut);
        }
    }
}

/// The last name, with rounds after it, and then one more block.
fn last_name(rng: &mut Rng, w: &mut Writer, door: usize, place: usize) {
    w.raw_block(door, place, u32::MAX);
    w.next[door] = None;
    w.rounds(rng.below(3));
    if rng.one_in(3) {
        return;
    }
    let name = rng.pick(&[0, 1, u32::MAX - 1, u32::MAX]);
    w.raw_block(door, place, name);
}
